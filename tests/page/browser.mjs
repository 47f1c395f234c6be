// A page in headless Chromium, driven by keys and clicks over the browser's debugging pipe.
import { spawn } from 'node:child_process';
import fs from 'node:fs';
import os from 'node:os';
import path from 'node:path';

const PATIENCE = 60000; // milliseconds for the browser to answer

// What a key sends beside its name: its code, its number, and the character that it writes.
const NAMED = { ArrowRight: 39, ArrowLeft: 37, ArrowUp: 38, ArrowDown: 40, Home: 36, End: 35, PageUp: 33, PageDown: 34,
    Escape: 27, Tab: 9, Enter: 13, Backspace: 8, Delete: 46, F1: 112 };

export class Browser {
    // width and height of the window
    static async open(width = 1360, height = 768) {
        const browser = new Browser();
        browser.home = fs.mkdtempSync(path.join(os.tmpdir(), 'page-'));
        const words = ['--headless', '--no-sandbox', '--disable-gpu', '--hide-scrollbars', '--no-first-run',
            '--disable-dev-shm-usage', '--disable-background-networking', '--disable-component-update',
            '--remote-debugging-pipe', `--user-data-dir=${browser.home}`, 'about:blank'];
        browser.child = spawn(process.env.CHROMIUM || 'chromium', words,
            { stdio: ['ignore', 'ignore', 'ignore', 'pipe', 'pipe'] });
        browser.waiting = new Map();
        browser.errors = [];
        browser.requests = [];
        browser.sent = 0;
        browser.child.on('exit', () => browser.lost('the browser ended'));
        browser.child.on('error', error => browser.lost(error.message));
        browser.listen();
        const { targetId } = await browser.ask('Target.createTarget', { url: 'about:blank' });
        const { sessionId } = await browser.ask('Target.attachToTarget', { targetId, flatten: true });
        browser.session = sessionId;
        for (const part of ['Runtime', 'Page', 'Log', 'Network']) await browser.ask(`${part}.enable`);
        await browser.size(width, height);
        return browser;
    }

    lost(words) {
        for (const { reject } of this.waiting.values()) reject(new Error(words));
        this.waiting.clear();
    }

    listen() {
        let rest = Buffer.alloc(0);
        this.child.stdio[3].on('error', () => {});
        this.child.stdio[4].on('error', () => {});
        this.child.stdio[4].on('data', data => {
            rest = Buffer.concat([rest, data]);
            for (let end = rest.indexOf(0); end >= 0; end = rest.indexOf(0)) {
                this.hear(JSON.parse(rest.subarray(0, end).toString()));
                rest = rest.subarray(end + 1);
            }
        });
    }

    hear({ id, result, error, method, params }) {
        const waiting = this.waiting.get(id);
        if (waiting) {
            this.waiting.delete(id);
            if (error) waiting.reject(new Error(error.message));
            else waiting.resolve(result);
        } else if (method === 'Runtime.exceptionThrown') {
            const { exception, text } = params.exceptionDetails;
            this.errors.push(exception?.description ?? text);
        } else if (method === 'Runtime.consoleAPICalled' && ['error', 'warning', 'assert'].includes(params.type)) {
            this.errors.push(params.args.map(it => it.value ?? it.description).join(' '));
        } else if (method === 'Log.entryAdded' && params.entry.level === 'error') {
            this.errors.push(params.entry.text);
        } else if (method === 'Network.requestWillBeSent') {
            this.requests.push(params.request.url);
        }
    }

    ask(method, params = {}) {
        const id = ++this.sent;
        const asked = new Promise((resolve, reject) => {
            const timer = setTimeout(() => reject(new Error(`the browser does not answer ${method}`)), PATIENCE);
            const done = end => value => { clearTimeout(timer); end(value); };
            this.waiting.set(id, { resolve: done(resolve), reject: done(reject) });
        });
        this.child.stdio[3].write(`${JSON.stringify({ id, method, params, sessionId: this.session })}\0`);
        return asked;
    }

    size(width, height, scale = 1) {
        return this.ask('Emulation.setDeviceMetricsOverride', { width, height, deviceScaleFactor: scale, mobile: false });
    }

    // what an expression gives in the page; an error there is one here
    async value(expression) {
        const params = { expression, returnByValue: true, awaitPromise: true };
        const { result, exceptionDetails } = await this.ask('Runtime.evaluate', params);
        if (exceptionDetails) throw new Error(`${expression}: ${exceptionDetails.exception?.description}`);
        return result.value;
    }

    // the page of a file, once `ready`, an expression, holds there
    async load(file, hash, ready) {
        await this.ask('Page.navigate', { url: 'about:blank' });
        await this.ask('Page.navigate', { url: `file://${file}${hash}` });
        await this.until(ready);
    }

    async until(expression) {
        const before = Date.now();
        while (!await this.value(expression).catch(() => false)) {
            if (Date.now() - before > PATIENCE) throw new Error(`it never comes that ${expression}`);
            await new Promise(resolve => setTimeout(resolve, 20));
        }
    }

    // a key by its name, or a character; modifiers as the protocol has them (2 control, 8 shift)
    async key(key, modifiers = 0) {
        const number = NAMED[key] ?? key.toUpperCase().charCodeAt(0);
        const text = key.length === 1 ? key : key === 'Enter' ? '\r' : undefined;
        const code = key === ' ' ? 'Space' : /^[a-z]$/i.test(key) ? `Key${key.toUpperCase()}` : key;
        const said = { key, code, modifiers, windowsVirtualKeyCode: number, nativeVirtualKeyCode: number };
        await this.ask('Input.dispatchKeyEvent', { ...said, type: text ? 'keyDown' : 'rawKeyDown', text });
        await this.ask('Input.dispatchKeyEvent', { ...said, type: 'keyUp' });
    }

    // a click in the middle of the element, which must be seen there
    async click(selector) {
        const where = await this.value(`(() => {
            const it = document.querySelector(${JSON.stringify(selector)});
            if (!it) return null;
            it.scrollIntoView({ block: 'nearest' });
            const { x, y, width, height } = it.getBoundingClientRect();
            const [left, top] = [x + width / 2, y + height / 2];
            const there = document.elementFromPoint(left, top);
            return it === there || it.contains(there) ? [left, top] : null;
        })()`);
        if (!where) throw new Error(`there is no ${selector} to click on`);
        const said = { x: where[0], y: where[1], button: 'left', clickCount: 1 };
        for (const type of ['mousePressed', 'mouseReleased']) await this.ask('Input.dispatchMouseEvent', { ...said, type });
    }

    type(text) {
        return this.ask('Input.insertText', { text });
    }

    // a file, as if it were chosen in a file field
    async choose(selector, file) {
        const { root } = await this.ask('DOM.getDocument');
        const { nodeId } = await this.ask('DOM.querySelector', { nodeId: root.nodeId, selector });
        await this.ask('DOM.setFileInputFiles', { nodeId, files: [file] });
    }

    async shot(file) {
        const { data } = await this.ask('Page.captureScreenshot', { format: 'png' });
        fs.writeFileSync(file, Buffer.from(data, 'base64'));
    }

    async close() {
        const ended = new Promise(resolve => this.child.once('exit', resolve));
        await this.ask('Browser.close').catch(() => this.child.kill());
        await Promise.race([ended, new Promise(resolve => setTimeout(resolve, 5000))]);
        fs.rmSync(this.home, { recursive: true, force: true, maxRetries: 5 });
    }
}
