// node measured.mjs TRACE (NAME FILE)..: FILE.txt traced by the program, FILE.html shown and stepped through in Chromium.
import fs from 'node:fs';
import { spawnSync } from 'node:child_process';
import { Browser } from './browser.mjs';

const ROUNDS = 5, STEPS = 60;
const [trace, ...given] = process.argv.slice(2);

// Notes when the page was first painted after it said that it is ready.
const WATCH = `addEventListener('DOMContentLoaded', () => {
    const look = () => {
        if (document.body.dataset.ready !== '1' || window.shownAt) return;
        window.shownAt = -1;
        requestAnimationFrame(() => setTimeout(() => { window.shownAt = performance.now(); }));
    };
    new MutationObserver(look).observe(document.body, { attributes: true });
    look();
})`;

// milliseconds from a key to the next picture, so many times
const STEPPED = (key, times) => `(async () => {
    const took = [];
    for (let k = 0; k < ${times}; k++) {
        await new Promise(done => setTimeout(done, 5));
        const from = performance.now();
        document.body.dispatchEvent(new KeyboardEvent('keydown', { key: '${key}', bubbles: true, cancelable: true }));
        const worked = performance.now();
        await new Promise(done => requestAnimationFrame(() => setTimeout(done)));
        took.push([performance.now() - from, worked - from]);
    }
    return took;
})()`;

const AT = entry => `(() => {
    const slider = document.querySelector('#slider');
    const from = performance.now();
    slider.value = ${entry};
    slider.dispatchEvent(new Event('input', { bubbles: true }));
    document.body.offsetHeight;
    return performance.now() - from;
})()`;

function native(file) {
    const input = fs.readFileSync(file);
    const took = Array.from({ length: 10 }, () => {
        const from = performance.now();
        spawnSync(trace, [], { input, maxBuffer: 1 << 26 });
        return performance.now() - from;
    });
    return Math.min(...took);
}

const least = list => Math.min(...list);
const most = list => Math.max(...list);
const middle = list => [...list].sort((a, b) => a - b)[list.length >> 1];
const ms = number => number.toFixed(1);

// milliseconds that the processor spent on the page's thread: what others do on the machine is not in it
async function worked(browser) {
    const { metrics } = await browser.ask('Performance.getMetrics');
    return 1000 * metrics.find(it => it.name === 'TaskDuration').value;
}

// the row of a text
async function row(browser, name, file) {
    const [shown, loads] = [[], []];
    for (let round = 0; round < ROUNDS; round++) {
        await browser.ask('Page.navigate', { url: 'about:blank' });
        const before = await worked(browser);
        await browser.load(`${file}.html`, '', 'window.shownAt > 0');
        shown.push(await browser.value('window.shownAt'));
        loads.push(await worked(browser) - before);
    }
    const entries = Number(await browser.value('document.querySelector("#slider").max'));
    const [steps, each] = [[], []];
    for (const [from, key] of [[0, 'ArrowRight'], [entries >> 1, 'ArrowRight'], [entries >> 1, 'ArrowLeft'], [entries, 'ArrowLeft']]) {
        await browser.value(AT(from));
        const before = await worked(browser);
        steps.push(...await browser.value(STEPPED(key, STEPS)));
        each.push((await worked(browser) - before) / STEPS);
    }
    const jumps = [];
    for (let jump = 1; jump <= 40; jump++) jumps.push(await browser.value(AT(Math.floor(entries * (jump * 0.618 % 1)))));
    const painted = steps.map(it => it[0]);
    console.log(`| ${name} | ${entries} | ${ms(native(`${file}.txt`))} | ${ms(least(shown))}, ${ms(most(shown))} | ${ms(least(loads))} `
        + `| ${ms(middle(painted))}, ${ms(most(painted))} | ${ms(most(each))} | ${ms(middle(jumps))}, ${ms(most(jumps))} |`);
}

const browser = await Browser.open();
let status = 0;
try {
    await browser.ask('Page.addScriptToEvaluateOnNewDocument', { source: WATCH });
    await browser.ask('Performance.enable', { timeDomain: 'threadTicks' });
    console.log('| Text | Entries | Native trace | Shown: least of five, most | Its processor time | A step to the next picture: middle, most | Its processor time, most of four means | A jump: middle, most |');
    console.log('|---|---|---|---|---|---|---|---|');
    for (let k = 0; k < given.length; k += 2) await row(browser, given[k], given[k + 1]);
} catch (error) {
    browser.errors.push(error.message);
}
if (browser.errors.length) {
    console.log(browser.errors.join('\n'));
    status = 1;
}
await browser.close();
process.exit(status);
