// The page driven in headless Chromium: node driven.mjs PAGE.html ROOT. It shows what stands in situations/, written by
// hand; tells refusals in the words of ./schedule; its steps agree with the trace; keys and clicks do what they say; it
// writes no error, and asks for nothing but itself.
import fs from 'node:fs';
import path from 'node:path';
import { spawnSync } from 'node:child_process';
import { Browser } from './browser.mjs';

const [page, root] = process.argv.slice(2);
const READY = 'document.body.dataset.ready === "1"';
const here = path.dirname(new URL(import.meta.url).pathname);
let checks = 0;

// What the page shows, as lines of text.
const SHOWN = `(() => {
    const text = it => (it?.textContent ?? '').replace(/\\s+/g, ' ').trim();
    const said = it => [...it.querySelectorAll('.links [aria-label]')].map(link => link.getAttribute('aria-label'));
    const touched = it => it.classList.contains('touched') ? ['touched'] : [];
    const lines = [text(document.querySelector('#sentence-first'))];
    for (const it of document.querySelectorAll('#state-first .cell')) {
        const note = text(it.querySelector('em'));
        const parts = [text(it.querySelector('b')), ...(note ? [note] : []), ...said(it), ...touched(it)];
        lines.push(text(it.querySelector('small')) + ': ' + parts.join('; '));
    }
    for (const it of document.querySelectorAll('#state-first .buffer')) {
        const words = [text(it.querySelector('b')), ...touched(it)].join('; ');
        lines.push(text(it.querySelector('small')) + ': ' + text(it.querySelector('span')) + ': ' + words);
    }
    for (const it of document.querySelectorAll('#processes-first tbody tr')) {
        const cell = name => text(it.querySelector('.c-' + name));
        const next = cell('next') ? [cell('next')] : [];
        const own = ['linked', 'mybuf', 'x', 'returned', 'offered'].map(name => name + ' ' + cell(name));
        lines.push('process ' + it.dataset.p + ': ' + [cell('call'), ...next, ...own].join('; '));
    }
    return lines.concat([...document.querySelectorAll('#history-first g.call title')].map(text));
})()`;

function fail(words) {
    throw new Error(words);
}

function expect(what, found, expected) {
    checks++;
    if (found !== expected) fail(`${what}:\n  found    ${found}\n  expected ${expected}`);
}

// a value of the page, as it comes within a moment
async function comes(browser, what, expression, expected) {
    const until = Date.now() + 5000;
    let found;
    do {
        found = await browser.value(expression);
    } while (found !== expected && Date.now() < until && await new Promise(done => setTimeout(() => done(true), 20)));
    expect(what, found, expected);
}

const at = 'document.querySelector("#at").value';
const of = 'document.querySelector("#of").textContent';
const textOf = selector => `(document.querySelector(${JSON.stringify(selector)})?.textContent ?? "").replace(/\\s+/g, " ").trim()`;

async function situations(browser) {
    for (const name of fs.readdirSync(`${here}/situations`).sort()) {
        const lines = fs.readFileSync(`${here}/situations/${name}`, 'utf8').split('\n').filter(line => line && !line.startsWith('#'));
        const expected = lines.splice(lines.indexOf('shows')).slice(1);
        for (const line of lines) {
            const [what, ...words] = line.split(' ');
            if (what === 'open') await browser.load(page, words[0], READY);
            else for (const key of words) await browser.key(key);
        }
        const shown = await browser.value(SHOWN);
        for (let k = 0; k < Math.max(shown.length, expected.length); k++) expect(`situation ${name}, line ${k + 1}`, shown[k], expected[k]);
    }
}

// every refused example: the words of ./trace, which are ./schedule's, but that a trace has more room; and where these
// name a place, a mark in the text
async function refusals(browser) {
    const examples = fs.readdirSync(`${root}/examples`).filter(name => /^refused-.*\.txt$/.test(name));
    if (examples.length < 5) fail('there are hardly refused examples');
    for (const name of examples) {
        const input = fs.readFileSync(`${root}/examples/${name}`);
        const told = spawnSync(`${root}/crates/trace/out/trace`, [], { input, maxBuffer: 1 << 26 });
        const words = told.stderr.toString().split('\n').find(line => line.startsWith('refused '));
        await browser.load(page, `#x=${name.replace('.txt', '')}`, READY);
        expect(name, (await browser.value(textOf('#refusal'))).replace(/^✕ /, ''), words);
        if (!/line \d+, column| at \d+:\d+/.test(words)) continue;
        expect(`${name}: marked`, await browser.value('document.querySelectorAll("#marks .bad").length > 0'), true);
    }
}

// each entry of an example, by the right arrow: the sentence has the item and what was done there, as the trace has it
async function steps(browser) {
    for (const name of ['first-steps', 'helped-reader', 'torn-line-9']) {
        const lines = fs.readFileSync(`${root}/examples/${name}.trace`, 'latin1').split('\n').filter(line => /^\d/.test(line));
        await browser.load(page, `#x=${name}`, READY);
        for (const line of lines) {
            await browser.key('ArrowRight');
            const [entry, p, second, ...words] = line.split(' answers ')[0].split(' ');
            expect(`${name}: entry`, await browser.value(at), entry);
            const sentence = await browser.value(textOf('#sentence-first'));
            const shows = second === 'start' ? `process ${p} starts` : `: ${words.join(' ')} line ${second} of Figure 2`;
            checks++;
            if (!sentence.startsWith(`Entry ${entry} process ${p} `) || !sentence.includes(shows)) fail(`${name}: '${sentence}' is not of '${line}'`);
        }
        await browser.key('Home');
        expect(`${name}: Home`, await browser.value(at), '0');
    }
}

async function keys(browser) {
    const start = async (hash = '#x=first-steps') => browser.load(page, hash, READY);
    const pressed = async (...names) => { for (const name of names) await browser.key(name); };
    await start();
    await pressed('End');
    expect('End', await browser.value(at), '31');
    await pressed('ArrowLeft');
    expect('one back', await browser.value(at), '30');
    await pressed('Home');
    for (const answer of ['11', '18', '29', '31']) {
        await pressed('n');
        expect('the next answer', await browser.value(at), answer);
    }
    await pressed('N');
    expect('the answer before', await browser.value(at), '29');
    await pressed('Home', 'x');
    expect('where a link is lost', await browser.value(at), '18');
    await pressed('Home', '1', 'c');
    expect("process 1's next access", await browser.value(at), '20');
    // a step, a start and a run at the end are appended; undo takes them back
    await start();
    await pressed('End', '1', 'v');
    expect('a VL is started', await browser.value(of), '32');
    await pressed('.');
    expect('and answered', await browser.value(textOf('#sentence-first')), 'Entry 33 process 1 asks whether the link of its last LL still holds: X VL true line 23 of Figure 2 Its VL answers true after 1 own step.');
    await pressed('u', 'u');
    await comes(browser, 'undone', of, '31');
    await pressed('r');
    await comes(browser, 'done again', of, '32');
}

async function clicks(browser) {
    await browser.load(page, '#x=first-steps', READY);
    await browser.click('#on');
    expect('a click on one on', await browser.value(at), '1');
    await browser.click('#last');
    expect('a click on the last', await browser.value(at), '31');
    await browser.click('#processes-first [data-do="ll"][data-p="1"]');
    expect('a click on LL', await browser.value(of), '32');
    await browser.click('#processes-first [data-do="run"][data-p="1"]');
    expect('a click on run', await browser.value(textOf('#sentence-first')).then(it => /Its LL answers 7 after 10 own steps\.$/.test(it)), true);
    await browser.click('#undo');
    await browser.click('#undo');
    await comes(browser, 'clicks on undo', of, '31');
    // a text that is typed
    await browser.value('document.querySelector("#text").focus(), document.querySelector("#text").select(), 1');
    await browser.type('1 1 7\n0l 0!');
    await comes(browser, 'a text that is typed', of, '11');
    await browser.type(' 0q');
    await comes(browser, 'a fault in it', `${textOf('#refusal')}.startsWith("✕ refused 10: line 2, column 8: ")`, true);
}

// the other bench, and both
async function benches(browser) {
    const lines = fs.readFileSync(`${root}/examples/moir/first-steps.trace`, 'latin1').split('\n').filter(line => /^\d/.test(line));
    await browser.load(page, '#b=moir&x=first-steps', READY);
    expect("Moir's entries", await browser.value(of), String(lines.length));
    for (const line of lines.slice(0, 20)) {
        await browser.key('ArrowRight');
        const [entry, p, second, ...words] = line.split(' answers ')[0].split(' ');
        const sentence = await browser.value(textOf('#sentence-moir'));
        checks++;
        if (!sentence.startsWith(`Entry ${entry} process ${p} `) || (second !== 'start' && !sentence.includes(`: ${words.join(' ')} line ${second} of Figure 6`))) fail(`Moir: '${sentence}' is not of '${line}'`);
    }
    await browser.load(page, '#b=both&x=first-steps', READY);
    await browser.key('End');
    const both = await browser.value(`[${textOf('#sentence-first')}, ${textOf('#sentence-moir')}]`);
    expect('both benches, Figure 2', / answers false after 1 own step\.$/.test(both[0]), true);
    expect("both benches, Moir's", / answers false after 1 own step\.$/.test(both[1]), true);
}

// a board's file is run, and a log is judged, with the reason at its call
async function files(browser) {
    await browser.load(page, '#x=first-steps', READY);
    await browser.choose('#file', `${root}/examples/boards/merged.board`);
    await comes(browser, 'it asks for N, W and K', 'document.querySelector("#board").open', true);
    for (const [field, number] of [['N', 2], ['W', 1], ['K', 5]]) await browser.value(`document.querySelector("#board${field}").value = "${number}"`);
    await browser.click('#boardYes');
    const listing = fs.readFileSync(`${root}/examples/boards/merged.listing`, 'latin1');
    const [, entries] = /\nend (\d+)\n$/.exec(listing);
    await comes(browser, "a board's file", of, entries);
    // by hand: an LL that answers 6 where the value is 5
    const log = `${root}/target/page/wrong.log`;
    fs.writeFileSync(log, '2 1\n5\n0 1 1024 11264 0 3072 6\n');
    await browser.choose('#file', log);
    const reason = "no: condition 5: line 3: process 0's LL answered 6; Figure 1's object answers 5, the value";
    await comes(browser, 'a log', `document.body.textContent.includes(${JSON.stringify(reason)})`, true);
}

// what must be in sight of a large and of a usual station
async function sizes(browser) {
    const bytes = encodeURIComponent('').concat('4_8_5~0l_9(0.)_1l_1!_1s7_1!_2l_5(2.)_0!');
    await browser.load(page, `#e=12&t=${bytes}`, READY);
    const bottom = await browser.value('document.querySelector("#processes-first").getBoundingClientRect().bottom + scrollY');
    expect(`a 4 x 8 station fits 1,360 x 768 (its processes end at ${bottom})`, bottom <= 768, true);
    expect('nothing is wider than the window', await browser.value('document.documentElement.scrollWidth <= innerWidth'), true);
}

const browser = await Browser.open();
let status = 0;
try {
    for (const part of [situations, refusals, steps, keys, clicks, benches, files, sizes]) await part(browser);
    const foreign = browser.requests.filter(url => !url.startsWith(`file://${page}`) && !/^(data|blob):/.test(url));
    expect('errors on the console', browser.errors.join('\n'), '');
    expect('requests', foreign.join('\n'), '');
    console.log(`tests/page: the page was driven in Chromium, ${checks} looks at it`);
} catch (error) {
    console.log(`tests/page: FAILED: ${error.message}`);
    if (browser.errors.length) console.log(browser.errors.join('\n'));
    await browser.shot(`${root}/target/page/failed.png`).catch(() => {});
    status = 1;
}
await browser.close();
process.exit(status);
