// The states of a station that is held, by WebAssembly, against the lines of the trace of the native program: what a line
// says was read, written or linked stands there, its process is idle just where it answered, a call's answer and count
// are those of the line, and each buffer has one place. node states.mjs WASM TRACE TEXT..
import fs from 'node:fs';
import { spawnSync } from 'node:child_process';
import { Library, MOST_TEXT, Station, X, bank, call, help, WORDS } from './proved.mjs';

const MOST = 1500; // lines of a text that are looked at
const [file, trace, ...texts] = process.argv.slice(2);
const library = new Library(file);
const KINDS = { L: 1, S: 2, V: 3 };

// the item of a line: where its numbers stand, how many, and where its links
function item(word) {
    const [, name, index] = /^(X|Bank|Help)(?:\[(\d+)\])?$/.exec(word) ?? [];
    if (name === 'X') return { at: X, count: 2, links: X + 2 };
    if (name === 'Bank') return { at: bank(Number(index)), count: 1, links: bank(Number(index)) + 1 };
    return name === 'Help' ? { at: help(Number(index)), count: 2, links: help(Number(index)) + 2 } : null;
}

// BUF[b][i] low or high
function halfAgrees(list, w, [word, half, , number]) {
    const [, b, i] = /^BUF\[(\d+)\]\[(\d+)\]$/.exec(word) ?? [];
    if (b === undefined) return false;
    const held = list[WORDS + Number(b) * w + Number(i)];
    return (half === 'low' ? held & 0xffffffffn : held >> 32n) === BigInt(number);
}

// an access to X, Bank or Help by process p, after it
function placeAgrees(list, p, words) {
    const it = item(words[0]);
    if (!it) return false;
    const [links, linked] = [list[it.links], (list[it.links] >> BigInt(p) & 1n) === 1n];
    const shows = from => words.slice(from, from + it.count).every((word, k) => list[it.at + k] === BigInt(word));
    switch (words[1]) {
        case 'LL': return shows(2) && linked;
        case 'read': return shows(2);
        case 'write': return shows(2) && links === 0n;
        case 'VL': return linked === (words[2] === 'true');
        case 'SC': return words[2 + it.count] === 'true' ? shows(2) && links === 0n : !linked;
        default: return false;
    }
}

// the line's command, carried out; the words of a trace's line are entry, process, line of Figure 2, item and so on
function agrees(station, line) {
    const [access, answer] = line.split(' answers ');
    const [, process, second, ...words] = access.split(' ');
    const [p, starts] = [Number(process), second === 'start'];
    const told = station.step(p, starts ? KINDS[words[0]] : 0, starts && words[0] === 'S' ? words[1] : 0);
    const list = station.list();
    if (told.number !== 0 || (told.kind !== 0) !== (answer !== undefined)) return false;
    if ((list[call(p)] === 0n) !== (answer !== undefined)) return false;
    if (answer !== undefined) {
        const [, letter, count, ...shown] = answer.split(' ');
        if (KINDS[letter] !== told.kind || Number(count) !== told.count) return false;
        if (letter !== 'L' && told.truth !== (shown[0] === '1')) return false;
    }
    if (starts) return true;
    return words[0].startsWith('BUF') ? halfAgrees(list, station.w, words) : placeAgrees(list, p, words);
}

function eachHasOnePlace(station) {
    const places = station.places();
    return new Set(places).size === 3 * station.n && places.every(place => place < 3 * station.n);
}

let states = 0, wrong = 0;
for (const name of texts) {
    const text = fs.readFileSync(name).subarray(0, MOST_TEXT);
    const lines = spawnSync(trace, [], { input: text, maxBuffer: 1 << 26 }).stdout.toString('latin1').split('\n');
    const entries = lines.filter(line => /^\d/.test(line)).slice(0, MOST);
    if (entries.length === 0) continue;
    const [n, w, initial] = text.toString('latin1').split('\n')[0].split(' ').map(Number);
    const station = new Station(library, n, w, initial);
    for (const line of entries) {
        states++;
        if (agrees(station, line) && eachHasOnePlace(station)) continue;
        wrong++;
        console.log(`${name}: another state after: ${line}`);
        break;
    }
}
console.log(`tests/page: ${states} states, ${wrong} texts with one that is not its line's`);
process.exit(wrong === 0 && states > 10000 ? 0 : 1);
