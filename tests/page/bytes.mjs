// Listings and traces by WebAssembly against those of native programs, byte for byte:
// node bytes.mjs WASM SCHEDULE TRACE MOIR MOIR-TRACE TEXT..
import fs from 'node:fs';
import { spawnSync } from 'node:child_process';
import { Library, MOST_TEXT } from './proved.mjs';

const [file, schedule, trace, moir, moirTrace, ...texts] = process.argv.slice(2);
const library = new Library(file);
const runs = [[schedule, 'besklaun_run_text'], [trace, 'besklaun_trace_text'], [moir, 'besklaun_moir_run_text'],
    [moirTrace, 'besklaun_moir_trace_text']];
let bytes = 0, refused = 0, wrong = 0;
for (const name of texts) {
    const text = fs.readFileSync(name).subarray(0, MOST_TEXT);
    for (const [program, run] of runs) {
        const native = spawnSync(program, [], { input: text, maxBuffer: 1 << 26 });
        const own = library.run(run, text);
        const [, number, entries] = /(?:refused (\d+)|end) (\d+)\n$/.exec(native.stdout.toString('latin1')) ?? [];
        bytes += own.bytes.length;
        refused += own.number > 0;
        if (!own.bytes.equals(native.stdout) || own.number !== Number(number ?? 0) || own.entries !== Number(entries)) {
            wrong++;
            console.log(`${name}: ${run} differs from ${program}`);
        }
    }
}
const some = texts.length > 100 && refused > 20 && bytes > 1e6;
console.log(`tests/page: ${texts.length} texts, ${4 * texts.length} runs, ${bytes} bytes, ${refused} refused; ${wrong} differ`);
if (!some) console.log('tests/page: too few texts, or too few that are refused');
process.exit(wrong === 0 && some ? 0 : 1);
