// The WebAssembly has each function of the header, the memory and where it ends, and imports nothing:
// node exports.mjs WASM HEADER
import fs from 'node:fs';
import { Library } from './proved.mjs';

const [file, header] = process.argv.slice(2);
const declared = [...fs.readFileSync(header, 'utf8').matchAll(/^[a-z].*\b(besklaun_[a-z_]+)\(/gm)].map(found => found[1]);
const { module } = new Library(file);
const expected = [...declared, '__heap_base', 'memory'].sort().join(' ');
const exported = WebAssembly.Module.exports(module).map(it => it.name).sort().join(' ');
const imported = WebAssembly.Module.imports(module);
if (declared.length < 10 || exported !== expected || imported.length > 0) {
    console.log(`exports ${exported}\nbut the header declares ${expected}\nimports ${JSON.stringify(imported)}`);
    process.exit(1);
}
console.log(`tests/page: ${declared.length} functions, no imports`);
