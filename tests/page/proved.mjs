// The library as WebAssembly, called from node. To JavaScript a pointer is a number, a count a BigInt; a struct of more
// than one number is returned through a first pointer, laid out as library/besklaun.h has it on x86-64.
import fs from 'node:fs';

export const MOST_TEXT = 16385; // a text is no longer; one byte more shows that it is too long
const LISTING = 65536, TRACE = 3145728; // as the programs have

export class Library {
    constructor(file) {
        this.module = new WebAssembly.Module(fs.readFileSync(file));
        this.exports = new WebAssembly.Instance(this.module, {}).exports;
    }

    // room for each of so many bytes, behind what the library has for itself
    lend(sizes) {
        const { memory, __heap_base } = this.exports;
        let end = Number(__heap_base.value);
        const places = sizes.map(size => {
            const place = (end + 15) & ~15;
            end = place + size;
            return place;
        });
        const lacking = end - memory.buffer.byteLength;
        if (lacking > 0) memory.grow(Math.ceil(lacking / 65536));
        return places;
    }

    bytes(place, count) {
        return new Uint8Array(this.exports.memory.buffer, place, count);
    }

    numbers(place, count) {
        return new BigUint64Array(this.exports.memory.buffer, place, count);
    }

    // a text run: what it returns, and the bytes that it wrote
    run(name, text) {
        const room = name.includes('trace') ? TRACE : LISTING;
        const [told, from, to] = this.lend([24, text.length, room]);
        this.bytes(from, text.length).set(text);
        this.exports[name](told, from, BigInt(text.length), to, BigInt(room));
        const view = new DataView(this.exports.memory.buffer, told, 24);
        const written = Number(view.getBigUint64(16, true));
        const entries = Number(view.getBigUint64(8, true));
        return { number: view.getUint8(0), entries, bytes: Buffer.from(this.bytes(to, written)) };
    }
}

// Where numbers stand in the list of a station of one record (docs/LIBRARY.md).
export const call = p => 3 + 8 * p;
export const X = 131;
export const bank = i => 134 + 2 * i;
export const help = p => 198 + 3 * p;
export const WORDS = 310;

// A station that is held: set up by the first line of a text, and stepped.
export class Station {
    constructor(library, n, w, initial) {
        Object.assign(this, { library, n, w, count: WORDS + 5 * n * w });
        [this.told, this.value, this.held, this.kept] =
            library.lend([40, 8 * w, 8 * this.count, 8 * 3 * n]);
        library.numbers(this.value, w).fill(BigInt(initial));
        const number = library.exports.besklaun_held_set_up(this.held, BigInt(this.count), BigInt(n), BigInt(w), 1n,
            this.value, BigInt(w));
        if (number !== 0) throw new Error(`a set-up is refused: ${number}`);
    }

    // order: 0 a step, 1 an LL, 2 an SC of this number in each word, 3 a VL
    step(process, order, number) {
        const { library, w } = this;
        library.numbers(this.value, w).fill(BigInt(number));
        library.exports.besklaun_held_step(this.told, this.held, BigInt(this.count), BigInt(process), order, 0n,
            this.value, BigInt(w));
        const view = new DataView(library.exports.memory.buffer, this.told, 40);
        return { number: view.getUint8(0), kind: view.getUint8(1), truth: view.getUint8(2) === 1,
            count: Number(view.getBigUint64(8, true)) };
    }

    list() {
        return this.library.numbers(this.held, this.count);
    }

    // where each buffer is
    places() {
        const number = this.library.exports.besklaun_held_places(this.held, BigInt(this.count), 0n, this.kept,
            BigInt(3 * this.n));
        if (number !== 0) throw new Error(`the places are refused: ${number}`);
        return [...this.library.numbers(this.kept, 3 * this.n)].map(Number);
    }
}
