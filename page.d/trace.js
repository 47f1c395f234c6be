'use strict';
// A trace (docs/TRACE.md), read once byte by byte: where each line lies, its process, and whether it starts or answers a
// call. Its other words are read when they are shown, so that 60,000 lines cost little.

class Trace {
  // `run` is what Library.traced told.
  constructor(run) {
    this.bytes = run.bytes;
    this.entries = run.entries;
    this.from = new Uint32Array(run.entries + 2);
    this.process = new Uint8Array(run.entries + 1);
    this.start = new Uint8Array(run.entries + 1); // 0 a step, 1 an LL, 2 an SC, 3 a VL
    this.figureLine = new Uint8Array(run.entries + 1);
    this.answers = new Uint8Array(run.entries + 1);
    let place = 0;
    for (let entry = 1; entry <= run.entries; entry++) place = this.scan(entry, place);
    this.from[run.entries + 1] = place;
  }

  // Reads the line of an entry, and tells where the next one begins.
  scan(entry, begin) {
    const bytes = this.bytes;
    this.from[entry] = begin;
    let i = bytes.indexOf(32, begin) + 1;
    let number = 0;
    for (; bytes[i] !== 32; i++) number = 10 * number + bytes[i] - 48;
    this.process[entry] = number;
    i++;
    if (bytes[i] === 115) {
      this.start[entry] = { 76: 1, 83: 2, 86: 3 }[bytes[i + 6]];
      return bytes.indexOf(10, i) + 1;
    }
    for (number = 0; bytes[i] !== 32; i++) number = 10 * number + bytes[i] - 48;
    this.figureLine[entry] = number;
    // " an" begins " answers", and no other word of a line
    for (; bytes[i] !== 10; i++) {
      if (bytes[i] === 97 && bytes[i + 1] === 110 && bytes[i - 1] === 32) {
        this.answers[entry] = 1;
        return bytes.indexOf(10, i) + 1;
      }
    }
    return i + 1;
  }

  line(entry) {
    const line = this.bytes.subarray(this.from[entry], this.from[entry + 1] - 1);
    return String.fromCharCode.apply(null, line);
  }

  // The number behind `start S`.
  offered(entry) {
    return Number(this.line(entry).split(' ')[4]);
  }

  // Item, act and answer of a step.
  step(entry) {
    const line = this.line(entry);
    const cut = line.indexOf(' answers ');
    const words = (cut < 0 ? line : line.slice(0, cut)).split(' ').slice(3);
    const half = words[1] === 'low' || words[1] === 'high';
    return {
      item: half ? `${words[0]} ${words[1]}` : words[0],
      act: words.slice(half ? 2 : 1).join(' '),
      answer: cut < 0 ? null : readAnswer(line.slice(cut + 9)),
    };
  }

  // The last line of the output: `end E` or `refused C E`.
  get ending() {
    const rest = this.bytes.subarray(this.from[this.entries + 1]);
    return new TextDecoder().decode(rest).trim();
  }
}

// A listing's line: process, letter, own steps, and the words, the truth, or the process that is named.
function readAnswer(text) {
  const words = text.split(' ');
  return { letter: words[1], steps: Number(words[2]), words: words.slice(3) };
}
