'use strict';
// The same for Moir's bench, Figure 6: its list of numbers by name, and the access that a process makes next.

class MoirState {
  constructor(list, n, w) {
    Object.assign(this, { list, n, w });
    const number = (place) => Number(list[place]);
    const pair = (place) => [number(place), number(place + 1)];
    this.header = pair(2);
    this.announced = Array.from({ length: n }, (_, p) => this.row(p));
    const words = this.row(n);
    this.segments = words.map((word, k) => ({ tag: number(4 + k), word }));
    this.processes = Array.from({ length: n }, (_, p) => this.process(p, number, pair));
  }

  process(p, number, pair) {
    const at = 68 + 17 * p;
    return {
      point: number(at), word: number(at + 1), steps: number(at + 2), marked: number(at + 3) !== 0, keep: number(at + 4),
      x: pair(at + 5), oldhdr: pair(at + 7), newhdr: pair(at + 9), h: pair(at + 11), y: pair(at + 13), z: pair(at + 15),
      returned: this.row(this.n + 1 + p), offered: this.row(2 * this.n + 1 + p),
    };
  }

  row(k) {
    const from = 340 + k * this.w;
    return Array.from(this.list.subarray(from, from + this.w), String);
  }

  kind(p) {
    return Words.kindOfSix(this.processes[p].point);
  }

  next(p) {
    const own = this.processes[p];
    if (own.point === 0) return null;
    const line = Words.lineOfSix(own.point);
    return { line, item: this.nextItem(p, own, line), does: Words.FIGURE_6[line] };
  }

  nextItem(p, own, line) {
    if (line === 17) return `A[${p}][${own.word}]`;
    if (line === 4) return `A[${(own.point > 20 ? own.newhdr : own.x)[1]}][${own.word}]`;
    return [2, 5, 6].includes(line) ? `data[${own.word}]` : 'hdr';
  }

  // An open call in the words of a message, or null.
  busy(p) {
    const own = this.processes[p];
    if (!own || own.point === 0) return null;
    const line = Words.lineOfSix(own.point);
    const word = line <= 7 || line === 17 ? `, word ${own.word} of ${this.w}` : '';
    return `${Words.KINDS[this.kind(p)]}, line ${line} of Figure 6${word} next, ${Words.steps(own.steps)} so far`;
  }
}
