'use strict';
// The states of a run: the list of numbers that the library steps (library/besklaun.h), with a copy every thousand
// entries, and the same numbers by name. Nothing of a state is worked out here but where in the list it stands.

const COPY_EVERY = 1000;

class States {
  constructor(bench, trace, n, w, word) {
    Object.assign(this, { bench, trace, n, w, word });
    this.copies = [];
    this.begin();
  }

  begin() {
    Library.setUp(this.bench, this.n, this.w, this.word);
    this.entry = 0;
    this.copies[0] = Library.held(this.bench, this.n, this.w);
  }

  // Holds the list after so many entries: from the nearest copy before it, or from where it stands.
  hold(entry) {
    const copy = Math.min(Math.floor(entry / COPY_EVERY), this.copies.length - 1);
    if (this.entry > entry || this.entry < copy * COPY_EVERY) {
      Library.hold(this.bench, this.copies[copy]);
      this.entry = copy * COPY_EVERY;
    }
    while (this.entry < entry) this.step();
  }

  step() {
    const entry = ++this.entry;
    const { bench, trace, n, w } = this;
    const order = trace.start[entry];
    const number = Library.stepped(bench, n, w, trace.process[entry], order, order === SC ? trace.offered(entry) : 0);
    if (number) throw new Error(`the run accepts entry ${entry}, a step does not: ${number}`);
    const copy = entry / COPY_EVERY;
    if (Number.isInteger(copy) && copy === this.copies.length) this.copies.push(Library.held(bench, n, w));
  }

  // The state after an entry, by name.
  after(entry) {
    this.hold(entry);
    const list = Library.held(this.bench, this.n, this.w);
    if (this.bench === 'moir') return new MoirState(list, this.n, this.w);
    return new FirstState(list, Library.places(this.n, this.w), this.n, this.w);
  }

  // Whether a command after this entry would be taken: the number of its refusal.
  refusal(entry, process, order) {
    this.hold(entry);
    return Library.tried(this.bench, this.n, this.w, process, order, 0);
  }
}

class FirstState {
  constructor(list, places, n, w) {
    Object.assign(this, { list, n, w });
    const number = (place) => Number(list[place]);
    this.x = { buffer: number(131), sequence: number(132), links: number(133) };
    this.bank = Array.from({ length: 2 * n }, (_, i) => ({ buffer: number(134 + 2 * i), links: number(135 + 2 * i) }));
    this.help = Array.from({ length: n }, (_, p) => {
      const at = 198 + 3 * p;
      return { asks: number(at) === 1, buffer: number(at + 1), links: number(at + 2) };
    });
    this.processes = Array.from({ length: n }, (_, p) => this.process(p, number));
    this.buffers = Array.from({ length: 3 * n }, (_, b) => ({ words: this.row(b), place: places ? places[b] : 3 * n }));
  }

  process(p, number) {
    const [call, own] = [3 + 8 * p, 246 + 4 * p];
    return {
      point: number(call), halves: number(call + 1), steps: number(call + 2),
      b: number(call + 4), c: number(call + 5), d: number(call + 6), e: number(call + 7),
      mybuf: number(own), xBuffer: number(own + 1), xSequence: number(own + 2), marked: number(own + 3) !== 0,
      returned: this.row(3 * this.n + p), offered: this.row(4 * this.n + p),
    };
  }

  row(k) {
    const from = 310 + k * this.w;
    return Array.from(this.list.subarray(from, from + this.w), String);
  }

  kind(p) {
    return Words.kindOf(this.processes[p].point);
  }

  // The access that a busy process makes next, as ./look tells it.
  next(p) {
    const own = this.processes[p];
    if (own.point === 0) return null;
    const item = this.nextItem(p, own);
    return { line: Words.lineOf(own.point), item, does: Words.FIGURE_2[own.point] };
  }

  nextItem(p, own) {
    const half = (buffer) => `BUF[${buffer}][${own.halves >> 1}] ${own.halves & 1 ? 'high' : 'low'}`;
    switch (own.point) {
      case 1: case 4: case 8: case 9: case 10: return `Help[${p}]`;
      case 3: case 6: return half(own.xBuffer);
      case 24: return half(own.b);
      case 11: case 17: return half(own.mybuf);
      case 12: case 13: return `Bank[${own.xSequence}]`;
      case 14: case 15: return `Help[${own.xSequence % this.n}]`;
      case 18: return `Bank[${(own.xSequence + 1) % (2 * this.n)}]`;
      default: return 'X';
    }
  }

  // Where a buffer is: CR 9's one place, as the library tells it.
  place(b) {
    const { place } = this.buffers[b];
    if (place === this.x.sequence) return { kind: 'x', words: 'X, the present value' };
    if (place < 2 * this.n) return { kind: 'bank', words: `kept at Bank[${place}]` };
    const p = place - 2 * this.n;
    return p < this.n ? { kind: 'owned', p, words: `owned by process ${p}` } : { kind: 'lost', words: 'at no place' };
  }

  // The items in which a process has its link.
  linked(p) {
    const has = (links) => (links >> p) & 1;
    const items = has(this.x.links) ? ['X'] : [];
    this.bank.forEach((bank, i) => has(bank.links) && items.push(`Bank[${i}]`));
    this.help.forEach((help, q) => has(help.links) && items.push(`Help[${q}]`));
    return items.join(' ') || '-';
  }

  // An open call in the words of a message, or null.
  busy(p) {
    const own = this.processes[p];
    if (!own || own.point === 0) return null;
    const moves = [3, 6, 11, 17, 24].includes(own.point);
    const word = `, word ${own.halves >> 1} of ${this.w}, ${own.halves & 1 ? 'high' : 'low'} half`;
    const kind = Words.KINDS[this.kind(p)];
    return `${kind}, line ${Words.lineOf(own.point)} of Figure 2${moves ? word : ''} next, ${Words.steps(own.steps)} so far`;
  }
}
