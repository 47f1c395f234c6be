'use strict';
// A text on one of the two benches: its trace, its calls, what the judge says of them, and its states; and the order in
// which two runs of one text are shown beside each other.

class Run {
  // `first` is the first bench's run of the same text, which reports its stop also for Moir's.
  constructor(bench, bytes, first) {
    this.bench = bench;
    this.told = Library.traced(bench, bytes);
    this.trace = new Trace(this.told);
    this.entries = this.told.entries;
    const stop = first ? first.told.stop : this.told.stop;
    this.begun = stop.kind === 3 || (stop.kind === 2 && ![1, 2].includes(this.told.number));
    this.parsed = first ? first.parsed : this.begun ? itemsOf(bytes) : null;
    this.begins = this.begun ? spansOf(this.parsed.items, this.trace) : null;
    if (this.begun) this.readStates();
    this.refusal = this.told.number ? this.refused(bytes, stop) : null;
  }

  readStates() {
    const { n, w, word } = this.parsed;
    Object.assign(this, { n, w, word });
    this.states = new States(this.bench, this.trace, n, w, word);
    this.calls = new Calls(this.bench, this.trace, n);
    this.verdict = Verdict.ofRun(this);
  }

  refused(bytes, stop) {
    const told = this.bench === 'moir' ? { ...this.told, stop: this.begun ? this.stopAtItem(stop) : stop } : this.told;
    const refusal = Refusal.told(told, bytes, (p) => this.states.after(this.entries).busy(p));
    const words = told.words?.split('\n').find((line) => line.startsWith('refused '));
    return { ...refusal, words: words ?? refusal.words };
  }

  // Where Moir's run stopped: at the item of the entry that comes next.
  stopAtItem(stop) {
    const { items } = this.parsed;
    const last = this.entries ? itemAt(this.begins, this.entries) : -1;
    const within = last >= 0 && items[last].order === RUN && !this.trace.answers[this.entries];
    const item = items[within ? last : last + 1];
    return { ...stop, kind: 3, place: item.from, process: Math.min(item.p, 16) };
  }

  // The item of an entry, or null.
  item(entry) {
    return this.begins && entry > 0 ? this.parsed.items[itemAt(this.begins, entry)] : null;
  }

  // The entries at which X loses links, with the links that are lost there; Moir's header likewise loses those of its tag.
  get losses() {
    if (!this.lost) this.lost = this.bench === 'moir' ? this.headerLosses() : this.linkLosses();
    return this.lost;
  }

  linkLosses() {
    const lost = [];
    for (let entry = 1; entry <= this.entries; entry++) {
      if (this.trace.figureLine[entry] !== 19 || !this.trace.line(entry).includes(' true links')) continue;
      this.states.hold(entry - 1);
      lost.push({ entry, links: Library.links() });
    }
    return lost;
  }

  headerLosses() {
    const lost = [];
    for (let entry = 1; entry <= this.entries; entry++) {
      if (this.trace.figureLine[entry] === 19 && this.trace.line(entry).endsWith(' true')) lost.push({ entry, links: -1 });
    }
    return lost;
  }
}

// Rows in which two runs of one text stand beside each other: an item has as many rows as the longer of its two courses.
// `of[k]` is the entry of each run after row k; a run that has ended its course waits.
function sideBySide(first, second) {
  const of = [[0, 0]];
  const rows = [[], []];
  const count = first.begins && second.begins ? first.parsed.items.length : 0;
  for (let item = 0; item < count; item++) {
    const from = [first.begins[item], second.begins[item]];
    const to = [first.begins[item + 1], second.begins[item + 1]];
    for (let k = 1; k <= Math.max(to[0] - from[0], to[1] - from[1]); k++) {
      const entries = [Math.min(from[0] + k, to[0]), Math.min(from[1] + k, to[1])];
      of.push(entries);
      for (const side of [0, 1]) if (from[side] + k <= to[side]) rows[side][entries[side]] = of.length - 1;
    }
  }
  return { of, rows };
}
