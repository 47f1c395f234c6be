'use strict';
// The schedule and how it is changed: each change makes a new document, so that undo and redo are a matter of turning
// back a leaf. A document has its text as bytes, and, where processes are halted, the items with those left out.

const MOST_UNDO = 200;
const MOST_TEXT = 16384;

class Leaves {
  constructor() {
    this.past = [];
    this.future = [];
    this.now = null;
  }

  // `row` is where the reader stood, for the way back.
  turn(leaf, row) {
    if (this.now) this.past.push({ ...this.now, row });
    if (this.past.length > MOST_UNDO) this.past.shift();
    this.future = [];
    this.now = leaf;
  }

  undo(row) {
    if (!this.past.length) return false;
    this.future.push({ ...this.now, row });
    this.now = this.past.pop();
    return true;
  }

  redo(row) {
    if (!this.future.length) return false;
    this.past.push({ ...this.now, row });
    this.now = this.future.pop();
    return true;
  }
}

// ---- halting: `halts` is { base, cuts, original }: all items, and for each halted process the index in `base` from which
// on its items are left out; the text as it was before

const keptOf = (halts) => halts.base.filter((item, i) => !(i >= (halts.cuts.get(item.p) ?? Infinity)));

// The number of kept items before an index of the base.
function keptBefore(halts, index) {
  let kept = 0;
  for (let i = 0; i < index; i++) if (!(i >= (halts.cuts.get(halts.base[i].p) ?? Infinity))) kept++;
  return kept;
}

// Halts process p after an entry of the leaf's run.
function halted(run, leaf, p, entry) {
  const { items } = run.parsed;
  const old = leaf.halts ?? { base: items, cuts: new Map(), original: leaf.bytes };
  const { before, rest } = cutAt(items, run.begins, entry);
  const split = before.length + rest.length - items.length; // steps that stand in place of a part of a `!`
  const at = baseIndex(old, before.length - split);
  const base = [...old.base.slice(0, at), ...before.slice(before.length - split), ...old.base.slice(at)];
  const cuts = new Map();
  for (const [q, cut] of old.cuts) cuts.set(q, cut > at ? cut + split : cut);
  cuts.set(p, at + split);
  return { base, cuts, original: old.original };
}

// Where in the base the kept item of this index stands.
function baseIndex(halts, index) {
  let kept = 0;
  for (let i = 0; i < halts.base.length; i++) {
    const left = i >= (halts.cuts.get(halts.base[i].p) ?? Infinity);
    if (!left && kept++ === index) return i;
  }
  return halts.base.length;
}

function unhalted(halts, p) {
  const cuts = new Map(halts.cuts);
  cuts.delete(p);
  return { ...halts, cuts };
}

// After which entry each halted process takes no more turns.
function haltEntries(run, halts) {
  const entries = new Map();
  if (!halts || !run.begins) return entries;
  for (const [p, cut] of halts.cuts) {
    entries.set(p, run.begins[Math.min(keptBefore(halts, cut), run.begins.length - 1)]);
  }
  return entries;
}

// ---- going on: an item more after an entry, what came after it left out

function goneOn(run, leaf, entry, item) {
  const { items, head } = run.parsed;
  const atEnd = entry === run.entries && !run.told.number;
  const before = atEnd ? items : cutAt(items, run.begins, entry).before;
  const plain = atEnd ? withItem(latin(leaf.bytes), item) : null;
  const text = plain && plain.length <= MOST_TEXT ? plain : foldedText(head, [...before, item]);
  const halts = leaf.halts && haltsAfter(run, leaf.halts, atEnd, before, item, entry);
  return { ...leaf, bytes: textBytes(text), halts, left: atEnd ? 0 : run.entries - entry };
}

// Who was halted stays so. In the midst of a schedule what was left out is gone with the rest.
function haltsAfter(run, halts, atEnd, before, item, entry) {
  if (atEnd) return { ...halts, base: [...halts.base, item], original: null };
  const cuts = new Map();
  for (const [p, after] of haltEntries(run, halts)) if (after <= entry) cuts.set(p, before.length);
  return cuts.size ? { base: [...before, item], cuts, original: null } : null;
}
