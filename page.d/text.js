'use strict';
// A schedule text as a list of items, and back. Only texts that the proved reader has taken are read here, and nothing is
// judged: it is to know which entry comes of which item, and to write a changed schedule down.

const MOST_ITEMS = 60001; // one more than a run carries out

// Orders of items: those of the library, and one more for `!`.
const [STEP, LL, SC, VL, RUN] = [0, 1, 2, 3, 4];
const LETTERS = ['.', 'l', 's', 'v', '!'];

const textBytes = (text) => new TextEncoder().encode(text);
const latin = (bytes) => Array.from(bytes, (byte) => String.fromCharCode(byte)).join('');

const itemText = (item) => `${item.p}${LETTERS[item.order]}${item.order === SC ? item.word : ''}`;

// The items in the order in which they come, groups carried out, each with its place in the text.
function itemsOf(bytes) {
  const text = latin(bytes);
  const first = text.indexOf('\n');
  const [n, w, word] = text.slice(0, first).split(' ').map(Number);
  const items = [];
  const tree = groupOf(text, { at: first + 1 });
  spread(tree, items);
  return { n, w, word, head: text.slice(0, first), items };
}

// One group's items and groups, up to its bracket or the text's end.
function groupOf(text, reader) {
  const parts = [];
  const next = /\s*(?:(\d+)\(|(\d+)([lv.!]|s(\d+))|(\)))/y;
  for (;;) {
    next.lastIndex = reader.at;
    const found = next.exec(text);
    if (!found) return parts;
    const from = reader.at + found[0].search(/\S/);
    reader.at = next.lastIndex;
    if (found[5]) return parts;
    if (found[1]) parts.push({ times: Number(found[1]), parts: groupOf(text, reader) });
    else parts.push(itemFound(found, from, reader.at));
  }
}

function itemFound(found, from, to) {
  const order = LETTERS.indexOf(found[3][0]);
  return { p: Number(found[2]), order, word: order === SC ? Number(found[4]) : 0, from, to };
}

function spread(parts, items) {
  for (const part of parts) {
    if (items.length >= MOST_ITEMS) return;
    if (!part.parts) items.push(part);
    else for (let k = 0; k < part.times && items.length < MOST_ITEMS; k++) spread(part.parts, items);
  }
}

// For each item the entry after which it begins, and at the end the last entry: `!` goes on to its answer. Null where
// items and trace do not belong together.
function spansOf(items, trace) {
  const begins = new Uint32Array(items.length + 1);
  let entry = 0;
  for (let i = 0; i < items.length; i++) {
    begins[i] = entry;
    if (entry >= trace.entries) continue;
    const { p, order } = items[i];
    do {
      entry++;
      if (trace.process[entry] !== p || trace.start[entry] !== (order === RUN ? STEP : order)) return null;
    } while (order === RUN && !trace.answers[entry] && entry < trace.entries);
  }
  begins[items.length] = entry;
  return entry === trace.entries ? begins : null;
}

// The item that an entry came of, by its index.
function itemAt(begins, entry) {
  let [low, high] = [0, begins.length - 1];
  while (high - low > 1) {
    const middle = (low + high) >> 1;
    if (begins[middle] < entry) low = middle;
    else high = middle;
  }
  return low;
}

// The items of the first entries: where a `!` is cut, its steps stand instead. `rest` is what comes after the cut.
function cutAt(items, begins, entry) {
  if (entry === 0) return { before: [], rest: items.slice() };
  const last = itemAt(begins, entry);
  const item = items[last];
  const whole = begins[last + 1] <= entry;
  const before = items.slice(0, whole ? last + 1 : last);
  const rest = items.slice(last + 1);
  if (whole) return { before, rest };
  for (let k = begins[last]; k < entry; k++) before.push({ p: item.p, order: STEP, word: 0 });
  return { before, rest: [item, ...rest] };
}

// ---- folding, as ./board writes a schedule: at each place the repetition that saves most bytes

const LONGEST_GROUP = 128;
const MOST_TIMES = 255;
const MOST_DEPTH = 8;

function foldedText(head, items) {
  const names = items.map(itemText);
  const numbers = new Map();
  const ids = Int32Array.from(names, (name) => {
    if (!numbers.has(name)) numbers.set(name, numbers.size);
    return numbers.get(name);
  });
  return `${head}\n${inLines(folded(names, ids, 0, ids.length, MOST_DEPTH))}\n`;
}

function folded(names, ids, from, to, depth) {
  const parts = [];
  for (let at = from; at < to; ) {
    const best = depth > 0 ? bestRepetition(names, ids, at, to) : null;
    if (best) {
      parts.push(`${best.times}(${folded(names, ids, at, at + best.length, depth - 1).join(' ')})`);
      at += best.length * best.times;
    } else {
      parts.push(names[at]);
      at++;
    }
  }
  return parts;
}

function bestRepetition(names, ids, at, to) {
  let [best, most, bytes] = [null, 0, 0];
  const longest = Math.min(LONGEST_GROUP, (to - at) >> 1);
  for (let length = 1; length <= longest; length++) {
    bytes += names[at + length - 1].length + 1;
    const times = repeated(ids, at, length, to);
    const saved = bytes * (times - 1) - 5;
    if (times > 1 && saved > most) [most, best] = [saved, { length, times }];
  }
  return best;
}

function repeated(ids, at, length, to) {
  let times = 1;
  for (let next = at + length; times < MOST_TIMES && next + length <= to; next += length, times++) {
    for (let k = 0; k < length; k++) if (ids[at + k] !== ids[next + k]) return times;
  }
  return times;
}

function inLines(parts) {
  let [text, column] = ['', 0];
  for (const part of parts) {
    if (column > 0 && column + part.length > 60) [text, column] = [`${text}\n`, 0];
    else if (column > 0) text += ' ';
    text += part;
    column += part.length + 1;
  }
  return text;
}

// A text with one item more at its end; a step that repeats the last one is counted.
function withItem(text, item) {
  const end = text.replace(/[ \n]*$/, '');
  const again = / (?:(\d+)\((\d+\.)\)|(\d+\.))$/.exec(end.replace(/\n/g, ' '));
  const name = itemText(item);
  if (again && (again[2] ?? again[3]) === name) {
    const times = Number(again[1] ?? 1) + 1;
    if (times <= MOST_TIMES) return `${end.slice(0, again.index + 1)}${times}(${name})\n`;
  }
  const column = end.length - end.lastIndexOf('\n');
  const gap = !end.includes('\n') || column > 60 ? '\n' : ' ';
  return `${end}${gap}${name}\n`;
}
