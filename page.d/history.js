'use strict';
// The history as bars: a lane for each process, a bar for each call with its answer, and a mark at the moment at which it
// takes effect. Only what is in sight is drawn, so that 60,000 entries cost no more than sixty.

const LEAST_SCALE = 0.02; // pixels for a place
const MOST_SCALE = 60;
const PAD = 14;

class HistoryPane {
  // `onPick` is told the place that was clicked.
  constructor(root, onPick) {
    this.root = root;
    root.innerHTML = '<div class="lanes" aria-hidden="true"></div><div class="track" tabindex="-1"><div class="room"></div></div>';
    [this.lanes, this.track] = root.children;
    this.room = this.track.firstChild;
    this.scale = 18;
    this.track.addEventListener('scroll', () => this.draw());
    this.track.addEventListener('click', (event) => onPick(this.placeAt(event)));
    this.track.addEventListener('wheel', (event) => this.wheel(event), { passive: false });
  }

  // `model`: lanes, length, calls, name (of a place), said (the whole in words).
  show(model, fresh) {
    this.model = model;
    this.lane = model.lanes > 8 ? 16 : model.lanes > 4 ? 18 : 24;
    this.height = model.lanes * this.lane + 20;
    const name = (p) => `<div style="height:${this.lane}px;--hue:${hue(p)}">process ${p}</div>`;
    this.lanes.innerHTML = Array.from({ length: model.lanes }, (_, p) => name(p)).join('');
    this.root.style.height = `${this.height + 2}px`;
    if (fresh) this.fit();
    this.size();
  }

  // A short history is shown whole, a long one so that its bars can be read.
  fit() {
    this.scale = clamp(this.wholeScale(), 6, this.model.tick ? 56 : 32);
  }

  wholeScale() {
    return (this.track.clientWidth - 2 * PAD) / Math.max(1, this.model.length);
  }

  size() {
    this.room.style.width = `${Math.ceil(this.x(this.model.length)) + PAD}px`;
    this.room.style.height = `${this.height}px`;
  }

  x(place) {
    return PAD + place * this.scale;
  }

  placeAt(event) {
    const x = event.clientX - this.track.getBoundingClientRect().left + this.track.scrollLeft;
    return clamp(Math.round((x - PAD) / this.scale), 0, this.model.length);
  }

  wheel(event) {
    if (!event.ctrlKey) return;
    event.preventDefault();
    this.zoom(event.deltaY < 0 ? 1.25 : 0.8, this.placeAt(event));
  }

  // Around a place that stays where it is; 0 shows the whole.
  zoom(factor, place = this.at) {
    const before = this.x(place) - this.track.scrollLeft;
    const scale = factor ? this.scale * factor : this.wholeScale();
    this.scale = clamp(scale, LEAST_SCALE, MOST_SCALE);
    this.size();
    this.track.scrollLeft = this.x(place) - before;
    this.draw();
  }

  // Moves the cursor, and what is in sight with it.
  move(place, name, halted) {
    Object.assign(this, { at: place, cursorName: name, halted });
    const [x, left, wide] = [this.x(place), this.track.scrollLeft, this.track.clientWidth];
    if (x < left + 40 || x > left + wide - 60) this.track.scrollLeft = x - wide / 2;
    this.draw();
  }

  draw() {
    if (!this.model) return;
    const left = this.track.scrollLeft;
    const wide = this.track.clientWidth;
    this.room.innerHTML = this.svg(left, wide, false);
  }

  // The picture between two pixels of the whole; `alone` makes it a file of its own.
  svg(left, wide, alone) {
    const shift = alone ? 84 : 0;
    const parts = [this.grid(left, wide), this.bars(left, wide), this.halts(), this.cursor()];
    const names = alone ? this.laneNames() : '';
    const size = `width="${wide + shift}" height="${this.height}"`;
    const attributes = alone ? 'xmlns="http://www.w3.org/2000/svg" font-family="sans-serif" font-size="11"' : '';
    return `<svg ${attributes} class="${this.lane < 18 ? 'low' : ''}" ${size} role="img" aria-label="${esc(this.model.said)}">${PATTERNS}`
      + `<g transform="translate(${shift - left} 0)">${parts.join('')}</g>${names}</svg>`;
  }

  laneNames() {
    const name = (p) => `<text x="6" y="${p * this.lane + this.lane * 0.68}" class="name">process ${p}</text>`;
    return Array.from({ length: this.model.lanes }, (_, p) => name(p)).join('');
  }

  grid(left, wide) {
    const { lanes, length } = this.model;
    const end = this.x(length);
    let out = '';
    for (let p = 0; p < lanes; p++) {
      const y = p * this.lane + this.lane / 2;
      out += `<line x1="${PAD}" x2="${end}" y1="${y}" y2="${y}" class="lane"/>`;
    }
    const every = niceStep((this.model.tick ? 90 : 64) / this.scale);
    const first = Math.max(0, Math.floor((left - PAD) / this.scale / every) * every);
    for (let k = first; k <= length && this.x(k) < left + wide; k += every) {
      if (Math.abs(this.x(k) - this.x(this.at ?? 0)) < 28) continue; // the cursor's own number stands there
      out += `<text x="${this.x(k)}" y="${this.height - 5}" class="tick" text-anchor="middle">${this.model.tick ? this.model.tick(k) : k}</text>`;
    }
    return out;
  }

  bars(left, wide) {
    const [from, to] = [(left - PAD) / this.scale - 1, (left + wide - PAD) / this.scale + 1];
    const drawn = new Array(this.model.lanes).fill(-1); // the last pixel that a lane has a bar on
    let out = '';
    for (const call of this.near(from, to)) {
      const end = call.to || this.model.length + 0.5;
      if (end < from || call.from > to) continue;
      const pixel = Math.floor(this.x(end));
      if (pixel === drawn[call.p]) continue;
      drawn[call.p] = pixel;
      out += this.bar(call, end, left, wide);
    }
    return out;
  }

  // The calls that can be in sight: where they stand in the order of their starts, those that start no further before than the
  // longest answered call lasts, and the open ones.
  near(from, to) {
    const { calls, longest } = this.model;
    if (longest === undefined) return calls;
    const first = startingAt(calls, from - longest);
    const open = calls.slice(0, first).filter((call) => !call.to);
    return [...open, ...calls.slice(first, startingAt(calls, to + 1))];
  }

  bar(call, end, left, wide) {
    const [x, width] = [this.x(call.from - 0.35), Math.max(1.5, (end - call.from + 0.7) * this.scale)];
    const [y, tall] = [call.p * this.lane + 2, this.lane - (this.lane < 18 ? 4 : 6)];
    const kind = ['', 'll', 'sc', 'vl'][call.kind] ?? 'other';
    const classes = `${kind}${call.to ? '' : ' open'}${call.failed ? ' failed' : ''}${call.fault ? ' fault' : ''}`;
    const round = call.kind === LL ? 3 : call.kind === VL ? 8 : 0;
    const box = `x="${x}" y="${y}" width="${width}" height="${tall}" rx="${round}"`;
    const over = call.failed ? `<rect ${box} fill="url(#failed)" stroke="none"/>` : '';
    // a label stays in sight as long as its bar does
    const text = this.label(call, Math.max(x, left) + 5, Math.min(x + width, left + wide), y + tall * 0.78);
    return `<g class="call ${classes}" style="--hue:${hue(call.p)}"><title>${esc(call.title)}</title>`
      + `<rect ${box}/>${over}${text}${this.mark(call, y, tall)}</g>`;
  }

  // The longest label that has room: at the bar's beginning, or beside the mark, where that would stand in it.
  label(call, start, end, y) {
    const mark = call.moment ? this.x(call.moment) : -1;
    for (const label of [call.label, call.short]) {
      const wide = label.length * 6.2;
      const crossed = mark > start - 5 && mark < start + wide + 3;
      const at = crossed ? mark + 5 : start;
      if (at + wide < end) return `<text x="${at}" y="${y}">${esc(label)}</text>`;
    }
    return '';
  }

  mark(call, y, tall) {
    if (!call.moment) return '';
    const [x, foot] = [this.x(call.moment), y + tall + (this.lane < 18 ? 2 : 3.5)];
    const size = this.lane < 18 ? 3 : 4;
    return `<line x1="${x}" x2="${x}" y1="${y}" y2="${foot - 5}" class="stem"/>`
      + `<path class="moment" d="M${x - size} ${foot}l${size} ${-2 * size}l${size} ${2 * size}z"/>`;
  }

  // From where on a process takes no more turns.
  halts() {
    const end = this.x(this.model.length);
    return [...(this.halted ?? [])].map(([p, place]) => {
      const [x, y] = [this.x(place) + 1, p * this.lane + 1];
      return `<g class="halted"><rect x="${x}" y="${y}" width="${Math.max(0, end - x)}" height="${this.lane - 2}"/>`
        + `<text x="${x + 6}" y="${y + this.lane * 0.62}">halted</text></g>`;
    }).join('');
  }

  cursor() {
    const x = this.x(this.at ?? 0);
    const wide = String(this.cursorName ?? '').length * 7 + 8;
    return `<g class="cursor"><line x1="${x}" x2="${x}" y1="0" y2="${this.height - 17}"/>`
      + `<rect x="${x - wide / 2}" y="${this.height - 17}" width="${wide}" height="16" rx="3"/>`
      + `<text x="${x}" y="${this.height - 5}" text-anchor="middle">${esc(this.cursorName ?? '')}</text></g>`;
  }

  // The whole history as a file: as wide as its bars need, up to what a viewer takes.
  picture() {
    const kept = this.scale;
    this.scale = Math.min(kept, (16000 - 2 * PAD) / Math.max(1, this.model.length));
    const picture = this.svg(0, Math.ceil(this.x(this.model.length)) + 3 * PAD, true);
    this.scale = kept;
    return picture.replace(/(<svg [^>]*>)/, `$1<style>${PICTURE_STYLE}</style><rect width="100%" height="100%" fill="#fff"/>`);
  }
}

const PATTERNS = '<defs><pattern id="failed" width="6" height="6" patternUnits="userSpaceOnUse" patternTransform="rotate(45)">'
  + '<rect width="2" height="6" class="hatch"/></pattern></defs>';

const HUES = ['#1c62a8', '#b4480f', '#22763f', '#7a3fa6', '#a02a44', '#00707a', '#6b5d00', '#55585e'];

const PICTURE_STYLE = `:root{${HUES.map((c, p) => `--p${p}:${c}`).join(';')}}`
  + '.halted rect{fill:url(#failed);opacity:.6}.lane{stroke:#ccc}.call rect{fill:#fff;stroke:var(--hue)}.call.sc>rect:first-of-type{fill:#eee;stroke-width:2}'
  + '.open rect{stroke-dasharray:4 3}.hatch{fill:#bbb}.moment{fill:#111}.stem{stroke:#111}.tick{fill:#555}'
  + '.cursor line{stroke:#111;stroke-width:2}.cursor rect{fill:#111}.cursor text{fill:#fff}text{fill:#111}';

// The index of the first call that starts at a place or behind it.
function startingAt(calls, place) {
  let [low, high] = [0, calls.length];
  while (low < high) {
    const middle = (low + high) >> 1;
    if (calls[middle].from < place) low = middle + 1;
    else high = middle;
  }
  return low;
}

function niceStep(least) {
  const power = 10 ** Math.floor(Math.log10(Math.max(1, least)));
  for (const times of [1, 2, 5, 10]) if (times * power >= least) return times * power;
  return 10 * power;
}

// What a history shows of a run. `rowOf` tells the place of an entry, `failed` is marked apart.
function historyOfRun(run, length, rowOf) {
  const calls = run.calls.all.map((call) => {
    const kind = Words.kind(run.bench, call.kind);
    const name = `${kind}${call.kind === SC ? ` ${call.value}` : ''}`;
    const answer = call.told ? Words.answer(call.told) : 'open';
    const steps = call.told ? `, ${Words.steps(call.told.steps)}` : '';
    return {
      p: call.p, kind: call.kind, from: rowOf(call.from), to: call.to && rowOf(call.to), moment: call.moment && rowOf(call.moment),
      failed: call.told && answer === 'false',
      label: `${name} → ${answer}`, short: kind,
      title: `process ${call.p}: ${name}, entries ${call.from} to ${call.to || '…'}${steps}: ${answer}`
        + (call.moment ? `; takes effect at entry ${call.moment}` : ''),
    };
  });
  Verdict.atFault(run.verdict.reply ?? { yes: true }).forEach((index) => {
    const call = run.verdict.rows[index];
    if (call) calls[run.calls.all.indexOf(call)].fault = true;
  });
  const said = `history of ${run.n} processes: ${run.calls.answered.length} answered calls in ${run.entries} entries`;
  const longest = calls.reduce((most, call) => Math.max(most, call.to ? call.to - call.from : 0), 0);
  return { lanes: run.n, length, calls, longest, said };
}
