'use strict';
// The trace as a list of which only the lines in sight are made. In both benches' view it has a line for each row, and an
// empty one where its bench waits for the other.

const LINE_HEIGHT = 20;

class TraceList {
  constructor(root, onPick) {
    this.root = root;
    root.innerHTML = '<div class="room"></div>';
    this.room = root.firstChild;
    root.addEventListener('scroll', () => this.draw());
    root.addEventListener('click', (event) => {
      const line = event.target.closest('[data-row]');
      if (line) onPick(Number(line.dataset.row));
    });
  }

  // `entryOf(row)` tells the entry of a row, 0 where there is none.
  show(run, rows, entryOf) {
    Object.assign(this, { run, rows, entryOf });
    this.room.style.height = `${(rows + 1) * LINE_HEIGHT}px`;
    this.root.setAttribute('aria-label', `trace of ${Words.count(run.entries)} entries`);
  }

  move(row) {
    this.at = row;
    const [top, tall, y] = [this.root.scrollTop, this.root.clientHeight, (row - 1) * LINE_HEIGHT];
    if (y < top + LINE_HEIGHT || y > top + tall - 3 * LINE_HEIGHT) this.root.scrollTop = y - tall / 2;
    this.draw();
  }

  draw() {
    if (!this.run) return;
    const first = Math.max(0, Math.floor(this.root.scrollTop / LINE_HEIGHT) - 3);
    const last = Math.min(this.rows, first + Math.ceil(this.root.clientHeight / LINE_HEIGHT) + 6);
    const lines = [];
    for (let row = first + 1; row <= last; row++) lines.push(this.line(row));
    if (last === this.rows) lines.push(this.ending());
    patch(this.room, lines);
    const now = this.room.querySelector('.now');
    if (now) this.root.setAttribute('aria-activedescendant', now.id);
    else this.root.removeAttribute('aria-activedescendant');
  }

  line(row) {
    const entry = this.entryOf(row);
    const now = row === this.at;
    const place = `style="top:${(row - 1) * LINE_HEIGHT}px" data-row="${row}" role="option" aria-selected="${now}" `
      + `aria-setsize="${this.rows}" aria-posinset="${row}" id="${this.root.id}-${row}"`;
    if (!entry) return `<div class="line wait${now ? ' now' : ''}" ${place}>·</div>`;
    const [, p, ...rest] = this.run.trace.line(entry).split(' ');
    const words = rest.join(' ');
    const cut = words.indexOf(' answers ');
    const said = cut < 0 ? esc(words) : `${esc(words.slice(0, cut))}<b> ${esc(words.slice(cut + 1))}</b>`;
    const start = this.run.trace.start[entry] ? ' start' : '';
    return `<div class="line${now ? ' now' : ''}${start}" ${place} title="${esc(words)}">`
      + `<i>${entry}</i> ${chip(p)} <span>${said}</span></div>`;
  }

  ending() {
    const bad = this.run.told.number ? ' bad' : '';
    return `<div class="line ending${bad}" style="top:${this.rows * LINE_HEIGHT}px">${esc(this.run.trace.ending)}</div>`;
  }
}
