'use strict';
// A row for each process: its call, the access that comes next, what it has for itself, and what it can be told to do.

const Processes = (() => {
  const { value } = Tables;

  const COLUMNS = {
    first: [
      ['mybuf', 'the buffer that it owns to write in', (own) => own.mybuf],
      ['x', 'its copy of X: buffer and sequence number', (own) => `${own.xBuffer} · ${own.xSequence}`],
      ['b', 'a buffer that it came across', (own) => own.b],
      ['c', 'a buffer that it came across', (own) => own.c],
      ['d', 'a buffer that it came across', (own) => own.d],
      ['e', 'a buffer that it came across', (own) => own.e],
      ['returned', 'the words of its last LL', (own) => Words.row(own.returned)],
      ['offered', 'the words of its last SC', (own) => Words.row(own.offered)],
    ],
    moir: [
      ['tag', 'the tag that it keeps as its link', (own) => own.keep],
      ['x', 'the header that its WLL read: tag and process', (own) => own.x.join(' · ')],
      ['old', 'oldhdr: tag and process', (own) => own.oldhdr.join(' · ')],
      ['new', 'newhdr: tag and process', (own) => own.newhdr.join(' · ')],
      ['h', 'the header read last: tag and process', (own) => own.h.join(' · ')],
      ['y', 'the segment read: tag and word', (own) => own.y.join(' · ')],
      ['z', 'the word to be put there: tag and word', (own) => own.z.join(' · ')],
      ['returned', 'the words of its last WLL', (own) => Words.row(own.returned)],
      ['offered', 'the words of its last SC', (own) => Words.row(own.offered)],
    ],
  };

  function doing(bench, state, p) {
    const own = state.processes[p];
    if (own.point) return `${Words.kind(bench, state.kind(p))}, ${Words.steps(own.steps)} so far`;
    return own.marked ? 'idle' : `idle, and no ${Words.kind(bench, LL)} of it was answered yet`;
  }

  // The row's process is the step's, the chosen one, or halted; `can` tells what would be accepted.
  function row(bench, state, before, p, { now, chosen, halted, can }) {
    const next = state.next(p);
    const was = before?.processes[p];
    const own = state.processes[p];
    const classes = `${now ? 'now' : ''}${chosen ? ' chosen' : ''}${halted ? ' halted' : ''}`;
    const cells = COLUMNS[bench].map(([name, , of]) => {
      const shown = value(of(own), was && of(was));
      return `<td class="own ${name.length > 5 ? 'words' : 'num'} c-${name}" data-label="${name}" title="${esc(of(own))}">${shown}</td>`;
    });
    const said = next ? `<b>line ${next.line}</b>, <code>${next.item}</code>: ${esc(next.does)}` : '';
    const full = next ? `line ${next.line}, ${next.item}: ${next.does}` : '';
    const linked = bench === 'first' ? `<td class="own c-linked" data-label="linked">${esc(state.linked(p))}</td>` : '';
    return `<tr class="${classes}" data-p="${p}"><th scope="row">${head(p, now, chosen)}</th>`
      + `<td class="c-call">${halted ? 'halted: ' : ''}${esc(doing(bench, state, p))}</td>`
      + `<td class="c-next" title="${esc(full)}">${said}</td>${linked}${cells.join('')}`
      + `<td class="c-do">${actions(bench, p, state, halted, can)}</td></tr>`;
  }

  function head(p, now, chosen) {
    const said = chosen ? 'chosen; take the choice back' : 'choose this process';
    return `<button class="who" data-do="choose" data-p="${p}" aria-pressed="${chosen}" title="${said}" `
      + `aria-label="process ${p}"><span class="here" aria-hidden="true">${now ? '▸' : ''}</span>${chip(p)}</button>`;
  }

  // Only what would not be refused can be pressed.
  function actions(bench, p, state, halted, can) {
    const button = (what, label, said) => `<button data-do="${what}" data-p="${p}" title="${said} (process ${p})" `
      + `aria-label="${said}, process ${p}"${what !== 'halt' && (halted || !can(what)) ? ' disabled' : ''}>${label}</button>`;
    const busy = state.processes[p].point !== 0;
    const orders = busy
      ? button('step', 'step', 'one step') + button('run', 'run', 'run its call to its end')
      : button('ll', Words.kind(bench, LL), `start ${bench === 'moir' ? 'a WLL' : 'an LL'}`) + button('sc', 'SC', 'start an SC') + button('vl', 'VL', 'start a VL');
    const halt = halted ? button('halt', 'unhalt', 'let it take turns again') : button('halt', 'halt', 'halt it here');
    return `<span>${orders}</span>${halt}`;
  }

  function show(root, bench, state, before, of) {
    const heads = COLUMNS[bench].map(([name, said]) => `<th scope="col" class="own c-${name}" title="${said}">${name}</th>`);
    const linked = bench === 'first' ? '<th scope="col" class="own c-linked" title="where its links hold">linked</th>' : '';
    framed(root, `<table class="processes ${bench}"><thead><tr><th scope="col" aria-label="process"></th><th scope="col" class="c-call">call</th>`
      + `<th scope="col" class="c-next">next</th>${linked}${heads.join('')}<th scope="col" class="c-do">go on from here</th></tr></thead>`
      + `<tbody></tbody></table>`);
    patch(root.firstChild.tBodies[0], state.processes.map((_, p) => row(bench, state, before, p, of(p))));
  }

  return { show };
})();
