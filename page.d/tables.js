'use strict';
// What a state shows of itself. What the step has changed has a diamond before it, and the item that it touched a frame:
// neither rests on colour. The words are ./look's.

const Tables = (() => {
  // A value, marked where it was another before the step.
  function value(now, before) {
    if (before === undefined || before === null || String(now) === String(before)) return esc(now);
    return `<span class="new" title="was ${esc(before)}"><span role="img" aria-label="changed:">◆</span>${esc(now)}</span>`;
  }

  // Links by their processes: those set by this step have a plus, those that it cleared are struck out.
  function links(now, before, n) {
    let out = '';
    for (let p = 0; p < n; p++) {
      const [has, had] = [(now >> p) & 1, before === undefined ? (now >> p) & 1 : (before >> p) & 1];
      if (!has && !had) continue;
      const said = has ? (had ? 'linked' : 'linked now') : 'link lost';
      const sign = has ? (had ? '' : '+') : '−';
      out += `<span class="chip${has ? '' : ' lost'}" style="--hue:${hue(p)}" title="process ${p}: ${said}" `
        + `role="img" aria-label="${said}: process ${p}">${sign}${p}</span>`;
    }
    return out;
  }

  function cell(name, what, { touched, note, linked, wide, kind = '' }) {
    const classes = `cell ${kind}${touched ? ' touched' : ''}${wide ? ' wide' : ''}`;
    const said = touched ? ' aria-label="touched by this step"' : '';
    return `<div class="${classes}"${said}><small>${name}</small><b>${what}</b>`
      + `${note ? `<em>${note}</em>` : ''}<span class="links">${linked ?? ''}</span></div>`;
  }

  // ---- Figure 2

  function first(root, state, before, item) {
    const dense = state.n > 4 ? ' dense' : '';
    framed(root, `<h2>X, Bank and Help <small>with the processes that are linked</small></h2>`
      + `<div class="cells shared${dense}"></div><div class="cells bank${dense}" style="--columns:${2 * state.n}"></div>`
      + `<h2>Buffers <small>each at its one place</small></h2><div class="buffers"></div>`);
    const [, shared, bank, , buffers] = root.children;
    patch(shared, [xCell(state, before, item), ...helpCells(state, before, item)]);
    patch(bank, bankCells(state, before, item));
    patch(buffers, state.buffers.map((_, b) => buffer(state, before, b, item)));
  }

  function xCell(state, before, item) {
    const [x, was] = [state.x, before?.x];
    const what = `buffer ${value(x.buffer, was?.buffer)}, sequence number ${value(x.sequence, was?.sequence)}`;
    return cell('X', what, { touched: item === 'X', linked: links(x.links, was?.links, state.n), wide: true });
  }

  function bankCells(state, before, item) {
    return state.bank.map((bank, i) => {
      const was = before?.bank[i];
      const name = `Bank[${i}]`;
      const linked = links(bank.links, was?.links, state.n);
      return cell(name, `buffer ${value(bank.buffer, was?.buffer)}`, { touched: item === name, linked });
    });
  }

  function helpCells(state, before, item) {
    return state.help.map((help, p) => {
      const was = before?.help[p];
      const name = `Help[${p}]`;
      const asks = help.asks ? 'asks for help' : '';
      const note = was && was.asks !== help.asks ? `<span class="new">◆${asks || 'asks no more'}</span>` : asks;
      const linked = links(help.links, was?.links, state.n);
      return cell(name, `buffer ${value(help.buffer, was?.buffer)}`, { touched: item === name, note, linked, kind: 'help' });
    });
  }

  function buffer(state, before, b, item) {
    const { words } = state.buffers[b];
    const place = state.place(b);
    const touched = item === `BUF[${b}]` ? ' touched' : '';
    const colour = place.kind === 'owned' ? ` style="--hue:${hue(place.p)}"` : '';
    const was = before && value(place.words, before.place(b).words);
    return `<div class="buffer ${place.kind}${touched}"${colour} title="${esc(words.join(' '))}">`
      + `<small>BUF[${b}]</small><span>${was ?? esc(place.words)}</span>`
      + `<b>${value(Words.row(words), before && Words.row(before.buffers[b].words))}</b></div>`;
  }

  // ---- Figure 6

  function moir(root, state, before, item) {
    const pair = (now, was) => `tag ${value(now[0], was?.[0])}, process ${value(now[1], was?.[1])}`;
    const header = cell('hdr', pair(state.header, before?.header), { touched: item === 'hdr', wide: true });
    const rows = state.announced.map((words, p) => {
      const was = before && Words.row(before.announced[p]);
      const touched = item?.startsWith(`A[${p}]`);
      return cell(`A[${p}]`, value(Words.row(words), was), { touched, wide: state.w > 2 });
    });
    const dense = state.n > 4 || state.w > 8 ? ' dense' : '';
    framed(root, `<h2>Header and segments</h2><div class="cells${dense}"></div>`
      + `<h2>A <small>what each process announces</small></h2><div class="cells${dense}"></div>`);
    patch(root.children[1], [header, ...segments(state, before, item)]);
    patch(root.children[3], rows);
  }

  // Neighbouring segments that hold the same, and are not touched, are told together.
  function segments(state, before, item) {
    const all = state.segments.map((segment, k) => {
      const was = before?.segments[k];
      const what = `tag ${value(segment.tag, was?.tag)}: ${value(segment.word, was?.word)}`;
      return { k, what, touched: item === `data[${k}]` };
    });
    const cells = [];
    for (let from = 0, to; from < all.length; from = to) {
      const { what, touched } = all[from];
      for (to = from + 1; !touched && to < all.length && all[to].what === what && !all[to].touched; to++);
      cells.push(cell(to - from === 1 ? `data[${from}]` : `data[${from} to ${to - 1}]`, what, { touched }));
    }
    return cells;
  }

  // Where there is no state: how a schedule is written (docs/NOTATION.md).
  const NOTATION = `<h2>How a schedule is written</h2><table class="notation">
    <tr><th scope="row"><code>2 1 5</code></th><td>the first line: N processes (1 to 16), W words (1 to 64), and the number in each word</td></tr>
    <tr><th scope="row"><code>0l</code></th><td>process 0 starts an LL: it reads the record and links to it</td></tr>
    <tr><th scope="row"><code>0s7</code></th><td>it starts an SC of 7: writes 7 to all words if its link still holds</td></tr>
    <tr><th scope="row"><code>0v</code></th><td>it starts a VL: asks whether its link still holds</td></tr>
    <tr><th scope="row"><code>0.</code></th><td>it makes one step of its open call: one access to memory</td></tr>
    <tr><th scope="row"><code>0!</code></th><td>it makes steps until its call answers</td></tr>
    <tr><th scope="row"><code>3(0. 1.)</code></th><td>a group, carried out three times; groups nest up to eight deep</td></tr></table>`;

  return { first, moir, value, NOTATION };
})();
