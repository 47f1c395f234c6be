'use strict';
// A key for everything; the panel that lists them is made of this table. Letters are keys only outside of fields, and can
// be switched off for who speaks to the machine.

const Keys = (() => {
  const start = (what) => () => Actions.go(App.target(), what, what === 'sc' ? null : 0);

  // Groups of: keys, what they do, and how.
  const GROUPS = [
    ['Steps', [
      [['ArrowRight'], 'one entry on', () => App.show(App.row + 1)],
      [['ArrowLeft'], 'one entry back', () => App.show(App.row - 1)],
      [['PageDown'], 'twenty on', () => App.show(App.row + 20)],
      [['PageUp'], 'twenty back', () => App.show(App.row - 20)],
      [['Home'], 'to the set-up', () => App.show(0)],
      [['End'], 'to the last entry', () => App.show(App.rows())],
    ]],
    ['Jumps (with Shift backwards)', [
      [['n', 'N'], 'the next answer', (way) => Actions.jump('answer', way)],
      [['c', 'C'], 'the process’s next access', (way) => Actions.jump('access', way)],
      [['x', 'X'], 'where a link is lost', (way) => Actions.jump('loss', way)],
    ]],
    ['Which process', [
      [['ArrowDown'], 'choose the next process', () => App.chooseNext(1)],
      [['ArrowUp'], 'choose the one before', () => App.chooseNext(-1)],
      [['0', '1', '2', '3', '4', '5', '6', '7', '8', '9'], 'choose a process by its number', (way, key) => chooseNumber(Number(key))],
      [['Escape'], 'choose none', () => App.choose(null)],
    ]],
    ['Go on from this entry', [
      [['.'], 'one step', start('step')],
      [['!'], 'run the call to its end', start('run')],
      [['l'], 'start an LL', start('ll')],
      [['s'], 'start an SC; asks for its value', start('sc')],
      [['v'], 'start a VL', start('vl')],
      [['h'], 'halt the process, or let it go on', () => Actions.halt(App.target())],
      [['e'], 'edit the text; Escape leaves it', () => $('text').focus()],
      [['u'], 'undo', () => App.undo('undo')],
      [['r'], 'redo', () => App.undo('redo')],
    ]],
    ['What is shown', [
      [['b'], 'the other bench, or both', () => nextView()],
      [['+', '='], 'history larger', () => Actions.zoom(1.5)],
      [['-'], 'history smaller', () => Actions.zoom(1 / 1.5)],
      [['w'], 'the whole history', () => Actions.zoom(0)],
      [['o'], 'open a file', () => $('open').click()],
      [['m'], 'the examples', () => $('example').focus()],
    ]],
    ['Take away', [
      [['t'], 'copy the schedule as text', () => Actions.copyText()],
      [['k'], 'copy a link to this entry', () => Actions.copyLink()],
      [['i'], 'copy the trace', () => Actions.copyTrace()],
      [['j'], 'copy the log, for ./judge', () => Actions.copyLog()],
      [['p'], 'save the history as a picture', () => Actions.savePicture()],
      [['?'], 'this list', () => help()],
    ]],
  ];

  const NAMES = { ArrowRight: '→', ArrowLeft: '←', ArrowUp: '↑', ArrowDown: '↓', PageDown: 'Page Down', PageUp: 'Page Up', Escape: 'Esc', '-': '−' };
  const all = new Map(GROUPS.flatMap(([, keys]) => keys.flatMap(([names, , work]) => names.map((name) => [name, work]))));
  let letters = true;

  function chooseNumber(p) {
    if (p < $('chosen').options.length - 1) App.choose(App.chosen === p ? null : p);
  }

  function nextView() {
    const views = ['first', 'moir', 'both'];
    App.setView(views[(views.indexOf(App.view) + 1) % 3]);
  }

  function pressed(event) {
    if (event.target.closest?.('dialog')) return undefined;
    if ((event.ctrlKey || event.metaKey) && !event.altKey) return turned(event);
    if (event.altKey) return undefined;
    if (event.target === $('text') || event.target === $('at')) return inField(event);
    if (!letters && event.key.length === 1 && event.key !== '?') return undefined;
    if (ownKeys(event.target, event.key)) return undefined;
    const work = all.get(event.key) ?? all.get(event.key.toLowerCase());
    if (!work) return undefined;
    event.preventDefault();
    work(backwards(event) ? -1 : 1, event.key);
    return undefined;
  }

  // Shift, or a capital that the lock of capitals did not make.
  function backwards(event) {
    return event.shiftKey || (/^[A-Z]$/.test(event.key) && !event.getModifierState('CapsLock'));
  }

  // Undo and redo as everywhere, in the text too.
  function turned(event) {
    const key = event.key.toLowerCase();
    if (key !== 'z' && key !== 'y') return;
    event.preventDefault();
    App.undo(key === 'y' || event.shiftKey ? 'redo' : 'undo');
  }

  function inField(event) {
    if (event.key === 'Escape') event.target.blur();
  }

  // A slider and a list have keys of their own.
  function ownKeys(target, key) {
    if (target.matches?.('select')) return key.startsWith('Arrow') || key.length === 1 || ['Home', 'End', 'PageUp', 'PageDown', 'Escape'].includes(key);
    return target.id === 'slider' && (key === 'ArrowUp' || key === 'ArrowDown');
  }

  function help() {
    const named = (names) => (names.length === 10 ? ['0', '…', '9'] : names.filter((name) => !/^[A-Z]$/.test(name)));
    const keys = (names) => named(names).map((name) => (name === '…' ? '…' : `<kbd>${esc(NAMES[name] ?? (name.length === 1 ? name.toUpperCase() : name))}</kbd>`)).join(' ');
    const line = ([names, said]) => `<tr><th scope="row">${keys(names)}</th><td>${said}</td></tr>`;
    const groups = GROUPS.map(([name, lines]) => `<section><h3>${name}</h3><table>${lines.map(line).join('')}</table></section>`);
    $('keys').innerHTML = `<h2 id="keysHead">Keys</h2><div class="groups">${groups.join('')}</div>${WORDS}`
      + `<p><label><input type="checkbox" id="letters"${letters ? ' checked' : ''}> single letters are keys</label></p>`
      + '<form method="dialog" class="ends"><button class="main" autofocus>Close</button></form>';
    $('letters').onchange = () => { letters = $('letters').checked; };
    $('keys').showModal();
  }

  const WORDS = '<p class="signs"><span><b class="new">◆</b> changed in this step</span><span><b class="touched">frame</b> touched by this step</span>'
    + '<span><b class="chip" style="--hue:var(--p1)">+1</b> process 1 is linked now</span><span><b class="chip lost" style="--hue:var(--p1)">−1</b> its link is lost</span>'
    + '<span>▲ a call takes effect</span><span>dashed bar: open call</span><span>hatched bar: answered false</span></p>'
    + '<p>Traces, states and verdicts are the proved library’s, compiled to WebAssembly; JavaScript draws. Ctrl + wheel zooms the history. '
    + 'A file can be dropped anywhere: a schedule, a board’s trace file, or a log of calls.</p>';

  return { pressed, help };
})();
