'use strict';
// What is shown, and where she stands in it: a leaf (a schedule, or a log), the bench or both, a row, a chosen process.
// A row is an entry; where both benches are shown, a line of the two courses side by side.

const App = (() => {
  const leaves = new Leaves();
  const runs = { first: null, moir: null };
  const panes = {};
  let [view, row, chosen, pairs, halts] = ['first', 0, null, null, new Map()];
  let examples = {};
  const [QUICK, PAUSE] = [80, 250]; // milliseconds
  let [waiting, cost] = [0, 0]; // a text that is still to be run, and how long the last one took

  const leaf = () => leaves.now;
  const log = () => leaf().log ?? null;
  const benches = () => (view === 'both' ? ['first', 'moir'] : [view]);
  const mainBench = () => (view === 'moir' ? 'moir' : 'first');
  const mainRun = () => runs[mainBench()];
  const side = (bench) => (bench === 'moir' ? 1 : 0);

  function rows() {
    if (log()) return log().history.length - 1;
    return pairs ? pairs.of.length - 1 : mainRun().entries;
  }

  // The entry that a bench stands after at a row, and the row at which it has made an entry.
  const entryAt = (bench, at) => (pairs ? pairs.of[at][side(bench)] : at);
  const rowOf = (bench, entry) => (pairs ? pairs.rows[side(bench)][entry] ?? 0 : entry);
  const entryNow = () => entryAt(mainBench(), row);

  // The entry that a row of a bench's list shows, 0 where it waits.
  function entryOn(bench, at) {
    const entry = entryAt(bench, at);
    return rowOf(bench, entry) === at ? entry : 0;
  }

  function begin(data) {
    examples = data.EXAMPLES;
    for (const bench of ['first', 'moir']) {
      panes[bench] = {
        history: new HistoryPane($(`history-${bench}`), (at) => show(at)),
        list: new TraceList($(`list-${bench}`), (at) => show(at)),
      };
    }
    $('example').innerHTML = ['<option value="">your own</option>', ...Object.keys(examples).map((name) => `<option>${esc(name)}</option>`)].join('');
    Editor.begin(edited, settle);
    addEventListener('resize', () => leaf() && resized());
  }

  function resized() {
    for (const bench of ['first', 'moir']) if (panes[bench].history.model) panes[bench].history.size();
    show(row);
  }

  // ---- leaves

  function open(given, at = 0) {
    leaves.turn({ name: '', note: '', example: '', halts: null, log: null, ...given }, row);
    load(at, true);
  }

  function openExample(name) {
    if (examples[name] !== undefined) open({ bytes: textBytes(examples[name]), name, example: name });
  }

  function openLog({ name, model }) {
    const history = Logs.history(model);
    const fault = history.calls.find((call) => call.fault && call.index === model.reply.call);
    leaves.turn({ name, note: '', example: '', halts: null, bytes: new Uint8Array(0), log: { model, history } }, row);
    load(fault ? fault.moment : 0, true);
  }

  function edited(bytes, fresh) {
    const changed = { ...leaf(), bytes, example: '', note: '', halts: null };
    if (fresh) leaves.turn(changed, row);
    else leaves.now = changed;
    clearTimeout(waiting);
    waiting = cost < QUICK ? 0 : setTimeout(reload, PAUSE);
    if (!waiting) reload();
  }

  // A text that takes its time is run when she pauses, or leaves the field.
  function reload() {
    const begun = performance.now();
    waiting = 0;
    load(row, false);
    cost = performance.now() - begun;
  }

  function settle() {
    if (!waiting) return;
    clearTimeout(waiting);
    reload();
  }

  // `at` is a row, or tells it once the leaf is run.
  function turn(changed, at) {
    leaves.turn(changed, row);
    load(at, false);
  }

  function undo(way) {
    const at = leaf().row;
    if (!leaves[way](row)) say(way === 'undo' ? 'Nothing to undo.' : 'Nothing to do again.');
    else load(leaf().row ?? at ?? 0, false);
  }

  // ---- from a leaf to what is shown

  function load(at, fresh) {
    document.body.dataset.view = log() ? 'log' : view;
    $('example').value = leaf().example;
    $('undo').disabled = !leaves.past.length;
    $('redo').disabled = !leaves.future.length;
    document.title = `${leaf().name ? `${leaf().name} · ` : ''}Besklaun, a schedule step by step`;
    if (log()) loadLog(fresh);
    else loadSchedule(fresh);
    show(typeof at === 'function' ? at() : at);
  }

  function loadLog(fresh) {
    pairs = null;
    panes.first.history.show(log().history, fresh);
    $('verdict-first').innerHTML = Logs.sentence(log().model);
    fillChosen(log().history.lanes);
  }

  function loadSchedule(fresh) {
    const { bytes } = leaf();
    Editor.set(bytes);
    runs.first = new Run('first', bytes);
    runs.moir = view === 'first' ? null : new Run('moir', bytes, runs.first);
    pairs = view === 'both' && runs.first.begun ? sideBySide(runs.first, runs.moir) : null;
    halts = runs.first.begun ? haltEntries(mainRun(), leaf().halts) : new Map();
    document.body.classList.toggle('unbegun', !runs.first.begun);
    for (const bench of benches()) loadBench(bench, fresh);
    tellRefusal();
    fillChosen(runs.first.begun ? mainRun().n : 0);
  }

  function loadBench(bench, fresh) {
    const run = runs[bench];
    const { history, list } = panes[bench];
    list.show(run, rows(), (at) => entryOn(bench, at));
    if (!run.begun) return;
    history.show(historyOfRun(run, rows(), (entry) => rowOf(bench, entry)), fresh);
    const name = view === 'both' ? `<b class="bench">${bench === 'moir' ? 'Figure 6, Moir' : 'Figure 2'}</b> ` : '';
    $(`verdict-${bench}`).innerHTML = name + Sentence.ofVerdict(run);
  }

  function tellRefusal() {
    const told = benches().map((bench) => runs[bench].refusal && { bench, words: runs[bench].refusal.words }).filter(Boolean);
    const same = told.length === 2 && told[0].words === told[1].words;
    const name = (bench) => (view === 'both' && !same ? `${bench === 'moir' ? 'Moir: ' : 'Figure 2: '}` : '');
    const lines = (same ? told.slice(0, 1) : told).map(({ bench, words }) => `<span>✕ ${esc(name(bench) + words)}</span>`);
    const html = lines.join('');
    if ($('refusal').innerHTML !== html) $('refusal').innerHTML = html;
    $('text').setAttribute('aria-invalid', told.length > 0);
    const cut = leaf().bytes.length > Editor.MOST ? `Shown are its first ${Words.count(Editor.MOST)} bytes of ${Words.count(leaf().bytes.length)}.` : '';
    $('note').textContent = leaf().note || cut;
  }

  // ---- at a row

  function show(at) {
    say('');
    row = clamp(Math.round(at) || 0, 0, rows());
    $('slider').max = rows();
    $('slider').value = row;
    $('of').textContent = Words.count(rows());
    $('unit').textContent = log() ? 'Place' : pairs ? 'Line' : 'Entry';
    if (document.activeElement !== $('at')) $('at').value = row;
    if (log()) showLog();
    else for (const bench of benches()) showBench(bench);
    if (!log()) showText();
    Main.remember();
  }

  function showBench(bench) {
    const run = runs[bench];
    panes[bench].list.move(row);
    if (!run.begun) return clear(bench);
    const entry = entryAt(bench, row);
    const waits = pairs && row > 0 && !entryOn(bench, row);
    panes[bench].history.move(row, entry, haltsShown(bench));
    const before = entry > 0 ? run.states.after(entry - 1) : null;
    const state = run.states.after(entry);
    const step = entry > 0 && !run.trace.start[entry] && !waits ? run.trace.step(entry) : null;
    $(`sentence-${bench}`).innerHTML = waits ? Sentence.ofWaiting(run, entry) : Sentence.ofStep(run, entry, before);
    showState(bench, run, state, waits ? null : before, step);
    showProcesses(bench, run, state, waits ? null : before, entry);
    return undefined;
  }

  function clear(bench) {
    framed($(`processes-${bench}`), '');
    framed($(`state-${bench}`), Tables.NOTATION);
    $(`verdict-${bench}`).innerHTML = '';
    $(`sentence-${bench}`).textContent = 'No state: the text is refused before its set-up.';
    $(`history-${bench}`).removeAttribute('style');
  }

  function haltsShown(bench) {
    if (!halts.size || bench !== mainBench()) return null;
    return new Map([...halts].map(([p, entry]) => [p, rowOf(bench, entry)]));
  }

  function showState(bench, run, state, before, step) {
    const item = step?.item;
    const root = $(`state-${bench}`);
    if (bench === 'moir') Tables.moir(root, state, before, item);
    else Tables.first(root, state, before, item?.replace(/^(BUF\[\d+\]).*/, '$1'));
  }

  function showProcesses(bench, run, state, before, entry) {
    const orders = { step: STEP, run: STEP, ll: LL, sc: SC, vl: VL };
    const of = (p) => ({
      now: entry > 0 && run.trace.process[entry] === p, chosen: chosen === p, halted: isHalted(p),
      can: (what) => run.states.refusal(entry, p, orders[what]) === 0,
    });
    const root = $(`processes-${bench}`);
    keepingFocus(root, () => Processes.show(root, bench, state, before, of));
  }

  const isHalted = (p) => halts.has(p) && entryNow() >= halts.get(p);

  // A table that is made anew leaves the focus where it was: on the same button, or one of the same row.
  function keepingFocus(root, work) {
    const was = root.contains(document.activeElement) ? { ...document.activeElement.dataset } : null;
    work();
    if (!was) return;
    const same = root.querySelector(`[data-do="${was.do}"][data-p="${was.p}"]:not(:disabled)`);
    (same ?? root.querySelector(`.c-do [data-p="${was.p}"]:not(:disabled)`))?.focus();
  }

  function showText() {
    const run = mainRun();
    const item = run.item(entryNow());
    const refused = benches().map((bench) => runs[bench].refusal).find(Boolean);
    Editor.mark(leaf().bytes, [refused && { ...refused, kind: 'bad' }, item && { ...item, kind: 'now' }]);
    Editor.reveal();
  }

  function showLog() {
    const { model, history } = log();
    const call = history.calls.find((one) => one.moment === row) ?? null;
    panes.first.history.move(row, row === 0 ? 'start' : String(history.places[row - 1] ?? ''), null);
    $('sentence-first').innerHTML = call ? esc(call.title) : 'Step through the places of the log, or click on a call.';
    $('calls').innerHTML = Logs.table(model, call ? call.index : -1);
    $('calls').querySelector('tr.now')?.scrollIntoView({ block: 'nearest' });
  }

  // ---- choosing

  function fillChosen(n) {
    if (chosen !== null && chosen >= n) chosen = null;
    const names = Array.from({ length: n }, (_, p) => `<option value="${p}">process ${p}</option>`);
    $('chosen').innerHTML = `<option value="">any process</option>${names.join('')}`;
    $('chosen').value = chosen ?? '';
  }

  function choose(p) {
    chosen = p;
    $('chosen').value = p ?? '';
    show(row);
  }

  function chooseNext(way) {
    const n = $('chosen').options.length - 1;
    const next = (chosen ?? (way > 0 ? -1 : n)) + way;
    choose(next < 0 || next >= n ? null : next);
  }

  function setView(next) {
    const entry = leaf() && !log() && runs.first ? entryNow() : 0;
    view = ['first', 'moir', 'both'].includes(next) ? next : 'first';
    $('view').value = view;
    if (!leaf()) return;
    load(() => rowOf(mainBench(), Math.min(entry, mainRun().entries)), true);
  }

  // The process that a key is about: the chosen one, else this entry's.
  function target() {
    if (chosen !== null) return chosen;
    const entry = entryNow();
    return entry > 0 ? mainRun().trace.process[entry] : 0;
  }

  return {
    begin, open, openExample, openLog, turn, undo, show, choose, chooseNext, setView, target, benches, mainBench, mainRun, rowOf,
    entryNow, entryAt, rows, isHalted, leaf, log, panes, runs,
    get row() { return row; },
    get chosen() { return chosen; },
    get view() { return view; },
  };
})();
