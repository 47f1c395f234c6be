'use strict';
// What she can do: go on from this entry, halt, jump, take away.

const Actions = (() => {
  const ORDERS = { step: STEP, run: RUN, ll: LL, sc: SC, vl: VL };
  const MOST_WORD = 4294967295;

  // ---- going on

  function go(p, what, word = 0) {
    const run = App.mainRun();
    if (App.log() || !run.begun) return say('There is no schedule to go on with.');
    const entry = App.entryNow();
    if (App.isHalted(p)) return say(`Process ${p} is halted; H lets it take turns again.`);
    const number = run.states.refusal(entry, p, what === 'run' ? STEP : ORDERS[what]);
    if (number) return say(`Process ${p} can’t do this here: ${Words.CAUSES[number] ?? ''} (refused ${number}).`);
    if (what === 'sc' && word === null) return ask(p);
    const leaf = goneOn(run, App.leaf(), entry, { p, order: ORDERS[what], word });
    App.turn({ ...leaf, example: '', note: '' }, () => (what === 'run' ? App.rows() : App.rowOf(App.mainBench(), entry + 1)));
    const gone = leaf.left === 1 ? 'The entry that came after is left out' : `The ${Words.count(leaf.left)} entries that came after are left out`;
    say(leaf.left ? `${gone}; undo brings back what was.` : '');
    return undefined;
  }

  // The value is asked for in the page.
  function ask(p) {
    $('askWhat').textContent = `Process ${p} offers, in each word,`;
    $('askWrong').textContent = '';
    $('ask').onsubmit = (event) => {
      const word = Number($('askValue').value);
      if (word <= MOST_WORD) return setTimeout(() => go(p, 'sc', word));
      event.preventDefault();
      $('askWrong').textContent = 'A number is at most 4,294,967,295.';
      return undefined;
    };
    $('ask').showModal();
    $('askValue').value ||= '7';
    $('askValue').select();
  }

  function halt(p) {
    const run = App.mainRun();
    if (App.log() || !run.begun || p >= run.n) return say('There is no process to halt.');
    const leaf = App.leaf();
    const stood = App.isHalted(p);
    const halts = stood ? unhalted(leaf.halts, p) : halted(run, leaf, p, App.entryNow());
    const none = halts.cuts.size === 0;
    const bytes = none && halts.original ? halts.original : textBytes(foldedText(run.parsed.head, keptOf(halts)));
    App.turn({ ...leaf, bytes, halts: none ? null : halts, example: '', note: '' }, App.row);
    say(stood ? `Process ${p} takes turns again.` : `Process ${p} is halted here: its later entries are left out, and the others go on.`);
    return undefined;
  }

  // ---- jumps

  const JUMPS = {
    answer: { words: 'answer', of: (run, p, entry) => run.trace.answers[entry] && (p === null || run.trace.process[entry] === p) },
    access: { words: 'access', of: (run, p, entry) => !run.trace.start[entry] && run.trace.process[entry] === p },
  };

  function jump(what, way) {
    if (App.log()) return jumpCall(way);
    if (!App.mainRun().begun) return undefined;
    const p = what === 'access' ? App.target() : App.chosen;
    const found = App.benches().map((bench) => {
      const entry = what === 'loss' ? nextLoss(bench, p, way) : nextEntry(bench, JUMPS[what].of, p, way);
      return entry === null ? null : App.rowOf(bench, entry);
    }).filter((row) => row !== null);
    const whose = p === null ? '' : ` of process ${p}`;
    const name = what === 'loss' ? 'link lost' : JUMPS[what].words;
    if (!found.length) return say(`No ${name}${whose} ${way > 0 ? 'after' : 'before'} this entry.`);
    return App.show(way > 0 ? Math.min(...found) : Math.max(...found));
  }

  // A bench that waits has its entry made before this row.
  function nextEntry(bench, wanted, p, way) {
    const run = App.runs[bench];
    const now = App.entryAt(bench, App.row);
    const first = way > 0 ? now + 1 : App.rowOf(bench, now) < App.row ? now : now - 1;
    for (let entry = first; entry >= 1 && entry <= run.entries; entry += way) if (wanted(run, p, entry)) return entry;
    return null;
  }

  function nextLoss(bench, p, way) {
    const lost = new Map(App.runs[bench].losses.map(({ entry, links }) => [entry, links]));
    return nextEntry(bench, (run, q, entry) => lost.has(entry) && (q === null || (lost.get(entry) >> q) & 1), p, way);
  }

  // In a log the next call's moment.
  function jumpCall(way) {
    const moments = App.log().history.calls.filter((call) => App.chosen === null || call.p === App.chosen).map((call) => call.moment);
    const found = moments.filter((moment) => (way > 0 ? moment > App.row : moment < App.row));
    if (!found.length) return say('No other call.');
    return App.show(way > 0 ? Math.min(...found) : Math.max(...found));
  }

  // ---- taking away

  function link() {
    const { bytes, example } = App.leaf();
    const { chosen, view } = App;
    return location.href.replace(/#.*$/, '') + Share.address({ bytes, example, entry: App.entryNow(), view, chosen });
  }

  const needsSchedule = (work) => () => (App.log() ? say('A log has none of this.') : work());
  const decoded = (bytes) => new TextDecoder().decode(bytes);

  const copyText = needsSchedule(() => Share.copy(decoded(App.leaf().bytes), 'The schedule'));
  const copyLink = needsSchedule(() => Share.copy(link(), 'A link to this entry'));
  const copyTrace = needsSchedule(() => Share.copy(decoded(App.mainRun().told.bytes), 'The trace'));
  const copyLog = needsSchedule(() => (App.mainRun().begun ? Share.copy(Verdict.logText(App.mainRun()), 'The log') : say('There is no log.')));

  function savePicture() {
    const pane = App.panes[App.log() ? 'first' : App.mainBench()].history;
    if (!pane.model || (!App.log() && !App.mainRun().begun)) return say('There is no history.');
    return Share.save(`${(App.leaf().name || 'schedule').replace(/[^\w.-]+/g, '-')}.svg`, 'image/svg+xml', pane.picture());
  }

  function zoom(factor) {
    for (const bench of App.log() ? ['first'] : App.benches()) if (App.panes[bench].history.model) App.panes[bench].history.zoom(factor);
  }

  return { go, halt, jump, link, copyText, copyLink, copyTrace, copyLog, savePicture, zoom };
})();
