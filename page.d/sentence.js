'use strict';
// The step in one sentence, with the line of its figure in words; and the judge's verdict in another.

const Sentence = (() => {
  const STARTS = ['', '', 'starts an SC of', 'starts a VL'];

  // `before` is the state that the step found.
  function ofStep(run, entry, before) {
    if (entry === 0) return setUp(run);
    const { trace } = run;
    const p = trace.process[entry];
    const who = `<b>Entry ${Words.count(entry)}</b> <span class="who" style="--hue:${hue(p)}">process ${p}</span>`;
    const start = trace.start[entry];
    if (start === LL) return `${who} starts ${run.bench === 'moir' ? 'a WLL' : 'an LL'}.`;
    if (start) return `${who} ${STARTS[start]}${start === SC ? ` ${trace.offered(entry)}` : ''}.`;
    const step = trace.step(entry);
    const point = before.processes[p].point;
    const figure = run.bench === 'moir' ? 'Figure 6' : 'Figure 2';
    const does = run.bench === 'moir' ? Words.FIGURE_6[trace.figureLine[entry]] : Words.FIGURE_2[point];
    return `${who} ${esc(does)}: <code>${esc(step.item)} ${esc(step.act)}</code> `
      + `<span class="figure">line ${trace.figureLine[entry]} of ${figure}</span>${answer(step.answer, Words.kind(run.bench, before.kind(p)))}`;
  }

  // Beside the other bench: it has done this item, or is stopped.
  function ofWaiting(run, entry) {
    const stopped = entry === run.entries && run.told.number;
    const figure = run.bench === 'moir' ? 'Figure 6' : 'Figure 2';
    if (stopped) return `<b>${figure} is stopped</b> after entry ${Words.count(entry)}: refused ${run.told.number}.`;
    return `<b>${figure} waits</b> after entry ${Words.count(entry)}, while the other bench goes on.`;
  }

  function setUp(run) {
    const { n, w, word } = run;
    const many = (count, what, more) => `${count} ${count === 1 ? what : more}`;
    return `<b>The set-up</b> ${many(n, 'process', 'processes')}, ${many(w, 'word', 'words')}, ${word} in each.`;
  }

  function answer(told, kind) {
    if (!told) return '';
    const said = told.letter === 'N' ? `names process ${told.words[0]}` : `answers ${Words.answer(told)}`;
    return ` <strong>Its ${kind} ${esc(said)} after ${Words.steps(told.steps)}.</strong>`;
  }

  const LEGEND = '<span class="legend"><span aria-hidden="true">▲</span> where a call takes effect</span>';

  function ofVerdict(run) {
    const { rows, reply, many } = run.verdict;
    const open = run.calls.all.length - rows.length;
    const calls = rows.length === 1 ? 'the one answered call' : `the ${Words.count(rows.length)} answered calls`;
    const rest = open ? ` (${open === 1 ? 'one open call counts' : `${open} open calls count`} for nothing)` : '';
    if (many) return `<b class="unsaid">Not judged:</b> ${Words.count(rows.length)} calls are answered, and the judge takes 512. ${LEGEND}`;
    if (rows.length === 0) return '<b class="unsaid">Nothing to judge:</b> no call is answered yet.';
    if (reply.yes) {
      return `<b class="yes">✓ yes</b> The proved judge, in this page, on ${calls}${rest}: in the order of the marks `
        + `Figure 1’s object gives the same answers. ${LEGEND}`;
    }
    const model = { n: run.n, w: run.w, value: run.verdict.value, log: run.verdict.log };
    const why = Verdict.reason(reply, model, (index) => `call ${index + 1}`);
    return `<b class="no">✕ no</b> The proved judge, in this page, on ${calls}${rest}: ${esc(why)}. ${LEGEND}`;
  }

  return { ofStep, ofWaiting, ofVerdict };
})();
