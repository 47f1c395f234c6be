'use strict';
// A log of calls (docs/JUDGE.md): read, judged by the proved judge, and shown with its reason at the call.

const Logs = (() => {
  const MOST_NUMBERS = 65536;
  const MOST_BYTES = 2097152;

  class NoLog extends Error {}

  function at(bytes, place) {
    const seen = Refusal.look(bytes, place);
    return `line ${seen.feeds + 1}, column ${seen.since + 1}`;
  }

  // The numbers of a log and the place of each.
  function numbersOf(bytes) {
    if (bytes.length >= MOST_BYTES) throw new NoLog('the text has 2,097,152 bytes or more; nothing was judged');
    const [numbers, places] = [[], []];
    const text = latin(bytes);
    const word = /[^ \t\n\r]+/g;
    for (let found = word.exec(text); found; found = word.exec(text)) {
      const stray = found[0].search(/[^0-9]/);
      if (stray >= 0) {
        const byte = bytes[found.index + stray];
        const name = byte > 32 && byte < 127 ? String.fromCharCode(byte) : `byte ${byte}`;
        throw new NoLog(`${at(bytes, found.index + stray)}: ${name} is no digit and no space; nothing was judged`);
      }
      const number = BigInt(found[0]);
      if (number >= 1n << 64n) throw new NoLog(`${at(bytes, found.index)}: a number of 2^64 or more; nothing was judged`);
      if (numbers.length === MOST_NUMBERS) {
        throw new NoLog(`${at(bytes, found.index)}: the text has more than 65,536 numbers; nothing was judged`);
      }
      numbers.push(number);
      places.push(found.index);
    }
    if (numbers.length < 2) throw new NoLog(`the text lacks N and W: its numbers are ${numbers.length}; nothing was judged`);
    return { numbers, places };
  }

  // A judged log: its numbers, what the judge replied, and for each call the line in which it begins.
  function read(bytes) {
    const { numbers, places } = numbersOf(bytes);
    const [n, w] = numbers;
    const width = w <= 64n ? Number(w) : 0;
    const value = numbers.slice(2, 2 + width);
    const log = numbers.slice(2 + width);
    const each = 6 + width;
    const starts = places.slice(2 + width).filter((_, i) => i % each === 0);
    const lines = linesOf(bytes, starts);
    const model = { n, w: width, saidW: w, value, log, lines };
    model.reply = Library.judged(n, w, value, log);
    model.calls = Math.ceil(log.length / each);
    model.reason = model.reply.yes ? '' : Verdict.reason(model.reply, model, (i) => `line ${lines[i] ?? '?'}`);
    return model;
  }

  function linesOf(bytes, starts) {
    const lines = [];
    let [place, line] = [0, 1];
    for (const start of starts) {
      for (; place < start; place++) if (bytes[place] === 10) line++;
      lines.push(line);
    }
    return lines;
  }

  const callOf = (model, index) => model.log.slice(index * (6 + model.w), (index + 1) * (6 + model.w));

  // Places of a log may be any numbers; what counts is their order, so the history shows each by its rank.
  function history(model) {
    const whole = Math.floor(model.log.length / (6 + model.w));
    const calls = Array.from({ length: whole }, (_, i) => callOf(model, i));
    const all = [...new Set(calls.flatMap((call) => [call[2], call[3], call[5]]))].sort((a, b) => (a < b ? -1 : a > b ? 1 : 0));
    const rank = new Map(all.map((place, i) => [place, i + 1]));
    const fault = new Set(Verdict.atFault(model.reply));
    const lanes = calls.reduce((most, call) => Math.max(most, Math.min(15, Number(call[0]))), Math.min(15, Number(model.n) - 1)) + 1;
    const bars = calls.map((call, i) => bar(call, i, rank, fault, model));
    const shown = bars.filter((one) => one.p < 16 && one.to > one.from);
    return {
      lanes: Math.max(1, lanes), length: all.length + 1, calls: shown, places: all,
      tick: (place) => (place >= 1 && place <= all.length ? String(all[place - 1]) : ''),
      said: `history of a log of ${whole} calls`,
    };
  }

  function bar(call, index, rank, fault, model) {
    const [p, kind, start, answer, truth, moment] = call;
    const name = { 1: 'LL', 2: 'SC', 3: 'VL' }[kind] ?? `kind ${kind}`;
    const words = Words.row(call.slice(6).map(String));
    const said = kind === 1n ? `→ ${words}` : kind === 2n ? `${words} → ${truthWord(truth)}` : `→ ${truthWord(truth)}`;
    return {
      p: Number(p), kind: Number(kind), from: rank.get(start), to: rank.get(answer), moment: rank.get(moment), index,
      failed: kind !== 1n && truth === 0n, fault: fault.has(index),
      label: `${fault.has(index) ? '✕ ' : ''}${name} ${said}`, short: fault.has(index) ? `✕ ${name}` : name,
      title: `line ${model.lines[index]}: process ${p}: ${name} from ${start} to ${answer}, moment ${moment}: ${said}`,
    };
  }

  const truthWord = (truth) => ({ 0: 'false', 1: 'true' }[truth] ?? String(truth));

  function sentence(model) {
    const calls = model.calls === 1 ? 'the one call' : `the ${Words.count(model.calls)} calls`;
    const who = `The proved judge, in this page, on ${calls} of the log`;
    if (model.reply.yes) return `<b class="yes">✓ yes</b> ${who}: its moments are a linearization; in their order Figure 1’s object gives the same answers.`;
    const sign = model.reply.number ? 'refused' : 'no';
    return `<b class="no">✕ ${sign}</b> ${who}: ${esc(model.reason)}.`;
  }

  function table(model, chosen) {
    const fault = new Set(Verdict.atFault(model.reply));
    const whole = Math.floor(model.log.length / (6 + model.w));
    const rows = [];
    for (let i = 0; i < Math.min(whole, 2000); i++) rows.push(tableRow(model, i, fault.has(i), i === chosen));
    const more = whole > 2000 ? `<tr><td colspan="9">and ${Words.count(whole - 2000)} more</td></tr>` : '';
    const heads = ['line', 'process', 'call', 'start', 'answer', 'truth', 'moment', 'words', ''];
    return `<table class="log"><thead><tr>${heads.map((head) => `<th scope="col">${head}</th>`).join('')}</tr></thead>`
      + `<tbody>${rows.join('')}${more}</tbody></table>`;
  }

  function tableRow(model, index, fault, chosen) {
    const [p, kind, start, answer, truth, moment, ...words] = callOf(model, index);
    const name = { 1: 'LL', 2: 'SC', 3: 'VL' }[kind] ?? `kind ${kind}`;
    const cells = [model.lines[index], p < 16n ? chip(Number(p)) : esc(p), name, start, answer, kind === 1n ? '' : truthWord(truth), moment,
      kind === 3n ? '' : esc(Words.row(words.map(String)))];
    const why = !fault ? '' : index === model.reply.call ? `<b class="no">✕ ${esc(model.reason)}</b>` : '<b class="no">✕ the other call</b>';
    return `<tr class="${fault ? 'fault' : ''}${chosen ? ' now' : ''}" data-call="${index}">`
      + `${cells.map((cell) => `<td>${cell}</td>`).join('')}<td>${why}</td></tr>`;
  }

  return { NoLog, read, history, sentence, table };
})();
