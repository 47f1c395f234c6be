'use strict';
// A log of calls for the proved judge, and what it says, in the words of docs/JUDGE.md.

const Verdict = (() => {
  const MOST_CALLS = 512;
  const PLACE = 1024; // ./log's places are 1,024 times the number of the entry

  // The calls that a run's log has, in ./log's order: those that are answered, and then, of Moir's, the open SCs whose CAS on
  // the header succeeded.
  function logged(calls) {
    const open = calls.all.filter((call) => !call.to && call.moment);
    return [...calls.answered, ...open.sort((one, other) => one.p - other.p)];
  }

  function rowOf(call, w, word) {
    const truth = call.to ? (call.told.letter === 'S' || call.told.letter === 'V') && call.told.words[0] === '1' : true;
    const places = [call.from, call.to || call.last].map((entry) => entry * PLACE);
    return [call.p, call.kind, ...places, truth ? 1 : 0, call.moment * PLACE, ...wordsOf(call, w, word)].map(BigInt);
  }

  function wordsOf(call, w, word) {
    if (call.kind === LL && call.told.letter === 'L') return call.told.words;
    const same = call.kind === SC ? call.value : call.kind === LL ? call.found ?? word : 0;
    return new Array(w).fill(same);
  }

  function ofRun(run) {
    const rows = logged(run.calls);
    const value = new Array(run.w).fill(BigInt(run.word));
    if (rows.length > MOST_CALLS) return { rows, value, many: true };
    const log = rows.flatMap((call) => rowOf(call, run.w, run.word));
    return { rows, value, log, reply: Library.judged(run.n, run.w, value, log) };
  }

  // The log as text, as ./log prints it.
  function logText(run) {
    const rows = logged(run.calls).map((call) => rowOf(call, run.w, run.word).join(' '));
    return `${run.n} ${run.w}\n${new Array(run.w).fill(run.word).join(' ')}\n${rows.map((row) => `${row}\n`).join('')}`;
  }

  // ---- why it is not yes

  const kindWord = (kind) => ({ 1: 'LL', 2: 'SC', 3: 'VL' }[kind] ?? 'call');

  // A log's call by its index: its numbers, and what names it.
  function callAt(log, w, index, where) {
    const at = index * (6 + w);
    const [process, kind, start, answer, truth, moment] = log.slice(at, at + 6);
    const name = `process ${process}'s ${kindWord(Number(kind))}`;
    const words = log.slice(at + 6, at + 6 + w).join(' ');
    const span = `${name} from ${start} to ${answer}`;
    return { where: where(index), name, span, process, kind, start, answer, truth, moment, words };
  }

  // `where` names the place of a call, as `line 3` of a log that is read.
  function reason(reply, { n, w, saidW = w, value, log }, where) {
    const call = callAt(log, w, reply.number === 16 ? MOST_CALLS : reply.call, where);
    const other = callAt(log, w, reply.other, where);
    if (reply.number) return refused(reply, call, log, w, n, saidW);
    const said = {
      1: () => `${call.where}: ${call.name} has the kind ${call.kind}, not 1 (LL), 2 (SC) or 3 (VL)`,
      2: () => `${call.where} and ${other.where}: ${call.span} and ${other.span} overlap`,
      3: () => `${call.where} and ${other.where}: ${call.name} and ${other.name} have one moment, ${call.moment}`,
      4: () => `${call.where}: ${call.span} has the moment ${call.moment}, not after its start and by its answer`,
      5: () => `${call.where}: ${wrongAnswer(reply, call, other, value)}`,
      6: () => `${call.where}: ${call.name} has no LL of its process before it in the order of the moments`,
    };
    return `no: condition ${reply.condition}: ${said[reply.condition]()}`;
  }

  function wrongAnswer(reply, call, other, value) {
    if (Number(call.kind) !== LL) {
      return `${call.name} answered ${call.truth}; Figure 1's object answers ${reply.truth ? 1 : 0}`;
    }
    const object = reply.given ? `${value.join(' ')}, the value` : `${other.words}, written by the SC of ${other.where}`;
    return `${call.name} answered ${call.words}; Figure 1's object answers ${object}`;
  }

  function refused(reply, call, log, w, n, saidW) {
    const said = {
      1: () => `line 1: N is ${n}, not 1 to 16`,
      2: () => `line 1: W is ${saidW}, not 1 to 64`,
      4: () => `${call.where}: process ${call.process} is not below N, ${n}`,
      8: () => cutOff(reply, call, log, w),
      16: () => `${call.where}: the 513th call; a log has at most 512`,
      17: () => `${call.where}: ${call.name} has the answer place ${call.answer}, not after its start place, ${call.start}`,
    };
    return `refused ${reply.number}: ${said[reply.number]()}`;
  }

  function cutOff(reply, call, log, w) {
    if (reply.given) return `the text ends within the value; W is ${w}`;
    return `${call.where}: the last call has ${log.length - reply.call * (6 + w)} numbers, not ${6 + w}`;
  }

  // The calls at fault, by their index.
  function atFault(reply) {
    if (reply.yes || (reply.number && ![4, 8, 17].includes(reply.number))) return [];
    const two = [2, 3].includes(reply.condition) || (reply.condition === 5 && !reply.given);
    return two ? [reply.call, reply.other] : [reply.call];
  }

  return { ofRun, logText, reason, atFault, MOST_CALLS };
})();
