'use strict';
// The calls of a run, each with the moment at which it takes effect, found in the trace as ./log finds them (tools/logs).
// Nothing is proved of them, and nothing needs to be: a wrong one can only make the judge say no.

class Calls {
  constructor(bench, trace, n) {
    this.trace = trace;
    this.all = []; // in the order of their starts
    this.answered = []; // in the order of their answers
    const open = new Array(n).fill(null);
    const moments = bench === 'moir' ? new MomentsOfSix(trace) : new MomentsOfTwo(trace);
    for (let entry = 1; entry <= trace.entries; entry++) {
      const p = trace.process[entry];
      if (trace.start[entry]) this.all.push((open[p] = this.started(entry, p)));
      else this.stepped(entry, p, open, moments);
    }
    for (const call of this.all) if (!call.to) call.moment = moments.ofOpen(call);
  }

  started(entry, p) {
    const kind = this.trace.start[entry];
    const value = kind === SC ? this.trace.offered(entry) : 0;
    return { p, kind, value, from: entry, to: 0, last: entry, moment: 0, told: null };
  }

  stepped(entry, p, open, moments) {
    const call = open[p];
    call.last = entry;
    moments.note(entry, p, this.trace.figureLine[entry], call);
    if (!this.trace.answers[entry]) return;
    call.to = entry;
    call.told = this.trace.step(entry).answer;
    call.moment = moments.of(call, entry);
    this.answered.push(call);
    open[p] = null;
  }
}

// Figure 2: of an LL line 2, or line 5 where it was helped and the VL of line 7 is true, or else its helper's VL of line
// 14; of an SC line 19, of a VL line 23, where they answer.
class MomentsOfTwo {
  constructor(trace) {
    Object.assign(this, { trace, effect: [], handed: [], checked: [] });
  }

  note(entry, p, line) {
    if (line === 2 || line === 5) this.effect[p] = entry;
    if (line === 7 && this.trace.step(entry).act === 'VL false') this.effect[p] = this.handed[p];
    if (line === 14 && / X VL true/.test(this.trace.line(entry))) this.checked[p] = entry;
    if (line !== 15) return;
    const { item, act } = this.trace.step(entry);
    if (/ true links/.test(act)) this.handed[Number(item.slice(5, -1))] = this.checked[p];
  }

  of(call, entry) {
    return call.told.letter === 'L' ? this.effect[call.p] : entry;
  }

  ofOpen() {
    return 0;
  }
}

// Figure 6: of an SC that succeeds its CAS on the header, line 19, even while it is open; of a WLL that names a process
// line 10; of every other call its answer. A WLL that names has in a log the words that the record holds at line 10.
class MomentsOfSix {
  constructor(trace) {
    Object.assign(this, { trace, effect: [], found: [], stored: [], value: null });
  }

  note(entry, p, line, call) {
    if (line === 10) [this.effect[p], this.found[p]] = [entry, this.value];
    if (line === 19 && this.trace.step(entry).act.endsWith(' true')) {
      this.effect[p] = this.stored[p] = entry;
      this.value = call.value;
    }
  }

  of(call, entry) {
    const { letter, words } = call.told;
    delete this.stored[call.p];
    if (letter === 'N') call.found = this.found[call.p];
    const early = letter === 'N' || (letter === 'S' && words[0] === '1');
    return early ? this.effect[call.p] : entry;
  }

  ofOpen(call) {
    return call.kind === SC && this.stored[call.p] > call.from ? this.stored[call.p] : 0;
  }
}
