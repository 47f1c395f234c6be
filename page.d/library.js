'use strict';
// The proved library, compiled to WebAssembly, and nothing but memory lent to it. What its functions ask and promise
// stands in library/besklaun.h; a struct that is returned lies at a first pointer, as C lays it out on x86-64.

const Library = (() => {
  const TEXT_ROOM = 16385; // one byte more than a text may have, so that a longer one is seen to be one
  const TRACE_ROOM = 3145728; // as ./trace lends it
  const HELD_MOST = 5430; // BESKLAUN_HELD_COUNT(16, 64, 1)
  const MOIR_MOST = 3476; // BESKLAUN_MOIR_COUNT(16, 64)
  const LISTING_LEAST = 744;
  const MESSAGE_ROOM = 4096;
  const OUT_ROOM = 128; // the largest struct that is returned

  let wasm;
  let free = 0;
  const at = {}; // where what is lent again and again lies

  // Memory that stays lent, or is given back with `free = mark`.
  function lend(bytes) {
    const start = free;
    free += (bytes + 15) & ~15;
    const missing = free - wasm.memory.buffer.byteLength;
    if (missing > 0) wasm.memory.grow(Math.ceil(missing / 65536));
    return start;
  }

  function lentFor(work) {
    const mark = free;
    try {
      return work();
    } finally {
      free = mark;
    }
  }

  const bytesAt = (start, count) => new Uint8Array(wasm.memory.buffer, start, count);
  const numbersAt = (start, count) => new BigUint64Array(wasm.memory.buffer, start, count);
  const viewAt = (start, count) => new DataView(wasm.memory.buffer, start, count);
  const sizeAt = (view, place) => Number(view.getBigUint64(place, true));

  async function begin(base64) {
    const code = Uint8Array.from(atob(base64), (c) => c.charCodeAt(0));
    const made = await WebAssembly.instantiate(code, {});
    wasm = made.instance.exports;
    free = Number(wasm.__heap_base.value);
    free = (free + 15) & ~15;
    at.out = lend(OUT_ROOM);
    at.words = lend(MESSAGE_ROOM);
    at.value = lend(8 * 64);
    at.places = lend(8 * 48);
    at.first = lend(8 * HELD_MOST);
    at.moir = lend(8 * MOIR_MOST);
    at.tried = lend(8 * HELD_MOST);
    at.text = lend(TEXT_ROOM);
    at.trace = lend(TRACE_ROOM);
  }

  const has = (name) => typeof wasm[name] === 'function';

  // ---- text runs

  // A run with its trace; the first bench reports where it stopped, and, where the library has them, the words for it.
  function traced(bench, text) {
    const given = text.subarray(0, TEXT_ROOM);
    bytesAt(at.text, given.length).set(given);
    const lent = [at.out, at.text, BigInt(given.length), at.trace, BigInt(TRACE_ROOM)];
    const words = bench === 'first' && has('besklaun_explain_trace');
    if (words) wasm.besklaun_explain_trace(...lent, at.words, BigInt(MESSAGE_ROOM));
    else if (bench === 'first') wasm.besklaun_trace_text_with_report(...lent);
    else wasm.besklaun_moir_trace_text(...lent);
    const told = viewAt(at.out, OUT_ROOM);
    return {
      number: told.getUint8(0),
      entries: sizeAt(told, 8),
      bytes: bytesAt(at.trace, sizeAt(told, 16)).slice(),
      stop: bench === 'moir' ? null : stopAt(told, 24),
      words: words ? new TextDecoder().decode(bytesAt(at.words, sizeAt(told, 64))) : null,
    };
  }

  function stopAt(view, place) {
    return {
      kind: view.getUint8(place),
      place: sizeAt(view, place + 8),
      n: sizeAt(view, place + 16),
      w: sizeAt(view, place + 24),
      process: sizeAt(view, place + 32),
    };
  }

  // ---- the lists of numbers that are a state

  const counts = {
    first: (n, w) => 310 + 5 * n * w,
    moir: (n, w) => 340 + (3 * n + 1) * w,
  };

  function lendValue(w, word) {
    numbersAt(at.value, w).fill(BigInt(word));
  }

  function setUp(bench, n, w, word) {
    const count = counts[bench](n, w);
    numbersAt(at[bench], count).fill(0n);
    lendValue(w, word);
    const sizes = [BigInt(count), BigInt(n), BigInt(w)];
    if (bench === 'moir') return wasm.besklaun_moir_set_up(at.moir, ...sizes, at.value, BigInt(w));
    return wasm.besklaun_held_set_up(at.first, ...sizes, 1n, at.value, BigInt(w));
  }

  // An order: 0 a step, 1 an LL, 2 an SC of `word`, 3 a VL. The number of the refusal, 0 for none.
  function stepped(bench, n, w, process, order, word) {
    return steppedAt(at[bench], bench, n, w, process, order, word);
  }

  function steppedAt(list, bench, n, w, process, order, word) {
    if (order === 2) lendValue(w, word);
    const count = BigInt(counts[bench](n, w));
    const words = order === 2 ? BigInt(w) : 0n;
    if (bench === 'moir') wasm.besklaun_moir_step(at.out, list, count, BigInt(process), order, at.value, words);
    else wasm.besklaun_held_step(at.out, list, count, BigInt(process), order, 0n, at.value, words);
    return bytesAt(at.out, 1)[0];
  }

  // What a command would be told, on a copy.
  function tried(bench, n, w, process, order, word) {
    const count = counts[bench](n, w);
    numbersAt(at.tried, count).set(numbersAt(at[bench], count));
    return steppedAt(at.tried, bench, n, w, process, order, word);
  }

  const held = (bench, n, w) => numbersAt(at[bench], counts[bench](n, w)).slice();

  function hold(bench, list) {
    numbersAt(at[bench], list.length).set(list);
  }

  // X's links in the list that is held now.
  const links = () => Number(numbersAt(at.first, 134)[133]);

  // Where each buffer of the list that is held now is: besklaun_held_places.
  function places(n, w) {
    const count = BigInt(counts.first(n, w));
    const number = wasm.besklaun_held_places(at.first, count, 0n, at.places, BigInt(3 * n));
    return number ? null : Array.from(numbersAt(at.places, 3 * n), Number);
  }

  // ---- the judge

  // `value` and `log` are BigInts, as docs/JUDGE.md has them.
  function judged(n, w, value, log) {
    return lentFor(() => {
      const [v, l] = [lend(8 * value.length), lend(8 * log.length)];
      numbersAt(v, value.length).set(value);
      numbersAt(l, log.length).set(log);
      const counted = [v, BigInt(value.length), l, BigInt(log.length)];
      wasm.besklaun_judge_with_reason(at.out, BigInt(n), BigInt(w), ...counted);
      const told = viewAt(at.out, 24);
      return {
        number: told.getUint8(0),
        yes: told.getUint8(1) === 1,
        condition: told.getUint8(2),
        given: told.getUint8(3) === 1,
        truth: told.getUint8(4) === 1,
        call: sizeAt(told, 8),
        other: sizeAt(told, 16),
      };
    });
  }

  // ---- board traces

  function boardRun(n, w, word, file) {
    return lentFor(() => {
      const room = file.length + LISTING_LEAST;
      const [f, listing] = [lend(file.length), lend(room)];
      bytesAt(f, file.length).set(file);
      const lent = [f, BigInt(file.length), listing, BigInt(room)];
      wasm.besklaun_run_board(at.out, BigInt(n), BigInt(w), word, ...lent);
      const told = viewAt(at.out, 24);
      return { number: told.getUint8(0), done: sizeAt(told, 8) };
    });
  }

  return { begin, traced, setUp, stepped, tried, held, hold, links, places, judged, boardRun };
})();
