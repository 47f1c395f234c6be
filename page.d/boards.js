'use strict';
// A board's trace file (docs/BOARDS.md): run by the library, and shown as the schedule of the same commands. The words are
// ./board's.

const Boards = (() => {
  const MOST_BYTES = 16777216;
  const TRAILER = 12;
  const SIGN = [0x54, 0x52, 0x41, 0x4c];

  const numberAt = (bytes, at) => new DataView(bytes.buffer, bytes.byteOffset + at, 4).getUint32(0, true);
  const isBoard = (bytes) => bytes.length >= TRAILER && SIGN.every((byte, i) => bytes[bytes.length - 4 + i] === byte);

  // Where the records lie in a file whose trailer is good.
  function range(bytes) {
    const end = bytes.length - TRAILER;
    return { from: numberAt(bytes, end), end };
  }

  function recordAt(bytes, at) {
    const [process, order] = [bytes[at + 8], bytes[at + 9]];
    return { p: process, order: [STEP, LL, SC, VL][order] ?? STEP, word: order === 2 ? numberAt(bytes, at + 4) : 0 };
  }

  // The processes that a file names, for the number that is offered.
  function processes(bytes) {
    const { from, end } = range(bytes);
    let most = 0;
    if (from > end) return 1;
    for (let at = from; at + 12 <= end; at += 12) most = Math.max(most, bytes[at + 8]);
    return Math.min(16, most + 1);
  }

  // The schedule of a file's records up to the one that is refused, and what the run of the file says.
  function read(bytes, n, w, word) {
    const run = Library.boardRun(n, w, word, bytes);
    if (run.number === 25 || run.number === 26) return { run, refusal: `refused ${run.number}: ${fault(run.number, bytes)}` };
    if (run.number === 1) return { run, refusal: `refused 1: N is ${n}, and not 1 to 16` };
    if (run.number === 2) return { run, refusal: `refused 2: W is ${w}, and not 1 to 64` };
    const most = run.done + (run.number ? 1 : 0);
    const refusal = run.number ? `refused ${run.number}: ${stopped(run, n, bytes)}` : '';
    if (most > 60000) return { run, refusal, tooMuch: `${Words.count(most)} commands are more than the 60,000 of a schedule` };
    const { from } = range(bytes);
    const items = Array.from({ length: most }, (_, i) => recordAt(bytes, from + 12 * i));
    const text = foldedText(`${n} ${w} ${word}`, items);
    if (text.length > 16384) return { run, refusal, tooMuch: `as a schedule it has ${Words.count(text.length)} bytes, and a schedule 16,384 at the most` };
    return { run, refusal, text };
  }

  function stopped(run, n, bytes) {
    const at = range(bytes).from + 12 * run.done;
    const [process, order] = [bytes[at + 8], bytes[at + 9]];
    const asked = ['a step', 'the start of an LL', 'the start of an SC', 'the start of a VL'][order & 3];
    const why = {
      4: `N is ${n}, so there is no process ${process}`, 5: 'its call is still open', 6: 'it is idle',
      7: 'no LL of it was answered yet',
    }[run.number] ?? 'it is refused';
    return `record ${run.done + 1}, at byte ${at}: ${asked} of process ${process}, but ${why}`;
  }

  function fault(number, bytes) {
    return number === 25 ? badTrailer(bytes) : badRecord(bytes);
  }

  function badTrailer(bytes) {
    if (bytes.length > MOST_BYTES) return 'the file is longer than 16,777,216 bytes';
    if (bytes.length < TRAILER) return `the file has ${bytes.length} bytes, and a trailer alone has 12`;
    if (!isBoard(bytes)) return 'the last four bytes are not 54 52 41 4C hex, the end of a trailer';
    const at = bytes.length - TRAILER;
    const [offset, count] = [numberAt(bytes, at), numberAt(bytes, at + 4)];
    return `offset ${offset} and count ${count} end the records at byte ${offset + 12 * count}, but the trailer starts at byte ${at}`;
  }

  function badRecord(bytes) {
    const { from, end } = range(bytes);
    let before = 0;
    for (let at = from; at < end; at += 12) {
      const wrong = wrongIn(bytes, at, before);
      if (wrong) return `the record at byte ${at}: ${wrong}`;
      before = numberAt(bytes, at);
    }
    return 'a bad record';
  }

  function wrongIn(bytes, at, before) {
    const [tick, value, order] = [numberAt(bytes, at), numberAt(bytes, at + 4), bytes[at + 9]];
    if (order > 3) return `its order is ${order}, and 3 is the largest`;
    if (order !== 2 && value !== 0) return `its value is ${value}, but its order is ${order}, and only 2, SC, has a value`;
    if (bytes[at + 10] || bytes[at + 11]) return 'its last two bytes are not zero';
    return tick < before ? `its tick is ${tick}, below ${before}, the tick before it` : '';
  }

  return { isBoard, processes, read, MOST_BYTES };
})();
