'use strict';
// Why a text is refused, in the words of ./schedule (crates/messages), from what the proved run reports of its stop: its
// kind, its place and N and W. The words are chosen here as that crate chooses them; where the library tells its own, which
// it does of the first bench alone, those are shown (run.js).

const Refusal = (() => {
  const [NOT_READ, AT_FAULT, NO_ITEM] = [0, 1, 2];
  const ORDER_MARK = [0xef, 0xbb, 0xbf];
  const isDigit = (byte) => byte >= 48 && byte <= 57;
  const char = (byte) => (byte === undefined ? '' : String.fromCharCode(byte));

  // What the bytes before a place come to (crates/positions).
  function look(bytes, place) {
    const seen = { feeds: 0, since: 0, spaces: 0, last: '', earlier: '', mark: '', solid: '' };
    for (let i = 0; i < Math.min(place, bytes.length); i++) {
      const byte = bytes[i];
      const gap = byte === 32 || byte === 10;
      if (byte === 10) [seen.feeds, seen.since] = [seen.feeds + 1, 0];
      else seen.since++;
      if (byte === 32) seen.spaces++;
      [seen.earlier, seen.last] = [seen.last, char(byte)];
      if (!isDigit(byte)) seen.mark = char(byte);
      if (!gap) seen.solid = char(byte);
    }
    return seen;
  }

  const placed = (seen) => `${seen.feeds + 1}:${seen.since + 1}`;
  const digit = (letter) => letter >= '0' && letter <= '9' && letter !== '';

  function expected(seen, here) {
    const { last } = seen;
    if (digit(last) && digit(here)) return strayDigit(seen);
    if (seen.feeds === 0) return inFirstLine(seen.spaces, digit(last));
    if (digit(last) && seen.mark !== 's') return afterNumber(here);
    if (last === 's') return 'after s comes a number';
    if (last === '\n' || last === ' ' || last === '(') return beforeItem(seen.solid, here);
    return afterItem(here);
  }

  function strayDigit(seen) {
    const leading = seen.last === '0' && !digit(seen.earlier);
    return leading ? 'a number has no leading zero' : 'a number is at most 4,294,967,295';
  }

  function inFirstLine(spaces, inNumber) {
    const after = ['after N comes one space', 'after W comes one space', 'after the initial number comes a line feed'];
    const before = ['the text begins with N, a number', 'after N and one space comes W, a number',
      'after W and one space comes the initial number'];
    return (inNumber ? after : before)[Math.min(spaces, 2)];
  }

  function afterNumber(here) {
    if (here === '(') return 'the count of a group is 1 to 255';
    return 'after a process number comes one of l v . ! s, or ( after a count';
  }

  function beforeItem(solid, here) {
    if (here === '') return 'an open group ends with )';
    if (here === ')') return solid === '(' ? 'a group has at least one item' : 'no group is open';
    return 'an item begins with a process number, or with the count of a group';
  }

  function afterItem(here) {
    if (here === '') return 'an open group ends with )';
    return here === ')' ? 'no group is open' : 'after an item comes a space, a line feed or the ) of its group';
  }

  function named(byte) {
    const names = { 9: 'a tab', 10: 'a line feed', 13: 'a carriage return', 32: 'a space' };
    return names[byte] ?? (byte > 32 && byte < 127 ? char(byte) : `byte ${byte}`);
  }

  function unclosed(bytes) {
    for (let i = bytes.length - 1, closed = 0; i >= 0; i--) {
      if (bytes[i] === 41) closed++;
      else if (bytes[i] === 40 && closed-- === 0) return i;
    }
    return -1;
  }

  function fault(number, bytes, place) {
    const seen = look(bytes, place);
    const where = `line ${seen.feeds + 1}, column ${seen.since + 1}: `;
    if (number === 11) return `${where}groups nest at most eight deep, and this ( would open a ninth`;
    if (ORDER_MARK.every((byte, i) => bytes[place + i] === byte)) {
      return `${where}the text begins with a byte order mark; save it as plain text, without one`;
    }
    const what = where + expected(seen, char(bytes[place]));
    if (place < bytes.length) return `${what}; here is ${named(bytes[place])}`;
    const open = unclosed(bytes);
    return `${what}; here the text ends${open < 0 ? '' : `; its ( is at ${placed(look(bytes, open))}`}`;
  }

  function outOfRange(number, { n, w }) {
    if (number === 1) return `line 1, column 1: N is ${n}; it is 1 to 16`;
    return `line 1, column ${String(n).length + 2}: W is ${w}; it is 1 to 64`;
  }

  // The item that stands at a place, as its bytes are; no more than 24 of them are shown.
  function itemShown(bytes, place) {
    let end = place;
    while (end < bytes.length && end < place + 24 && /[0-9lv.!s]/.test(char(bytes[end]))) end++;
    return latin(bytes.subarray(place, end));
  }

  function itemLength(bytes, place) {
    let end = place;
    while (end < bytes.length && /[0-9lv.!s]/.test(char(bytes[end]))) end++;
    return Math.max(1, end - place);
  }

  const LIMITS = {
    12: '60,000 entries are done, which is the most; ',
    14: 'there is no room for another line; ',
  };

  // `busy` tells the open call of a process in words, or is null for an idle one.
  function cause(number, stop, busy) {
    const { process, n } = stop;
    const limit = LIMITS[number] ?? '';
    if (process > 15) return `${limit}its process number is above 15, and so not below N, which is ${n}`;
    if (process >= n) return `${limit}process ${process} is not below N, which is ${n}`;
    const call = busy(process);
    const state = call ? `process ${process} is busy: ${call}` : `process ${process} is idle`;
    return `${limit}${state}${number === 7 ? ', and no LL of it was ever answered' : ''}`;
  }

  // What is told, and the bytes that it is about.
  function told(run, bytes, busy) {
    const { number, entries, stop } = run;
    const first = `refused ${number}: `;
    if (stop.kind === NOT_READ) return { words: `${first}the text has more than 16,384 bytes`, from: 16384, to: 16385 };
    if (stop.kind === AT_FAULT) {
      return { words: first + fault(number, bytes, stop.place), from: stop.place, to: stop.place + 1 };
    }
    if (stop.kind === NO_ITEM) {
      const from = number === 1 ? 0 : String(stop.n).length + 1;
      return { words: first + outOfRange(number, stop), from, to: from + String(number === 1 ? stop.n : stop.w).length };
    }
    const where = `entry ${entries + 1}, item ${itemShown(bytes, stop.place)} at ${placed(look(bytes, stop.place))}: `;
    const to = stop.place + itemLength(bytes, stop.place);
    return { words: first + where + cause(number, stop, busy), from: stop.place, to };
  }

  return { told, look, placed };
})();
