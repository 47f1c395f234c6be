'use strict';
// The words for what is shown, as ./look and ./schedule have them (docs/TRACE.md, docs/FIGURE-2.md, docs/NOTATION.md).

const Words = (() => {
  const KINDS = ['', 'LL', 'SC', 'VL'];

  // What the access at a point of Figure 2 does; 24, 25 and 26 are second accesses of lines 7, 12 and 14.
  const FIGURE_2 = {
    1: 'asks for help, with its own buffer to be given in exchange',
    2: 'reads which buffer has the present value, and links to X',
    3: 'copies the buffer that X named',
    4: 'looks whether somebody has helped',
    5: 'reads X once more, and links to it anew',
    6: 'copies the buffer that X names now',
    7: 'asks whether X is still the same',
    8: 'looks whether help is still asked for',
    9: 'takes the request back, unless somebody helps just now',
    10: 'takes the buffer that lies there as its own',
    11: 'copies the value into its own buffer',
    12: 'looks whether Bank knows the buffer of the value that was read',
    13: 'writes the buffer of the value that was read into Bank',
    14: 'looks whether the process whose turn it is asks for help',
    15: 'hands over its own buffer, which holds the value of its last LL',
    17: 'copies the words offered into its own buffer',
    18: 'reads which buffer has the oldest value that is kept',
    19: 'makes its own buffer and the next sequence number the present ones, if its link holds',
    23: 'asks whether the link of its last LL still holds',
    24: 'copies the buffer that was handed over',
    25: 'asks whether X is still the same',
    26: 'asks whether X is still the same',
  };

  // The same of Figure 6, Moir's; Copy's lines in an SC have 20 more.
  const FIGURE_6 = {
    2: 'reads the segment, and sees by its tag whether it is to be copied',
    4: 'reads the word that the header’s process has announced',
    5: 'puts that word into the segment, if nobody changed it meanwhile',
    6: 'reads the segment again',
    7: 'looks whether the header is still the same',
    10: 'reads the header, and keeps its tag as the link',
    13: 'asks whether the header still has the tag of its last WLL',
    14: 'looks whether the header still has the tag of its last WLL',
    17: 'announces a word of its SC in its own row',
    19: 'puts the next tag and its own number into the header, if it is still the same',
  };

  const CAUSES = {
    1: 'N is not 1 to 16', 2: 'W is not 1 to 64', 3: 'too little memory is lent', 4: 'the process is not below N',
    5: 'it has an open call', 6: 'it has no open call', 7: 'no LL of it was ever answered',
    8: 'a value that has not W words', 12: '60,000 entries are done, which is the most',
    14: 'there is no room for another line', 16: 'more than 512 calls',
  };

  const kindOf = (point) => (point === 0 ? 0 : point <= 11 || point === 24 ? 1 : point === 23 ? 3 : 2);
  const kindOfSix = (point) => (point === 0 ? 0 : point <= 10 ? 1 : point === 13 ? 3 : 2);
  const lineOf = (point) => ({ 24: 7, 25: 12, 26: 14 }[point] ?? point);
  const lineOfSix = (point) => (point > 20 ? point - 20 : point);
  const steps = (count) => (count === 1 ? '1 own step' : `${count} own steps`);

  // Words that are all the same are said once, and of more than eight the runs of the same one.
  function row(words) {
    if (words.length > 1 && words.every((word) => word === words[0])) return `${words[0]}, ${words.length} times`;
    return words.length <= 8 ? words.join(' ') : runs(words);
  }

  function runs(words) {
    const said = [];
    for (let from = 0, to; from < words.length; from = to) {
      for (to = from + 1; to < words.length && words[to] === words[from]; to++);
      said.push(to - from === 1 ? `[${from}] ${words[from]}` : `[${from} to ${to - 1}] ${words[from]}`);
    }
    return said.join('  ');
  }

  // Moir's LL is called WLL, since it may fail.
  const kind = (bench, number) => (bench === 'moir' && number === 1 ? 'WLL' : KINDS[number]);

  const count = (number) => String(number).replace(/\B(?=(\d{3})+$)/g, ',');

  // An answer in a few words: an LL's words, the truth of an SC or VL, or the process that a WLL names.
  function answer(told) {
    if (told.letter === 'L') return row(told.words);
    if (told.letter === 'N') return `names process ${told.words[0]}`;
    return told.words[0] === '1' ? 'true' : 'false';
  }

  return { KINDS, kind, FIGURE_2, FIGURE_6, CAUSES, kindOf, kindOfSix, lineOf, lineOfSix, steps, row, count, answer };
})();
