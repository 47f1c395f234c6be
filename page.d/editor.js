'use strict';
// The text where it can be edited. Behind it lies the same text unseen, with the marks: the item of this entry, and the
// byte or item at which the text is refused.

const Editor = (() => {
  let shown = ''; // the text as it stands in the field

  // A file's own bytes may hold what a field can't: line ends are shown as line feeds.
  // Of what is far too long for a text the beginning is enough.
  const MOST = 20000;
  const decoded = (bytes) => new TextDecoder().decode(bytes.subarray(0, MOST)).replace(/\r\n?/g, '\n');

  function set(bytes) {
    const text = decoded(bytes);
    if (text === shown && $('text').value === text) return;
    shown = text;
    $('text').value = text;
  }

  // `marks`: { from, to, kind } in bytes; the later lies on top.
  function mark(bytes, marks) {
    const place = (at) => Math.min(shown.length, decoded(bytes.subarray(0, at)).length);
    const cuts = marks.filter(Boolean).map(({ from, to, kind }) => ({ from: place(from), to: place(to), kind }));
    cuts.sort((a, b) => a.from - b.from);
    let [out, done] = ['', 0];
    for (const { from, to, kind } of cuts) {
      if (from < done) continue;
      const words = shown.slice(from, to).replace(/^\n/, ' \n') || ' ';
      out += `${esc(shown.slice(done, from))}<mark class="${kind}">${esc(words)}</mark>`;
      done = Math.max(to, from);
    }
    $('marks').innerHTML = `${out}${esc(shown.slice(done))}\n `;
    follow();
  }

  function follow() {
    $('marks').scrollTop = $('text').scrollTop;
    $('marks').scrollLeft = $('text').scrollLeft;
  }

  // Brings a mark into sight, unless she is writing.
  function reveal() {
    if (document.activeElement === $('text')) return;
    const mark = $('marks').querySelector('mark.bad') ?? $('marks').querySelector('mark');
    if (!mark) return;
    const [top, tall] = [mark.offsetTop, $('text').clientHeight];
    if (top < $('text').scrollTop || top > $('text').scrollTop + tall - 24) $('text').scrollTop = top - tall / 2;
    follow();
  }

  // `onText` is told the new bytes, and whether they are a leaf of their own: she has paused before.
  function begin(onText, onLeave) {
    let last = 0;
    $('text').addEventListener('scroll', follow);
    $('text').addEventListener('blur', onLeave);
    $('text').addEventListener('input', () => {
      shown = $('text').value;
      const now = Date.now();
      onText(textBytes(shown), now - last > 1000);
      last = now;
    });
  }

  return { begin, set, mark, reveal, MOST };
})();
