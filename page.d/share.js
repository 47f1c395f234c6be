'use strict';
// What she takes away: the text, a link to this entry with the text in it, the trace, the log, a picture.

const Share = (() => {
  const PLAIN = /[0-9lvs.!()]/;

  // A text in an address: a space is _, a line feed ~, any byte that no text has %XX.
  function packed(bytes) {
    return Array.from(bytes, (byte) => {
      const letter = String.fromCharCode(byte);
      if (PLAIN.test(letter)) return letter;
      return { ' ': '_', '\n': '~' }[letter] ?? `%${byte.toString(16).padStart(2, '0')}`;
    }).join('');
  }

  function unpacked(text) {
    const bytes = [];
    for (let i = 0; i < text.length; i++) {
      const code = text[i] === '%' ? parseInt(text.slice(i + 1, i + 3), 16) : NaN;
      if (!Number.isNaN(code)) i += 2;
      bytes.push(Number.isNaN(code) ? { _: 32, '~': 10 }[text[i]] ?? text.charCodeAt(i) & 255 : code);
    }
    return Uint8Array.from(bytes);
  }

  function address({ bytes, example, entry, view, chosen }) {
    const text = example ? `x=${example}` : `t=${packed(bytes)}`;
    const more = `${view === 'first' ? '' : `&b=${view}`}${chosen === null ? '' : `&p=${chosen}`}`;
    return `#e=${entry}${more}&${text}`;
  }

  // What an address asks for. The text comes last, and may hold anything.
  function asked(hash) {
    const found = {};
    for (const part of hash.replace(/^#/, '').split('&')) {
      const cut = part.indexOf('=');
      if (cut > 0) found[part.slice(0, cut)] = part.slice(cut + 1);
    }
    const number = (text) => (/^\d{1,5}$/.test(text ?? '') ? Number(text) : null);
    return {
      bytes: found.t === undefined ? null : unpacked(found.t),
      example: found.x === undefined ? null : decodeURIComponentSafely(found.x),
      entry: number(found.e), chosen: number(found.p), view: found.b,
    };
  }

  function decodeURIComponentSafely(text) {
    try {
      return decodeURIComponent(text);
    } catch {
      return text;
    }
  }

  async function copy(text, what) {
    try {
      await navigator.clipboard.writeText(text);
      say(`${what} copied.`);
    } catch {
      copyByHand(text, what);
    }
  }

  // Where the clipboard is closed to a page, the text is selected for the reader's own copying.
  function copyByHand(text, what) {
    const area = $('byHand');
    area.value = text;
    const done = () => $('copied').close();
    $('copiedWhat').textContent = what;
    if (!$('copied').open) $('copied').showModal();
    area.focus();
    area.select();
    try {
      if (document.execCommand('copy')) {
        done();
        say(`${what} copied.`);
      }
    } catch {
      say(`${what}: select and copy it.`);
    }
  }

  function save(name, type, content) {
    const address = URL.createObjectURL(new Blob([content], { type }));
    const link = document.createElement('a');
    link.href = address;
    link.download = name;
    link.click();
    setTimeout(() => URL.revokeObjectURL(address), 1000);
    say(`${name} saved.`);
  }

  return { address, asked, copy, save };
})();
