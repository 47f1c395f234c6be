'use strict';
// Small things that all parts use.

const $ = (id) => document.getElementById(id);

const ESCAPED = { '&': '&amp;', '<': '&lt;', '>': '&gt;', '"': '&quot;' };
const esc = (text) => String(text).replace(/[&<>"]/g, (letter) => ESCAPED[letter]);

const clamp = (number, least, most) => Math.max(least, Math.min(most, number));

// A process is told by its number everywhere; its colour only helps the eye, and comes again after eight.
const hue = (p) => `var(--p${p % 8})`;
const chip = (p) => `<span class="chip" style="--hue:${hue(p)}">${p}</span>`;

// What is done is said in one line below the head, which a screen reader speaks.
function say(words) {
  $('said').textContent = words;
}

// Puts elements into their parent, each given as HTML: only those that are not as they were are made anew.
function patch(root, parts) {
  const was = root.shownParts ?? [];
  if (was.length !== parts.length || root.children.length !== parts.length) root.innerHTML = parts.join('');
  else parts.forEach((part, i) => { if (part !== was[i]) root.children[i].outerHTML = part; });
  root.shownParts = parts;
}

// An element with nothing in it but what its parts will be; made once as long as `frame` stays.
function framed(root, frame) {
  if (root.shownFrame === frame) return;
  root.innerHTML = frame;
  root.shownFrame = frame;
}
