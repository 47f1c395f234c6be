'use strict';
// The beginning: the data of the page, the library, what the address asks for, and every button.

const Main = (() => {
  let data = {};
  let waiting = 0;
  let ready = false;

  // The address follows the entry, a little later, so that she can send it.
  function remember() {
    if (!ready) return;
    clearTimeout(waiting);
    waiting = setTimeout(() => {
      if (App.log()) return;
      try {
        history.replaceState(null, '', `#${Actions.link().split('#')[1]}`);
      } catch {
        // a browser that keeps the address of a file as it is: the link can still be copied
      }
    }, 500);
  }

  function openAsked(hash) {
    const asked = Share.asked(hash);
    App.setView(asked.view ?? App.view);
    const known = asked.example !== null && data.EXAMPLES[asked.example] !== undefined;
    if (asked.bytes) App.open({ bytes: asked.bytes, name: 'from a link' });
    else if (known) App.openExample(asked.example);
    else if (data.SCHEDULE !== null && data.SCHEDULE !== undefined) App.open({ bytes: textBytes(data.SCHEDULE), name: 'schedule' });
    else App.openExample(Object.keys(data.EXAMPLES)[0]);
    if (asked.chosen !== null && !App.log() && App.mainRun().begun && asked.chosen < App.mainRun().n) App.choose(asked.chosen);
    if (asked.entry !== null && asked.entry > 0) App.show(App.rowOf(App.mainBench(), Math.min(asked.entry, App.mainRun().entries)));
  }

  function buttons() {
    $('example').onchange = () => App.openExample($('example').value);
    $('view').onchange = () => App.setView($('view').value);
    $('undo').onclick = () => App.undo('undo');
    $('redo').onclick = () => App.undo('redo');
    for (const id of ['copyText', 'copyLink', 'copyTrace', 'copyLog', 'savePicture']) $(id).onclick = () => Actions[id]();
    $('help').onclick = () => Keys.help();
    $('first').onclick = () => App.show(0);
    $('back').onclick = () => App.show(App.row - 1);
    $('on').onclick = () => App.show(App.row + 1);
    $('last').onclick = () => App.show(App.rows());
    $('slider').oninput = () => App.show(Number($('slider').value));
    $('at').onchange = () => {
      App.show(Number($('at').value.replace(/\D/g, '')));
      $('at').value = App.row;
    };
    $('at').onfocus = () => $('at').select();
    $('chosen').onchange = () => App.choose($('chosen').value === '' ? null : Number($('chosen').value));
    $('zoomIn').onclick = () => Actions.zoom(1.5);
    $('zoomOut').onclick = () => Actions.zoom(1 / 1.5);
    $('zoomAll').onclick = () => Actions.zoom(0);
    $('askNo').onclick = () => $('ask').close();
    $('controls').addEventListener('click', jumped);
    for (const bench of ['first', 'moir']) $(`processes-${bench}`).addEventListener('click', ordered);
    $('calls').addEventListener('click', called);
    addEventListener('keydown', Keys.pressed);
    addEventListener('hashchange', () => openAsked(location.hash));
  }

  function jumped(event) {
    const button = event.target.closest('[data-jump]');
    if (button) Actions.jump(button.dataset.jump, event.shiftKey ? -1 : Number(button.dataset.way));
  }

  function ordered(event) {
    const button = event.target.closest('[data-do]');
    if (!button) return;
    const [what, p] = [button.dataset.do, Number(button.dataset.p)];
    if (what === 'choose') App.choose(App.chosen === p ? null : p);
    else if (what === 'halt') Actions.halt(p);
    else Actions.go(p, what, what === 'sc' ? null : 0);
  }

  function called(event) {
    const line = event.target.closest('[data-call]');
    const call = line && App.log().history.calls.find((one) => one.index === Number(line.dataset.call));
    if (call) App.show(call.moment);
  }

  async function begin() {
    try {
      data = JSON.parse($('data').textContent);
      await Library.begin(data.WASM);
    } catch (error) {
      say(`This page has no proved code in it, or the browser can't run it: ${error.message}`);
      return;
    }
    $('made').textContent = `Proved code of sum ${data.SUM}, made with the kit ${data.KIT}. `
      + 'Traces, states and verdicts are the library’s; drawing them is not proved.';
    App.begin(data);
    Files.begin();
    buttons();
    openAsked(location.hash);
    ready = true;
    document.body.dataset.ready = '1';
  }

  return { begin, remember };
})();

Main.begin();
