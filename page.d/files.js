'use strict';
// A file that is opened or dropped: a board's trace file by its trailer, a log by its having nothing but numbers, else a
// schedule, whatever its bytes are.

const Files = (() => {
  const MOST_BYTES = 16777216;

  async function take(file) {
    if (file.size > MOST_BYTES + 1) {
      say(`${file.name} has ${Words.count(file.size)} bytes, and no file that is read here has more than 16,777,216.`);
      return;
    }
    try {
      open(file.name, new Uint8Array(await file.arrayBuffer()));
    } catch (error) {
      say(`${file.name} can't be read: ${error.message}`);
    }
  }

  function open(name, bytes) {
    if (Boards.isBoard(bytes)) askBoard(name, bytes);
    else if (/\.log$/i.test(name) || isLog(bytes)) openLog(name, bytes);
    else App.open({ bytes, name });
  }

  // A schedule without items is numbers alone, too: three on one line.
  function isLog(bytes) {
    const text = latin(bytes.subarray(0, 4096));
    if (!/^[\s]*\d/.test(text) || /^\d+ \d+ \d+\n\s*$/.test(text)) return false;
    const numbers = text.split(/\s+/).filter((word) => /^\d+$/.test(word)).length;
    const others = text.split(/\s+/).filter((word) => word && !/^\d+$/.test(word));
    return others.length === 0 || (numbers > 8 && others.every((word) => !/[lsv.!()]/.test(word)));
  }

  function openLog(name, bytes) {
    try {
      App.openLog({ name, model: Logs.read(bytes) });
    } catch (error) {
      if (!(error instanceof Logs.NoLog)) throw error;
      say(`${name} is no log: ${error.message}.`);
    }
  }

  function askBoard(name, bytes) {
    $('boardName').textContent = `${name}, ${Words.count(bytes.length)} bytes. A trace file does not say on which bench it ran:`;
    $('boardN').value = Boards.processes(bytes);
    $('boardW').value = 1;
    $('boardK').value = 0;
    $('boardWrong').textContent = '';
    $('board').onsubmit = (event) => {
      const given = ['boardN', 'boardW', 'boardK'].map((id) => Number($(id).value));
      const wrong = runBoard(name, bytes, ...given);
      $('boardWrong').textContent = wrong;
      if (wrong) event.preventDefault();
    };
    $('board').showModal();
    $('boardN').select();
  }

  // What is wrong, or an empty text where the file is shown.
  function runBoard(name, bytes, n, w, word) {
    if (word > 4294967295) return 'K is at most 4,294,967,295';
    const read = Boards.read(bytes, n, w, word);
    if (!read.text && !read.tooMuch) return read.refusal;
    const done = `The run of ${name}: ${Words.count(read.run.done)} commands done${read.refusal ? `; ${read.refusal}` : ''}.`;
    if (read.tooMuch) return `${done} It can't be stepped: ${read.tooMuch}.`;
    App.open({ bytes: textBytes(read.text), name, note: `${done} Shown is the schedule of the same commands.` });
    const shown = App.mainRun().told;
    if (shown.number !== read.run.number || shown.entries !== read.run.done) say('The run of the file and that of its schedule do not agree.');
    return '';
  }

  function begin() {
    $('open').onclick = () => $('file').click();
    $('file').onchange = () => {
      if ($('file').files[0]) take($('file').files[0]);
      $('file').value = '';
    };
    $('boardNo').onclick = () => $('board').close();
    for (const kind of ['dragover', 'dragenter']) addEventListener(kind, (event) => dragged(event, true));
    addEventListener('dragleave', (event) => event.relatedTarget === null && dragged(event, false));
    addEventListener('drop', (event) => {
      dragged(event, false);
      if (event.dataTransfer.files[0]) take(event.dataTransfer.files[0]);
    });
  }

  function dragged(event, over) {
    event.preventDefault();
    document.body.classList.toggle('dropping', over);
  }

  return { begin, open };
})();
