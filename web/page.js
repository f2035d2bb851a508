'use strict';

// In pixels, as style.css has it.
const LINE_HEIGHT = 20;
const STATUS = ['done', 'ended in an error', 'refused', 'met a limit', '', '', 'no memory', 'malformed'];
const data = JSON.parse(document.getElementById('data').textContent);
const pieces = colourer(data.grammar);
const at = (id) => document.getElementById(id);

// The files of the program, of which one is shown: { name, text }.
let files = [];
let shown = 0;
// The place of an error: { name, line, col }.
let wrong = null;

// ---- The worker

let worker, ready, busy = null;

function startWorker() {
  const source = at('worker').textContent;
  worker = new Worker(URL.createObjectURL(new Blob([source], { type: 'text/javascript' })));
  ready = false;
  worker.onmessage = ({ data: message }) => onMessage(message);
  worker.onerror = (event) => onMessage({ trap: event.message });
  const module = Uint8Array.from(atob(at('module').textContent.trim()), (letter) => letter.charCodeAt(0));
  worker.postMessage({ module });
}

function onMessage(message) {
  const done = busy;
  if (message.ready) {
    ready = true;
    say(busy ? 'running' : 'ready');
    if (busy) worker.postMessage(busy.request);
    return;
  }
  setBusy(null);
  if (message.trap) {
    worker.terminate();
    startWorker();
    say('trapped');
    showReport(`trap: ${message.trap}\nThe module's instance was thrown away, and the next run has a new one.`, true);
    return;
  }
  say(`${STATUS[message.answer.status]} · ${message.milliseconds.toFixed(0)} ms`);
  if (done) done.then(message.answer);
}

function ask(request, then) {
  if (busy) return;
  setBusy({ request, then });
  say('running');
  if (ready) worker.postMessage(request);
}

function stop() {
  if (!busy) return;
  worker.terminate();
  setBusy(null);
  startWorker();
  say('stopped');
  showReport('stopped: the worker was ended, and with it the run.', true);
}

function setBusy(it) {
  busy = it;
  for (const id of ['run', 'check', 'test', 'format', 'ask', 'first', 'back', 'forth', 'last', 'go']) at(id).disabled = Boolean(it);
  at('stop').disabled = !it;
}

function say(text) {
  at('state').textContent = text;
}

// ---- The editor

const CLASSES = ['comment', 'string', 'symbol', 'storage', 'language', 'function', 'numeric', 'character'];
const classOf = (name) => CLASSES.find((it) => name.includes(it)) || '';

// The pieces of a text by their colours; neighbours of one colour are one.
function coloured(text) {
  const found = [];
  for (const [name, piece] of pieces(text)) {
    const colour = classOf(name || '');
    const last = found[found.length - 1];
    if (last && last.colour === colour) last.text += piece;
    else found.push({ colour, text: piece });
  }
  return found;
}

const wordAt = (text, at) => /^(?:\w+|[^]|)/.exec(text.slice(at, at + 100))[0];

function colour() {
  const text = at('text').value;
  const mark = wrong && wrong.name === files[shown].name ? offsetOf(text, wrong.line, wrong.col) : -1;
  const word = mark < 0 ? '' : wordAt(text, mark).replace('\n', '');
  const found = document.createDocumentFragment();
  let begin = 0;
  for (const piece of coloured(text)) {
    const span = document.createElement('span');
    span.className = piece.colour;
    const within = mark - begin;
    if (word && within >= 0 && within < piece.text.length) {
      const marked = document.createElement('mark');
      marked.textContent = piece.text.slice(within, within + word.length);
      span.append(piece.text.slice(0, within), marked, piece.text.slice(within + word.length));
    } else {
      span.textContent = piece.text;
    }
    found.append(span);
    begin += piece.text.length;
  }
  // At the end of a text or of a line there is nothing to mark but the place.
  if (mark >= 0 && !word) found.append(Object.assign(document.createElement('mark'), { textContent: ' ' }));
  found.append('\n');
  at('colours').replaceChildren(found);
  showNumbers(text.split('\n').length, mark < 0 ? 0 : wrong.line);
  follow();
}

// The numbers of the lines, of which that of an error is marked.
function showNumbers(lines, marked) {
  const upTo = (from, to) => Array.from({ length: Math.max(0, to - from) }, (_, i) => `${from + i + 1}\n`).join('');
  const line = Object.assign(document.createElement('span'), { className: 'wrong', textContent: marked ? `${marked}\n` : '' });
  at('numbers').replaceChildren(upTo(0, marked ? marked - 1 : lines), line, upTo(marked || lines, lines));
}

function follow() {
  at('colours').scrollTop = at('numbers').scrollTop = at('text').scrollTop;
  at('colours').scrollLeft = at('text').scrollLeft;
}

// Where a line and a column are in a text. A column counts bytes, of which a character of the text has one to four.
function offsetOf(text, line, col) {
  let begin = 0;
  for (let i = 1; i < line; i++) begin = text.indexOf('\n', begin) + 1;
  const encoder = new TextEncoder();
  let bytes = 1, offset = begin;
  for (const character of text.slice(begin)) {
    if (bytes >= col || character === '\n') break;
    bytes += encoder.encode(character).length;
    offset += character.length;
  }
  return offset;
}

function showFile(number) {
  shown = number;
  at('text').value = files[shown].text;
  showTabs();
  colour();
}

function showTabs() {
  at('tabs').replaceChildren(...files.map((file, number) => {
    const tab = document.createElement('button');
    tab.role = 'tab';
    tab.textContent = file.name;
    tab.ariaSelected = String(number === shown);
    tab.setAttribute('aria-selected', String(number === shown));
    tab.tabIndex = number === shown ? 0 : -1;
    if (wrong && wrong.name === file.name) tab.className = 'wrong';
    tab.onclick = () => showFile(number);
    tab.onkeydown = ({ key }) => {
      const step = { ArrowLeft: -1, ArrowRight: 1 }[key];
      if (!step) return;
      showFile((shown + step + files.length) % files.length);
      at('tabs').children[shown].focus();
    };
    return tab;
  }));
  at('remove').disabled = files.length === 1;
}

function goTo(place) {
  const number = files.findIndex((file) => file.name === place.name);
  if (number < 0) return;
  showFile(number);
  const text = at('text');
  text.focus();
  const offset = offsetOf(text.value, place.line, place.col);
  text.setSelectionRange(offset, offset);
  bringToView(place);
}

// ---- Commands

const words = (text) => text.split(/\s+/).filter((word) => word);
const names = () => files.map((file) => file.name);
const texts = () => files.map((file) => [file.name, file.text]);
const library = () => (at('lib').checked ? ['--lib'] : []);
const limits = () => ['steps', 'cells', 'depth', 'out'].filter((id) => at(id).value.trim()).map((id) => `--${id}=${at(id).value.trim()}`);

function clear() {
  wrong = null;
  at('output').textContent = '';
  showReport('', false);
  showTabs();
  colour();
}

function command(line) {
  clear();
  ask({ words: line, files: texts() }, showAnswer);
}

function run() {
  const given = words(at('arguments').value);
  command(['run', ...library(), ...limits(), '--trace', '--stats', ...names(), ...(given.length ? ['--', ...given] : [])]);
}

const check = () => command(['check', ...library(), ...names()]);
const test = () => command(['test', ...library(), ...limits(), ...names()]);

function format() {
  clear();
  const number = shown;
  ask({ words: ['format', files[number].name], files: texts() }, (answer) => {
    if (answer.status !== 0) return showAnswer(answer);
    files[number].text = answer.out;
    showFile(number);
    showReport('laid out', false);
  });
}

function audit() {
  clear();
  at('verdict').textContent = '';
  const asked = { options: library(), names: names(), denied: words(at('denied').value), class: at('class').value.trim() || names()[0].replace(/\.ns$/, '') };
  ask({ audit: asked, files: texts() }, (answer) => {
    at('verdict').textContent = answer.out.trim();
    showReport(answer.err, answer.status !== 0);
  });
}

// ---- The replay

// The end of every run that its limits allow.
const LAST = 1_000_000_000_000;
const numberIn = (id) => Math.min(LAST, Math.max(0, Math.floor(Number(at(id).value) || 0)));

// Goes to a step of the run of the first file, and shows what is used there and what was printed up to there.
function replay(step) {
  clear();
  const asked = { options: library(), limits: limits(), file: names()[0], step: Math.min(LAST, Math.max(0, step)) };
  ask({ replay: asked, files: texts() }, (answer) => {
    if (answer.status !== 0) return showAnswer(answer);
    at('step').value = answer.position;
    at('stood').textContent = answer.out.trim();
    at('output').textContent = answer.printed;
  });
}

const first = () => replay(0);
const last = () => replay(LAST);
const back = () => replay(numberIn('step') - numberIn('by'));
const forth = () => replay(numberIn('step') + numberIn('by'));
const go = () => replay(numberIn('step'));

// ---- What is shown

function showAnswer(answer) {
  at('output').textContent = answer.out;
  showReport(answer.err, answer.status !== 0);
}

// Shows a report, in which each place of a file leads there. The first one is marked in its text.
function showReport(text, isBad) {
  const report = at('report');
  report.className = isBad ? 'bad' : '';
  report.replaceChildren();
  let rest = 0;
  for (const found of text.matchAll(/([^\s:]+):(\d+):(\d+)/g)) {
    const place = { name: found[1], line: Number(found[2]), col: Number(found[3]) };
    if (!names().includes(place.name)) continue;
    const link = document.createElement('button');
    link.textContent = found[0];
    link.onclick = () => goTo(place);
    report.append(text.slice(rest, found.index), link);
    rest = found.index + found[0].length;
    if (!wrong) wrong = place;
  }
  report.append(text.slice(rest));
  if (wrong) goToTab(wrong);
}

// Shows the file of a place, and in it the place, and leaves the focus where it is.
function goToTab(place) {
  showFile(Math.max(0, files.findIndex((file) => file.name === place.name)));
  bringToView(place);
}

function bringToView(place) {
  at('text').scrollTop = Math.max(0, (place.line - 6) * LINE_HEIGHT);
  follow();
}

// ---- Files and examples

function freshName() {
  for (let n = 1; ; n++) if (!names().includes(`New${n}.ns`)) return `New${n}.ns`;
}

function add() {
  files.push({ name: freshName(), text: 'class New packageUsing: manifest = () (\n)\n' });
  showFile(files.length - 1);
  at('text').focus();
}

function rename() {
  const name = prompt('Name of the file', files[shown].name);
  if (name && !names().includes(name)) files[shown].name = name;
  showTabs();
}

function remove() {
  if (files.length === 1) return;
  files.splice(shown, 1);
  showFile(Math.max(0, shown - 1));
}

function choose(number) {
  const example = data.examples[number];
  files = example.files.map((name) => ({ name: name.replace(/^.*\//, ''), text: data.sources[name] }));
  at('lib').checked = example.lib;
  at('arguments').value = example.arguments.join(' ');
  at('about').textContent = example.about;
  at('class').value = at('verdict').textContent = at('stood').textContent = '';
  at('step').value = '0';
  shown = 0;
  wrong = null;
  showFile(0);
  clear();
}

// ---- Light and dark

function setTheme(name) {
  document.documentElement.dataset.theme = name;
}

function begin() {
  setTheme(matchMedia('(prefers-color-scheme: dark)').matches ? 'dark' : 'light');
  at('theme').onclick = () => setTheme(document.documentElement.dataset.theme === 'dark' ? 'light' : 'dark');
  at('examples').replaceChildren(...data.examples.map((example, number) => new Option(example.name, number)));
  at('examples').onchange = () => choose(Number(at('examples').value));
  Object.entries({ run, check, test, format, stop, add, rename, remove, ask: audit, first, back, forth, last, go }).forEach(([id, action]) => { at(id).onclick = () => action(); });
  at('text').oninput = () => {
    files[shown].text = at('text').value;
    wrong = null;
    colour();
  };
  at('text').onscroll = follow;
  addEventListener('keydown', (event) => {
    if (event.key === 'Escape') stop();
    if (event.key !== 'Enter' || !(event.ctrlKey || event.metaKey)) return;
    event.preventDefault();
    if (event.shiftKey) check();
    else run();
  });
  choose(0);
  startWorker();
}

begin();
