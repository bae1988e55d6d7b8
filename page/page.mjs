// The page: what is chosen, what is called, and what is shown of it.

import { answerOf, faultElements, firstLines, printedElements, runsElements } from './answers.mjs';
import { Diagnosis } from './diagnosis.mjs';
import { decoded, find, made, plural } from './dom.mjs';
import { Editor } from './editor.mjs';
import { examples, listExamples } from './examples.mjs';
import { Run, lightRow, showEvents, tellingOf } from './events.mjs';
import { fragmentOf, sourceOf } from './link.mjs';
import { COURSES, HISTORY, SOURCE, budget, chooseSeed, chosen, drawingOf, isLong, level, showOptions, stretchOf } from './options.mjs';
import { Picture } from './picture.mjs';
import { Programs, modulesOf } from './program.mjs';
import { count, showTab, tabBeside } from './tabs.mjs';
import { namesOf, tokensOf } from './tokens.mjs';
import { readOff, traceOf } from './trace.mjs';

const PAUSE = 200;
const MOST_BYTES = 2 ** 27;
const NO_SITES = 'A run at the high level has no history, and no picture: run the source on its sites, or by a seed.';
const NO_LOW = 'This run is one of the source alone. Run it on its sites to see what they do.';
const NOT_BOTH = 'Both levels are drawn of short runs only: choose one of them.';
const NO_LINK = 'The link holds no source that can be read.';
const NO_HISTORY = 'No history yet: run the source on its sites, or open one.';
const WAITING = {
  printed: 'Run the source: what it prints stands here.',
  picture: 'Run the source: its picture stands here.',
  events: 'Run the source: its events stand here.',
  counts: '',
};

let programs = null; // runs, pictures and histories
let checks = null; // checks while one types
let run = null; // the run that is shown, with its history
let choice = null; // the event that is chosen
let pending = 0; // the timer of the next check
let checking = false;
let calls = 0; // how many calls are under way

const editor = new Editor(changed);
const diagnosis = new Diagnosis(editor);
const picture = new Picture(choose);

const infrastructure = () => ['--infra', run?.infrastructure ?? chosen('infrastructure')];
const status = (text) => find('status').replaceChildren(text);

// ---- tabs

function openTab(name) {
  showTab(name);
  if (name === 'picture') draw();
  if (name === 'low') showLow();
}

function moveTab(event) {
  const next = tabBeside(event);
  if (next) openTab(next);
}

// ---- checks

function changed() {
  clearTimeout(pending);
  pending = setTimeout(check, PAUSE);
  stale();
}

// Checks the source, and again where it has changed meanwhile.
async function check() {
  if (checking) return;
  checking = true;
  const source = editor.text;
  const answer = await checks.call('np_look', ['why', SOURCE], { [SOURCE]: source });
  checking = false;
  if (source === editor.text) judge(answer);
  else await check();
}

function judge(answer) {
  if (answer.status === 0) diagnosis.accepted();
  else if (answer.out.length) diagnosis.refused(decoded(answer.out));
  else diagnosis.clear(decoded(answer.err) || `No answer: ${answer.fault ?? `status ${answer.status}`}`);
  stale();
  if (document.body.dataset.tab === 'low') showLow();
}

// Says where what is shown is of another source than the one that stands in the editor.
function stale() {
  const old = run !== null && run.source !== editor.text;
  find('stale').hidden = !old;
  find('stale').replaceChildren(old ? 'The source has changed. This is the last run, of the source before it.' : '');
  for (const pane of ['printed', 'picture', 'events']) find(pane).classList.toggle('stale', old);
}

// Tells what a refusal is in general.
async function explain() {
  const answer = await checks.call('np_look', ['why', diagnosis.topic], {});
  diagnosis.explain(decoded(answer.out));
}

// ---- runs

function busy(change) {
  calls += change;
  find('stop').hidden = calls === 0;
  find('run').disabled = calls > 0;
  document.body.setAttribute('aria-busy', String(calls > 0));
}

async function called(program, words, texts) {
  busy(1);
  const answer = await programs.call(program, words, texts);
  busy(-1);
  const took = answer.stopped ? 'stopped' : `${Math.round(answer.milliseconds)} ms, status ${answer.status}`;
  status(`${program} ${words.join(' ')}: ${took}`);
  return answer;
}

async function start() {
  const source = editor.text;
  const kind = chosen('infrastructure');
  const course = chosen('course');
  const drawing = drawingOf(course);
  const [program, words] = COURSES[course]();
  const answer = await called(program, words, { [SOURCE]: source });
  if (document.body.dataset.tab === 'source' || document.body.dataset.tab === 'low') openTab('printed');
  if (course.startsWith('runs')) showRuns(answer);
  else shown(answer, source, kind, drawing);
}

const isDone = (answer) => answer.status === 0 || answer.status === 1;
const sitesOf = (source) => namesOf(tokensOf(source)).sites;

// Shows what a run wrote, with its history.
function shown(answer, source, kind, drawing = null) {
  if (!isDone(answer)) return refused(answer);
  if (answer.out.length > MOST_BYTES) return tooLong(answer);
  const said = answerOf(answer.out);
  const low = traceOf(said.history, false);
  run = new Run(source, sitesOf(source), said.high ? traceOf(said.high, true) : readOff(low), low);
  Object.assign(run, { infrastructure: kind, drawing, history: said.history });
  find('printed').replaceChildren(...printedElements(said));
  counts(said.count);
  showHistory('The history of this run.', said.history);
  afterRun();
}

function counts(printed) {
  const { high, low } = run.levels;
  count('printed', printed);
  count('events', high.length || low.length);
  count('history', run.history ? low.length : null);
}

const counted = ({ high, low }) => `${plural(high.length, 'event', 'events')} read off ${low.length.toLocaleString('en')} of the sites`;

function afterRun() {
  choose(null);
  const high = run.levels.high.length > 0;
  showEvents(run, high ? 'high' : 'low', choose);
  find('counts').replaceChildren(run.history && high ? counted(run.levels) : '');
  find('save').disabled = run.history === null;
  find('from').value = 1;
  pastOf(null);
  picture.clear();
  stale();
  if (document.body.dataset.tab === 'picture') draw();
}

// Where a source is refused, the editor says so; all else is said where printed lines stand.
function refused(answer) {
  openTab('printed');
  find('printed').replaceChildren(...faultElements(answer));
  count('printed', null);
  check();
}

function tooLong(answer) {
  forget();
  const size = Math.round(answer.out.length / 2 ** 20).toLocaleString('en');
  const text = `The text of the run has ${size} MiB: too much for this page. Choose a smaller budget.`;
  find('printed').replaceChildren(made('p', 'fault', text));
}

// What many runs by seeds printed, in the place of one run.
function showRuns(answer) {
  forget();
  openTab('printed');
  const elements = isDone(answer) ? runsElements(decoded(answer.out), runSeed) : faultElements(answer);
  find('printed').replaceChildren(...elements);
  if (!isDone(answer)) check();
}

function runSeed(seed) {
  chooseSeed(seed);
  showOptions();
  start();
}

// ---- the picture

// Draws the run as it is asked for, unless that picture stands there.
async function draw() {
  if (!run) return;
  const wanted = level();
  const hint = noPicture(wanted);
  const events = eventsIn(wanted);
  const { words, before } = stretchOf(hint ? 0 : events);
  const key = [wanted, before, run.past].join();
  if (run.drawn === key) return;
  const drawn = run;
  run.drawn = key;
  if (hint) return picture.clear(made('p', 'hint', hint));
  const answer = await called('np_look', [...pictured(wanted), ...words], { [SOURCE]: run.source, [HISTORY]: run.history ?? '' });
  if (answer.stopped) drawn.drawn = null;
  if (drawn !== run || (drawn.drawn ?? key) !== key) return;
  if (!isDone(answer)) return picture.clear(...faultElements(answer));
  picture.show(decoded(answer.out), wanted, before);
  if (choice) light();
}

// Why there is no picture of a level, if there is none.
function noPicture(wanted) {
  if (run.history) return wanted === 'both' && isLong(run.levels.low.length) ? NOT_BOTH : null;
  if (!run.drawing) return NO_SITES;
  return wanted === 'high' ? null : NO_LOW;
}

function pictured(wanted) {
  const past = run.past ? ['--past', run.past] : [];
  if (!run.history) return ['picture', SOURCE, '--level', wanted, ...run.drawing];
  return ['picture', SOURCE, HISTORY, '--level', wanted, ...past, ...infrastructure()];
}

// How many events a level has; where that is not known of what is read off, it has no more than the sites.
const eventsIn = (wanted) => (wanted === 'high' ? run.levels.high.length || run.levels.low.length : run.levels.low.length);

// Draws pale what did not lead to a printed line, or all as strong again.
function pastOf(line) {
  if (run) run.past = line;
  find('whole').hidden = line === null;
  find('whole').replaceChildren(line === null ? '' : `All, not only what led to line ${line}`);
}

// ---- an event

function choose(next) {
  choice = next && (run?.event(next) || picture.markOf(next)) ? next : null;
  document.body.classList.toggle('chooses', choice !== null);
  find('chosen').hidden = choice === null;
  light();
}

function light() {
  const mark = choice && picture.markOf(choice);
  picture.light(mark);
  lightRow(choice);
  const event = choice && run.event(choice);
  const place = event && run.source === editor.text ? run.place(event) : null;
  editor.mark('picked', place ? [{ name: 'picked', ...place }] : []);
  if (!choice) return;
  const close = made('button', 'close', 'Close');
  close.addEventListener('click', () => choose(null));
  const sentence = mark ? picture.sentence(mark) : '';
  find('chosen').replaceChildren(close, ...(event ? tellingOf(run, choice, sentence) : [made('p', '', sentence)]));
}

// ---- texts

async function showLow() {
  const source = editor.text;
  const words = ['low', SOURCE, '--infra', chosen('infrastructure')];
  const answer = await called('np', words, { [SOURCE]: source });
  find('low').replaceChildren(answer.status === 0 ? decoded(answer.out) : decoded(answer.err) || 'No low text.');
}

function showHistory(title, text) {
  find('acts').hidden = text === null;
  find('history-of').replaceChildren(text === null ? NO_HISTORY : title);
  find('history').replaceChildren(firstLines(text ?? ''));
  find('told').replaceChildren();
}

// ---- histories

const texts = () => ({ [SOURCE]: editor.text, [HISTORY]: run.history });

async function openHistory() {
  const [file] = find('file').files;
  if (!file) return;
  const bytes = new Uint8Array(await file.arrayBuffer());
  find('file').value = '';
  forget();
  run = new Run(editor.text, sitesOf(editor.text), traceOf(null, true), traceOf(null, false));
  Object.assign(run, { infrastructure: chosen('infrastructure'), drawing: null, history: bytes });
  find('printed').replaceChildren(made('p', 'hint', 'A history is open: replay it, or resume it.'));
  find('save').disabled = false;
  openTab('history');
  showHistory(`Opened: ${file.name}`, `${decoded(bytes.subarray(0, MOST_BYTES))}\n`);
  await replay();
}

// Follows the history, and shows its run.
async function replay() {
  const answer = await called('np', ['replay', SOURCE, HISTORY, ...infrastructure()], texts());
  if (answer.status !== 0) return historyRefused(answer);
  const said = answerOf(answer.out);
  find('told').replaceChildren(made('div', 'printed', ...printedElements(said)));
  find('printed').replaceChildren(...printedElements(said));
  await takeEvents();
  counts(said.count);
  afterRun();
}

// The events of the history, which `np upgrade` writes by themselves; with one daemon its last field says which are the source's.
async function takeEvents() {
  const answer = await called('np', ['upgrade', HISTORY], { [HISTORY]: run.history });
  const { infrastructure: kind, history, levels } = run;
  const low = traceOf(answerOf(answer.out).history, false);
  run = new Run(editor.text, sitesOf(editor.text), kind === 'central' ? readOff(low) : levels.high, low);
  Object.assign(run, { infrastructure: kind, drawing: null, history });
}

// Shows what led to a printed line, here and in the picture.
async function past() {
  const line = chosen('line');
  const answer = await called('np', ['past', SOURCE, HISTORY, '--line', line, ...infrastructure()], texts());
  if (answer.status !== 0) return historyRefused(answer);
  const said = answerOf(answer.out);
  const events = made('pre', '', firstLines(said.history));
  find('told').replaceChildren(made('div', 'printed', ...printedElements(said)), events);
  pastOf(line);
}

async function resume() {
  const kind = run.infrastructure;
  const words = ['resume', SOURCE, HISTORY, '--serial', '--history', '--high', ...budget(), '--infra', kind];
  const source = editor.text;
  const answer = await called('np', words, texts());
  if (!isDone(answer)) return historyRefused(answer);
  shown(answer, source, kind);
  if (run) find('told').replaceChildren(...[...find('printed').children].map((element) => element.cloneNode(true)));
}

// Tells why a history is refused.
async function historyRefused(answer) {
  if (answer.status !== 7) return find('told').replaceChildren(...faultElements(answer));
  const why = await called('np_look', ['why', SOURCE, HISTORY, ...infrastructure()], texts());
  find('told').replaceChildren(made('pre', 'fault', decoded(why.out) || decoded(answer.err)));
}

function saveHistory() {
  const address = URL.createObjectURL(new Blob([run.history], { type: 'text/plain' }));
  const link = made('a', '');
  link.href = address;
  link.download = chosen('example').replace(/\.np$/, '') + '.history';
  link.click();
  setTimeout(() => URL.revokeObjectURL(address), 1000);
}

// Shows no run any more.
function forget() {
  run = null;
  choose(null);
  pastOf(null);
  stretchOf(0);
  picture.clear();
  showHistory('', null);
  find('save').disabled = true;
  for (const name of ['printed', 'events', 'history']) count(name, null);
  for (const [pane, words] of Object.entries(WAITING)) find(pane).replaceChildren(made('span', 'hint', words));
  stale();
}

// ---- links and examples

async function copyLink() {
  const fragment = fragmentOf(editor.text);
  history.replaceState(null, '', fragment);
  try {
    await navigator.clipboard.writeText(location.href);
    status('The link is copied: it holds the source.');
  } catch {
    status('The link stands in the address bar: it holds the source.');
  }
}

function load(source) {
  editor.text = source;
  forget();
  changed();
}

function fromLink() {
  const source = sourceOf(location.hash);
  if (source === null) {
    if (location.hash) status(NO_LINK);
    return false;
  }
  load(source);
  return true;
}

// ---- the beginning

const on = (id, kind, act) => find(id).addEventListener(kind, act);

function listenToButtons() {
  on('run', 'click', start);
  on('stop', 'click', () => programs.stop());
  on('copy', 'click', copyLink);
  on('save', 'click', saveHistory);
  on('open', 'click', () => find('file').click());
  on('file', 'change', openHistory);
  on('replay', 'click', replay);
  on('resume', 'click', resume);
  on('past', 'click', past);
  on('drop', 'click', forget);
  on('explain', 'click', explain);
  on('whole', 'click', () => {
    pastOf(null);
    draw();
  });
  on('more', 'click', () => find('more').setAttribute('aria-expanded', String(document.body.classList.toggle('open'))));
}

function listenToChoices() {
  on('example', 'change', () => load(examples[chosen('example')]));
  on('course', 'change', showOptions);
  on('options', 'submit', (event) => event.preventDefault());
  on('infrastructure', 'change', () => document.body.dataset.tab === 'low' && showLow());
  on('levels', 'change', () => {
    if (run?.levels[level()]?.length) showEvents(run, level(), choose);
    draw();
  });
  on('from', 'change', draw);
  on('tabs', 'click', (event) => event.target.closest('[role=tab]') && openTab(event.target.closest('[role=tab]').dataset.tab));
  on('tabs', 'keydown', moveTab);
  addEventListener('hashchange', fromLink);
  addEventListener('keydown', (event) => {
    if (event.key === 'Enter' && (event.ctrlKey || event.metaKey) && !find('run').disabled) start();
  });
}

async function begin() {
  listExamples();
  openTab(matchMedia('(max-width:899px)').matches ? 'source' : 'printed');
  listenToButtons();
  listenToChoices();
  showOptions();
  editor.text = examples['letter.np'];
  forget();
  find('run').disabled = true;
  const modules = await modulesOf(['np', 'np_look']);
  const script = JSON.parse(find('worker').textContent);
  programs = new Programs(modules, script);
  checks = new Programs(modules, script);
  find('run').disabled = false;
  if (!fromLink()) await check();
  globalThis.np = { call: (program, words, given) => programs.call(program, words, given) };
  document.body.dataset.ready = 'yes';
}

begin().catch((fault) => {
  const memory = 'This browser cannot run np: it lacks WebAssembly with a 64-bit memory and table, which Chromium and Firefox have.';
  find('printed').replaceChildren(made('p', 'fault', memory), made('p', 'hint', String(fault)));
  document.body.dataset.ready = 'no';
});
