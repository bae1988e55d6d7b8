// What the programs write on out, read: the printed lines, the history of the sites, the run of the source, and how it ended.

import { button, decoded, made, plural } from './dom.mjs';
import { Lines } from './lines.mjs';

const GROUP = /^\d+ runs?, first by seed (\d+):$/;
const MOST_LINES = 2000;
const END = '\nend\n';

// The first text of a kind, from its first line to the line `end`: where it begins and ends. No printed line begins as it does: each has
// its site, a colon and a blank.
function partOf(text, kind) {
  const heads = [`${kind} 1\n`, `${kind} 2\n`];
  const places = heads.map((head) => (text.startsWith(head) ? 0 : text.indexOf(`\n${head}`) + 1 || -1));
  const from = places.find((place) => place >= 0) ?? -1;
  return from < 0 ? null : { from, to: text.indexOf(END, from) + END.length };
}

// The printed lines, the texts of the history and of the run of the source, and the last line.
export function answerOf(bytes) {
  const text = decoded(bytes);
  const [history, high] = ['history', 'high'].map((kind) => partOf(text, kind));
  const cut = (part) => (part ? text.slice(part.from, part.to) : null);
  const first = history ?? high;
  const last = high ?? history;
  const rest = new Lines(last ? text.slice(0, first.from) + text.slice(last.to) : text);
  const count = Math.max(0, rest.length - 1);
  const printed = rest.part(0, Math.min(MOST_LINES, count));
  return { printed, count, history: cut(history), high: cut(high), end: rest.length ? rest.at(count) : '' };
}

const ENDS = { 'at rest': 'At rest: nothing more can happen.', 'budget spent': 'The budget is spent: the run is cut here.' };

function lineElement(line) {
  const at = line.indexOf(': ');
  return at < 0 ? made('li', '', line) : made('li', '', made('span', 'where', line.slice(0, at + 2)), line.slice(at + 2));
}

const moreLines = (count) => plural(count - MOST_LINES, 'more line', 'more lines');
const restOf = (count) => (count > MOST_LINES ? [made('p', 'hint', moreLines(count))] : []);

// The first of the lines of a text, as a text.
export function firstLines(text) {
  const lines = new Lines(text);
  return lines.part(0, MOST_LINES).join('\n') + (lines.length > MOST_LINES ? `\n${moreLines(lines.length)}` : '');
}

// Printed lines and the end of a run, as elements.
export function printedElements({ printed, count, end }) {
  return [made('ul', '', ...printed.map(lineElement)), ...restOf(count), made('p', 'end', ENDS[end] ?? end)];
}

// The different outputs of many runs, each under how many runs gave it, with a button for the least seed of these.
export function runsElements(text, onSeed) {
  const lines = new Lines(text);
  const count = lines.length - 1;
  const groups = [];
  for (const line of lines.part(0, Math.min(MOST_LINES, count))) {
    const seed = GROUP.exec(line)?.[1];
    if (seed) groups.push({ head: line.slice(0, -1), seed, lines: [] });
    else groups.at(-1)?.lines.push(line);
  }
  const elements = groups.flatMap(({ head, seed, lines: [...printed] }) => {
    const end = printed.pop() ?? '';
    const title = made('p', 'group', made('b', '', head), button(`Run by seed ${seed}`, () => onSeed(seed)));
    return [title, ...printedElements({ printed, count: 0, end })];
  });
  return [...elements, ...restOf(count), made('p', 'sum', count < 0 ? '' : lines.at(count))];
}

// What a call wrote that ended in some other way.
export function faultElements(answer) {
  if (answer.stopped) return [made('p', 'hint', 'Stopped.')];
  if (answer.status === null) return [made('p', 'fault', `The program did not come to its end: ${answer.fault}`)];
  const text = decoded(answer.err) + decoded(answer.out);
  return [made('pre', 'fault', text || `Status ${answer.status}.`)];
}
