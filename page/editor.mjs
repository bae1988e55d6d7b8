// The editor: a textarea of transparent text over the coloured lines of the same text, so that keys, selection and screen readers are the
// browser's.

import { find, made } from './dom.mjs';
import { namesOf, tokensOf } from './tokens.mjs';

const HUES = 7;
const LONGEST_COLOURED = 100_000;
const PLAIN_KINDS = new Set(['blank', 'name', 'sign', 'other', 'place']);

function classOf(token, names) {
  if (!PLAIN_KINDS.has(token.kind)) return token.kind;
  const agent = names.agents.indexOf(token.text);
  if (agent >= 0) return `a${agent % HUES}`;
  return names.sites.includes(token.text) ? 'site' : '';
}

function classesAt(marks, from, to) {
  return marks.filter((mark) => mark.from < to && from < mark.to).map((mark) => mark.name);
}

// The text cut where a mark begins or ends in it, each piece with where it begins.
function pieces(text, from, marks) {
  const cuts = marks.flatMap((mark) => [mark.from, mark.to]).filter((at) => from < at && at < from + text.length);
  const places = [...new Set([from, ...cuts, from + text.length])].sort((a, b) => a - b);
  return places.slice(0, -1).map((at, index) => ({ from: at, text: text.slice(at - from, places[index + 1] - from) }));
}

function put(line, token, name, marks) {
  for (const piece of pieces(token.text, token.from, marks)) {
    const classes = [name, ...classesAt(marks, piece.from, piece.from + piece.text.length)].filter(Boolean);
    line.append(classes.length ? made('span', classes.join(' '), piece.text) : piece.text);
  }
}

// The coloured lines of a text; a mark has a name, which is a class, and goes from one place to another.
function linesOf(text, marks) {
  const tokens = text.length > LONGEST_COLOURED ? [{ kind: 'other', text, from: 0 }] : tokensOf(text);
  const names = namesOf(tokens);
  const lines = [made('div', 'line')];
  for (const token of tokens) {
    let { from } = token;
    for (const [index, part] of token.text.split('\n').entries()) {
      if (index > 0) lines.push(made('div', 'line'));
      if (part) put(lines.at(-1), { ...token, text: part, from }, classOf(token, names), marks);
      from += part.length + 1;
    }
  }
  return lines;
}

export class Editor {
  constructor(onChange) {
    this.area = find('source');
    this.lines = find('lines');
    this.marks = {};
    this.area.addEventListener('input', () => {
      this.marks = {};
      this.paint();
      onChange();
    });
  }

  get text() {
    return this.area.value;
  }

  set text(text) {
    this.area.value = text;
    this.marks = {};
    this.paint();
  }

  // Marks places by a kind of marks, in the place of those of that kind.
  mark(kind, marks) {
    this.marks[kind] = marks;
    this.paint();
  }

  paint() {
    this.lines.replaceChildren(...linesOf(this.text, Object.values(this.marks).flat()));
  }

  lineOf(place) {
    return this.text.slice(0, place).split('\n').length;
  }

  shown(line) {
    return this.lines.children[line - 1];
  }
}
