// What np_look tells of a refusal, read: np's own line, the places that are marked, and what is advised. docs/PICTURES.md has its form.

const HEADER = /^(?:.*?:(?:(\d+):(\d+):)? )?(np: \d+ (\w+)(?: ([A-Z]\w+))?.*)$/;
const SHOWN = /^ *(\d+) \| (.*)$/;
const MARK = /^ *\| ( *)([\^-]+)(?: (.*))?$/;
const OUTSIDE = /^ *\| \((\d+):(\d+)\)(?: (.*))?$/;
const END = /^(.*?) ?\(to (\d+):(\d+)\)$/;
const ADVICE = /^(wanted|why|next): (.*)$/;
const CUT = '...';

const NARROW =
  /[ -~\u00a1-\u00ac\u00ae-\u02ff\u0370-\u0482\u048a-\u058f\u1e00-\u1fff\u2010-\u2027\u2030-\u205e\u2190-\u22ff\u2500-\u25ff]/u;
const WIDE =
  /[\u1100-\u115f\u2e80-\u3029\u3030-\u3098\u309b-\ua4cf\uac00-\ud7a3\uf900-\ufaff\uff01-\uff60\u{1f300}-\u{1f64f}]/u;

// What is told: np's line with the name of the refusal and its place, the marks, and advice.
export function refusalOf(text) {
  const [first, ...rows] = text.split('\n');
  const header = HEADER.exec(first);
  const place = { line: Number(header?.[1] ?? 0), column: Number(header?.[2] ?? 0) };
  const found = { said: header?.[3] ?? first, topic: header?.[5] ?? header?.[4], ...place, marks: [], advice: [] };
  let shown = null;
  for (const row of rows) {
    const line = SHOWN.exec(row);
    if (line) shown = { line: Number(line[1]), shown: line[2] };
    else if (!readMark(found, row, shown)) readAdvice(found, row);
  }
  return found;
}

// A label, and where the range under it ends if that is in a further line.
function labelOf(text = '') {
  const end = END.exec(text);
  return end ? { label: end[1], end: { line: Number(end[2]), column: Number(end[3]) } } : { label: text };
}

function readMark(found, row, shown) {
  const mark = MARK.exec(row);
  const outside = OUTSIDE.exec(row);
  if (mark && shown) {
    const columns = { column: mark[1].length, width: mark[2].length };
    found.marks.push({ ...shown, ...columns, refused: mark[2].startsWith('^'), ...labelOf(mark[3]) });
  } else if (outside) {
    const begin = { line: Number(outside[1]), column: Number(outside[2]) };
    found.marks.push({ line: begin.line, begin, refused: false, ...labelOf(outside[3]) });
  }
  return (mark && shown) || outside;
}

function readAdvice(found, row) {
  const advice = ADVICE.exec(row);
  if (advice) found.advice.push({ word: advice[1], text: advice[2] });
  else if (row.startsWith('  ') && found.advice.length) found.advice.at(-1).text += ` ${row.trim()}`;
  else if (row.trim()) found.advice.push({ word: '', text: row.trim() });
}

// A character as np_look shows it: in one column or in two, or by its number.
function shownAs(letter) {
  if (NARROW.test(letter)) return { text: letter, width: 1 };
  if (WIDE.test(letter)) return { text: letter, width: 2 };
  const code = letter.codePointAt(0);
  const hex = code.toString(16);
  const text = letter === '\t' ? '    ' : code < 128 ? `\\x${hex.padStart(2, '0')}` : `\\u{${hex}}`;
  return { text, width: text.length };
}

// The first character that is shown of a line, and how many columns stand before it; one of its characters may be known by its column.
function windowOf(letters, shown, known) {
  if (letters.map(({ text }) => text).join('') === shown) return { first: 0, before: 0 };
  if (known) return windowBefore(letters, known);
  const part = shown.slice(shown.startsWith(CUT) ? CUT.length : 0, shown.endsWith(CUT) ? -CUT.length : undefined);
  const rest = (from) => letters.slice(from, from + part.length).map(({ text }) => text).join('');
  const first = letters.findIndex((_, from) => rest(from).startsWith(part));
  return { first: Math.max(first, 0), before: shown.startsWith(CUT) ? CUT.length : 0 };
}

function windowBefore(letters, { index, column }) {
  let [first, before] = [index, column];
  while (first > 0 && before > CUT.length) {
    first -= 1;
    before -= letters[first].width;
  }
  return { first, before };
}

// The index of the character of a line that stands in a column.
function indexAt(letters, { first, before }, column) {
  let [index, at] = [first, before];
  while (index < letters.length && at < column) {
    at += letters[index].width;
    index += 1;
  }
  return index;
}

// From which character of its line a mark goes to which.
function columnsOf(mark, line, found) {
  const letters = [...line].map(shownAs);
  const isPlace = mark.refused && mark.line === found.line && found.column <= letters.length + 1;
  const known = isPlace ? { index: found.column - 1, column: mark.column } : null;
  const window = windowOf(letters, mark.shown, known);
  return [indexAt(letters, window, mark.column), indexAt(letters, window, mark.column + mark.width)];
}

// The place of a mark in a source: from one offset to another. What stands behind the end of a line is marked at the last word of it.
export function rangeOf(source, mark, found) {
  const lines = source.split('\n');
  const start = (line) => lines.slice(0, line - 1).reduce((sum, text) => sum + text.length + 1, 0);
  const offset = (line, index) => start(line) + [...(lines[line - 1] ?? '')].slice(0, index).join('').length;
  const [first, last] = mark.begin ? [mark.begin.column - 1, mark.begin.column] : columnsOf(mark, lines[mark.line - 1] ?? '', found);
  const from = offset(mark.line, first);
  const to = mark.end ? offset(mark.end.line, mark.end.column) : Math.max(offset(mark.line, last), from + 1);
  const length = (lines[mark.line - 1] ?? '').trimEnd().length;
  if (length === 0 || from < start(mark.line) + length) return { from, to };
  return { from: start(mark.line) + length - 1, to: start(mark.line) + length };
}
