// What np_look tells of a refusal, laid out: a wavy line under the token, a box under its line, and np's own line at the foot.

import { find, made, withCode } from './dom.mjs';
import { rangeOf, refusalOf } from './refusals.mjs';

const LONGEST_QUOTED = 40;

const cut = (text) => (text.length > LONGEST_QUOTED ? `${text.slice(0, LONGEST_QUOTED)}…` : text);

// The words under which a mark stands, and what is said of them.
function labelled(mark, source) {
  const words = source.slice(mark.from, mark.to).split('\n')[0].trim();
  return made('p', '', ...(words ? [made('code', '', cut(words)), ': '] : []), ...withCode(mark.label));
}

function sentences({ marks, advice }, source) {
  const said = [...marks.filter((mark) => mark.refused), ...marks.filter((mark) => !mark.refused)].filter((mark) => mark.label);
  const lead = { wanted: 'Wanted: ', why: 'Why: ', next: 'Next: ' };
  const further = advice.map(({ word, text }) => made('p', word, lead[word] ?? '', ...withCode(text)));
  return [...said.map((mark) => labelled(mark, source)), ...further];
}

export class Diagnosis {
  constructor(editor) {
    this.editor = editor;
    this.box = find('why');
    this.foot = find('verdict');
    this.found = null;
    editor.area.addEventListener('keyup', () => this.settle());
    editor.area.addEventListener('click', () => this.settle());
    editor.area.addEventListener('keydown', (event) => {
      if (event.key === 'Escape') this.box.hidden = true;
    });
    this.box.addEventListener('click', () => {
      this.box.hidden = true;
    });
    new ResizeObserver(() => this.settle()).observe(find('code'));
  }

  // The name of the refusal that stands there.
  get topic() {
    return this.found?.topic;
  }

  clear(text) {
    this.found = null;
    this.box.hidden = true;
    find('code').style.minHeight = '';
    this.editor.area.setAttribute('aria-invalid', 'false');
    this.editor.mark('fault', []);
    this.say('', text);
  }

  say(name, ...content) {
    this.foot.className = `verdict ${name}`;
    this.foot.replaceChildren(...content);
    find('explain').hidden = !this.topic;
    find('explained').hidden = true;
  }

  accepted() {
    this.clear('');
    this.say('well', made('span', '', 'Well typed'));
  }

  refused(text) {
    const source = this.editor.text;
    this.found = refusalOf(text);
    const { said, line, column } = this.found;
    this.found.marks = this.found.marks.map((mark) => ({ ...mark, ...rangeOf(source, mark, this.found) }));
    const { marks } = this.found;
    this.editor.mark('fault', marks.map(({ refused, from, to }) => ({ name: refused ? 'bad' : 'also', from, to })));
    this.box.replaceChildren(...sentences(this.found, source));
    this.box.hidden = this.box.childElementCount === 0;
    this.editor.area.setAttribute('aria-invalid', 'true');
    const place = line ? ` · line ${line}, column ${column}` : '';
    this.say('refused', made('b', '', 'Refused'), made('span', 'said', said + place));
    this.settle();
  }

  // What a refusal is in general, as np_look has it: its name, paragraphs, and a wrong and a right source.
  explain(text) {
    const [head, ...parts] = text.trim().split('\n\n');
    const laid = parts.map((part) =>
      /^(wrong|right):/.test(part) ? made('pre', '', part) : made('p', '', ...withCode(part.replaceAll('\n', ' '))),
    );
    find('explained').hidden = false;
    find('explained').replaceChildren(made('p', '', made('b', '', head)), ...laid);
  }

  // Puts the box under its line; where that would hide the line that is being written, below all lines.
  settle() {
    if (!this.found || this.box.hidden) return;
    const number = this.found.marks.find((mark) => mark.refused)?.line ?? this.found.line;
    const line = this.editor.shown(number);
    const { area } = this.editor;
    const writes = document.activeElement === area && this.editor.lineOf(area.selectionStart) > number;
    this.box.classList.toggle('below', writes || !line);
    if (line) this.box.style.top = `${line.offsetTop + line.offsetHeight + 2}px`;
    this.room();
  }

  // Room for the box below the last line.
  room() {
    const end = this.box.offsetTop + this.box.offsetHeight + 8;
    find('code').style.minHeight = this.box.classList.contains('below') ? '' : `max(14em, ${end}px)`;
  }
}
