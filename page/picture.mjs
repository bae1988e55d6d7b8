// A picture that np_look made, in a tree of its own, and the event in it that is chosen.

import { find, made, shape } from './dom.mjs';

const ALLOWED = new Set('svg g rect line circle path polyline polygon text tspan title desc'.split(' '));
const NEAR = 12;
const PICK =
  '.pick{fill:#ffdf5d;opacity:.55}.pickring{fill:none;stroke:#1b1f24;stroke-width:2}' +
  '@media(prefers-color-scheme:dark){.pick{fill:#6b5800}.pickring{stroke:#e6edf3}}';

// The picture that a text has, its styles as descriptions: the page's policy lets none in that stands in an element. It holds nothing but
// shapes and words: np_look writes nothing else, and here nothing else is taken.
function pictureOf(text) {
  const named = text.replace(/<(\/?)style>/g, '<$1desc>');
  const svg = new DOMParser().parseFromString(named, 'image/svg+xml').documentElement;
  const strange = [...svg.querySelectorAll('*')].filter((element) => !ALLOWED.has(element.localName));
  return svg.localName === 'svg' && strange.length === 0 ? document.importNode(svg, true) : null;
}

// The styles of a picture, as sheets of its tree.
function sheetsOf(svg) {
  const texts = [...svg.querySelectorAll('desc')].map((style) => {
    style.remove();
    return style.textContent;
  });
  return [...texts, PICK].map((text) => {
    const sheet = new CSSStyleSheet();
    sheet.replaceSync(text);
    return sheet;
  });
}

export class Picture {
  constructor(onChoose) {
    this.pane = find('picture');
    this.onChoose = onChoose;
    this.svg = null;
    this.pane.addEventListener('click', (event) => this.pointed(event));
    this.pane.addEventListener('keydown', (event) => this.keyed(event));
  }

  clear(...content) {
    this.svg = null;
    this.pane.classList.remove('picks');
    this.pane.replaceChildren(...content);
  }

  // Shows a picture of a level, whose first event is the one behind so many others.
  show(text, level, before) {
    const svg = pictureOf(text);
    if (!svg) return this.clear(made('p', 'fault', 'np_look wrote no picture that this page can show.'));
    const host = made('div', 'shown');
    const tree = host.attachShadow({ mode: 'open' });
    tree.adoptedStyleSheets = sheetsOf(svg);
    svg.setAttribute('role', 'img');
    svg.setAttribute('aria-label', this.words(svg));
    tree.append(svg);
    this.clear(host);
    this.pane.classList.add('picks');
    this.svg = svg;
    this.level = level;
    this.before = before;
    this.marks = [...svg.querySelectorAll('circle[data-e]')];
    this.chosen = null;
  }

  // What a picture says in words, for who cannot see it.
  words(svg) {
    const lines = new Map();
    for (const text of svg.querySelectorAll('text.name,text.say,text.small')) {
      const row = Math.round(Number(text.getAttribute('y')) / 4);
      lines.set(row, `${lines.get(row) ?? ''} ${text.textContent}`.trim());
    }
    return [...lines.values()].slice(0, 100).join('. ');
  }

  // Whether a mark tells something of its own: the others are dots of the infrastructure.
  tells(mark) {
    return !mark.classList.contains('tick');
  }

  eventOf(mark) {
    return this.before + Number(mark.getAttribute('data-e'));
  }

  // The level of a mark: where both stand side by side, the source is at the left.
  levelOf(mark) {
    if (this.level !== 'both') return this.level;
    return this.svg.querySelector('svg').contains(mark) ? 'high' : 'low';
  }

  pointed(event) {
    if (!this.svg) return;
    const direct = event.composedPath()[0];
    const mark = this.marks.includes(direct) ? direct : this.markNear(event.clientX, event.clientY);
    if (mark) this.choose(mark);
  }

  // The mark in whose row a place is; of several the one that is nearest.
  markNear(x, y) {
    const distances = this.marks.map((mark) => {
      const box = mark.getBoundingClientRect();
      const down = Math.abs(box.top + box.height / 2 - y);
      return { mark, down, all: down + Math.abs(box.left + box.width / 2 - x) / 100 + (this.tells(mark) ? 0 : 4) };
    });
    return distances.filter(({ down }) => down <= NEAR).sort((a, b) => a.all - b.all)[0]?.mark;
  }

  keyed(event) {
    if (!this.svg) return;
    const step = { ArrowDown: 1, ArrowUp: -1 }[event.key];
    if (step) {
      event.preventDefault();
      const told = this.marks.filter((mark) => this.tells(mark) || mark === this.chosen);
      const at = told.indexOf(this.chosen);
      this.choose(told[Math.min(Math.max(at + step, 0), told.length - 1)]);
    } else if (event.key === 'Escape') {
      this.onChoose(null);
    }
  }

  choose(mark) {
    if (mark) this.onChoose({ level: this.levelOf(mark), number: this.eventOf(mark) }, mark);
  }

  // The mark of an event, where the picture has it.
  markOf({ level, number }) {
    return this.svg && this.marks.find((mark) => this.eventOf(mark) === number && this.levelOf(mark) === level);
  }

  // Lights the row of a mark, and no other.
  light(mark) {
    if (!this.svg) return;
    for (const old of this.svg.querySelectorAll('.pick,.pickring')) old.remove();
    this.chosen = mark ?? null;
    if (!mark) return;
    const y = Number(mark.getAttribute('cy'));
    const sides = this.level === 'both' ? this.svg.querySelectorAll('svg') : [this.svg];
    for (const side of sides) this.lightRow(side, y);
    const ring = shape('circle', { class: 'pickring', cx: mark.getAttribute('cx'), cy: y, r: 9 });
    mark.ownerSVGElement.append(ring);
    ring.scrollIntoView({ block: 'nearest', inline: 'nearest' });
  }

  lightRow(side, y) {
    const row = shape('rect', { class: 'pick', x: 0, y: y - 11, width: side.getAttribute('width'), height: 22 });
    side.insertBefore(row, [...side.querySelectorAll('.band')].at(-1)?.nextSibling ?? side.firstChild);
  }

  // The sentence that stands in the row of a mark.
  sentence(mark) {
    const y = Number(mark.getAttribute('cy'));
    const texts = [...this.svg.querySelectorAll('text.name,text.say,text.small')];
    const beside = (text) => Math.abs(Number(text.getAttribute('y')) - 5 - y) <= 3;
    const here = texts.filter((text) => beside(text) && text.ownerSVGElement === mark.ownerSVGElement);
    return here.map((text) => text.textContent).join(' ');
  }
}
