// Where the process nodes of a source stand. They are numbered as docs/LANGUAGE.md says under "Node numbers", and each has its own words:
// from its first token up to the process that it goes on as.

import { tokensOf } from './tokens.mjs';

const ENDS = new Set(['|', ')', 'in', 'else', 'then']);

class Reader {
  constructor(source) {
    this.tokens = tokensOf(source).filter((token) => token.kind !== 'blank' && token.kind !== 'comment');
    this.at = this.tokens.findIndex((token) => token.text === ';') + 1;
    this.nodes = [null];
  }

  text(ahead = 0) {
    return this.tokens[this.at + ahead]?.text;
  }

  // Goes on to a token outside of brackets that ends what stands here.
  skip(isEnd) {
    let depth = 0;
    while (this.at < this.tokens.length && !(depth === 0 && isEnd(this.text()))) {
      depth += { '(': 1, '[': 1, ')': -1, ']': -1 }[this.text()] ?? 0;
      this.at += 1;
    }
  }

  to(word) {
    this.skip((text) => text === word);
    this.at += 1;
  }

  // A node whose own words go from here up to a word, behind which it goes on.
  upTo(word) {
    const node = this.begin();
    this.skip((text) => text === word);
    this.end(node);
    this.at += 1;
  }

  toEnd() {
    const node = this.begin();
    this.skip((text) => ENDS.has(text));
    this.end(node);
  }

  begin() {
    const token = this.tokens[this.at];
    if (token === undefined) throw new RangeError('the source ends here');
    this.nodes.push({ from: token.from, to: token.from });
    return this.nodes.length - 1;
  }

  end(node) {
    const last = this.tokens[this.at - 1];
    this.nodes[node].to = last.from + last.text.length;
  }

  // How many processes a bracket has that begins here.
  parts() {
    let depth = 0;
    let parts = 1;
    for (const token of this.tokens.slice(this.at)) {
      depth += { '(': 1, '[': 1, ')': -1, ']': -1 }[token.text] ?? 0;
      if (depth === 1 && token.text === '|') parts += 1;
      if (depth === 0) break;
    }
    return parts;
  }

  bracket() {
    const parts = this.parts();
    for (let composition = 1; composition < parts; composition += 1) this.nodes.push(null);
    for (let part = 0; part < parts; part += 1) {
      this.at += 1;
      this.process();
    }
    this.at += 1;
  }

  twice(word) {
    this.process();
    this.to(word);
    this.process();
  }

  process() {
    const first = this.text();
    if (first === '(') return this.bracket();
    if (first === 'new' || first === 'let') return this.upTo('in'), this.process();
    if (first === 'agent') return this.upTo('='), this.twice('in');
    if (first === 'if' || first === 'iflocal') return this.upTo('then'), this.twice('else');
    if (first === 'migrate' || first === '*' || this.text(1) === '?') return this.upTo('->'), this.process();
    return this.toEnd();
  }
}

// The place of each node by its number, as far as the source can be read; a bracket has none.
export function nodesOf(source) {
  const reader = new Reader(source);
  reader.to('=');
  try {
    reader.process();
  } catch (fault) {
    if (!(fault instanceof RangeError)) throw fault;
  }
  return reader.nodes;
}
