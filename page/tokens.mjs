// The tokens of a source, with the class of each: docs/LANGUAGE.md has them.

const KEYWORDS = new Set('sites at new in agent migrate to let print iflocal if then else'.split(' '));
const TYPES = new Set('Int Bool String Site Agent'.split(' '));
const TOKEN = new RegExp(
  [
    /(?<comment>--[^\n]*)/,
    /(?<blank>[ \t\r\n]+)/,
    /(?<string>"(?:[^"\\\n]|\\.)*"?)/,
    /(?<word>[A-Za-z][A-Za-z0-9_']*)/,
    /(?<number>0|[1-9][0-9]*)/,
    /(?<sign>->|==|[;=()|:^?!*<>@[\]+_-])/,
    /(?<other>[^])/,
  ].map((part) => part.source).join('|'),
  'gu',
);

function kindOfWord(word, before, listing) {
  if (word === 'main') return 'main';
  if (KEYWORDS.has(word)) return 'keyword';
  if (TYPES.has(word)) return 'type';
  if (word === 'true' || word === 'false') return 'truth';
  return listing || before === 'at' || before === 'to' || before === '@' ? 'place' : 'name';
}

// Each token with its kind, its text and where it begins.
export function tokensOf(source) {
  const tokens = [];
  let before = '';
  let listing = false;
  for (const match of source.matchAll(TOKEN)) {
    const text = match[0];
    const form = Object.keys(match.groups).find((name) => match.groups[name] !== undefined);
    const kind = form === 'word' ? kindOfWord(text, before, listing) : form;
    tokens.push({ kind, text, from: match.index });
    if (kind === 'blank' || kind === 'comment') continue;
    listing = text === 'sites' || (listing && text !== ';');
    before = text;
  }
  return tokens;
}

// The names of agents in the order of their binders, and those of sites.
export function namesOf(tokens) {
  const real = tokens.filter((token) => token.kind !== 'blank' && token.kind !== 'comment');
  const agents = real.filter((token, at) => at > 0 && real[at - 1].text === 'agent' && token.kind === 'name');
  const end = real.findIndex((token) => token.text === ';');
  const sites = real.slice(0, Math.max(end, 0)).filter((token) => token.kind === 'place');
  return { agents: [...new Set(agents.map((token) => token.text))], sites: [...new Set(sites.map((token) => token.text))] };
}
