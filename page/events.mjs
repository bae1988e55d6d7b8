// The events of a run as a table, and what is told of one of them.

import { button, find, made, plural } from './dom.mjs';
import { nodesOf } from './nodes.mjs';

const MOST_ROWS = 2000;
const WORDS = {
  Stop: 'ends a process',
  Fork: 'splits in two',
  New: 'makes a channel',
  Let: 'takes a value apart',
  If: 'tests a value',
  Comm: 'takes a value',
  Rep: 'takes a value',
  Agent: 'makes an agent',
  Depart: 'leaves',
  Arrive: 'arrives',
  Local: 'looks for an agent',
  Send: 'sends a message',
  Land: 'gets a message',
  Print: 'prints',
  Open: 'opens a letter',
  Lookup: 'looks a place up',
  Post: 'sends a message',
};

// The events of a run at both levels, with the source and the sites that they are of.
export class Run {
  constructor(source, sites, high, low) {
    this.source = source;
    this.sites = sites;
    this.levels = { high, low };
    this.nodes = nodesOf(source);
  }

  event({ level, number }) {
    return this.levels[level]?.event(number);
  }

  place(event) {
    return this.nodes[event.node] ?? null;
  }

  code(event) {
    const place = this.place(event);
    return place ? this.source.slice(place.from, place.to) : '';
  }

  line(event) {
    const place = this.place(event);
    return place ? this.source.slice(0, place.from).split('\n').length : 0;
  }

  siteOf(event) {
    return this.sites[event.site] ?? String(event.site);
  }
}

function rowOf(run, level, event, onChoose) {
  const number = made('td', 'number', button(String(event.number + 1), () => onChoose({ level, number: event.number })));
  const code = run.code(event);
  const words = code ? [made('code', '', code)] : [];
  const what = made('td', 'kind', WORDS[event.kind] ?? event.kind);
  const line = made('td', 'number', code ? String(run.line(event)) : '');
  const row = made('tr', event.role === 'Infra' ? 'infra' : 'own', number, what);
  row.append(made('td', '', run.siteOf(event)), made('td', '', ...words), line);
  row.dataset.number = event.number;
  row.addEventListener('click', () => onChoose({ level, number: event.number }));
  return row;
}

// Shows the events of a level.
export function showEvents(run, level, onChoose) {
  const trace = run.levels[level];
  const head = ['Event', 'What happens', 'Site', 'Source', 'Line'].map((word) => {
    const cell = made('th', '', word);
    cell.scope = 'col';
    return cell;
  });
  const shown = Math.min(trace.length, MOST_ROWS);
  const rows = Array.from({ length: shown }, (_, number) => rowOf(run, level, trace.event(number), onChoose));
  const table = made('table', '', made('thead', '', made('tr', '', ...head)), made('tbody', '', ...rows));
  const more = trace.length - shown;
  const rest = made('p', 'hint', more ? `${plural(more, 'more event', 'more events')} in the history` : '');
  find('events').replaceChildren(table, rest);
}

export function lightRow(choice) {
  for (const row of document.querySelectorAll('#events tr.picked')) row.classList.remove('picked');
  if (choice) document.querySelector(`#events tr[data-number="${choice.number}"]`)?.classList.add('picked');
}

// What is told of an event: a sentence, its place, and its line of the history.
export function tellingOf(run, choice, sentence) {
  const event = run.event(choice);
  const count = run.levels[choice.level].length;
  const line = run.line(event);
  const where = line ? `, line ${line} of the source` : ', a step of the infrastructure';
  const said = made('p', '', made('b', '', sentence || WORDS[event.kind] || event.kind));
  const code = run.code(event);
  const level = choice.level === 'high' ? 'of the source' : 'of the sites';
  const facts = made('p', '', `Event ${event.number + 1} of ${count} ${level}, at ${run.siteOf(event)}${where}`);
  const words = code ? [made('p', '', made('code', '', code))] : [];
  return [said, facts, ...words, made('p', 'raw', event.line)];
}
