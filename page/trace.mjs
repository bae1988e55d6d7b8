// The events of a run, read off the lines of its history or of its high text when they are asked for. docs/HISTORIES.md has the fields.

import { Lines } from './lines.mjs';

export class Trace {
  // So many events, of the sites or of the source, whose lines a function gives.
  constructor(length, lineAt, isHigh) {
    this.length = length;
    this.lineAt = lineAt;
    this.isHigh = isHigh;
    this.followed = 0;
    this.agents = new Map();
    this.departed = new Map();
    this.departures = new Map();
  }

  // An event by its number, counted from 0; an Arrive with the node of the Depart before it.
  event(number) {
    const event = this.read(number);
    if (event?.kind !== 'Arrive') return event;
    for (; this.followed <= number; this.followed += 1) this.note(this.read(this.followed));
    return { ...event, node: this.departures.get(number) ?? event.node };
  }

  read(number) {
    if (!(number < this.length)) return undefined;
    const line = this.lineAt(number);
    const [site, word, actor, , node, role, made, further, high] = line.split(' ');
    const kind = this.isHigh && high === 'Post' ? high : word;
    return { number, line, site: Number(site), kind, actor, node: Number(node), role, made, further };
  }

  // Notes of which agent each mark is: what an agent's process makes is of that agent too. And where each agent departed last.
  note({ number, kind, actor, node, made, further }) {
    const agent = this.agents.get(actor);
    if (kind === 'Agent') this.agents.set(made, made).set(further, made);
    else if (made !== '-') this.agents.set(made, agent);
    if (kind === 'Depart') this.departed.set(agent, node);
    if (kind === 'Arrive' && this.departed.has(agent)) this.departures.set(number, this.departed.get(agent));
  }
}

// The events of a text, which stand between its first line and the last one; none where there is no text.
export function traceOf(text, isHigh) {
  const lines = new Lines(text ?? '');
  return new Trace(Math.max(0, lines.length - 2), (number) => lines.at(number + 1), isHigh);
}

// The events of the source that are read off those of a history in format 2, as its last field says.
export function readOff(low) {
  const lines = Array.from({ length: low.length }, (_, number) => low.lineAt(number));
  const own = lines.filter((line) => line.endsWith(' =') || line.endsWith(' Post'));
  return new Trace(own.length, (number) => own[number], true);
}
