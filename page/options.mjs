// What is chosen on the page: how a source is run, and by which words.

import { find } from './dom.mjs';

export const SOURCE = 'source.np';
export const HISTORY = 'run.history';
const RUNS = '100';
const MOST_AT_ONCE = 2000;
const STRETCH = 1000;

export const chosen = (id) => find(id).value;
export const budget = () => ['--budget', chosen('budget')];
export const level = () => document.querySelector('input[name=level]:checked').value;

const bySeed = (level) => ['--level', level, ...budget(), '--infra', chosen('infrastructure')];

// The program and the words of each way to run a source.
export const COURSES = {
  sites: () => ['np', ['run', SOURCE, '--serial', '--history', '--high', ...budget(), '--infra', chosen('infrastructure')]],
  high: () => ['np', ['high', SOURCE, '--history', ...budget()]],
  seed: () => ['np_look', ['run', SOURCE, '--seed', chosen('seed'), '--history', ...bySeed('low')]],
  'seed-high': () => ['np_look', ['run', SOURCE, '--seed', chosen('seed'), '--history', ...bySeed('high')]],
  runs: () => ['np_look', ['runs', SOURCE, '--runs', RUNS, '--from', chosen('seed'), ...bySeed('low')]],
  'runs-high': () => ['np_look', ['runs', SOURCE, '--runs', RUNS, '--from', chosen('seed'), ...bySeed('high')]],
};

// The words by which np_look draws a run that has no history: one of the source itself, by a seed.
export const drawingOf = (course) => (course === 'seed-high' ? ['--seed', chosen('seed'), ...budget()] : null);

// Chooses one run by a seed where many were made.
export function chooseSeed(seed) {
  find('course').value = chosen('course').replace('runs', 'seed');
  find('seed').value = seed;
}

// Shows the options that the chosen way of running has.
export function showOptions() {
  const course = chosen('course');
  find('seeds').hidden = !/^(seed|runs)/.test(course);
  find('seed-word').replaceChildren(course.startsWith('runs') ? 'First seed' : 'Seed');
  find('infrastructure').disabled = course.endsWith('high');
}

// Which of so many events are drawn: the words of a part, and before which event it begins.
export function stretchOf(events) {
  find('part').hidden = events <= MOST_AT_ONCE;
  if (events <= MOST_AT_ONCE) return { words: [], before: 0 };
  const from = Math.min(Math.max(Math.trunc(Number(chosen('from'))) || 1, 1), events);
  find('from').value = from;
  find('part-of').replaceChildren(`of ${events.toLocaleString('en')}, ${STRETCH.toLocaleString('en')} at a time`);
  return { words: ['--from', String(from), '--to', String(from + STRETCH - 1)], before: from - 1 };
}

export const isLong = (events) => events > MOST_AT_ONCE;
