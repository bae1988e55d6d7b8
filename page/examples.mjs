// The sources of examples/ and the steps of the tutorial, to choose from.

import { find, made } from './dom.mjs';

const given = JSON.parse(find('examples').textContent);

export const examples = given.sources;

export function listExamples() {
  const group = (label, options) => {
    const element = made('optgroup', '', ...options.map(([text, name]) => new Option(text, name)));
    element.label = label;
    return element;
  };
  const steps = new Set(given.steps.map(([, name]) => name).filter((name) => name.startsWith('tutorial-')));
  const others = Object.keys(examples).filter((name) => !steps.has(name));
  find('example').append(group('Examples', others.map((name) => [name, name])), group('Steps of the tutorial', given.steps));
  find('example').value = 'letter.np';
}
