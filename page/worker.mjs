// The worker: gets the compiled programs first, and then calls, one after another.

import { called } from './host.mjs';

let programs = null;

onmessage = ({ data }) => {
  if (data.programs) {
    programs = data.programs;
    return;
  }
  const start = performance.now();
  const answer = called(programs[data.program], [data.program, ...data.words], data.texts);
  postMessage({ ...answer, milliseconds: performance.now() - start, number: data.number });
};
