// Calls of the programs, each answered by a worker. A worker that is stopped is replaced by a new one.

const encode = (text) => (typeof text === 'string' ? new TextEncoder().encode(text) : text);

// The programs that stand in the page, packed, as compiled modules by their names.
export async function modulesOf(names) {
  const modules = await Promise.all(names.map((name) => moduleOf(document.getElementById(`program-${name}`).textContent)));
  return Object.fromEntries(names.map((name, index) => [name, modules[index]]));
}

async function moduleOf(packed) {
  const bytes = Uint8Array.from(atob(packed.trim()), (letter) => letter.charCodeAt(0));
  const stream = new Blob([bytes]).stream().pipeThrough(new DecompressionStream('gzip'));
  return WebAssembly.compile(await new Response(stream).arrayBuffer());
}

export class Programs {
  constructor(modules, script) {
    this.modules = modules;
    this.address = URL.createObjectURL(new Blob([script], { type: 'text/javascript' }));
    this.waiting = new Map();
    this.number = 0;
    this.begin();
  }

  begin() {
    this.worker = new Worker(this.address);
    this.worker.onmessage = ({ data }) => this.settle(data.number, data);
    this.worker.onerror = (event) => this.end({ status: null, fault: event.message });
    this.worker.postMessage({ programs: this.modules });
  }

  call(program, words, texts) {
    const number = this.number++;
    const held = Object.fromEntries(Object.entries(texts).map(([name, text]) => [name, encode(text)]));
    return new Promise((settle) => {
      this.waiting.set(number, settle);
      this.worker.postMessage({ number, program, words, texts: held });
    });
  }

  settle(number, answer) {
    const settle = this.waiting.get(number);
    this.waiting.delete(number);
    if (settle) settle(answer);
  }

  // Ends what is under way: each call that waits is answered so.
  stop() {
    this.end({ status: null, stopped: true });
  }

  end(answer) {
    this.worker.terminate();
    const none = { out: new Uint8Array(), err: new Uint8Array(), milliseconds: 0, memory: 0 };
    for (const number of [...this.waiting.keys()]) this.settle(number, { ...none, ...answer });
    this.begin();
  }
}
