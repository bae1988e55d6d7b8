// What a program asks of the system it runs on: words, texts by name, output, memory, a clock, and numbers of 128 bits. It has one thread:
// where it wants to start another one it is told that there is none, and goes on by itself. No terminal is there, and no variable is set.

import { Heap } from './heap.mjs';

const NO_SUCH_FILE = 2;
const FAILED = 5;
const TRY_AGAIN = 11;
const NOT_JOINABLE = 22;

class Exit {
  constructor(status) {
    this.status = status;
  }
}

class Host {
  constructor(words, texts) {
    this.words = words.map((word) => new TextEncoder().encode(word));
    this.texts = texts;
    this.opened = new Map();
    this.next = 3;
    this.error = 0;
    this.written = { 1: [], 2: [] };
  }

  word(index, place, room) {
    const word = this.words[Number(index)];
    if (word === undefined) return -1n;
    const part = word.subarray(0, Number(room));
    this.heap.bytes(place, part.length).set(part);
    return part.length < word.length ? -2n : BigInt(word.length);
  }

  open(place) {
    const all = new Uint8Array(this.heap.memory.buffer);
    const from = Number(place);
    const name = new TextDecoder().decode(all.slice(from, all.indexOf(0, from)));
    if (!Object.hasOwn(this.texts, name)) return this.failed(NO_SUCH_FILE, -1);
    this.opened.set(this.next, { text: this.texts[name], at: 0 });
    return this.next++;
  }

  read(file, place, room) {
    const open = this.opened.get(file);
    if (open === undefined) return this.failed(FAILED, -1n);
    const part = open.text.subarray(open.at, open.at + Number(room));
    this.heap.bytes(place, part.length).set(part);
    open.at += part.length;
    return BigInt(part.length);
  }

  write(file, place, length) {
    if (this.written[file] === undefined) return this.failed(FAILED, -1n);
    this.written[file].push(this.heap.bytes(place, length).slice());
    return length;
  }

  failed(error, answer) {
    this.error = error;
    return answer;
  }

  // Stores a block at a place, behind whether there is one.
  answer(place, block) {
    this.heap.data().setBigUint64(Number(place), block === 0 ? 0n : 1n, true);
    this.heap.data().setBigUint64(Number(place) + 8, BigInt(block), true);
  }

  // Stores how long this worker has been there, in seconds and in what is left of them in nanoseconds.
  time(place) {
    const all = Math.round(performance.now() * 1e6);
    this.heap.data().setBigUint64(Number(place), BigInt(Math.floor(all / 1e9)), true);
    this.heap.data().setBigUint64(Number(place) + 8, BigInt(all % 1e9), true);
    return 0;
  }

  wide(place, number) {
    this.heap.data().setBigUint64(Number(place), BigInt.asUintN(64, number), true);
    this.heap.data().setBigUint64(Number(place) + 8, BigInt.asUintN(64, number >> 64n), true);
  }
}

const joined = (low, high) => (BigInt.asUintN(64, high) << 64n) | BigInt.asUintN(64, low);

function files(host) {
  return {
    rattle_arg: (index, place, room) => host.word(index, place, room),
    open: (place) => host.open(place),
    read: (file, place, room) => host.read(file, place, room),
    write: (file, place, length) => host.write(file, place, length),
    close: (file) => (host.opened.delete(file) ? 0 : -1),
    rattle_errno: () => host.error,
    rattle_set_errno: (error) => {
      host.error = error;
    },
  };
}

function surroundings(host) {
  return {
    isatty: () => 0,
    rattle_env: () => -1n,
    rattle_env_at: () => -1n,
    clock_gettime: (_clock, place) => host.time(place),
  };
}

function memory(host) {
  return {
    malloc: (length) => BigInt(host.heap.take(Number(length))),
    free: (block) => host.heap.give(Number(block)),
    rattle_alloc: (place, length) => host.answer(place, host.heap.take(Number(length))),
    rattle_dealloc: (block) => host.heap.give(Number(block)),
    rattle_realloc: (place, block, kept, length) => host.answer(place, host.heap.move(Number(block), Number(kept), Number(length))),
  };
}

function threads() {
  return {
    pthread_create: () => TRY_AGAIN,
    pthread_join: () => NOT_JOINABLE,
    pthread_self: () => 1n,
    pthread_detach: () => 0,
    pthread_attr_init: () => 0,
    pthread_attr_setguardsize: () => 0,
    pthread_attr_setstacksize: () => 0,
    pthread_attr_destroy: () => 0,
    sched_yield: () => 0,
    syscall: () => 0n,
  };
}

function numbers(host) {
  return {
    __multi3: (place, low, high, low2, high2) => host.wide(place, joined(low, high) * joined(low2, high2)),
    __lshrti3: (place, low, high, count) => host.wide(place, joined(low, high) >> BigInt(count)),
    __ashlti3: (place, low, high, count) => host.wide(place, joined(low, high) << BigInt(count)),
  };
}

function ends() {
  return {
    _exit: (status) => {
      throw new Exit(status);
    },
    abort: () => {
      throw new Error('abort');
    },
  };
}

function whole(parts) {
  const text = new Uint8Array(parts.reduce((sum, part) => sum + part.length, 0));
  let at = 0;
  for (const part of parts) {
    text.set(part, at);
    at += part.length;
  }
  return text;
}

function statusOf(start) {
  try {
    return { status: start() };
  } catch (fault) {
    return fault instanceof Exit ? { status: fault.status } : { status: null, fault: String(fault) };
  }
}

// Calls a program once, in an instance of its own: its words begin with its name, and the texts are those that it may read. The answer
// is its status and what it wrote; or no status and a fault, where it did not come to its end.
export function called(module, words, texts) {
  const host = new Host(words, texts);
  const env = { ...files(host), ...surroundings(host), ...memory(host), ...threads(), ...numbers(host), ...ends() };
  const instance = new WebAssembly.Instance(module, { env }).exports;
  host.heap = new Heap(instance.memory, Number(instance.__heap_base.value));
  const { status, fault } = statusOf(instance.started);
  return { status, fault, out: whole(host.written[1]), err: whole(host.written[2]), memory: instance.memory.buffer.byteLength };
}
