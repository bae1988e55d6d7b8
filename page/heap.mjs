// The heap of an instance. A block has room for a power of two of bytes, and that power stands in the bytes before them. Of each power the
// free blocks are a list, whose links stand in the blocks.

const HEAD = 16;
const LEAST_POWER = 4;
const LARGEST = 2 ** 30;
const PAGE = 65536;
const PAGES_AT_ONCE = 64;

// The least power that is used with room for so many bytes.
const powerFor = (length) => (length <= 2 ** LEAST_POWER ? LEAST_POWER : 32 - Math.clz32(length - 1));

export class Heap {
  constructor(memory, base) {
    this.memory = memory;
    this.top = Math.ceil(base / HEAD) * HEAD;
    this.free = new Array(64).fill(0);
    this.view = new DataView(memory.buffer);
  }

  // The memory as it is: growing it makes a new buffer.
  data() {
    if (this.view.buffer !== this.memory.buffer) this.view = new DataView(this.memory.buffer);
    return this.view;
  }

  bytes(place, length) {
    return new Uint8Array(this.memory.buffer, Number(place), Number(length));
  }

  // The place of a block for so many bytes, or 0 where there is no room.
  take(length) {
    if (length > LARGEST) return 0;
    const power = powerFor(length);
    const place = this.free[power];
    if (place === 0) return this.extend(power);
    this.free[power] = Number(this.data().getBigUint64(place, true));
    return place;
  }

  extend(power) {
    const end = this.top + HEAD + 2 ** power;
    if (!this.reach(end)) return 0;
    const place = this.top + HEAD;
    this.data().setUint32(this.top, power, true);
    this.top = end;
    return place;
  }

  // Grows the memory up to this place, if it can.
  reach(end) {
    const lacking = end - this.memory.buffer.byteLength;
    if (lacking <= 0) return true;
    try {
      this.memory.grow(BigInt(Math.max(PAGES_AT_ONCE, Math.ceil(lacking / PAGE))));
      return true;
    } catch {
      return false;
    }
  }

  give(place) {
    if (place === 0) return;
    const power = this.data().getUint32(place - HEAD, true);
    this.data().setBigUint64(place, BigInt(this.free[power]), true);
    this.free[power] = place;
  }

  // A block for so many bytes that begins with those kept of another one, which is given back; or 0, and the other one stays.
  move(place, kept, length) {
    const power = this.data().getUint32(place - HEAD, true);
    if (length <= 2 ** power) return place;
    const next = this.take(length);
    if (next === 0) return 0;
    new Uint8Array(this.memory.buffer).copyWithin(next, place, place + Math.min(kept, length));
    this.give(place);
    return next;
  }
}
