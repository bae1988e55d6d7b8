// The lines of a long text, cut out of it when they are asked for. Each ends with a line feed.

export class Lines {
  constructor(text) {
    this.text = text;
    this.starts = [0];
    for (let at = text.indexOf('\n'); at >= 0; at = text.indexOf('\n', at + 1)) this.starts.push(at + 1);
  }

  get length() {
    return this.starts.length - 1;
  }

  at(number) {
    return this.text.slice(this.starts[number], this.starts[number + 1] - 1);
  }

  // The lines from one number on and before another.
  part(from, end) {
    return Array.from({ length: Math.max(0, Math.min(end, this.length) - from) }, (_, index) => this.at(from + index));
  }
}
