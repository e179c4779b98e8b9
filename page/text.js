// A long text of lines, kept as the bytes that were written: a line becomes a string when it is asked for.

// Gives where each line of a text begins, and at last where a next one would.
export function startsOf(bytes) {
  let count = 0;
  for (let at = bytes.indexOf(10); at >= 0; at = bytes.indexOf(10, at + 1)) count += 1;
  const isCut = bytes.length > 0 && bytes[bytes.length - 1] !== 10;
  const starts = new Float64Array(count + 1 + (isCut ? 1 : 0));
  let [line, begin] = [0, 0];
  for (let at = bytes.indexOf(10); at >= 0; at = bytes.indexOf(10, begin)) {
    begin = at + 1;
    starts[++line] = begin;
  }
  if (isCut) starts[++line] = bytes.length + 1;
  return starts;
}

const decoder = new TextDecoder("utf-8", { ignoreBOM: true });

export class Text {
  constructor(bytes, starts = startsOf(bytes)) {
    this.bytes = bytes;
    this.starts = starts;
    this.longest = 0;
    for (let at = 0; at < this.length; at++) this.longest = Math.max(this.longest, starts[at + 1] - starts[at] - 1);
  }

  static of(text) {
    return new Text(new TextEncoder().encode(text));
  }

  get length() {
    return this.starts.length - 1;
  }

  // Gives a line without its line feed.
  line(at) {
    return decoder.decode(this.bytes.subarray(this.starts[at], this.starts[at + 1] - 1));
  }

  lines(from = 0, to = this.length) {
    return Array.from({ length: Math.max(0, to - from) }, (_, at) => this.line(from + at));
  }

  whole() {
    return decoder.decode(this.bytes);
  }
}
