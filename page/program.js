// The program in WebAssembly: words and an input give a status and what was written.

export const STATUS = { done: 0, noSuchWords: 2, faulty: 3, noRoom: 5, tooLong: 6, noMemory: 7 };
// The room that an output is given first, in bytes; where it is too small the call is made again with four times as much. (A block of the heap has 16 bytes
// of its own before it. Room that nothing is written to takes no memory.)
const FIRST_ROOM = (1 << 26) - 16;
// An instance that has taken more memory than this is not kept, since memory is never given back to the browser.
const MOST_KEPT = 1 << 28;

// Gives the first of several modules that this engine runs, compiled.
export async function compiled(modules) {
  const found = modules.find((it) => WebAssembly.validate(it));
  if (!found) throw new Error("this browser runs none of the modules in the page: it wants WebAssembly of 2021 or later");
  return WebAssembly.compile(found);
}

export class Program {
  constructor(module) {
    this.module = module;
  }

  // Answers what the program writes for an input, as bytes, and its status. An instance is used again, but after a trap.
  call(words, input) {
    this.instance ??= new WebAssembly.Instance(this.module);
    let answer;
    try {
      answer = answered(this.instance.exports, new TextEncoder().encode(words), input);
    } catch (error) {
      this.instance = undefined;
      throw error;
    }
    if (this.instance.exports.memory.buffer.byteLength > MOST_KEPT) this.instance = undefined;
    return answer;
  }
}

function answered(library, words, input) {
  const places = [];
  // Gives a place of so many bytes, or 0n where there is no memory. Places are numbers of 64 bits.
  const take = (length) => {
    const at = library.malloc(BigInt(Math.max(length, 1)));
    if (at) places.push(at);
    return at;
  };
  const bytes = (at, length) => new Uint8Array(library.memory.buffer, Number(at), length);
  const put = (given) => {
    const at = take(given.length);
    if (at) bytes(at, given.length).set(given);
    return at;
  };
  const nothing = new Uint8Array(0);
  const [wordsAt, inputAt, writtenAt] = [put(words), put(input), take(8)];
  let answer = { status: STATUS.noRoom, output: nothing };
  for (let room = FIRST_ROOM; answer.status === STATUS.noRoom; room = room * 4 + 48) {
    const outputAt = take(room);
    if (!wordsAt || !inputAt || !writtenAt || !outputAt) {
      answer = { status: STATUS.noMemory, output: nothing };
      break;
    }
    const lengths = [BigInt(words.length), BigInt(input.length)];
    const status = library.gen2run_over_memory(wordsAt, lengths[0], inputAt, lengths[1], outputAt, BigInt(room), writtenAt);
    const written = status === STATUS.noRoom ? 0 : new DataView(library.memory.buffer).getBigUint64(Number(writtenAt), true);
    answer = { status, output: bytes(outputAt, Number(written)).slice() };
    library.free(places.pop());
  }
  // (not behind a trap, where nothing in the memory can be relied on)
  places.forEach((it) => library.free(it));
  return answer;
}
