// The waves of an exchange, cut into named parts, as examples/draw cuts them.

// How wide a nanosecond of a reader is in pixels, and a level of a tag by its code: a level is much shorter than a symbol of a reader.
const READER_SCALE = 0.0016;
const LEVEL_WIDTH = { fm0: 10, m2: 8, m4: 5, m8: 3 };
// How many symbols a pilot has without and with TRext; a preamble has six.
const PILOTS = { fm0: [0, 12], m: [4, 16] };

// A lane has its notes, its width and its parts: each with a title, a label, where it begins, its width, its pieces (each a level and a width), and which of
// these is broken.
function lane(notes, parts) {
  let width = 0;
  const placed = parts.map((part) => {
    const begin = width;
    for (const [, length] of part.pieces) width += length;
    return { ...part, begin, width: width - begin };
  });
  return { notes, parts: placed, width };
}

// Gives the wave of the frame that was sent.
export function readerLane(exchange, { lead, bits }, zoom) {
  const { intervals } = exchange;
  const width = (length) => length * READER_SCALE * zoom;
  const names = { preamble: ["Tari", "RTcal", "TRcal"], sync: ["Tari", "RTcal"] }[lead] ?? [];
  const parts = [{ title: `delimiter, ${intervals[0]} ns`, label: "delimiter", isBelow: true, pieces: [[0, width(intervals[0])]] }];
  for (let at = 1; at < intervals.length; at += 2) {
    const pair = (at - 1) / 2;
    const place = pair - names.length;
    const length = intervals[at] + (intervals[at + 1] ?? 0);
    const [title, label] =
      pair < names.length ? [names[pair], names[pair]] : place < bits.length ? [`bit ${place} is ${bits[place]}`, bits[place]] : [`interval ${at}`, ""];
    const pieces = intervals.slice(at, at + 2).map((it, high) => [high ? 0 : 1, width(it)]);
    parts.push({ title: `${title}, ${length} ns`, label, pieces });
  }
  return lane(`exchange ${exchange.number}: the reader sends ${exchange.command}`, parts);
}

function saidOfReply({ replied, levels, given, reply, inverted }) {
  const tags = replied === 1 ? "1 tag answers" : `${replied} tags answer`;
  if (!levels) return `${tags}, nothing comes`;
  const came = { whole: reply, broken: `level ${inverted} of ${reply} is inverted`, raw: "those that the scenario names" }[given[0]];
  return `${tags}, ${levels.length} levels come: ${came}`;
}

// Gives the wave of what came back.
export function tagLane(exchange, { trext, streamBits, wrong }, zoom) {
  const { code, levels } = exchange;
  const broken = exchange.inverted ?? wrong;
  const symbol = code === "fm0" ? 2 : 2 * Number(code[1]);
  const pilot = (PILOTS[code] ?? PILOTS.m)[Number(trext)] * symbol;
  const names = [["pilot", "pilot", pilot], ["preamble", "preamble", 6 * symbol]];
  if (streamBits === undefined) names.push(["levels that are no bits", "", levels.length]);
  else names.push(...[...streamBits].map((bit, at) => [`bit ${at} is ${bit}`, bit, symbol]), ["dummy, a data-1", "dummy", symbol]);
  const parts = [];
  let at = 0;
  for (const [name, label, length] of names) {
    const part = levels.slice(at, at + length);
    const inside = broken !== undefined && at <= broken && broken < at + part.length ? broken - at : undefined;
    const said = exchange.inverted === undefined ? "can't follow" : "is inverted by the channel";
    const title = inside === undefined ? name : `${name}; level ${broken} ${said}`;
    if (part) parts.push({ title, label, broken: inside, pieces: [...part].map((it) => [Number(it), LEVEL_WIDTH[code] * zoom]) });
    at += length;
  }
  return lane(`exchange ${exchange.number}: ${saidOfReply(exchange)}`, levels ? parts : []);
}
