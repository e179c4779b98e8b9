// What lines of forms other than a report's say: those of a scenario, of objects, and of a value change dump.

const SEVERAL = { break: "the first reply with its first level inverted", capture: "the first reply whole" };
const RULES = [
  [/^fixed$/, () => "stays as it is"],
  [/^frame$/, () => "moves behind a whole frame"],
  [/^(?:float-)?(\d+)$/, (_, it) => `moves by ${it} thousandths with each slot`],
];
const MEMBERS = { all: "all tags", nsl: "tags whose SL is not set", sl: "tags whose SL is set" };
const CHOICES = {
  pick: (it) => `the channel gives reply ${it}, counted from 0`,
  silent: () => "the channel gives nothing",
  break: (it) => `the channel gives the first reply with the level at place ${it} inverted`,
  raw: () => "the channel gives these levels",
};
const EVENTS = {
  timeout: (tag) => `T2 runs out for tag ${tag}`,
  off: (tag) => `tag ${tag} loses power`,
  on: (tag) => `tag ${tag} gets power`,
  expire: (flag, tag) => `the persistence of ${flag.toUpperCase()} ends for tag ${tag}`,
};

const rule = (text) => RULES.flatMap(([pattern, said]) => (pattern.test(text) ? [said(...pattern.exec(text))] : []))[0] ?? text;

export const SCENARIO = [
  [/^gen2 (\d)$/, (_, it) => `a scenario of version ${it}`],
  [/^link (\S+) (\S+) (\S+) (\S+) (\S+) (\S+) (\S+)$/,
    (_, tari, rtcal, trcal, pw, dr, code, trext) =>
      `the link: Tari ${tari}, RTcal ${rtcal}, TRcal ${trcal} and PW ${pw} nanoseconds, DR ${dr === "0" ? "8" : "64/3"}, ${code} with TRext ${trext}`],
  [/^default (\S+)$/, (_, it) => `where several tags reply and nothing is chosen the channel gives ${SEVERAL[it]}`],
  [/^tag (\S+) (\S+) (\S+) (\S+)/, (_, kill, access, locks, epc) => `a tag with the kill password ${kill}, the access password ${access}, the locks ${locks} and the EPC bank ${epc} from PC on`],
  [/^copies (\d+) /, (_, count) => `${count} tags, in whose EPC, TID and drawn words the last word rises by one from tag to tag`],
  [/^air (\d+) miss (\d+)$/, (_, exchange, tag) => `in exchange ${exchange} tag ${tag} doesn't hear the command`],
  [/^air (\d+) (pick|silent|break|raw) ?(\S*)$/, (_, exchange, kind, it) => `in exchange ${exchange} ${CHOICES[kind](it)}`],
  [/^air (\d+) (\S+) (\S+) ?(\S*)$/, (_, exchange, kind, ...fields) => `before exchange ${exchange} ${EVENTS[kind](...fields)}`],
  [/^event (\S+) (\S+) ?(\S*)$/, (_, kind, ...fields) => `between two exchanges ${EVENTS[kind](...fields)}`],
  [/^round (\S+) (\S+) (\S+) (\S+) (\S+) (\S+)$/,
    (_, sel, session, target, q, how, limit) =>
      `a round for ${MEMBERS[sel]} in session S${session}, target ${target.toUpperCase()}: Q begins at ${q} and ${rule(how)}, and at most ${limit} slot commands are sent`],
  [/^only (\S+)$/, (_, epc) => `the operations of the round are for tags with the EPC ${epc}`],
  [/^op (\S+) (.+)$/, (_, kind, fields) => `an operation on each tag that the round lists: ${kind}, with ${fields}`],
  [/^end$/, () => "the scenario ends here"],
];

const SIGNALS = { r: "the reader's wave", t: "the tags' wave", e: "the number of the exchange", n: "how many tags replied", c: "the command", g: "what was given" };
const LEVELS = { 0: "is low", 1: "is high", z: "is not sent" };

export const DUMP = [
  [/^\$comment (.+) \$end$/, (_, it) => `a comment: ${it}`],
  [/^\$timescale (.+) \$end$/, (_, it) => `times are in units of ${it}`],
  [/^\$var \S+ \S+ (\S) (\S+) \$end$/, (_, sign, name) => `the signal ${name}, which the dump names ${sign}: ${SIGNALS[sign]}`],
  [/^\$scope module (\S+) \$end$/, (_, it) => `the signals of ${it} begin`],
  [/^\$upscope \$end$/, () => "these are all signals"],
  [/^\$enddefinitions \$end$/, () => "the head ends here"],
  [/^\$dumpvars$/, () => "the first values of all signals"],
  [/^\$end$/, () => "the first values end here"],
  [/^#(\d+)$/, (_, it) => `at ${Number(it).toLocaleString("en-US")} nanoseconds`],
  [/^([01z])([rt])$/, (_, level, sign) => `${SIGNALS[sign]} ${LEVELS[level]} from here on`],
  [/^r(\d+) ([en])$/, (_, it, sign) => `${SIGNALS[sign]} is ${it} from here on`],
  [/^s(\S+) ([cg])$/, (_, it, sign) => `${SIGNALS[sign]} is ${it === "-" ? "nothing" : it.replaceAll("_", " ")} from here on`],
];

const FIELDS = {
  list: ["round", "slot", "pc", "epc"],
  op: ["round", "slot", "index", "result", "value"],
  round: ["round", "end", "slots"],
  seen: ["count", "pc", "epc"],
  tag: ["number", "state", "flags", "locks", "res", "epc", "tid", "user"],
  done: [],
};

// Gives the line of a report that an object stands for.
export function lineOfObject(text) {
  const object = JSON.parse(text);
  const fields = FIELDS[object.kind].map((it) => (object[it] === "" ? (it === "value" ? undefined : "-") : object[it]));
  return [object.kind, ...fields.filter((it) => it !== undefined)].join(" ");
}

// Gives the line of another word that an object stands for: its members are the fields of the line in their order, and the URI of an EPC. (Where
// judge names two answers, `or` has the preamble of the second.)
export function lineOfMembers(text) {
  const { kind, line, ...members } = JSON.parse(text);
  const isField = ([key, it]) => (key === "uri" ? kind === "name" : key !== "value" || it !== "");
  const fields = Object.entries(members).filter(isField).map(([key, it]) => (key === "or" ? `or ${it}` : it === "" ? "-" : it));
  return [kind, line, ...fields].filter((it) => it !== undefined).join(" ");
}
