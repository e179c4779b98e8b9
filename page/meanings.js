// What a line that the program writes says, in words. docs/FORMATS.md has the lines with their limits.
import { DUMP, SCENARIO, lineOfMembers, lineOfObject } from "./forms.js";

const BANKS = { res: "Reserved", epc: "EPC", tid: "TID", user: "User" };
const STATES = {
  ready: "it takes no part in a round",
  arbitrate: "it waits for its slot",
  reply: "it has sent its RN16",
  acknowledged: "its EPC was asked for",
  open: "it has given a handle",
  secured: "it has given a handle, and its access password was given or is 0",
  killed: "it never answers again",
  off: "it has no power",
};
const FAULT = "the input is faulty, and nothing else was done: the editor shows this line and says why";
const tags = (count) => (count === "1" ? "one tag" : `${count} tags`);

const REPLIES = [
  [/^rn16 (\S+)$/, (_, it) => `an RN16, the number ${it} that a tag drew for its slot`],
  [/^epc (\S+) (\S+)$/, (_, pc, epc) => `an EPC reply: the PC is ${pc} and the EPC ${epc === "-" ? "empty" : epc}`],
  [/^handle (\S+)$/, (_, it) => `a handle, ${it}, by which commands name the tag`],
  [/^words (\S+)$/, (_, it) => `the words that were read: ${it}`],
  [/^header$/, () => "the reply that says that a write, a lock or a kill was done"],
  [/^error (\S+)$/, (_, it) => `an error reply with the code ${it}${{ "00": ", other error", "03": ", memory overrun", "04": ", memory locked" }[it] ?? ""}`],
];
const COMMANDS = [
  [/^query (\S+) (\S+) (\S+) (\S+) (\S+) (\S+) (\S+)$/,
    (_, dr, code, trext, sel, session, target, q) =>
      `a Query: it begins a round in session S${session} for target ${target.toUpperCase()} with Q ${q}, and asks for ${code}, TRext ${trext}, DR ${dr === "0" ? "8" : "64/3"}, Sel ${sel}`],
  [/^queryrep (\S+)$/, (_, it) => `a QueryRep: the next slot of session S${it}`],
  [/^queryadjust (\S+) (\S+)$/, (_, session, updn) => `a QueryAdjust in session S${session}: Q goes ${{ up: "up by one", down: "down by one", same: "on as it is" }[updn]}, and tags draw anew`],
  [/^ack (\S+)$/, (_, it) => `an ACK of the RN16 ${it}: the tag sends its EPC`],
  [/^nak$/, () => "a NAK: tags that were asked go back to arbitrate"],
  [/^req_rn (\S+)$/, (_, it) => `a Req_RN to ${it}: the tag gives a handle or a cover`],
  [/^select (\S+) (\S+) (\S+) (\S+) (\S+)$/, (_, target, action, bank, pointer, mask) => `a Select: action ${action} on ${target} of the tags whose ${BANKS[bank]} bank has ${mask === "-" ? "anything" : mask} from bit ${pointer} on`],
  [/^read (\S+) (\S+) (\S+) (\S+)$/, (_, bank, at, count, handle) => `a Read to ${handle}: ${count === "0" ? "all words" : `${count} words`} of the ${BANKS[bank]} bank from word ${at} on`],
  [/^write (\S+) (\S+) (\S+) (\S+)$/, (_, bank, at, word, handle) => `a Write to ${handle}: word ${at} of the ${BANKS[bank]} bank, sent under a cover as ${word}`],
  [/^(kill|access) (\S+) (\S+)$/, (_, kind, half, handle) => `half of a password of ${kind}, to ${handle}, sent under a cover as ${half}`],
  [/^lock (\S+) (\S+)$/, (_, payload, handle) => `a Lock to ${handle} with mask and action ${payload}`],
  [/^(blockwrite|blockerase) (\S+) (\S+) (\S+) (\S+)$/, (_, kind, bank, at, what, handle) => `a ${kind} to ${handle}: ${kind === "blockwrite" ? what : `${what} words`} in the ${BANKS[bank]} bank from word ${at} on`],
];

const found = (kinds, line) => {
  for (const [pattern, said] of kinds) {
    const it = pattern.exec(line);
    if (it) return said(...it);
  }
  return undefined;
};
const ofReply = (line) => found(REPLIES, line) ?? line;

const REPORT = [
  [/^list (\d+) (\d+) (\S+) (\S+)$/, (_, round, slot, pc, epc) => `in round ${round}, slot ${slot}, the EPC ${epc} with the PC ${pc} came whole and is listed`],
  [/^op (\d+) (\d+) (\d+) (.+)$/, (_, round, slot, at, result) => `operation ${at} on the tag of round ${round}, slot ${slot}: ${saidOfResult(result)}`],
  [/^round (\d+) quiet (\d+)$/, (_, round, slots) => `round ${round} ended quiet, behind a whole frame of silent slots, after ${slots} slot commands`],
  [/^round (\d+) limit (\d+)$/, (_, round, slots) => `round ${round} ended by its limit of ${slots} slot commands: tags may be missing`],
  [/^seen (\d+) (\S+) (\S+)$/, (_, count, pc, epc) => `the EPC ${epc} with the PC ${pc} was listed ${count === "1" ? "once" : `${count} times`} in all`],
  [/^tag (\d+) (\S+) (\S+) (\S+) (\S+) (\S+) (\S+) (\S+)$/,
    (_, number, state, flags, locks) => `tag ${number} at the end is in ${state}: ${STATES[state] ?? ""}; its flags for S0 to S3 and SL are ${flags}, its locks ${locks}; then its four banks`],
  [/^done$/, () => "all was done: this is the last line"],
  [/^blf (\d+)\/(\d+)$/, (_, num, den) => `the backscatter link frequency is ${num}/${den} per nanosecond, ${((num / den) * 1e6).toFixed(1)} kHz`],
  [/^tx (\d+) /, (_, number) => `exchange ${number}: the frame that was sent, as lengths in nanoseconds of low and high in turn`],
  [/^rx (\d+) (\d+) (\S+)$/, (_, number, count, levels) => `exchange ${number}: ${tags(count)} replied, and ${levels === "-" ? "nothing came back" : `${levels.length} levels came back`}`],
  [/^exchange (\d+) (.+)$/, (_, number, command) => `exchange ${number}: ${found(COMMANDS, command) ?? command}`],
  [/^missed (\d+) (\d+)$/, (_, number, tag) => `tag ${tag} doesn't hear the command of exchange ${number}`],
  [/^answer (\d+) (\d+) (plain|extended) (.+)$/, (_, number, tag, kind, reply) => `in exchange ${number} tag ${tag} sent ${ofReply(reply)}`],
  [/^given (\d+) silence$/, (_, number) => `in exchange ${number} the channel gave nothing`],
  [/^given (\d+) whole (\d+)$/, (_, number, tag) => `in exchange ${number} the channel gave the reply of tag ${tag} whole`],
  [/^given (\d+) broken (\d+) (\d+)$/, (_, number, tag, place) => `in exchange ${number} the channel gave the reply of tag ${tag} with the level at place ${place} inverted`],
  [/^given (\d+) raw$/, (_, number) => `in exchange ${number} the channel gave levels that the scenario names`],
];
const DECODED = [
  [/^bits (\S+)$/, (_, bits) => `the levels are the stream of ${bits === "-" ? "no bits" : "these bits"}`],
  [/^invalid (\d+)$/, (_, place) => `the level at place ${place}, counted from 0, can't follow: there, or shortly before, the capture went wrong`],
  [/^unfinished (\d+)$/, (_, place) => `all ${place} begin a stream or a frame, and more has to follow`],
  [/^preamble (\d+) (\d+) (\d+) (\S+)$/, (_, tari, rtcal, trcal) => `a preamble and these bits: Tari ${tari}, RTcal ${rtcal}, TRcal ${trcal} nanoseconds`],
  [/^sync (\d+) (\d+) (\S+)$/, (_, tari, rtcal) => `a frame-sync and these bits: Tari ${tari}, RTcal ${rtcal} nanoseconds`],
  [/^refused (\d+)$/, (_, place) => `from place ${place} on the levels are no stream; or, where that is their number, they are no reply that is awaited`],
  [/^refused (.+)$/, (_, why) => `this is refused, for its ${why}`],
  [/^short (\d+)$/, (_, count) => `all ${count} bits begin a command, and more have to follow`],
  [/^levels (\S+)$/, () => "the samples are these levels"],
  [/^mixed (\d+)$/, (_, place) => `the group of samples at place ${place} has some on each side of the threshold`],
  [/^rest (\d+)$/, (_, place) => `a short group of samples begins at place ${place}`],
  [/^name (\S+)$/, (_, uri) => `the SGTIN-96 of these words is ${uri}`],
  [/^sgtin (\S+)$/, () => "these are the words of this URI"],
  ...REPLIES,
  ...COMMANDS,
];
const PROBED = [
  [/^answer (\d+) -$/, (_, line) => `to line ${line} the tag sends nothing`],
  [/^answer (\d+) (plain|extended) (.+)$/, (_, line, kind, reply) => `to line ${line} the tag sends ${ofReply(reply)}${kind === "extended" ? ", with the extended preamble" : ""}`],
  [/^state (\d+) (\S+) (\S+)(.*)$/, (_, line, state, flags) => `behind line ${line} the tag is in ${state}: ${STATES[state] ?? ""}; its flags for S0 to S3 and SL are ${flags}`],
  ...REPORT,
];
const OTHERS = {
  encode: [[/^refused (.+)$/, (_, why) => `this is refused, for its ${why}`], [/^(\S+) /, (_, kind) => `the line that decode reads, of the kind ${kind}`]],
  audit: [
    [/^yes$/, () => "the trace is what tags and channel make of the commands in it"],
    [/^no 0 event$/, () => "the scenario has an event line, of which a trace says nothing"],
    [/^no (\d+) (\S+)$/, (_, line, why) => `line ${line} of the trace, behind the scenario's end, is the first that can't be, for its ${why}`],
  ],
  judge: [
    [/^yes$/, () => "this can be the log of a tag that follows the standard's tables, with some words to draw"],
    [/^no (\d+) (.+)$/, (_, line, wanted) => `the answer in line ${line} is the first that can't be: a tag answers ${wanted}, where * is a number that it draws`],
    [/^profile (\d+) (.+)$/,
      (_, line, wanted) => `all can be, with what the standard leaves to the maker of a tag: first in line ${line}, where this project's profile answers ${wanted}`],
  ],
  portals: [[/^portal (\d) (\d+) (\d+) (\d+) (\S+) (\S+)$/,
    (_, portal, round, joint, alone, end, mark) =>
      `portal ${portal}, round ${round}: ${joint} EPCs listed beside the other portal, ${alone} alone; it ended ${end === "quiet" ? "quiet in both" : "by its limit"}, and the lists are ${mark === "same" ? "the same" : "not the same"}`], ...REPORT],
  names: [[/^name (\S+)$/, (_, uri) => `the tag that was listed is the trade item ${uri}`], ...REPORT],
  gen: [
    [/^tags (\d+)$/, (_, it) => `${tags(it)} were made, with draw words of the seed`],
    [/^listed (\d+)$/, (_, it) => `${it} times an EPC was listed`],
    [/^distinct (\d+)$/, (_, it) => `${it} different pairs of PC and EPC were listed`],
    [/^slots (\d+)$/, (_, it) => `it took ${it} slot commands`],
    [/^end quiet$/, () => "the round ended quiet: so each tag is listed once, which is proved"],
    [/^end limit$/, () => "the round ended by its limit: tags may be missing"],
    ...REPORT,
  ],
};

function saidOfResult(result) {
  if (result === "ok") return "it was done";
  if (result.startsWith("ok ")) return `the words ${result.slice(3)} were read`;
  if (result.startsWith("error ")) return ofReply(result);
  return { silent: "no reply came where one was awaited", broken: "what came was no reply that was awaited", denied: "nothing was sent, since it is for another EPC" }[result] ?? result;
}

// Gives what a line says that the program wrote for these words, or an empty text.
export function meaning(word, line) {
  if (line.startsWith("fault ")) return FAULT;
  if (word === "run json") return found(REPORT, lineOfObject(line)) ?? "";
  if (word.endsWith(" json")) return meaning(word.replace(/ json$/, ""), lineOfMembers(line));
  const kinds = { decode: DECODED, probe: PROBED, run: REPORT, "run vcd": DUMP, ...OTHERS };
  if (word === "upgrade") return found([...SCENARIO, ...COMMANDS], line) ?? "";
  return found(kinds[word] ?? kinds[word.split(" ")[0]] ?? [], line) ?? "";
}
