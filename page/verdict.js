// Explains a verdict as tools/verdict.py does: of audit what the tags and the channel of a scenario account for, beside what stands in the line of the trace;
// of judge what the tag of a log has to answer, beside what stands there.
import { World } from "./world.js";

// How many commands the tags are asked again at most, in all.
const MOST_ASKED = 2_000_000;
const TAG_FIELDS = ["tag", "the number", "the state", "the flags S0 to S3 and SL", "the locks", "Reserved", "the EPC bank", "the TID", "the User bank"];
const FORMS = { shape: "tx has a number and 1 to 20,000 intervals, rx a number, a count and levels", number: "a field isn't of its form" };

const repliesOf = (answers) => answers.map((it) => `tag ${it.tag} ${it.reply}`).join(", ") || "no tag";
const sizeOf = (levels) => levels.replaceAll("-", "").length;

function firstPlace(wanted, found) {
  const least = Math.min(wanted.length, found.length);
  for (let at = 0; at < least; at++) if (wanted[at] !== found[at]) return at;
  return least;
}

async function whyLevels(world, exchange, found) {
  const [wanted, whole] = await world.given(exchange);
  const answers = world.answers[exchange - 1];
  const command = world.commands[exchange - 1];
  const counted = `${sizeOf(wanted)} levels come back, here stand ${sizeOf(found)}, and level ${firstPlace(wanted, found)} is the first that differs`;
  const said = `to ${command} there answers: ${repliesOf(answers)}; ${counted}`;
  const answer = whole ?? answers[0];
  const heard = answer && (await world.heard(answer, "decode", found));
  if (!heard || heard.startsWith("fault")) return said;
  return `${said}; wanted is ${whole ? "" : "a broken "}${answer.reply}, here stands ${heard}`;
}

async function whyFrame(ask, fields) {
  const [decoded] = await ask("decode", [`pie ${fields.join(" ")}`]);
  if (!/^(preamble|sync) /.test(decoded)) return `decode says of these intervals: ${decoded}`;
  const [command] = await ask("decode", [`command ${decoded.split(" ").at(-1)}`]);
  const lead = command.startsWith("query ") ? "a preamble" : "a frame-sync";
  const found = decoded.startsWith("preamble") ? "a preamble" : "a frame-sync";
  return `its bits are ${command}${lead === found ? "" : `, which wants ${lead}, and here stands ${found}`}`;
}

function whyTag(world, at, line) {
  const wanted = [...world.ends, "done"][at] ?? "no more lines";
  const [fields, found] = [wanted.split(" "), line.split(" ")];
  if (fields.length !== found.length || fields[0] !== found[0] || fields[1] !== found[1]) return `wanted is: ${wanted}`;
  const differ = fields.map((it, place) => `${TAG_FIELDS[place]} ${it}, here stands ${found[place]}`).filter((_, place) => fields[place] !== found[place]);
  return `tag ${fields[1]}: wanted is ${differ.join("; ")}`;
}

async function whyList(world) {
  const { commands } = world;
  const [, whole] = commands.length ? await world.given(commands.length) : [];
  if (!whole?.reply.startsWith("epc ") || !commands.at(-1).startsWith("ack ")) {
    return "no EPC came whole in reply to an ACK right before, so that no list line may stand here";
  }
  const rounds = commands.flatMap((it, at) => (it.startsWith("query ") ? [at] : []));
  const slots = commands.slice(rounds.at(-1) ?? 0).filter((it) => ["query", "queryrep", "queryadjust"].includes(it.split(" ")[0])).length;
  return `wanted is: list ${rounds.length} ${slots} ${whole.reply.slice(4)}`;
}

// Gives what stands at a line of a trace that can't be, beside what was wanted there, without the front that says where it is.
async function whyOf(ask, { scenario, before, line, reason }) {
  const fields = line.split(" ");
  const begin = line.slice(0, 60);
  const exchanges = before.filter((it) => it.startsWith("tx ")).length;
  if (reason === "end") return "the trace ends here, without a line feed or before done";
  if (reason === "extra") return "nothing may stand behind done";
  if (["word", "shape", "number"].includes(reason)) {
    const wants = before.at(-1)?.startsWith("tx ") ? "an rx line" : "a tx, tag or done line";
    return `${FORMS[reason] ?? `${wants} may stand here`}; here stands ${begin}`;
  }
  if (reason === "exchange") return `wanted is exchange ${exchanges + (fields[0] === "tx" ? 1 : 0)}, here stands ${fields[1]}`;
  if (reason === "frame") return whyFrame(ask, fields.slice(2));
  if (reason === "blf") return `wanted is ${(await ask("run trace", scenario))[0]}, here stands ${begin}`;
  const tags = scenario.reduce((sum, it) => sum + (it.startsWith("copies ") ? Number(it.split(" ")[1]) : it.startsWith("tag ") ? 1 : 0), 0);
  if (tags * exchanges > MOST_ASKED) {
    const [many, times] = [tags, exchanges].map((it) => it.toLocaleString("en-US"));
    return `${many} tags and ${times} exchanges are too many to ask each tag again; here stands ${begin}`;
  }
  const world = await World.of(ask, scenario, before);
  if (reason === "count") {
    const answers = world.answers[exchanges - 1];
    return `to ${world.commands[exchanges - 1]} there answers: ${repliesOf(answers)}; so the count is ${answers.length}, here stands ${fields[2]}`;
  }
  if (reason === "levels") return whyLevels(world, exchanges, fields[3]);
  if (reason === "tag") return whyTag(world, before.filter((it) => it.startsWith("tag ")).length, line);
  return `${await whyList(world)}; here stands ${begin}`;
}

// Gives an answer of a log in words; a number that a tag draws is `*` in it.
function saidOfAnswer(answer) {
  if (answer.startsWith("- or ")) return `nothing, or ${saidOfAnswer(answer.slice(5))}`;
  return answer === "-" ? "nothing" : answer.replaceAll(" *", " with a number that it draws");
}

// Gives of what judge wrote the number of the line of the log that can't be, and what is said of it, or nothing.
export function explainedAnswer(text, written) {
  const found = /^(no|profile) (\d+) (.+)$/.exec(written.trim());
  if (!found) return undefined;
  const number = Number(found[2]);
  const [sent, line] = text.split("\n").slice(number - 2, number);
  const seen = line.slice(line.indexOf(" ") + 1);
  const [wanted, here] = [found[3], seen].map((it) => saidOfAnswer(it.slice(0, 60)));
  const liberty = seen === "-" ? "; it may lack this command" : "; the code of an error is left to its maker";
  const said = `line ${number}: to ${sent.slice(0, 60)} (line ${number - 1}) a tag answers ${wanted}; here stands ${here}`;
  return { number, said: [said + (found[1] === "no" ? "" : liberty)] };
}

// Gives of what audit wrote the number of the line of the input that can't be, and what is said of it, or nothing.
export async function explainedVerdict(ask, text, written) {
  const found = /^no (\d+) (\w+)$/.exec(written.trim());
  if (!found) return undefined;
  const lines = text.split("\n");
  const end = lines.indexOf("end") + 1;
  const [scenario, trace] = [lines.slice(0, end), lines.slice(end)];
  const number = Number(found[1]);
  if (number === 0) {
    const at = scenario.findIndex((it) => it.startsWith("event ")) + 1;
    const said = "is an event between exchanges, which stands in no line of a trace: an air line says in which exchange it befalls a tag";
    return { number: at, said: [`line ${at} of the file ${said}`] };
  }
  const why = await whyOf(ask, { scenario, before: trace.slice(0, number - 1), line: trace[number - 1] ?? "", reason: found[2] });
  return { number: end + number, said: [`line ${number} of the trace, line ${end + number} of the file: ${why}`] };
}
