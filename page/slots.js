// What `run exchanges` says of slots and exchanges.

const SLOT_COMMANDS = ["query", "queryrep", "queryadjust"];

// Gives the slots of a run: of each its round, its exchange, the line that tells of it, Q, and how often an EPC was listed up to its end. (They are kept in
// lists of numbers, since a run may have very many.)
export function slotsOf(text) {
  const kept = { rounds: [], exchanges: [], lines: [], qs: [], listed: [] };
  let [round, q, listed] = [0, 0, 0];
  for (let at = 0; at < text.length; at++) {
    const [kind, exchange, ...fields] = text.line(at).split(" ", 10);
    if (kind === "exchange" && SLOT_COMMANDS.includes(fields[0])) {
      if (fields[0] === "query") {
        round += 1;
        q = Number(fields[7]);
      }
      if (fields[0] === "queryadjust") q = Math.min(15, Math.max(0, q + ({ up: 1, down: -1 }[fields[2]] ?? 0)));
      kept.rounds.push(round);
      kept.exchanges.push(Number(exchange));
      kept.lines.push(at);
      kept.qs.push(q);
      kept.listed.push(listed);
    } else if (kind === "list" && kept.listed.length) {
      listed += 1;
      kept.listed[kept.listed.length - 1] = listed;
    }
  }
  return Object.fromEntries(Object.entries(kept).map(([name, values]) => [name, Float64Array.from(values)]));
}

// Gives a slot with the tags that answered in it, and what the channel gave.
export function slotAt(text, slots, at) {
  const slot = { round: slots.rounds[at], exchange: slots.exchanges[at], tags: [], given: [] };
  for (let line = slots.lines[at] + 1; line < text.length; line++) {
    const [kind, exchange, ...fields] = text.line(line).split(" ", 6);
    if (kind === "exchange" || Number(exchange) !== slot.exchange) break;
    if (kind === "answer") slot.tags.push(Number(fields[0]));
    if (kind === "given") slot.given = fields;
  }
  return slot;
}

// What became of the answer of a tag in a slot: its sign in the table, and its name.
export function fateOf(slot, tag) {
  const [kind, number] = slot.given;
  if (kind === "whole" && Number(number) === tag) return ["●", slot.tags.length > 1 ? "captured the slot" : "answered alone"];
  if (slot.tags.length > 1) return ["✕", "collided"];
  return kind === "silence" ? ["○", "answered, and nothing came"] : ["◌", "answered, and came broken or under other levels"];
}

// Gives the number of the line with which each exchange begins: its lines begin with a word and its number, which rises by one.
export function firstsOf(text, word) {
  const firsts = [];
  const begin = [...`${word} `].map((it) => it.charCodeAt(0));
  for (let at = 0; at < text.length; at++) if (begin.every((it, place) => text.bytes[text.starts[at] + place] === it)) firsts.push(at);
  return Float64Array.from(firsts);
}
