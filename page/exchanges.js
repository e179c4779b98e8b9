// An exchange of a run: what `run exchanges` and `run trace` say of it, and what `decode` is asked of its waves.

// Gives the code and TRext of the link of a scenario.
export function linkOf(scenario) {
  const fields = (/^link .*$/m.exec(scenario)?.[0] ?? "").split(" ");
  return { code: fields[6] ?? "fm0", trext: fields[7] ?? "0" };
}

// Gives an exchange by its lines under `run exchanges` and its two lines under `run trace`.
export function exchangeOf(said, [tx, rx], link) {
  const [, number, ...command] = said[0].split(" ");
  const found = { number: Number(number), command: command.join(" "), intervals: tx.split(" ").slice(2).map(Number), answers: [], given: [] };
  const [, , replied, levels] = rx.split(" ");
  Object.assign(found, { replied: Number(replied), levels: levels === "-" ? "" : levels });
  for (const line of said.slice(1)) {
    const [kind, , ...fields] = line.split(" ");
    if (kind === "answer") found.answers.push({ tag: Number(fields[0]), isExtended: fields[1] === "extended", reply: fields.slice(2).join(" ") });
    if (kind === "given") found.given = fields;
  }
  const [kind, tag, place] = found.given;
  const answer = found.answers.find((it) => it.tag === Number(tag)) ?? found.answers[0];
  return { ...found, code: link.code, trext: answer?.isExtended ? "1" : link.trext, reply: answer?.reply, inverted: kind === "broken" ? Number(place) : undefined };
}

// Gives the levels as they were sent: that which the channel inverted as it was before.
const sentLevels = ({ levels, inverted }) =>
  inverted === undefined ? levels : levels.slice(0, inverted) + "10"[Number(levels[inverted])] + levels.slice(inverted + 1);

// Gives the lines that decode is asked of an exchange: its frame, and where levels came the stream with either TRext, first the one that is awaited.
export function asked(exchange) {
  const other = exchange.trext === "1" ? "0" : "1";
  const streams = exchange.levels ? [exchange.trext, other].map((it) => `${exchange.code} ${it} ${sentLevels(exchange)}`) : [];
  return [`pie ${exchange.intervals.join(" ")}`, ...streams];
}

// Gives what decode answered: of the frame its lead and bits, of the stream its TRext and its bits, or at which place it can't go on.
export function answered(exchange, [frame, first, second]) {
  const [lead, ...fields] = frame.split(" ");
  const isFrame = lead === "preamble" || lead === "sync";
  const found = { lead: isFrame ? lead : "", bits: isFrame && fields.at(-1) !== "-" ? fields.at(-1) : "" };
  if (!first) return found;
  // (levels that the scenario names may have either)
  const isOther = !first.startsWith("bits ") && second.startsWith("bits ");
  const trext = isOther ? (exchange.trext === "1" ? "0" : "1") : exchange.trext;
  const [kind, place] = (isOther ? second : first).split(" ");
  return { ...found, trext, streamBits: kind === "bits" ? (place === "-" ? "" : place) : undefined, wrong: kind === "invalid" ? Number(place) : undefined };
}
