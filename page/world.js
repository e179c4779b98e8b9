// The tags and the channel of a scenario, and the exchanges of a trace, as tools/verdict.py has them: the tags are asked one by one under `probe`. `ask` gives
// a promise of the lines that the program writes for a word and lines.

const EVENTS = ["timeout", "off", "on", "expire"];
const CHOICES = ["pick", "silent", "break", "raw"];

const raisedWord = (word, by) => ((parseInt(word, 16) + by) % 65536).toString(16).toUpperCase().padStart(4, "0");
const raised = (text, at, by) => text.slice(0, 4 * at) + raisedWord(text.slice(4 * at, 4 * at + 4), by) + text.slice(4 * at + 4);

// Gives the tag line of each tag, those of a line `copies` too.
export function tagsOf(lines) {
  const found = [];
  for (const line of lines) {
    const [kind, count, kill, access, locks, epc, tid, user, words] = line.split(" ");
    if (kind === "tag") found.push(line);
    if (kind !== "copies") continue;
    for (let by = 0; by < Number(count); by++) {
      const drawn = words.replace(/.{4}/g, (it) => raisedWord(it, by));
      const place = parseInt(epc.slice(0, 4), 16) >> 11;
      found.push(`tag ${kill} ${access} ${locks} ${raised(epc, place, by)} ${raised(tid, tid.length / 4 - 1, by)} ${user} ${drawn}`);
    }
  }
  return found;
}

// Gives EXPECT of an answer, as `heard` lines have it.
function expectOf({ reply, handle }) {
  const [kind, ...rest] = reply.split(" ");
  if (kind === "words") return `words-${Math.floor(rest.join(" ").length / 4)}-${handle}`;
  return kind === "header" || kind === "error" ? `header-${handle}` : kind;
}

export class World {
  static async of(ask, scenario, trace) {
    const world = new World();
    const link = scenario.find((it) => it.startsWith("link ")).split(" ");
    Object.assign(world, { asking: ask, scenario, code: link[6], trext: link[7], air: new Map(), ends: [] });
    for (const [, exchange, ...fields] of scenario.filter((it) => it.startsWith("air ")).map((it) => it.split(" "))) {
      world.air.set(Number(exchange), [...(world.air.get(Number(exchange)) ?? []), fields]);
    }
    const frames = trace.filter((it) => it.startsWith("tx ")).map((it) => it.split(" ").slice(2).join(" "));
    const bits = await ask("decode", frames.map((it) => `pie ${it}`));
    world.commands = await ask("decode", bits.map((it) => `command ${it.split(" ").at(-1)}`));
    world.answers = frames.map(() => []);
    for (const [number, tag] of tagsOf(scenario).entries()) await world.hear(number, tag);
    return world;
  }

  // Lets a tag hear what it heard, and keeps what it answers and what it becomes.
  async hear(number, tag) {
    const lines = ["probe 1", tag];
    const asked = new Map();
    this.commands.forEach((command, at) => {
      const air = this.air.get(at + 1) ?? [];
      lines.push(...air.filter((it) => EVENTS.includes(it[0]) && it.at(-1) === String(number)).map((it) => `event ${it.slice(0, -1).join(" ")}`));
      if (air.some((it) => it[0] === "miss" && it[1] === String(number))) return;
      lines.push(command);
      asked.set(lines.length, at);
    });
    for (const line of await this.asking("probe", [...lines, "end"])) {
      const [kind, of, form, ...reply] = line.split(" ");
      if (kind === "answer" && form !== "-") {
        const at = asked.get(Number(of));
        this.answers[at].push({ tag: number, isExtended: form === "extended", reply: reply.join(" "), handle: this.commands[at].split(" ").at(-1) });
      } else if (kind === "tag") {
        this.ends.push(line.replace("tag 0 ", `tag ${number} `));
      }
    }
  }

  // Gives what decode or encode makes of an answer: the levels that it is sent in, or what is heard in these levels.
  async heard(answer, word, what) {
    const trext = answer.isExtended ? "1" : this.trext;
    return (await this.asking(word, [`heard ${this.code} ${trext} ${expectOf(answer)} ${what}`]))[0];
  }

  async levels(answer) {
    return (await this.heard(answer, "encode", answer.reply)).split(" ").at(-1);
  }

  // Gives the levels that come back in an exchange, and the answer that comes whole, or none.
  async given(exchange) {
    const answers = this.answers[exchange - 1];
    const [choice, field] = (this.air.get(exchange) ?? []).find((it) => CHOICES.includes(it[0])) ?? [];
    if (choice === "raw") return [field, undefined];
    if (!answers.length || choice === "silent") return ["-", undefined];
    if (choice === "pick") {
      const picked = answers[Number(field)];
      return picked ? [await this.levels(picked), picked] : ["-", undefined];
    }
    const levels = await this.levels(answers[0]);
    if (!choice && (answers.length === 1 || this.scenario.includes("default capture"))) return [levels, answers[0]];
    const place = choice ? Number(field) % levels.length : 0;
    return [levels.slice(0, place) + "10"[Number(levels[place])] + levels.slice(place + 1), undefined];
  }
}
