// The four doors: for whom each is, the words behind it, and the example that it opens with.

export const DOORS = [
  {
    id: "capture",
    name: "I have a capture",
    said: "decode explains frames, commands, levels and replies; encode makes the frame of a command and the levels of a reply.",
    words: ["decode", "decode json", "encode"],
    first: "one_tag/exchange",
  },
  {
    id: "tag",
    name: "I have a tag",
    said: "probe says what a tag answers and becomes, command by command; judge says whether the log of a tag that draws its own words can be right.",
    words: ["probe", "probe json", "judge", "judge json"],
    first: "probed_tag",
  },
  {
    id: "simulator",
    name: "I have a simulator",
    said: "audit says whether a trace is what the standard's tags and the channel account for, or which line can't be.",
    words: ["audit", "audit json"],
    first: "audited/missing_list",
  },
  {
    id: "count",
    name: "I count tags",
    said: "run plays a scenario and says what was counted; gen plays one of generated tags; portals compares two readers in turn; names adds trade item numbers.",
    words: ["run", "run exchanges", "run exchanges json", "run trace", "run json", "run vcd", "portals", "names", "upgrade", "gen"],
    first: "collision",
  },
];

export const doorOf = (word) => DOORS.find((it) => it.words.includes(word)) ?? DOORS[0];

// The word whose examples a word has: the modes of a run have those of `run`, and a word with `json` behind it those of the word.
export const exampleWord = (word) => (word.startsWith("run ") || word === "upgrade" ? "run" : word.replace(/ json$/, ""));

// Gives the word that was chosen, if it has the examples of this one.
const orChosen = (word, chosen) => (exampleWord(chosen) === word ? chosen : word);

const OF_DECODE = /^(?:fm0|m2|m4|m8|pie|command|reply|heard|samples|sgtin|uri) /;

// Gives the word that a file is for, by how it begins: a scenario with a trace behind it is one for audit, and a text that tells nothing stays with the word
// that was chosen.
export function wordOfFile(text, chosen) {
  if (text.startsWith("gen2 ")) return /\nend\n./.test(text) ? orChosen("audit", chosen) : chosen === "portals" ? chosen : orChosen("run", chosen);
  for (const word of ["probe", "judge"]) if (text.startsWith(`${word} 1\n`)) return orChosen(word, chosen);
  if (/^(?:list|round|seen) \d/.test(text)) return "names";
  return OF_DECODE.test(text) && chosen !== "encode" ? orChosen("decode", chosen) : chosen;
}
