// Answers calls of the page's modules in node, for checks/page: each line of the standard input is an object, and so is each line of the output.
//
// answer.mjs PAGE [BITS]: of a page, or of its module for so many bits of memory alone. {words, input} gives {status, output}, both in base64;
// {text, word, fault} gives what fault.js explains of a text, {bytes, word, fault} what it explains of bytes, and {word, lines} what meanings.js says of
// each line; {text, verdict} gives what verdict.js explains of what audit wrote, and {text, judged} of what judge wrote; {room} says whether there is memory for so many bytes.
import { readFileSync } from "node:fs";
import { createInterface } from "node:readline";
import { explanation, explanationOfBytes } from "./fault.js";
import { meaning } from "./meanings.js";
import { Program, compiled } from "./program.js";
import { Text } from "./text.js";
import { explainedAnswer, explainedVerdict } from "./verdict.js";

const page = readFileSync(process.argv[2], "utf-8");
const data = JSON.parse(/<script type="application\/json" id="data">(.*?)<\/script>/s.exec(page)[1]);
const modules = Object.entries(data.modules).filter(([bits]) => !process.argv[3] || bits === process.argv[3]);
const program = new Program(await compiled(modules.map(([, it]) => Buffer.from(it, "base64"))));

const ask = async (words, lines) => new Text(program.call(words, Buffer.from(lines.map((it) => `${it}\n`).join(""))).output).lines();

function answerOf(asked) {
  if (asked.bytes !== undefined) return explanationOfBytes(data.fault, Buffer.from(asked.bytes, "base64"), asked.word, asked.fault) ?? {};
  if (asked.fault) return explanation(data.fault, asked.text, asked.word, asked.fault) ?? {};
  if (asked.lines) return asked.lines.map((it) => meaning(asked.word, it));
  if (asked.verdict) return explainedVerdict(ask, asked.text, asked.verdict);
  if (asked.judged) return explainedAnswer(asked.text, asked.judged);
  if (asked.room) return program.instance.exports.malloc(BigInt(asked.room)) !== 0n;
  const { status, output } = program.call(asked.words, Buffer.from(asked.input, "base64"));
  return { status, output: Buffer.from(output).toString("base64") };
}

for await (const line of createInterface({ input: process.stdin })) console.log(JSON.stringify(await answerOf(JSON.parse(line))));
