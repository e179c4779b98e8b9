import assert from "node:assert/strict";
import { test } from "node:test";
import { DOORS, doorOf, exampleWord, wordOfFile } from "./doors.js";

test("each word has its door, and modes of a run have its examples", () => {
  for (const door of DOORS) for (const word of door.words) assert.equal(doorOf(word), door);
  assert.equal(exampleWord("run vcd"), "run");
  assert.equal(exampleWord("probe"), "probe");
  assert.equal(exampleWord("probe json"), "probe");
  assert.equal(exampleWord("run exchanges json"), "run");
});

test("a file is for the word that its text begins with", () => {
  assert.equal(wordOfFile("gen2 1\nlink\nend\n", "decode"), "run");
  assert.equal(wordOfFile("gen2 2\nlink\nend\n", "run vcd"), "run vcd");
  assert.equal(wordOfFile("gen2 1\nlink\nend\nblf 8/1\n", "decode"), "audit");
  assert.equal(wordOfFile("probe 1\ntag\n", "run"), "probe");
  assert.equal(wordOfFile("judge 1\ntag\n", "probe"), "judge");
  assert.equal(wordOfFile("judge 1\ntag\n", "judge json"), "judge json");
  assert.equal(wordOfFile("list 1 1 3000 00\n", "run"), "names");
  assert.equal(wordOfFile("fm0 0 1\n", "run"), "decode");
  assert.equal(wordOfFile("command nak\n", "encode"), "encode");
  assert.equal(wordOfFile("fm0 0 1\n", "decode json"), "decode json");
  assert.equal(wordOfFile("gen2 1\nlink\nend\nblf 8/1\n", "audit json"), "audit json");
  assert.equal(wordOfFile("", "audit"), "audit");
});
