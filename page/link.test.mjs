import assert from "node:assert/strict";
import { test } from "node:test";
import { fragmentOf, ofFragment } from "./link.js";

test("a link holds the words and the input, byte by byte", () => {
  const bytes = Uint8Array.from({ length: 256 }, (_, at) => at);
  for (const word of ["decode", "run trace"]) {
    const linked = ofFragment(fragmentOf({ word, bytes }));
    assert.equal(linked.word, word);
    assert.deepEqual(linked.bytes, bytes);
  }
  const ofGen = ofFragment(fragmentOf({ word: "gen", seed: "9", tags: "256", bytes: new Uint8Array(0) }));
  assert.deepEqual([ofGen.seed, ofGen.tags, ofGen.bytes.length], ["9", "256", 0]);
  assert.equal(ofFragment("#elsewhere"), undefined);
});

test("a link that another program spelled is read", () => {
  assert.equal(new TextDecoder().decode(ofFragment("#word=run&text=gen2%201%0aend+é").bytes), "gen2 1\nend é");
});
