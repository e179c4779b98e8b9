import assert from "node:assert/strict";
import { test } from "node:test";
import { Text } from "./text.js";

test("a text has its lines without their line feeds", () => {
  assert.deepEqual(Text.of("").lines(), []);
  assert.deepEqual(Text.of("a\n\né b\n").lines(), ["a", "", "é b"]);
  assert.deepEqual(Text.of("a\nb").lines(), ["a", "b"]);
  assert.deepEqual(Text.of("a\nb\nc\n").lines(1, 2), ["b"]);
  assert.equal(Text.of("\uFEFFa\n").line(0), "\uFEFFa");
  assert.equal(Text.of("a\nbcd\n").longest, 3);
  assert.equal(Text.of("a\nb\n").whole(), "a\nb\n");
});
