import assert from "node:assert/strict";
import { test } from "node:test";
import { heightOf, scrolledTo, seenColumns, seenLines } from "./lines.js";

test("only the lines that are seen are drawn", () => {
  assert.deepEqual(seenLines(0, 100, 20, 1000), { first: 0, last: 6, top: 0 });
  assert.deepEqual(seenLines(205, 100, 20, 1000), { first: 10, last: 17, top: 200 });
  assert.deepEqual(seenLines(0, 100, 20, 3), { first: 0, last: 3, top: 0 });
  assert.equal(seenLines(0, 100, 20, 0).last, 0);
});

test("a text of very many lines is scrolled from its first to its last", () => {
  const [room, height, count] = [500, 24, 5_000_000];
  assert.equal(seenLines(0, room, height, count).first, 0);
  assert.equal(seenLines(heightOf(count, height) - room, room, height, count).last, count);
  for (const line of [0, 1, 2_499_999, count - 21]) {
    const scrolled = scrolledTo(line, room, height, count);
    const { first, top } = seenLines(scrolled, room, height, count);
    assert.ok(Math.abs(first - line) <= 1 && Math.abs(top - scrolled) <= height, `${line}: ${first}`);
  }
});

test("of a long line only the columns that are seen are drawn", () => {
  assert.deepEqual(seenColumns(0, 800, 8, 90), { first: 0, last: 90 });
  assert.deepEqual(seenColumns(80_000, 800, 8, 132_000), { first: 9800, last: 10_300 });
  assert.deepEqual(seenColumns(0, 800, 8, 132_000), { first: 0, last: 300 });
});
