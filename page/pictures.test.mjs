import assert from "node:assert/strict";
import { test } from "node:test";
import { curveOfCount, curveOfQ, heightOfTable, noTable, placeAt, table } from "./pictures.js";

const shown = [
  { round: 1, exchange: 1, tags: [0, 1], given: ["broken", "0", "0"] },
  { round: 1, exchange: 2, tags: [1], given: ["whole", "1"] },
];
const slots = { qs: Float64Array.from([1, 2]), listed: Float64Array.from([0, 1]) };
const all = { from: 0, count: 2 };

test("a table has each answer, and curves say what they show", () => {
  assert.match(table(shown, 0, 600), /slot 1 .*tag 0 collided.*tag 1 answered alone/s);
  assert.match(noTable(600), /see 400 slots or fewer/);
  assert.match(curveOfQ(slots, all, 600), /Q over slots 1 to 2: 1 at first, 2 at last, between them 1 to 2/);
  assert.match(curveOfCount(slots, all, 600), /EPCs listed over slots 1 to 2: 0 at first, 1 at last/);
  const none = { qs: new Float64Array(0), listed: new Float64Array(0) };
  assert.match(curveOfQ(none, { from: 0, count: 0 }, 600), /<svg/);
});

test("of many slots and tags only what is seen is drawn", () => {
  const many = { qs: Float64Array.from({ length: 50000 }, (_, at) => at % 16) };
  assert.ok(curveOfQ(many, { from: 0, count: 50000 }, 600).length < 200000);
  const crowd = Array.from({ length: 100 }, () => ({ ...shown[0], tags: Array.from({ length: 256 }, (_, tag) => tag) }));
  const seen = { left: 0, top: 800, wide: 600, high: 320 };
  assert.ok(table(crowd, 0, 600, seen).split("<g ").length < 100 * 24);
  assert.match(table(crowd, 0, 600, seen), /tag 50 collided/);
  assert.equal(heightOfTable(crowd), 34 + 256 * 16);
});

test("a place in a picture is one among its slots", () => {
  assert.deepEqual([placeAt(0, 600), placeAt(600, 600), placeAt(90 + 243, 600)], [0, 1, 0.5]);
});
