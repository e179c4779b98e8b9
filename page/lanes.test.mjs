import assert from "node:assert/strict";
import { test } from "node:test";
import { readerLane, tagLane } from "./lanes.js";

const exchange = { number: 1, command: "nak", intervals: [12500, 6250, 6250, 25000, 6250, 6250, 6250], code: "fm0", replied: 1, given: ["broken", "0", "1"], reply: "rn16 1", inverted: 1 };

test("a frame has its delimiter, its lead and its bits", () => {
  const { parts, width } = readerLane(exchange, { lead: "sync", bits: "0" }, 1);
  assert.deepEqual(parts.map((it) => it.title), ["delimiter, 12500 ns", "Tari, 12500 ns", "RTcal, 31250 ns", "bit 0 is 0, 12500 ns"]);
  assert.deepEqual(parts[1].pieces.map(([level]) => level), [1, 0]);
  assert.ok(Math.abs(width - 68750 * 0.0016) < 1e-6);
  assert.equal(readerLane(exchange, { lead: "preamble", bits: "" }, 1).parts[3].label, "TRcal");
});

test("a stream has its preamble, its bits and its dummy, and the level that is inverted", () => {
  const levels = `${"10".repeat(6)}1011`;
  const { parts, notes } = tagLane({ ...exchange, levels }, { trext: "0", streamBits: "1" }, 1);
  assert.deepEqual(parts.map((it) => it.title), ["preamble; level 1 is inverted by the channel", "bit 0 is 1", "dummy, a data-1"]);
  assert.equal(parts[0].broken, 1);
  assert.match(notes, /1 tag answers, 16 levels come: level 1 of rn16 1 is inverted/);
});

test("levels that are no bits say where they go wrong", () => {
  const raw = { ...exchange, levels: "1".repeat(15), inverted: undefined, given: ["raw"] };
  const { parts } = tagLane(raw, { trext: "0", streamBits: undefined, wrong: 13 }, 1);
  assert.deepEqual(parts.map((it) => it.title).slice(-1), ["levels that are no bits; level 13 can't follow"]);
  assert.deepEqual(tagLane({ ...raw, levels: "", replied: 0 }, {}, 1).parts, []);
});

test("a pilot stands before the preamble", () => {
  const levels = "1".repeat(16 * 4 + 6 * 4 + 8);
  assert.deepEqual(tagLane({ ...exchange, code: "m2", levels, inverted: undefined }, { trext: "1", streamBits: "0" }, 1).parts.map((it) => it.label), ["pilot", "preamble", "0", "dummy"]);
});
