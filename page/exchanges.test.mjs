import assert from "node:assert/strict";
import { test } from "node:test";
import { answered, asked, exchangeOf, linkOf } from "./exchanges.js";

const link = { code: "fm0", trext: "0" };
const broken = exchangeOf(["exchange 4 ack 2222", "answer 4 1 plain epc 0800 1234", "given 4 broken 1 2", "round 1 quiet 3"], ["tx 4 12500 6250 6250", "rx 4 1 0111"], link);

test("an exchange has what was sent, who answered and what came", () => {
  assert.deepEqual(linkOf("gen2 1\nlink 1 2 3 4 1 m4 1\n"), { code: "m4", trext: "1" });
  assert.deepEqual([broken.number, broken.command, broken.intervals, broken.replied, broken.levels], [4, "ack 2222", [12500, 6250, 6250], 1, "0111"]);
  assert.deepEqual([broken.inverted, broken.reply, broken.trext], [2, "epc 0800 1234", "0"]);
});

test("decode is asked of the levels as they were sent", () => {
  assert.deepEqual(asked(broken), ["pie 12500 6250 6250", "fm0 0 0101", "fm0 1 0101"]);
  assert.deepEqual(asked({ ...broken, levels: "", inverted: undefined }), ["pie 12500 6250 6250"]);
});

test("what decode says names the bits, or where it can't go on", () => {
  assert.deepEqual(answered(broken, ["sync 12500 31250 01", "bits 1", "invalid 3"]), { lead: "sync", bits: "01", trext: "0", streamBits: "1", wrong: undefined });
  assert.deepEqual(answered(broken, ["refused tari", "invalid 3", "bits 10"]), { lead: "", bits: "", trext: "1", streamBits: "10", wrong: undefined });
  assert.equal(answered(broken, ["sync 1 2 -", "invalid 3", "invalid 0"]).wrong, 3);
});
