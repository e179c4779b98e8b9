import assert from "node:assert/strict";
import { test } from "node:test";
import { sizeOfWaves, waves } from "./waves.js";

const part = (at) => ({ title: `bit ${at}`, label: "1", begin: at * 20, width: 20, pieces: [[1, 10], [0, 10]], broken: at === 3 ? 0 : undefined });
const lane = { notes: "a <lane>", width: 20000, parts: Array.from({ length: 1000 }, (_, at) => part(at)) };

test("all parts are drawn, and those that are seen alone", () => {
  assert.equal(waves([lane, lane]).split("<g ").length, 2001);
  const seen = { left: 10000, top: 0, wide: 400, high: 60 };
  assert.ok(waves([lane, lane], seen).split("<g ").length < 30);
  assert.match(waves([lane, lane], seen), /bit 500/);
  assert.match(waves([lane]), /class="broken".*a &lt;lane&gt;|a &lt;lane&gt;.*class="broken"/s);
  assert.deepEqual(sizeOfWaves([]), { width: 232, height: 10 });
});

test("notes that are wider than what is seen reach their end with it", () => {
  const noted = { ...lane, notes: "n".repeat(100) };
  const { width } = sizeOfWaves([noted]);
  const at = (left) => Number(/<text x="([^"]*)" y="16"/.exec(waves([noted], { left, top: 0, wide: 300, high: 80 }))[1]);
  assert.equal(at(0), 8);
  assert.ok(Math.abs(at(width - 300) + 740 + 8 - width) < 1);
});
