import assert from "node:assert/strict";
import { test } from "node:test";
import { World, tagsOf } from "./world.js";

test("copies are tags whose words rise", () => {
  const found = tagsOf(["gen2 2", "tag 1", "copies 2 00 11 22 080000FF E200FFFF - 0001FFFF", "end"]);
  assert.deepEqual(found, ["tag 1", "tag 00 11 22 080000FF E200FFFF - 0001FFFF", "tag 00 11 22 08000100 E2000000 - 00020000"]);
});

test("the channel gives what the air lines and the default say", async () => {
  const ask = async (word) => (word === "encode" ? ["heard fm0 0 rn16 0110"] : []);
  const answers = [{ tag: 0, reply: "rn16 A" }, { tag: 1, reply: "rn16 B" }];
  const given = async (air, scenario = []) => Object.assign(new World(), { asking: ask, scenario, air: new Map([[1, air]]), answers: [answers], trext: "0", code: "fm0" }).given(1);
  assert.deepEqual(await given([]), ["1110", undefined]);
  assert.deepEqual(await given([], ["default capture"]), ["0110", answers[0]]);
  assert.deepEqual(await given([["pick", "1"]]), ["0110", answers[1]]);
  assert.deepEqual(await given([["pick", "2"]]), ["-", undefined]);
  assert.deepEqual(await given([["break", "7"]]), ["0111", undefined]);
  assert.deepEqual(await given([["silent"]]), ["-", undefined]);
  assert.deepEqual(await given([["miss", "0"], ["raw", "01"]]), ["01", undefined]);
});
