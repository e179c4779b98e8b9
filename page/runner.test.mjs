import assert from "node:assert/strict";
import { test } from "node:test";
import { Runner, Stopped } from "./runner.js";

// A worker that answers when the test says so.
class Told {
  static made = [];
  asked = [];
  constructor() {
    Told.made.push(this);
  }
  postMessage(it) {
    this.asked.push(it);
  }
  terminate() {
    this.isOver = true;
  }
}

function runner() {
  Told.made = [];
  return new Runner(() => new Told());
}

test("calls are answered one behind the other by one worker", async () => {
  const it = runner();
  const [one, other] = [it.ask("decode", "a"), it.ask("run", "b", { slots: true })];
  assert.deepEqual(Told.made[0].asked, [{ words: "decode", input: "a", wants: undefined }, { words: "run", input: "b", wants: { slots: true } }]);
  Told.made[0].onmessage({ data: { status: 0 } });
  Told.made[0].onmessage({ data: { status: 3 } });
  assert.deepEqual([await one, await other], [{ status: 0 }, { status: 3 }]);
  it.stop();
  it.ask("decode", "c");
  assert.equal(Told.made.length, 1);
});

test("a call that breaks off has a next one, by a new worker", async () => {
  const it = runner();
  const broken = it.ask("decode", "a");
  Told.made[0].onmessage({ data: { error: "unreachable" } });
  await assert.rejects(broken, /unreachable/);
  assert.ok(Told.made[0].isOver);
  const next = it.ask("decode", "b");
  Told.made[1].onmessage({ data: { status: 0 } });
  assert.deepEqual(await next, { status: 0 });
});

test("what is stopped gets no answer", async () => {
  const it = runner();
  it.stop();
  const [one, other] = [it.ask("run", "a"), it.ask("run", "b")];
  it.stop();
  await assert.rejects(one, Stopped);
  await assert.rejects(other, Stopped);
  assert.ok(Told.made[0].isOver);
});
