import assert from "node:assert/strict";
import { test } from "node:test";
import { BREAKING } from "./breaking.mjs";
import { Program, STATUS, compiled } from "./program.js";

const bytes = (text) => new TextEncoder().encode(text);
const breaking = () => compiled([bytes("none"), Buffer.from(BREAKING, "base64")]);

test("an instance is used again, and thrown away where a call breaks off", async () => {
  const program = new Program(await breaking());
  const written = (input) => new TextDecoder().decode(program.call("decode", bytes(input)).output);
  assert.deepEqual([written("a"), written(""), written("b")], ["1\n", "2\n", "3\n"]);
  assert.throws(() => written(" "), WebAssembly.RuntimeError);
  assert.equal(written("a"), "1\n");
});

test("where there is no memory it is said", async () => {
  const program = new Program(await breaking());
  program.instance = { exports: { malloc: () => 0n, free: () => {}, memory: { buffer: new ArrayBuffer(0) } } };
  assert.deepEqual(program.call("decode", bytes("a")).status, STATUS.noMemory);
});

test("where the room is too small there is more", async () => {
  const program = new Program(await breaking());
  const rooms = [];
  const memory = { buffer: new ArrayBuffer(1000) };
  const gen2run_over_memory = (...given) => (rooms.push(given[5]) < 3 ? STATUS.noRoom : STATUS.done);
  let place = 0n;
  program.instance = { exports: { malloc: () => (place += 16n), free: () => {}, memory, gen2run_over_memory } };
  assert.equal(program.call("decode", bytes("a")).status, STATUS.done);
  assert.deepEqual(rooms, [26n, 28n, 30n].map((it) => (1n << it) - 16n));
});

test("an engine that runs no module is told so", async () => {
  await assert.rejects(compiled([bytes("none")]), /runs none of the modules/);
});
