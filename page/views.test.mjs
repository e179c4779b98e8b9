import assert from "node:assert/strict";
import { test } from "node:test";
import { moved, wavesMoved } from "./views.js";

test("a view stays among the slots", () => {
  assert.deepEqual(moved({ from: 0, count: 40 }, "ArrowLeft", 100), { from: 0, count: 40 });
  assert.deepEqual(moved({ from: 0, count: 40 }, "End", 100), { from: 60, count: 40 });
  assert.deepEqual(moved({ from: 0, count: 40 }, "+", 100), { from: 10, count: 20 });
  assert.deepEqual(moved({ from: 0, count: 40 }, "+", 100, 1), { from: 20, count: 20 });
  assert.deepEqual(moved({ from: 90, count: 10 }, "-", 100), { from: 80, count: 20 });
  assert.deepEqual(moved({ from: 0, count: 6 }, "-", 6), { from: 0, count: 6 });
  assert.deepEqual(moved({ from: 0, count: 0 }, "+", 0), { from: 0, count: 1 });
});

test("waves go by exchanges, and their zoom has its ends", () => {
  assert.deepEqual(wavesMoved({ first: 0, zoom: 1 }, "PageDown", 20), { first: 6, zoom: 1 });
  assert.deepEqual(wavesMoved({ first: 0, zoom: 1 }, "End", 20), { first: 14, zoom: 1 });
  assert.deepEqual(wavesMoved({ first: 3, zoom: 1 }, "PageUp", 20), { first: 0, zoom: 1 });
  assert.deepEqual(wavesMoved({ first: 0, zoom: 20 }, "+", 4), { first: 0, zoom: 20 });
});
