import assert from "node:assert/strict";
import { test } from "node:test";
import { meaning } from "./meanings.js";

test("a line has its meaning by the words that wrote it", () => {
  assert.match(meaning("run", "round 1 limit 30"), /tags may be missing/);
  assert.match(meaning("decode", "refused 40"), /place 40/);
  assert.match(meaning("audit", "no 3 levels"), /line 3/);
  assert.match(meaning("judge", "no 4 - or plain rn16 *"), /line 4 .* answers - or plain rn16 \*/);
  assert.match(meaning("upgrade", "nak"), /a NAK/);
  assert.match(meaning("run", "fault 2 number"), /faulty/);
  assert.equal(meaning("run", "elsewhere"), "");
});
