import assert from "node:assert/strict";
import { test } from "node:test";
import { fateOf, firstsOf, slotAt, slotsOf } from "./slots.js";
import { Text } from "./text.js";

const COLLISION = Text.of(`exchange 1 query 0 fm0 0 00 0 a 1
answer 1 0 plain rn16 1111
answer 1 1 plain rn16 2222
given 1 broken 0 0
exchange 2 queryadjust 0 up
answer 2 1 plain rn16 2222
given 2 whole 1
exchange 3 ack 2222
answer 3 1 plain epc 0800 1234
given 3 whole 1
list 1 2 0800 1234
`);

test("slots have who answered, what became of it, Q and the count", () => {
  const slots = slotsOf(COLLISION);
  assert.deepEqual(Object.entries(slots).map(([name, it]) => [name, [...it]]), [
    ["rounds", [1, 1]],
    ["exchanges", [1, 2]],
    ["lines", [0, 4]],
    ["qs", [1, 2]],
    ["listed", [0, 1]],
  ]);
  const [first, second] = [slotAt(COLLISION, slots, 0), slotAt(COLLISION, slots, 1)];
  assert.deepEqual(first, { round: 1, exchange: 1, tags: [0, 1], given: ["broken", "0", "0"] });
  assert.equal(fateOf(first, 1)[1], "collided");
  assert.equal(fateOf(second, 1)[1], "answered alone");
  assert.equal(fateOf({ tags: [0, 1], given: ["whole", "0"] }, 0)[1], "captured the slot");
  assert.equal(fateOf({ tags: [0], given: ["silence"] }, 0)[0], "○");
  assert.equal(fateOf({ tags: [0], given: ["broken", "0", "4"] }, 0)[0], "◌");
});

test("each exchange has its first line", () => {
  assert.deepEqual([...firstsOf(COLLISION, "exchange")], [0, 4, 7]);
  assert.deepEqual([...firstsOf(Text.of("blf 8/25\ntx 1 2\nrx 1 0 -\ntag\ntx 2 2\nrx 2 0 -\n"), "tx")], [1, 4]);
});
