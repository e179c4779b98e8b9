import assert from "node:assert/strict";
import { test } from "node:test";
import { explanation, explanationOfBytes } from "./fault.js";

const field = { said: "a number", pattern: "[0-9]+", longest: null, least: null, most: null };
const tables = { forms: { run: ["gen2 1", "link TARI RTCAL"] }, fields: { TARI: field, RTCAL: field }, reasons: { rtcal: "RTCAL is 2.5 to 3 TARI" }, commands: [], secondLines: {} };

test("a length of a link that is out of its range is marked", () => {
  const told = explanation(tables, "gen2 1\nlink 12500 3\n", "run", "fault 2 rtcal\n");
  assert.deepEqual([told.number, told.mark, told.said.at(-1)], [2, { column: 11, length: 1 }, "RTCAL is 2.5 to 3 TARI"]);
});

test("the first field that isn't of its form is marked", () => {
  assert.deepEqual(explanation(tables, "gen2 1\nlink x y\n", "run", "fault 2 number\n").mark, { column: 5, length: 1 });
  assert.equal(explanation(tables, "", "run", "done\n"), undefined);
});

test("it is said what the bytes of a text are", () => {
  const said = (bytes, fault) => explanationOfBytes(tables, Buffer.from(bytes, "latin1"), "run", fault).said.at(-1);
  assert.match(said("\xef\xbb\xbfgen2 1\n", "fault 1 version\n"), /byte order mark/);
  assert.match(said("gen2 1\r\nlink 1 3\r\n", "fault 1 version\n"), /CR LF/);
  assert.match(said("gen2 1\nlink 1 3", "fault 2 end\n"), /cut/);
  assert.match(said("gen2 1\nlink x 3\nend", "fault 2 number\n"), /has to be a number/);
  assert.match(said("\xff\xfeg\x00", "fault 1 end\n"), /UTF-16/);
});

test("the second line of a text about one tag has a form of its own, and a reason may mean another thing behind a word", () => {
  const own = { ...tables, forms: { judge: ["judge 1", "tag KILL", "nak", "answer -"] }, reasons: { order: "an exchange", "judge order": "an answer" }, secondLines: { judge: "tag KILL" } };
  const said = (fault) => explanation(own, "judge 1\nnak\nnak\nnak\n", "judge", fault).said.at(-1);
  assert.deepEqual([said("fault 2 word\n"), said("fault 4 order\n")], ["the second line is: tag KILL", "an answer"]);
});
