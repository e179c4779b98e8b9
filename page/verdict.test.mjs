import assert from "node:assert/strict";
import { test } from "node:test";
import { explainedAnswer, explainedVerdict } from "./verdict.js";

const SCENARIO = "gen2 1\nlink 12500 31250 50000 6250 1 fm0 0\ntag 0 0 0 08001234 E2000001 - A1B2\nend\n";
// A program that reads a query and lets the tag answer it.
const TOLD = {
  decode: (lines) => lines.map((it) => (it.startsWith("pie") ? "preamble 1 2 3 01" : it.startsWith("heard") ? "refused 3" : "query 1 fm0 0 00 0 a 0")),
  encode: () => ["heard fm0 0 rn16 110100"],
  probe: () => ["answer 3 plain rn16 A1B2", "state 3 reply AAAA0 0 0 A1B2", "tag 0 reply AAAA0 0 - - - -", "done"],
};
const said = async (trace, written) => (await explainedVerdict(async (word, lines) => TOLD[word](lines), SCENARIO + trace, written)).said[0];

test("a verdict is explained by what the tags answer", async () => {
  const trace = "blf 8/25\ntx 1 1 2 3\nrx 1 1 110000\ntag 0 ready AAAA0 0 - - - -\n";
  assert.equal(await said(trace, "no 3 count\n"), "line 3 of the trace, line 7 of the file: to query 1 fm0 0 00 0 a 0 there answers: tag 0 rn16 A1B2; so the count is 1, here stands 1");
  assert.match(await said(trace, "no 3 levels\n"), /6 levels come back, here stand 6, and level 3 is the first that differs; wanted is rn16 A1B2, here stands refused 3$/);
  assert.match(await said(trace, "no 4 tag\n"), /tag 0: wanted is the state reply, here stands ready$/);
  assert.match(await said(trace, "no 2 frame\n"), /its bits are query 1 fm0 0 00 0 a 0$/);
});

test("a line of another form is explained by its form", async () => {
  assert.match(await said("blf 8/25\nrx 1\n", "no 2 word\n"), /a tx, tag or done line may stand here; here stands rx 1$/);
  assert.match(await said("blf 8/25\ntx 3 1\n", "no 2 exchange\n"), /wanted is exchange 1, here stands 3$/);
  assert.equal(await explainedVerdict(undefined, "", "yes\n"), undefined);
});

test("an answer of a log is explained by what a tag answers", () => {
  const said = (written, seen) => explainedAnswer(`judge 1\ntag\nnak\nanswer ${seen}\nend\n`, written).said[0];
  assert.equal(said("no 4 -\n", "plain rn16 1234"), "line 4: to nak (line 3) a tag answers nothing; here stands plain rn16 1234");
  assert.match(said("no 4 - or plain rn16 *\n", "plain header"), /a tag answers nothing, or plain rn16 with a number that it draws; here stands plain header$/);
  assert.match(said("profile 4 extended header\n", "-"), /here stands nothing; it may lack this command$/);
  assert.match(said("profile 4 plain error 03\n", "plain error 0F"), /is left to its maker$/);
  assert.equal(explainedAnswer("", "yes\n"), undefined);
});
