import assert from "node:assert/strict";
import { test } from "node:test";
import { lineOfMembers, lineOfObject } from "./forms.js";
import { meaning } from "./meanings.js";

test("an object stands for a line of a report", () => {
  assert.equal(lineOfObject('{"epc":"1234","kind":"list","pc":"0800","round":1,"slot":2}'), "list 1 2 0800 1234");
  assert.equal(lineOfObject('{"index":1,"kind":"op","result":"ok","round":1,"slot":1,"value":""}'), "op 1 1 1 ok");
  assert.equal(lineOfObject('{"count":1,"epc":"","kind":"seen","pc":"0000"}'), "seen 1 0000 -");
  assert.equal(lineOfObject('{"kind":"done"}'), "done");
});

test("an object of another word stands for its line, and is explained as that is", () => {
  assert.equal(lineOfMembers('{"line":3,"kind":"answer","preamble":""}'), "answer 3 -");
  assert.equal(lineOfMembers('{"kind":"seen","count":1,"pc":"3000","epc":"3074257BF7194E4000001A85","uri":"urn:epc:tag:sgtin-96:3.0614141.812345.6789"}'), "seen 1 3000 3074257BF7194E4000001A85");
  assert.equal(lineOfMembers('{"kind":"op","round":1,"slot":2,"index":1,"result":"ok","value":""}'), "op 1 2 1 ok");
  assert.match(meaning("decode json", '{"kind":"name","uri":"urn:epc:tag:sgtin-96:3.0614141.812345.6789"}'), /SGTIN-96/);
  assert.match(meaning("probe json", '{"line":3,"kind":"state","state":"ready","flags":"AAAA0"}'), /behind line 3 the tag is in ready/);
  assert.match(meaning("audit json", '{"line":3,"kind":"no","reason":"levels"}'), /line 3/);
  assert.equal(lineOfMembers('{"line":4,"kind":"no","preamble":"","or":"plain","reply":"rn16","rn16":"*"}'), "no 4 - or plain rn16 *");
  assert.match(meaning("judge json", '{"line":4,"kind":"profile","preamble":"plain","reply":"error","error":"03"}'), /first in line 4, where this project's profile answers plain error 03$/);
  assert.match(meaning("run exchanges json", '{"kind":"exchange","exchange":2,"command":"ack","rn":"A1B2"}'), /exchange 2: an ACK/);
  assert.match(meaning("run exchanges json", "fault 1 version"), /faulty/);
});

test("a dump and a scenario have their meanings", () => {
  assert.match(meaning("run vcd", "#12500"), /12,500 nanoseconds/);
  assert.match(meaning("run vcd", "0r"), /the reader's wave is low/);
  assert.match(meaning("run vcd", "sack_1234 c"), /the command is ack 1234/);
  assert.match(meaning("upgrade", "air 3 break 7"), /place 7 inverted/);
  assert.match(meaning("upgrade", "air 3 expire s2 1"), /S2 ends for tag 1/);
  assert.match(meaning("upgrade", "round all 0 a 4 float-300 99"), /300 thousandths/);
});
