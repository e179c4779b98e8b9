import assert from "node:assert/strict";
import { test } from "node:test";
import { named, picture } from "./svg.js";

test("a picture that is saved is whole and stands on white, and each part is named", () => {
  const whole = picture(10, 20, "a & b", [named('"', "<path/>")]);
  assert.match(whole, /^<svg xmlns="http:\/\/www.w3.org\/2000\/svg" role="group" aria-label="a &amp; b" width="10" height="20" viewBox="0 0 10 20">/);
  assert.match(whole, /fill="white".*<g role="img" aria-label="&quot;"><title>&quot;<\/title><path\/><\/g><\/svg>$/s);
  assert.match(picture(10, 20, "", [], { left: 1, top: 2, wide: 3, high: 4 }), /viewBox="1 2 3 4"/);
});
