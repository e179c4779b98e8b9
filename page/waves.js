// Draws the waves of exchanges: the reader's lane, and below it what came back.
import { escaped, named, picture, rounded, text } from "./svg.js";

const LEFT = 8;
// A lane has a line for its notes, one for the names of its parts, the wave, and one for the name of the delimiter, which is too short for it.
const HEIGHT = 80;
const HIGH = 38;
const LOW = 62;
// How wide a character of a name is, and of the notes.
const CHARACTER = 6.2;
const OF_NOTES = 7.4;

const widthOfNotes = (lane) => lane.notes.length * OF_NOTES;

export function sizeOfWaves(lanes) {
  const widest = lanes.reduce((most, it) => Math.max(most, it.width, widthOfNotes(it)), 200);
  return { width: Math.ceil(widest + 4 * LEFT), height: lanes.length * HEIGHT + 10 };
}

// The notes stay in sight: where they are wider than what is seen they move on as it does, and reach their end with it.
function placeOfNotes(lane, width, seen) {
  if (!seen) return LEFT;
  const over = Math.max(0, widthOfNotes(lane) + 2 * LEFT - seen.wide);
  return LEFT + seen.left - (over * seen.left) / Math.max(1, width - seen.wide);
}

function partDrawn({ title, label, isBelow, begin, width, pieces, broken }, top, before) {
  let x = LEFT + begin;
  let path = before === undefined ? "" : `M${rounded(x)} ${top + (before ? HIGH : LOW)}`;
  let mark = "";
  pieces.forEach(([level, length], at) => {
    const y = top + (level ? HIGH : LOW);
    path += path ? `V${y}` : `M${rounded(x)} ${y}`;
    if (at === broken) mark = `<path class="broken" d="M${rounded(x)} ${y}H${rounded(x + length)}"/>`;
    x += length;
    path += `H${rounded(x)}`;
  });
  const edge = `<path class="grid" d="M${rounded(LEFT + begin)} ${top + HIGH - 12}V${top + LOW + 4}"/>`;
  // (a name may reach over its part a little; the delimiter's stands below it, and that of the dummy, which is the last part, reaches to the right)
  const room = label.length * CHARACTER;
  const isShown = label && (isBelow || label === "dummy" || width >= room - 5);
  const middle = LEFT + begin + (isBelow || label === "dummy" ? Math.max(width, room) : width) / 2;
  const name = isShown ? `<text class="small" x="${rounded(middle)}" y="${top + (isBelow ? LOW + 13 : HIGH - 4)}">${escaped(label)}</text>` : "";
  return named(title, `${edge}${name}<path d="${path}"/>${mark}`);
}

// Draws lanes. `seen` is the part that is seen: its left, top, width (wide) and height (high); without it all is drawn.
export function waves(lanes, seen) {
  const { width, height } = sizeOfWaves(lanes);
  const parts = [];
  lanes.forEach((lane, at) => {
    const top = at * HEIGHT;
    if (seen && (top + HEIGHT < seen.top || top > seen.top + seen.high)) return;
    parts.push(text(placeOfNotes(lane, width, seen), top + 16, lane.notes));
    const isSeen = (part) => !seen || (LEFT + part.begin + part.width >= seen.left && LEFT + part.begin <= seen.left + seen.wide);
    lane.parts.forEach((part, place) => {
      if (isSeen(part)) parts.push(partDrawn(part, top, lane.parts[place - 1]?.pieces.at(-1)[0]));
    });
  });
  return picture(width, height, "Waves of exchanges: what the reader sent, and below it what came back, each with a scale of its own", parts, seen);
}
