// Pictures over the slots of a run. Each part has a title, and no part is told by its colour alone.
import { fateOf } from "./slots.js";
import { named, picture, rounded, text } from "./svg.js";

const LEFT = 90;
const RIGHT = 24;
// More steps than this in one curve can't be seen: some slots are left out. And so many slots have their tags in a table.
const MOST_STEPS = 2000;
export const MOST_IN_TABLE = 400;

// Says that there are too many slots for a table.
export const noTable = (width, seen) => picture(width, 30, "Slots and tags", [text(8, 20, `see ${MOST_IN_TABLE} slots or fewer, and their tags stand here`)], seen);
export const SIGNS = "● came whole, ✕ collided, ○ nothing came, ◌ broken";
const ROW = 16;
const ROWS_AT = 34;

const widthOf = (count, width) => (width - LEFT - RIGHT) / Math.max(count, 1);

// Gives the place among the slots, 0 at the first and 1 behind the last, that stands at so many pixels from the left.
export const placeAt = (x, width) => Math.min(1, Math.max(0, (x - LEFT) / Math.max(1, width - LEFT - RIGHT)));

function path(values, x, y) {
  const part = Math.ceil(values.length / MOST_STEPS);
  let drawn = "";
  for (let at = 0; at < values.length; at += part) drawn += `${at ? "V" : `M${x(0)} `}${y(values[at])}H${x(Math.min(at + part, values.length))}`;
  return drawn;
}

export const HEIGHT_OF_CURVE = 205;

// Draws a value over the slots from one to another, with the values that have a line of their own.
function curve(name, values, from, width, grid, seen) {
  const most = Math.max(...grid);
  const wide = widthOf(values.length, width);
  const x = (at) => rounded(LEFT + at * wide);
  const y = (value) => rounded(170 - (value / most) * 150);
  const parts = grid.map((it) => `<line class="grid" x1="${LEFT}" x2="${x(values.length)}" y1="${y(it)}" y2="${y(it)}"/>${text(LEFT - 8, y(it) + 4, String(it), "end")}`);
  parts.push(text(LEFT, 195, `slot ${from + 1}`), text(x(values.length), 195, `slot ${from + values.length}`, "end"));
  const least = values.reduce((low, it) => Math.min(low, it), Infinity);
  const top = values.reduce((high, it) => Math.max(high, it), 0);
  const said = `${name} over slots ${from + 1} to ${from + values.length}: ${values[0]} at first, ${values.at(-1)} at last, between them ${least} to ${top}`;
  if (values.length) parts.push(named(said, `<path d="${path(values, x, y)}"/>`));
  return picture(width, HEIGHT_OF_CURVE, `${name} over slots`, parts, seen);
}

export function curveOfQ(slots, { from, count }, width, seen) {
  const values = slots.qs.subarray(from, from + count);
  return curve("Q", values, from, width, [0, 5, 10, 15], seen);
}

export function curveOfCount(slots, { from, count }, width, seen) {
  const values = slots.listed.subarray(from, from + count);
  const most = Math.max(slots.listed.at(-1) ?? 0, 1);
  return curve("EPCs listed", values, from, width, most > 1 ? [0, Math.ceil(most / 2), most] : [0, most], seen);
}

const tagsOf = (shown) => [...new Set(shown.flatMap((it) => it.tags))].sort((one, other) => one - other);

export const heightOfTable = (shown) => ROWS_AT + tagsOf(shown).length * ROW;

// Draws which tags answered in the slots that are shown, and what became of each answer: of the rows those that are seen, or all.
export function table(shown, from, width, seen) {
  const title = `Slots and tags: ${SIGNS}`;
  const height = heightOfTable(shown);
  const wide = widthOf(shown.length, width);
  const top = seen?.top ?? 0;
  const isSeen = (y) => !seen || (y > top + 18 && y < top + seen.high + ROW);
  const row = new Map(tagsOf(shown).map((tag, at) => [tag, ROWS_AT + at * ROW]).filter(([, y]) => isSeen(y)));
  const end = rounded(LEFT + wide * shown.length);
  const parts = [...row].map(([tag, y]) => `${text(LEFT - 8, y + 4, `tag ${tag}`, "end")}<line class="grid" x1="${LEFT}" x2="${end}" y1="${y}" y2="${y}"/>`);
  const every = Math.max(1, Math.ceil(44 / wide));
  shown.forEach((slot, at) => {
    const x = rounded(LEFT + (at + 0.5) * wide);
    if (at % every === 0) parts.push(text(x, top + 14, String(from + at + 1), "middle"));
    for (const tag of slot.tags) {
      if (!row.has(tag)) continue;
      const [sign, said] = fateOf(slot, tag);
      parts.push(named(`slot ${from + at + 1} (round ${slot.round}, exchange ${slot.exchange}): tag ${tag} ${said}`, text(x, row.get(tag) + 4, sign, "middle")));
    }
  });
  return picture(width, height, title, parts, seen);
}
