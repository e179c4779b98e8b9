// Which lines of a long text are seen.

// Browsers draw nothing that is much taller than this, in pixels: a text with more lines is scrolled by less than their heights.
const TALLEST = 8_000_000;

export const heightOf = (count, height) => Math.min(count * height, TALLEST);

// Gives the first line that is seen, the one behind the last, and where the first one stands, of so many lines of one height.
export function seenLines(scrolled, room, height, count) {
  const all = count * height;
  const exact = (all <= TALLEST ? scrolled : Math.min(1, scrolled / (TALLEST - room)) * (all - room)) / height;
  const first = Math.min(Math.max(0, Math.floor(exact)), Math.max(0, count - 1));
  return { first, last: Math.min(count, Math.ceil(exact + room / height) + 1), top: scrolled - (exact - first) * height };
}

// Gives how far the text is scrolled where a line is the first that is seen.
export function scrolledTo(line, room, height, count) {
  const all = count * height;
  return all <= TALLEST ? line * height : Math.min(1, (line * height) / (all - room)) * (TALLEST - room);
}

// A line that is longer than this, in characters, is cut to what is seen of it.
const LONGEST = 4000;

// Gives the columns of a line that are drawn, from the first to the one behind the last, with some beside those that are seen.
export function seenColumns(scrolled, room, width, length) {
  if (length <= LONGEST) return { first: 0, last: length };
  return { first: Math.min(length, Math.max(0, Math.floor(scrolled / width) - 200)), last: Math.min(length, Math.ceil((scrolled + room) / width) + 200) };
}
