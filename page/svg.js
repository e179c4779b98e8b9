// Texts in SVG. A picture is drawn whole to be saved, and in the page only where it is seen.

const STYLE = `<style>
text { font: 12px monospace; fill: var(--ink, black) }
.small { font-size: 10px; text-anchor: middle }
path, line { fill: none; stroke: var(--ink, black); stroke-width: 1.5 }
.grid { stroke: var(--edge, gray); stroke-width: 0.5; stroke-dasharray: 1 3 }
.broken { stroke: var(--mark, #b00020); stroke-width: 5; stroke-dasharray: 3 2 }
</style>`;

export const escaped = (text) => text.replace(/[&<>"]/g, (it) => ({ "&": "&amp;", "<": "&lt;", ">": "&gt;", '"': "&quot;" })[it]);
export const rounded = (it) => Math.round(it * 100) / 100;

// Gives a picture: its size, its title, its parts, and the part of it that is seen, or nothing where it is whole.
export function picture(width, height, title, parts, seen) {
  const { left, top, wide, high } = seen ?? { left: 0, top: 0, wide: width, high: height };
  // (what is saved stands on white, and what is in the page on the page)
  const ground = seen ? "" : '<rect width="100%" height="100%" fill="white"/>';
  return (
    `<svg xmlns="http://www.w3.org/2000/svg" role="group" aria-label="${escaped(title)}" width="${wide}" height="${high}" ` +
    `viewBox="${left} ${top} ${wide} ${high}"><title>${escaped(title)}</title>${STYLE}${ground}${parts.join("")}</svg>`
  );
}

export const text = (x, y, said, anchor = "start") => `<text x="${rounded(x)}" y="${y}" text-anchor="${anchor}">${escaped(said)}</text>`;
export const named = (title, parts) => `<g role="img" aria-label="${escaped(title)}"><title>${escaped(title)}</title>${parts}</g>`;
