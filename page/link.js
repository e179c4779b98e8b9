// A link that holds the words and the input, byte by byte, behind its #. Nothing behind it is sent anywhere.

// Browsers take no address that is much longer.
export const LONGEST_LINK = 1_000_000;

const PLAIN = /[A-Za-z0-9._~-]/;

// Gives bytes as a part of a link: a space is +, a byte that isn't plain is % and two digits.
function spelled(bytes) {
  let text = "";
  for (const byte of bytes) {
    const sign = String.fromCharCode(byte);
    text += byte === 32 ? "+" : PLAIN.test(sign) ? sign : `%${byte.toString(16).toUpperCase().padStart(2, "0")}`;
  }
  return text;
}

// (signs that a program left unspelled are taken by their bytes in UTF-8)
function bytesOf(text) {
  const parts = text.replaceAll("+", " ").split(/%([0-9A-Fa-f]{2})/);
  return Uint8Array.from(parts.flatMap((it, at) => (at % 2 ? [parseInt(it, 16)] : [...new TextEncoder().encode(it)])));
}

export function fragmentOf({ word, seed, tags, bytes }) {
  const ofGen = word === "gen" ? `&seed=${encodeURIComponent(seed)}&tags=${encodeURIComponent(tags)}` : "";
  return `#word=${spelled(new TextEncoder().encode(word))}&text=${spelled(bytes)}${ofGen}`;
}

export function ofFragment(fragment) {
  const fields = new Map(fragment.replace(/^#/, "").split("&").map((it) => [it.split("=")[0], it.slice(it.indexOf("=") + 1)]));
  if (!fields.has("word")) return undefined;
  const text = (name, otherwise) => (fields.has(name) ? new TextDecoder().decode(bytesOf(fields.get(name))) : otherwise);
  return { word: text("word"), seed: text("seed", "7"), tags: text("tags", "64"), bytes: bytesOf(fields.get("text") ?? "") };
}
