// Says of a faulty line what can be seen of it, as tools/fault.py does: `tables` are its forms, fields and reasons.

const isName = (part) => part === part.toUpperCase() && part !== part.toLowerCase();

function formsOf(tables, line, word) {
  const fields = line.split(" ");
  let found = (tables.forms[word] ?? []).map((it) => it.split(" ")).filter((it) => it[0] === fields[0]);
  for (let at = 1; at < fields.length; at++) {
    if (!found.some((it) => at < it.length && !isName(it[at]))) continue;
    const same = found.filter((it) => at < it.length && it[at] === fields[at]);
    if (same.length) found = same;
  }
  return found.map((it) => it.join(" "));
}

function holds(wanted, field) {
  if (wanted.longest !== null && [...field].length > wanted.longest) return false;
  if (!new RegExp(`^(?:${wanted.pattern})$`).test(field)) return false;
  return wanted.most === null || (wanted.least <= Number(field) && Number(field) <= wanted.most);
}

// Gives the place of the first field that isn't of its form, with its name, itself and what it has to be, or nothing.
function faultyField(tables, line, form) {
  const parts = form.split(" ");
  const begin = parts.filter((it) => !isName(it)).join(" ");
  const kind = begin.split(" ").at(-1);
  const fields = line.split(" ");
  for (let at = 1; at < fields.length; at++) {
    const name = parts[Math.min(at, parts.length - 1)];
    if (!isName(name)) continue;
    const key = [`${begin} ${name}`, `${kind} ${name}`, `${parts[0]} ${name}`, name].find((it) => it in tables.fields);
    if (!holds(tables.fields[key], fields[at])) return { at, name, field: fields[at], said: tables.fields[key].said };
  }
  return undefined;
}

const ESCAPES = { "\r": "\\r", "\t": "\\t", "\n": "\\n" };

function escaped(sign) {
  if (sign === " " || !/[\p{C}\p{Z}]/u.test(sign)) return sign;
  const code = sign.codePointAt(0);
  return ESCAPES[sign] ?? (code < 256 ? `\\x${code.toString(16).padStart(2, "0")}` : `\\u${code.toString(16).padStart(4, "0")}`);
}

function shown(text, most = 160) {
  const signs = [...text];
  const front = signs.slice(0, most).map(escaped).join("");
  return signs.length <= most ? front : `${front}.. (${signs.length.toLocaleString("en-US")} characters)`;
}

const counted = (fields) => (fields === 1 ? "1 field" : `${fields} fields`);
const WITH_FORM = ["shape", "number", "tari", "rtcal", "trcal", "pw", "pc", "copies"];

// The kinds of a text of scenarios have two versions.
function kindOf(text, word) {
  if (!["run", "upgrade", "audit", "portals"].includes(word)) return word;
  return text.startsWith("gen2 2\n") ? "run 2" : "run";
}

// Gives of the line `fault LINE REASON` the number of the line, the place and length of its faulty field where one is known, and what is said.
export function explanation(tables, text, firstWord, fault) {
  const word = kindOf(text, firstWord);
  const found = /^fault (\d+) (\w+)$/.exec(fault.trim());
  if (!found) return undefined;
  const number = Number(found[1]);
  const reason = found[2];
  const lines = text.split("\n");
  if ((number === lines.length && !lines.at(-1)) || number > lines.length) {
    return { number, said: [`line ${number}: a line is needed here, and the input ends before it`] };
  }
  const line = lines[number - 1];
  const said = [line ? `line ${number}: ${shown(line)}` : `line ${number} is empty`];
  const forms = formsOf(tables, line, word);
  const fields = line.split(" ");
  let mark;
  if (WITH_FORM.includes(reason) && forms.length === 1) said.push(`its form: ${forms[0]}${forms[0] === "pie INTERVALS" ? " .." : ""}`);
  if (reason === "number" && forms.length === 1) {
    const faulty = faultyField(tables, line, forms[0]);
    if (faulty) {
      said.push(`${faulty.name} is ${shown(faulty.field, 80)}, and has to be ${faulty.said}`);
      const column = fields.slice(0, faulty.at).join(" ").length + 1;
      mark = { column, length: faulty.field.length };
      if (faulty.field.endsWith("\r")) said.push("it ends with a carriage return, as lines of a Windows editor do: tr -d '\\r' takes them out");
    }
  } else if (reason === "shape") {
    if (fields.includes("")) said.push("a field is empty: one space stands between two fields, and none before or behind the line");
    else if (forms.length === 1) said.push(`it has ${counted(fields.length)}, and its form has ${forms[0].split(" ").length}`);
    else if (forms.length) said.push(`its forms: ${forms.join("; ")}`);
  } else if (reason === "word") {
    said.push(saidOfWord(tables, word, number, fields[0], forms));
    mark = { column: 0, length: fields[0].length };
  } else if (reason === "version") {
    said.push(`the first line is: ${word.startsWith("run") ? "gen2 1, or gen2 2" : tables.forms[word][0]}`);
  } else if (reason === "end") {
    said.push("it has no line feed at its end");
  } else if (reason in tables.reasons) {
    said.push(tables.reasons[`${word} ${reason}`] ?? tables.reasons[reason]);
    // (the reason is the name of a field, as of a link, or names none)
    const at = forms.length === 1 ? forms[0].split(" ").indexOf(reason.toUpperCase()) : -1;
    if (at > 0) mark = { column: fields.slice(0, at).join(" ").length + 1, length: fields[at].length };
  }
  return { number, mark, said };
}

function saidOfWord(tables, word, number, first, forms) {
  const begins = [...new Set((tables.forms[word] ?? []).map((it) => it.split(" ")[0]))];
  const secondLine = tables.secondLines[word];
  if (secondLine && number === 2) return `the second line is: ${secondLine}`;
  if (begins.includes(first)) return forms.length > 1 ? `its forms: ${forms.join("; ")}` : `a line that begins with ${first} may not stand here`;
  if (word === "encode" && tables.commands.some((it) => it.split(" ")[0] === first)) {
    return `a command stands behind the word command: command ${first} ..`;
  }
  if (secondLine && first === "command") return "a command stands here without the word command, as in: ack A1B2";
  return `a line begins with one of: ${(secondLine ? begins.slice(2) : begins).join(" ")}`;
}

// Says what the bytes of a text are, where they are none of the program's: a byte order mark, another encoding, lines of Windows, a cut end.
function bytesTold(bytes) {
  const begins = (...wanted) => wanted.every((it, at) => bytes[at] === it);
  if (begins(0xef, 0xbb, 0xbf)) return "the file begins with a byte order mark: sed -i '1s/^\\xef\\xbb\\xbf//' takes it out";
  if (begins(0xff, 0xfe) || begins(0xfe, 0xff)) return "the file is UTF-16: iconv -f UTF-16 -t UTF-8 makes UTF-8 of it";
  for (let at = bytes.indexOf(13); at >= 0; at = bytes.indexOf(13, at + 1)) {
    if (bytes[at + 1] === 10) return "lines end with CR LF, as a Windows editor writes them: tr -d '\\r' takes the CR out";
  }
  return bytes.length && bytes.at(-1) !== 10 ? "the last line is cut: it has no line feed at its end" : undefined;
}

// Gives what explanation gives of a text, with what is to be said of its bytes.
export function explanationOfBytes(tables, bytes, word, fault) {
  const text = new TextDecoder("utf-8", { ignoreBOM: true }).decode(bytes);
  const told = explanation(tables, text, word, fault);
  const marks = bytesTold(bytes);
  // (the last line is cut where the fault is there; else it is another one that is to be told)
  if (!told || !marks || (marks.includes("cut") && told.number < text.split("\n").length)) return told;
  return { ...told, said: [...told.said.filter((it) => !it.includes("carriage return") && !it.includes("no line feed")), marks] };
}
