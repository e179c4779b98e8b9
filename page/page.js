// The page: its doors, and what is asked of the worker and shown of its answers.
import { DOORS, doorOf, exampleWord, wordOfFile } from "./doors.js";
import { Editor } from "./editor.js";
import { linkOf } from "./exchanges.js";
import { explanationOfBytes } from "./fault.js";
import { Gallery } from "./gallery.js";
import { LONGEST_LINK, fragmentOf, ofFragment } from "./link.js";
import { made } from "./made.js";
import { Output } from "./output.js";
import { compiled } from "./program.js";
import { Runner, Stopped } from "./runner.js";
import { Text } from "./text.js";
import { explainedAnswer, explainedVerdict } from "./verdict.js";

const data = JSON.parse(document.getElementById("data").textContent);
const at = (id) => document.getElementById(id);

const CLAIM = data.isProved
  ? "The code in this page is proved to meet its contracts, with the texts and premises of the documents of this version."
  : "UNPROVED: the code in this page was built from its sources without a proof, and nothing is claimed of it.";
at("claim").textContent = `${CLAIM} Version ${data.version}, commit ${data.commit}.`;
at("claim").classList.toggle("unproved", !data.isProved);
at("claim-again").textContent = CLAIM;
at("version").textContent = `gen2run ${data.version}, commit ${data.commit}`;

const say = (text) => (at("status").textContent = text);
const textOf = (answer) => new Text(answer.output, answer.starts);

// ---- The worker, and the parts of the page

const workerAt = URL.createObjectURL(new Blob([at("worker").textContent], { type: "text/javascript" }));
let module;
const runner = new Runner(() => {
  const worker = new Worker(workerAt);
  worker.postMessage({ module });
  return worker;
});
// Gives a promise of the lines that the program writes for words and lines.
const ask = async (words, lines) => textOf(await runner.ask(words, new TextEncoder().encode(lines.map((it) => `${it}\n`).join("")))).lines();
const editor = new Editor(at);
const output = new Output(at);
const gallery = new Gallery(at, save, (lines) => ask("decode", lines));

// ---- A run

const SAID = { 0: "done", 2: "there are no such words", 3: "the input is faulty", 6: "more than 16,777,216 bytes of input", 7: "no memory" };
// The run that is going on, or the last one. Another one takes its place.
let current;

function busy(isBusy) {
  at("stop").disabled = !isBusy;
}

async function run() {
  runner.stop();
  const word = at("word").value;
  const words = word === "gen" ? `gen ${at("seed").value} ${at("tags").value}` : word;
  const mine = { word, input: editor.bytes() };
  current = mine;
  busy(true);
  say("running");
  try {
    const answer = await runner.ask(words, mine.input);
    show(mine, answer);
    if (answer.status === 0 && ["audit", "judge"].includes(word)) await explainVerdict(mine);
    if (answer.status === 0 && exampleWord(word) === "run" && word !== "upgrade") await showPictures(mine);
  } catch (error) {
    if (!(error instanceof Stopped)) say(`the call broke off: ${error.message}`);
  }
  if (current === mine) busy(false);
}

function show({ word, input }, { status, milliseconds, ...answer }) {
  const text = textOf(answer);
  output.show(word, text);
  const counted = `${text.length.toLocaleString("en-US")} line${text.length === 1 ? "" : "s"}`;
  say(`status ${status}: ${SAID[status] ?? "?"}; ${counted}, ${milliseconds.toFixed(1)} ms`);
  at("save").disabled = !text.length;
  gallery.hide();
  editor.tell(status === 3 ? explanationOfBytes(data.fault, input, word.split(" ")[0], text.whole()) : undefined);
}

// Marks the line of a trace or of a log that can't be, and says what was wanted there.
async function explainVerdict(mine) {
  const [text, written] = [new TextDecoder().decode(mine.input), output.text.whole()];
  const told = mine.word === "judge" ? explainedAnswer(text, written) : await explainedVerdict(ask, text, written);
  if (current === mine) editor.tell(told);
}

// Shows the pictures of a run: two more calls of the same input, of which the editor needs not wait.
async function showPictures({ input }) {
  const link = linkOf(new TextDecoder().decode(input.subarray(0, 1000)));
  const said = await runner.ask("run exchanges", input, { firsts: "exchange", slots: true });
  if (said.status !== 0) return;
  gallery.show({ text: textOf(said), firsts: said.firsts, slots: said.slots }, link);
  const trace = await runner.ask("run trace", input, { firsts: "tx" });
  if (trace.status === 0) await gallery.showWaves({ text: textOf(trace), firsts: trace.firsts });
}

function stop() {
  if (at("stop").disabled) return;
  const isShown = at("status").textContent !== "running";
  runner.stop();
  busy(false);
  say(isShown ? "stopped, and pictures are missing" : "stopped, and nothing was written");
}

// Saves the waves of the run that is shown as a value change dump.
async function saveWaves() {
  busy(true);
  const before = at("status").textContent;
  say("making the dump");
  try {
    const { status, output: dump } = await runner.ask("run vcd", current.input);
    if (status === 0) save("waves.vcd", dump, "text/plain");
    say(status === 0 ? before : `no dump: ${SAID[status] ?? "?"}`);
  } catch (error) {
    if (!(error instanceof Stopped)) say(`the call broke off: ${error.message}`);
  }
  busy(false);
}

// ---- Doors, examples, files and links

function open(word, given, name) {
  const door = doorOf(word);
  for (const it of at("doors").children) {
    const isChosen = it.id === `door-${door.id}`;
    it.setAttribute("aria-selected", String(isChosen));
    it.tabIndex = isChosen ? 0 : -1;
  }
  at("door").setAttribute("aria-labelledby", `door-${door.id}`);
  at("door-said").textContent = door.said;
  at("word").replaceChildren(...door.words.map((it) => made("option", it, { value: it })));
  at("word").value = word;
  at("of-gen").hidden = word !== "gen";
  const groups = door.words.filter((it) => exampleWord(it) === it).flatMap((it) => data.examples.filter((example) => example.word === it));
  at("example").replaceChildren(made("option", "choose one", { value: "" }), ...groups.map((it) => made("option", `${it.word}: ${it.name}`, { value: `${it.word} ${it.name}` })));
  at("example").value = name ? `${exampleWord(word)} ${name}` : "";
  editor.open(typeof given === "string" ? new TextEncoder().encode(given) : given);
}

function openFirst(door) {
  const first = data.examples.find((it) => it.word === door.words[0] && it.name === door.first);
  open(door.words[0], first?.text ?? "", first?.name);
  return run();
}

function openExample(value) {
  const example = data.examples.find((it) => `${it.word} ${it.name}` === value);
  if (!example) return undefined;
  const word = exampleWord(at("word").value) === example.word ? at("word").value : example.word;
  for (const name of ["seed", "tags"]) if (example[name]) at(name).value = example[name];
  open(word, example.text, example.name);
  return run();
}

async function openFile(file) {
  const bytes = new Uint8Array(await file.arrayBuffer());
  open(wordOfFile(new TextDecoder().decode(bytes), at("word").value), bytes);
  return run();
}

function openFragment() {
  const linked = ofFragment(location.hash);
  if (!linked || !DOORS.some((it) => it.words.includes(linked.word))) return false;
  at("seed").value = linked.seed;
  at("tags").value = linked.tags;
  open(linked.word, linked.bytes);
  run();
  return true;
}

async function makeLink() {
  const fragment = fragmentOf({ word: at("word").value, seed: at("seed").value, tags: at("tags").value, bytes: editor.bytes() });
  if (fragment.length > LONGEST_LINK) return say("the input is too long for a link: save it as a file");
  history.replaceState(null, "", fragment);
  const isCopied = await navigator.clipboard?.writeText(location.href).then(() => true, () => false);
  return say(`the address of this page now holds the words and the input${isCopied ? ", and is copied" : ""}`);
}

function save(name, content, type) {
  const link = made("a", "", { href: URL.createObjectURL(new Blob([content], { type })), download: name });
  link.click();
  setTimeout(() => URL.revokeObjectURL(link.href), 10_000);
}

function makeDoors() {
  for (const door of DOORS) {
    const it = made("button", door.name, { id: `door-${door.id}`, type: "button" });
    it.setAttribute("role", "tab");
    it.setAttribute("aria-controls", "door");
    it.onclick = () => openFirst(door);
    at("doors").append(it);
  }
  at("doors").onkeydown = (event) => {
    const tabs = [...at("doors").children];
    const step = { ArrowRight: 1, ArrowLeft: -1 }[event.key];
    if (!step) return;
    const next = tabs[(tabs.indexOf(document.activeElement) + step + tabs.length) % tabs.length];
    next.click();
    next.focus();
  };
}

function listen() {
  at("run").onclick = run;
  at("stop").onclick = stop;
  at("word").onchange = () => open(at("word").value, editor.bytes(), at("example").value.split(" ").slice(1).join(" "));
  at("example").onchange = () => openExample(at("example").value);
  at("save").onclick = () => save(output.words === "run vcd" ? "waves.vcd" : "output.txt", output.text.bytes, "text/plain");
  at("save-input").onclick = () => save("input.txt", editor.bytes(), "text/plain");
  at("save-vcd").onclick = saveWaves;
  at("file").onchange = () => at("file").files[0] && openFile(at("file").files[0]);
  at("link").onclick = makeLink;
  document.addEventListener("keydown", (event) => {
    if (event.key === "Enter" && (event.ctrlKey || event.metaKey)) run();
    if (event.key === "Escape") stop();
  });
  document.addEventListener("dragover", (event) => {
    event.preventDefault();
    document.body.classList.add("dropping");
  });
  document.addEventListener("dragleave", () => document.body.classList.remove("dropping"));
  document.addEventListener("drop", (event) => {
    event.preventDefault();
    document.body.classList.remove("dropping");
    if (event.dataTransfer.files[0]) openFile(event.dataTransfer.files[0]);
  });
  window.addEventListener("hashchange", openFragment);
  window.addEventListener("resize", () => {
    editor.draw();
    output.draw();
    gallery.resized();
  });
}

async function begin() {
  makeDoors();
  listen();
  try {
    module = await compiled(Object.values(data.modules).map((it) => Uint8Array.from(atob(it), (sign) => sign.charCodeAt(0))));
  } catch (error) {
    at("run").disabled = true;
    return say(error.message);
  }
  return openFragment() || openFirst(DOORS[0]);
}

begin();
