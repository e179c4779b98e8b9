// The pictures of a run in the page: which part of them is seen, by wheel, keys and buttons, and how they are saved.
import { answered, asked, exchangeOf } from "./exchanges.js";
import { readerLane, tagLane } from "./lanes.js";
import { HEIGHT_OF_CURVE, MOST_IN_TABLE, curveOfCount, curveOfQ, heightOfTable, noTable, placeAt, table } from "./pictures.js";
import { slotAt } from "./slots.js";
import { EXCHANGES, moved, wavesMoved } from "./views.js";
import { sizeOfWaves, waves } from "./waves.js";

const OF_SLOTS = ["q", "count", "table"];
const SLOT_KEYS = ["ArrowLeft", "ArrowRight", "Home", "End", "+", "-"];
const WAVE_KEYS = ["PageUp", "PageDown", "Home", "End", "+", "-"];

export class Gallery {
  // `save` saves a file by its name, its content and its type, and `decode` gives a promise of the answers of lines.
  constructor(at, save, decode) {
    this.at = at;
    this.decode = decode;
    for (const name of [...OF_SLOTS, "waves"]) {
      const box = at(`picture-${name}`);
      box.onkeydown = (event) => this.onKey(event, name);
      box.addEventListener("wheel", (event) => this.onWheel(event, name, box), { passive: false });
      at(`save-${name}`).onclick = () => save(`${name}.svg`, this.drawn(name), "image/svg+xml");
    }
    at("picture-table").onscroll = () => this.drawPart("table");
    at("picture-waves").onscroll = () => this.drawPart("waves");
    for (const button of document.querySelectorAll("#pictures [data-key]")) button.onclick = () => this.move(button.dataset.of, button.dataset.key);
  }

  // Shows the pictures over slots, by what `run exchanges` wrote.
  show({ text, firsts, slots }, link) {
    Object.assign(this, { said: text, saidAt: firsts, slots, link, trace: undefined, lanes: [] });
    this.count = slots.qs.length;
    this.view = { from: 0, count: Math.min(this.count, 40) };
    this.wave = { first: 0, zoom: 1 };
    this.at("pictures").hidden = !firsts.length;
    this.draw();
    this.drawPart("waves");
    this.at("waves-view").textContent = "they are being made";
  }

  // Shows the waves as well, by what `run trace` wrote.
  showWaves({ text, firsts }) {
    Object.assign(this, { trace: text, traceAt: firsts });
    return this.fetchWaves();
  }

  hide() {
    this.at("pictures").hidden = true;
  }

  // Gives the room of a picture, in pixels.
  widthOf(name) {
    return Math.max(200, this.at(`picture-${name}`).clientWidth);
  }

  sizeOf(name) {
    if (name === "waves") return sizeOfWaves(this.lanes);
    const ofTable = () => (this.shown ? heightOfTable(this.shown) : 30);
    return { width: this.widthOf(name), height: name === "table" ? ofTable() : HEIGHT_OF_CURVE };
  }

  // Draws a picture whole, or the part of it that is seen.
  drawn(name, seen) {
    if (name === "waves") return waves(this.lanes, seen);
    const width = this.widthOf(name);
    if (name === "table") return this.shown ? table(this.shown, this.view.from, width, seen) : noTable(width, seen);
    return { q: curveOfQ, count: curveOfCount }[name](this.slots, this.view, width, seen);
  }

  drawPart(name) {
    const box = this.at(`picture-${name}`);
    const { width, height } = this.sizeOf(name);
    const room = Object.assign(document.createElement("div"), { className: "room" });
    room.style.cssText = `width:${width}px;height:${height}px`;
    const [left, top] = [box.scrollLeft, box.scrollTop];
    box.replaceChildren(room);
    box.scrollTo(left, top);
    const seen = { left: box.scrollLeft, top: box.scrollTop, wide: Math.min(box.clientWidth, width), high: Math.min(box.clientHeight, height) };
    room.innerHTML = this.drawn(name, seen);
    room.firstChild.style.cssText = `left:${seen.left}px;top:${seen.top}px`;
  }

  draw() {
    if (this.at("pictures").hidden) return;
    const { from, count } = this.view;
    this.shown = count > MOST_IN_TABLE ? undefined : Array.from({ length: Math.min(count, this.count) }, (_, at) => slotAt(this.said, this.slots, from + at));
    for (const name of OF_SLOTS) this.drawPart(name);
    this.at("view").textContent = this.count ? `slots ${from + 1} to ${from + count} of ${this.count}` : "no slot";
  }

  resized() {
    if (this.at("pictures").hidden) return;
    this.draw();
    this.drawPart("waves");
  }

  // Asks decode for the names of the parts of the exchanges that are seen, and draws them.
  async fetchWaves() {
    if (!this.trace) return;
    const { first } = this.wave;
    const [said, trace] = [this.said, this.trace];
    const numbers = Array.from({ length: Math.min(EXCHANGES, this.saidAt.length - first) }, (_, at) => first + at);
    const exchanges = numbers.map((it) => {
      const lines = said.lines(this.saidAt[it], Math.min(this.saidAt[it + 1] ?? said.length, said.length));
      return exchangeOf(lines, trace.lines(this.traceAt[it], this.traceAt[it] + 2), this.link);
    });
    const lines = exchanges.map(asked);
    const answers = lines.length ? await this.decode(lines.flat()) : [];
    // (another run or other exchanges may have been asked for meanwhile)
    if (trace !== this.trace || first !== this.wave.first) return;
    this.found = exchanges.map((exchange, at) => ({ exchange, told: answered(exchange, answers.splice(0, lines[at].length)) }));
    this.at("picture-waves").scrollTo(0, 0);
    this.at("waves-view").textContent = numbers.length ? `exchanges ${first + 1} to ${first + numbers.length} of ${this.saidAt.length}` : "no exchange";
    this.drawWaves();
  }

  drawWaves() {
    const { zoom } = this.wave;
    this.lanes = (this.found ?? []).flatMap(({ exchange, told }) => [readerLane(exchange, told, zoom), tagLane(exchange, told, zoom)]);
    this.drawPart("waves");
  }

  // Moves what is seen of the slots, or of the waves.
  move(name, key, place) {
    if (name === "waves") {
      const before = this.wave;
      this.wave = wavesMoved(before, key, this.saidAt.length);
      return this.wave.first === before.first ? this.drawWaves() : this.fetchWaves();
    }
    this.view = moved(this.view, key, this.count, place);
    this.draw();
    // (the waves begin with the first slot that is seen)
    const first = (this.slots.exchanges[this.view.from] ?? 1) - 1;
    if (first === this.wave.first) return undefined;
    this.wave = { ...this.wave, first };
    return this.fetchWaves();
  }

  onKey(event, name) {
    const keys = name === "waves" ? WAVE_KEYS : SLOT_KEYS;
    if (event.ctrlKey || event.metaKey || event.altKey || !keys.includes(event.key)) return;
    event.preventDefault();
    this.move(name, event.key);
  }

  // (the wheel zooms in the picture that has the focus, and else scrolls the page)
  onWheel(event, name, box) {
    if (document.activeElement !== box) return;
    event.preventDefault();
    this.move(name, event.deltaY < 0 ? "+" : "-", placeAt(event.clientX - box.getBoundingClientRect().left, this.widthOf(name)));
  }
}
