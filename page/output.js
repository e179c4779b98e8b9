// The output, of which only the lines that are seen are in the page; and what the chosen line says.
import { heightOf, scrolledTo, seenColumns, seenLines } from "./lines.js";
import { made, placed } from "./made.js";
import { meaning } from "./meanings.js";
import { Text } from "./text.js";

export class Output {
  constructor(at) {
    this.box = at("output");
    this.numbers = at("output-numbers");
    this.said = at("meaning");
    this.show("decode", new Text(new Uint8Array(0)));
    this.box.onscroll = () => this.draw();
    this.box.onkeydown = (event) => this.onKey(event);
    this.box.onfocus = () => this.chosen < 0 && this.choose(0);
    this.box.onmousemove = (event) => {
      const line = event.target.dataset?.line;
      if (line !== undefined && Number(line) !== this.chosen) this.choose(Number(line));
    };
  }

  show(words, text) {
    Object.assign(this, { words, text, chosen: -1 });
    this.box.scrollTo(0, 0);
    this.said.textContent = "";
    this.draw();
  }

  lineHeight() {
    return parseFloat(getComputedStyle(this.box).lineHeight);
  }

  draw() {
    const { box, text } = this;
    const height = this.lineHeight();
    const { first, last, top } = seenLines(box.scrollTop, box.clientHeight, height, text.length);
    const room = placed(made("div", ""), `top:0;width:${text.longest + 1}ch;height:${heightOf(text.length, height)}px;z-index:-1`);
    room.setAttribute("role", "presentation");
    const lines = [room];
    const numbers = [];
    for (let line = first; line < last; line++) {
      const y = top + (line - first) * height;
      lines.push(this.lineAt(line, y));
      const isChosen = line === this.chosen;
      numbers.push(placed(made("div", `${isChosen ? "▸ " : ""}${line + 1}`, { className: isChosen ? "chosen" : "" }), `top:${y - box.scrollTop}px`));
    }
    box.replaceChildren(...lines);
    this.numbers.replaceChildren(...numbers);
    if (this.chosen >= first && this.chosen < last) box.setAttribute("aria-activedescendant", `line-${this.chosen}`);
    else box.removeAttribute("aria-activedescendant");
  }

  lineAt(line, top) {
    const { box, text } = this;
    const whole = text.line(line);
    const sign = this.signWidth ??= this.measured();
    const { first, last } = seenColumns(box.scrollLeft, box.clientWidth, sign, whole.length);
    const it = placed(made("div", whole.slice(first, last), { id: `line-${line}` }), `top:${top}px;left:${first}ch`);
    it.setAttribute("role", "option");
    it.setAttribute("aria-selected", String(line === this.chosen));
    it.setAttribute("aria-posinset", String(line + 1));
    it.setAttribute("aria-setsize", String(text.length));
    it.dataset.line = line;
    return it;
  }

  // Gives how wide a sign is, in pixels.
  measured() {
    const probe = made("div", "0".repeat(100));
    probe.style.minWidth = "0";
    this.box.append(probe);
    const width = probe.getBoundingClientRect().width / 100;
    probe.remove();
    return width || 8;
  }

  choose(line, isScrolled = false) {
    if (!this.text.length) return;
    const { box } = this;
    this.chosen = Math.min(Math.max(line, 0), this.text.length - 1);
    const height = this.lineHeight();
    if (isScrolled) {
      const shown = Math.floor(box.clientHeight / height);
      const first = seenLines(box.scrollTop, box.clientHeight, height, this.text.length).first;
      const lowest = Math.max(0, this.chosen - shown + 1);
      if (this.chosen <= first) box.scrollTop = scrolledTo(this.chosen, box.clientHeight, height, this.text.length);
      else if (first < lowest) box.scrollTop = scrolledTo(lowest, box.clientHeight, height, this.text.length);
    }
    const said = meaning(this.words, this.text.line(this.chosen));
    this.said.textContent = `Line ${this.chosen + 1}${said ? `: ${said}.` : ""}`;
    this.draw();
  }

  onKey(event) {
    const page = Math.max(1, Math.floor(this.box.clientHeight / this.lineHeight()) - 1);
    const { chosen, text } = this;
    const places = { ArrowDown: chosen + 1, ArrowUp: chosen - 1, PageDown: chosen + page, PageUp: chosen - page, Home: 0, End: text.length - 1 };
    if (!(event.key in places)) return;
    event.preventDefault();
    this.choose(places[event.key], true);
  }
}
