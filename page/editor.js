// The editor: a text area with the numbers of its lines, in which a faulty line and its field are marked.
import { seenLines } from "./lines.js";
import { made, placed } from "./made.js";

// (a byte order mark is a fault, so it is kept)
const decoder = new TextDecoder("utf-8", { ignoreBOM: true });

export class Editor {
  constructor(at) {
    this.area = at("input");
    this.numbers = at("numbers");
    this.under = at("under");
    this.said = at("fault");
    this.open(new Uint8Array(0));
    this.area.oninput = () => {
      this.count = undefined;
      this.tell(undefined);
    };
    this.area.onscroll = () => this.draw();
  }

  // Shows bytes. A text area has no carriage returns, nor bytes that are no text: so what was opened is kept until it is edited.
  open(bytes) {
    this.opened = bytes;
    this.area.value = decoder.decode(bytes);
    this.shown = this.area.value;
    this.count = undefined;
    this.area.scrollTo(0, 0);
    this.tell(undefined);
  }

  bytes() {
    return this.area.value === this.shown ? this.opened.slice() : new TextEncoder().encode(this.area.value);
  }

  // Says what is to be said of a line, with its mark; or takes both away.
  tell(told) {
    this.told = told;
    this.said.className = told ? "fault" : "";
    this.said.replaceChildren(...(told?.said ?? []).map((it) => made("p", it)));
    this.area.setAttribute("aria-invalid", String(Boolean(told)));
    if (told) {
      const before = this.area.value.split("\n").slice(0, told.number - 1);
      const begin = before.reduce((sum, it) => sum + it.length + 1, 0) + (told.mark?.column ?? 0);
      this.area.setSelectionRange(begin, begin + (told.mark?.length ?? 0));
      this.area.scrollTop = Math.max(0, (told.number - 4) * this.lineHeight());
    }
    this.draw();
  }

  lineHeight() {
    return parseFloat(getComputedStyle(this.area).lineHeight);
  }

  draw() {
    const height = this.lineHeight();
    const { scrollTop, scrollLeft } = this.area;
    this.count ??= this.area.value.split("\n").length;
    const { first, last } = seenLines(scrollTop, this.area.clientHeight, height, this.count);
    const numbers = [];
    for (let line = first; line < last; line++) {
      const isFaulty = line + 1 === this.told?.number;
      numbers.push(placed(made("div", `${isFaulty ? "✗ " : ""}${line + 1}`, { className: isFaulty ? "faulty" : "" }), `top:${line * height - scrollTop}px`));
    }
    this.numbers.replaceChildren(...numbers);
    const top = `top:${((this.told?.number ?? 0) - 1) * height - scrollTop}px`;
    const marks = this.told ? [placed(made("div", "", { className: "line" }), top)] : [];
    const mark = this.told?.mark;
    if (mark) {
      const place = `${top};left:calc(0.4rem + ${mark.column}ch - ${scrollLeft}px);width:${Math.max(mark.length, 1)}ch`;
      marks.push(placed(made("div", "", { className: "field" }), place));
    }
    this.under.replaceChildren(...marks);
  }
}
