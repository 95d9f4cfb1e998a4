// A block of code that is edited in place: a field over its coloured lines, which hold the colours and what is marked.

import { fieldOf, indexAt } from "./law.js";
import { make } from "./make.js";

/** The pieces of a line between all bounds of its colours and marks, each with its classes; colours come in their order. */
function cut(text, pieces, marks) {
  const bounds = new Set([0, text.length]);
  for (const { start, end } of [...pieces, ...marks]) bounds.add(start).add(end);
  const sorted = [...bounds].filter((bound) => bound <= text.length).sort((a, b) => a - b);
  let next = 0;
  return sorted.slice(1).map((end, k) => {
    while (next < pieces.length && pieces[next].end < end) next += 1;
    const around = marks.filter((mark) => mark.start <= sorted[k] && end <= mark.end).map((mark) => mark.kind);
    if (next < pieces.length && pieces[next].start <= sorted[k]) around.push(pieces[next].kind);
    return { text: text.slice(sorted[k], end), classes: around.join(" ") };
  });
}

/** The numbers that marks have. */
function ordersIn(marks) {
  return marks.map(({ order }) => order).filter((order) => order !== undefined);
}

/** Some numbers, of which the first few are told. */
export function shortly(orders) {
  const sorted = [...new Set(orders)].sort((a, b) => a - b);
  return sorted.length > 3 ? `${sorted.slice(0, 3).join(", ")} ..` : sorted.join(", ");
}

export class CodeView {
  /** `told` is called after each change. */
  constructor(stretch, colours, told) {
    Object.assign(this, { stretch, colours, told });
    this.rows = [];
    this.lines = make("div", { class: "lines", "aria-hidden": "true" });
    this.field = make("textarea", {
      spellcheck: "false", autocapitalize: "off", autocomplete: "off", rows: "1",
      oninput: () => this.typed(), onkeydown: (event) => this.pressed(event),
    });
    this.element = make("div", { class: "code" }, this.lines, this.field);
    this.field.value = fieldOf(stretch.lines);
    this.colour();
    // A carriage return within a line would end it here: then the block is shown, and edited elsewhere.
    this.field.readOnly = this.rows.length !== Math.max(1, stretch.lines.length);
  }

  /** Says where the block stands, for whom a reader tells it, and numbers its lines. */
  placed(heading) {
    const { first, lines } = this.stretch;
    const label = `Code, lines ${first} to ${first + lines.length - 1}${heading ? `, ${heading}` : ""}`;
    if (this.label !== label) this.field.setAttribute("aria-label", label);
    if (this.first !== first) this.lines.style.setProperty("counter-reset", `line ${first - 1}`);
    Object.assign(this, { label, first });
  }

  typed() {
    this.colour();
    this.told();
  }

  /** A new line begins below the one in front. */
  pressed(event) {
    if (event.key !== "Enter" || event.ctrlKey || event.metaKey || event.isComposing) return;
    event.preventDefault();
    const front = this.field.value.slice(0, this.field.selectionStart).split("\n").at(-1);
    const text = "\n" + front.match(/^ */)[0];
    // This command, old as it is, is the one by which what is typed can be taken back.
    if (!document.execCommand("insertText", false, text)) this.field.setRangeText(text, ...this.range(), "end"), this.typed();
  }

  range() {
    return [this.field.selectionStart, this.field.selectionEnd];
  }

  // ---- colours

  /** Colours what has changed: the lines between those in front and those behind that are as they were. */
  colour() {
    const texts = this.field.value.split("\n");
    const most = Math.min(texts.length, this.rows.length);
    let front = 0;
    while (front < most && this.rows[front].text === texts[front]) front += 1;
    let behind = 0;
    while (behind < most - front && this.rows.at(-1 - behind).text === texts.at(-1 - behind)) behind += 1;
    const made = texts.slice(front, texts.length - behind).map((text) => this.row(text));
    const gone = this.rows.splice(front, this.rows.length - behind - front, ...made);
    for (const row of gone) row.element.remove();
    const next = this.rows[front + made.length]?.element ?? null;
    for (const row of made) this.lines.insertBefore(row.element, next);
    this.open(front, front + made.length);
  }

  row(text) {
    return { text, marks: [], element: make("div", { class: "line" }), open: undefined, pieces: [] };
  }

  /** Colours the rows from a number on, to the end, and behind it as long as what is open in front of a row is another rule. */
  open(from, end) {
    let open = from > 0 ? this.rows[from - 1].behind : null;
    for (let k = from; k < this.rows.length && (k < end || this.rows[k].open !== open); k += 1) {
      const row = this.rows[k];
      const found = this.colours.pieces(row.text, open);
      Object.assign(row, { open, pieces: found.pieces, behind: found.open });
      this.draw(row);
      open = found.open;
    }
  }

  draw(row) {
    const pieces = cut(row.text, row.pieces, row.marks);
    row.element.replaceChildren(...pieces.map(({ text, classes }) => (classes ? make("span", { class: classes }, text) : text)));
    if (!row.text) row.element.append("\u200b");
    const orders = ordersIn(row.marks);
    if (orders.length) row.element.dataset.order = shortly(orders);
    else delete row.element.dataset.order;
  }

  // ---- marks

  /** The numbers of what is marked in this block. */
  orders() {
    return this.rows.flatMap((row) => ordersIn(row.marks));
  }

  /**
   * Marks places of the law, `{line, column, end, kind}`, where they stand in this block, and puts the number of those that have one, as
   * their `order`, beside the line; what was marked in it before isn't any more.
   */
  mark(places) {
    const { first } = this.stretch;
    const byRow = new Map();
    for (const place of places) {
      const row = this.rows[place.line - first];
      if (!row) continue;
      const start = Math.max(indexAt(row.text, place.column), row.text.search(/\S/));
      const end = Math.max(indexAt(row.text, place.end), start + 1);
      byRow.set(row, [...(byRow.get(row) ?? []), { start, end, kind: place.kind, order: place.order }]);
    }
    let isOther = false;
    for (const row of this.rows) {
      const marks = byRow.get(row) ?? [];
      if (!marks.length && !row.marks.length) continue;
      if (JSON.stringify(marks) === JSON.stringify(row.marks)) continue;
      row.marks = marks;
      this.draw(row);
      isOther = true;
    }
    if (isOther) this.element.classList.toggle("has-orders", this.orders().length > 0);
  }

  /** Goes to a place: its piece is chosen in the field, in the middle of what is seen. */
  go(place) {
    const row = this.rows[place.line - this.stretch.first];
    const front = this.rows.slice(0, place.line - this.stretch.first).reduce((sum, { text }) => sum + text.length + 1, 0);
    this.field.focus({ preventScroll: true });
    this.field.setSelectionRange(front + indexAt(row.text, place.column), front + indexAt(row.text, place.end));
    row.element.scrollIntoView({ block: "center" });
  }
}
