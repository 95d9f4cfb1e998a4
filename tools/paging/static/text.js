// The law's text: its words as a person reads them, and its blocks of code, both edited in place.

import { CodeView, shortly } from "./code.js";
import { fieldOf, hasCarriage, linesOf, linesOfField, number, stretchesOf, textOf } from "./law.js";
import { button, make } from "./make.js";
import { headingOf, read } from "./words.js";

/** Words of the law: read, or edited in a field as they are written. */
class WordsView {
  constructor(stretch, told) {
    Object.assign(this, { stretch, told });
    this.shown = make("div", { class: "shown", ondblclick: () => this.edit() });
    this.edits = button("Edit the text", () => this.edit(), { class: "edits" });
    this.element = make("div", { class: "words" }, this.shown, this.edits);
    this.show();
  }

  show() {
    this.shown.replaceChildren(...read(this.stretch.lines));
    this.edits.textContent = this.shown.hasChildNodes() ? "Edit the text" : "Add text";
    this.element.classList.toggle("is-empty", !this.shown.hasChildNodes());
    this.edits.disabled = this.stretch.lines.some((line) => line.replace(/\r$/, "").includes("\r"));
  }

  /** The last heading that is shown; nothing where there is none. */
  heading() {
    return [...this.shown.querySelectorAll("h2, h3, h4, h5, h6")].at(-1);
  }

  placed() {
    const { first, lines } = this.stretch;
    if (first === this.first && lines.length === this.size) return;
    Object.assign(this, { first, size: lines.length });
    const where = lines.length ? `lines ${first} to ${first + lines.length - 1}` : `in front of line ${first}`;
    this.edits.setAttribute("aria-label", `${this.edits.textContent}, ${where}`);
  }

  edit() {
    if (this.edits.disabled) return;
    const field = make("textarea", {
      "aria-label": "Text of the law, in Markdown", oninput: () => { fit(field); this.told(field.value, false); },
      onkeydown: (event) => { if (event.key === "Escape") this.done(field); },
    });
    field.value = fieldOf(this.stretch.lines);
    const done = button("Done", () => this.done(field));
    this.element.replaceChildren(field, make("p", { class: "hint" }, done, " or Escape. A line ", make("code", {}, "```catala"),
      " begins a block of code, and a line ", make("code", {}, "```"), " ends it."));
    this.element.classList.add("is-edited");
    fit(field);
    field.focus();
  }

  done(field) {
    this.element.classList.remove("is-edited");
    this.element.replaceChildren(this.shown, this.edits);
    this.show();
    this.told(field.value, true);
    if (this.element.isConnected) this.edits.focus();
  }
}

/** Gives a field the height of what is in it. */
function fit(field) {
  field.style.height = "auto";
  field.style.height = `${field.scrollHeight + 4}px`;
}

export class TextView {
  constructor(root, colours, told) {
    Object.assign(this, { root, colours, told });
    this.stretches = [];
    this.views = [];
    this.marked = [];
    this.missing = [];
  }

  text() {
    return textOf(this.stretches);
  }

  /** Shows a text; what is the same as before, in front and behind, stays as it is with what was typed there. */
  show(text) {
    this.isCarriage = hasCarriage(text);
    const stretches = stretchesOf(text);
    const isSame = (a, b) => a && b && a.kind === b.kind && linesOf(a).join("\n") === linesOf(b).join("\n");
    const most = Math.min(stretches.length, this.stretches.length);
    let front = 0;
    while (front < most && isSame(stretches[front], this.stretches[front])) front += 1;
    let behind = 0;
    while (behind < most - front && isSame(stretches.at(-1 - behind), this.stretches.at(-1 - behind))) behind += 1;
    const made = stretches.slice(front, stretches.length - behind).map((stretch) => this.view(stretch));
    const gone = this.views.splice(front, this.views.length - behind - front, ...made);
    for (const view of gone) view.element.remove();
    const next = this.views[front + made.length]?.element ?? null;
    for (const view of made) this.root.insertBefore(view.element, next);
    this.stretches = this.views.map((view) => view.stretch);
    this.place();
    this.draw();
  }

  view(stretch) {
    const view = stretch.kind === "code" ? new CodeView(stretch, this.colours, () => this.codeTyped(view))
      : new WordsView(stretch, (value, isDone) => this.wordsTyped(view, value, isDone));
    if (stretch.kind === "code") view.field.addEventListener("blur", () => this.parted());
    return view;
  }

  place() {
    number(this.stretches);
    let heading = "";
    for (const view of this.views) {
      view.placed(heading);
      if (view.stretch.kind === "words") heading = headingOf(view.stretch.lines, heading);
    }
  }

  codeTyped(view) {
    view.stretch.lines = linesOfField(view.field.value, this.isCarriage);
    this.place();
    this.told();
  }

  wordsTyped(view, value, isDone) {
    const { stretch } = view;
    if (value !== fieldOf(stretch.lines)) {
      stretch.lines = value === "" ? [] : linesOfField(value, this.isCarriage, view === this.views.at(-1));
      this.place();
      this.told();
    }
    if (isDone) this.parted();
    if (isDone) this.markHeadings();
  }

  /** Parts the text anew where a fence was written into it or taken out. */
  parted() {
    const kinds = (stretches) => stretches.map(({ kind, lines }) => `${kind} ${lines.length}`).join();
    const text = this.text();
    if (kinds(stretchesOf(text)) !== kinds(this.stretches)) this.show(text);
  }

  // ---- marks

  mark(places) {
    this.marked = places;
    for (const view of this.views) if (view.mark) view.mark(places);
    this.markHeadings();
  }

  /** Puts the numbers of what is marked in the code beside the headings under which it stands. */
  markHeadings() {
    const isOrdered = this.marked.some(({ order }) => order !== undefined);
    if (!isOrdered && !this.wasOrdered) return;
    this.wasOrdered = isOrdered;
    for (const told of this.root.querySelectorAll(".shown .order")) told.remove();
    if (!isOrdered) return;
    const under = new Map();
    let heading = null;
    for (const view of this.views) {
      heading = view.heading?.() ?? heading;
      const orders = view.orders?.() ?? [];
      if (heading && orders.length) under.set(heading, [...(under.get(heading) ?? []), ...orders]);
    }
    for (const [above, orders] of under) {
      above.append(make("span", { class: "order" }, make("span", { class: "unseen" }, " decides as number "), shortly(orders)));
    }
  }

  /** Says behind blocks that a case is missing: `{line, text}`, each behind the block with that line. */
  tellMissing(missing) {
    if (JSON.stringify(missing) === JSON.stringify(this.missing)) return;
    this.missing = missing;
    this.drawMissing();
  }

  drawMissing() {
    for (const told of this.root.querySelectorAll(".missing")) told.remove();
    for (const { line, text } of this.missing) {
      const view = this.viewAt(line);
      if (view) view.element.after(make("p", { class: "missing", tabindex: "-1", "data-line": line }, text));
    }
  }

  goToMissing({ line }) {
    const told = this.root.querySelector(`.missing[data-line="${line}"]`);
    told?.scrollIntoView({ block: "center" });
    told?.focus({ preventScroll: true });
  }

  draw() {
    this.mark(this.marked);
    this.drawMissing();
  }

  viewAt(line) {
    return this.views.find(({ stretch: { first, lines } }) => first <= line && line < first + lines.length);
  }

  go(place) {
    const view = this.viewAt(place.line);
    if (view?.go) view.go(place);
    else if (view) view.element.scrollIntoView({ block: "center" });
  }
}
