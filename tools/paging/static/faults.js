// The faults of the law as it stands on the page, while one types.

import { Latest, ask } from "./ask.js";
import { make } from "./make.js";
import { noted } from "./notes.js";

const KINDS = { reply: "on-fault", further: "on-fault", warning: "on-warning" };

export class Faults {
  /** `heard` is called with each part of an answer and the law that was asked of. */
  constructor(root, go, heard) {
    Object.assign(this, { root, go, heard, notes: [] });
    this.summary = make("p", { class: "summary", role: "status" });
    this.list = make("div", {});
    root.append(make("h2", {}, "Faults"), this.summary, this.list);
    this.latest = new Latest((law) => this.askFor(law));
    this.answered = null;
  }

  /** Asks for the faults of a law. What explains those of another text is given up. */
  put(law) {
    this.answered?.abort();
    this.latest.put(law);
  }

  async askFor(law) {
    const control = new AbortController();
    await ask("faults", law, (part) => {
      if (part.isAccepted !== undefined) this.answered = control;
      this.show(part);
      this.heard(part, law);
    }, control.signal);
    this.answered = null;
  }

  show(part) {
    if (part.isAccepted !== undefined) {
      this.trouble = part.trouble || (part.notes ? "" : part.reply);
      this.isAccepted = part.isAccepted;
    }
    if (part.notes) this.showNotes(part.notes);
    else if (part.isAccepted !== undefined) this.showNotes([]);
  }

  showNotes(notes) {
    this.notes = notes;
    const faults = notes.filter(({ kind }) => kind !== "warning").length;
    const warnings = notes.length - faults;
    const counted = (number, word) => (number ? `${number} ${word}${number > 1 ? "s" : ""}` : "");
    const told = this.isAccepted ? "The program accepts this law." : this.trouble;
    this.summary.textContent = [counted(faults, "fault"), told, counted(warnings, "warning")].filter((word) => word).join(" · ");
    this.summary.dataset.kind = this.isAccepted ? "good" : "bad";
    this.list.replaceChildren(...notes.map((note) => noted(note, this.go)));
  }

  /** How many faults there are; at least one where the law isn't accepted. */
  number() {
    return this.isAccepted ? 0 : Math.max(1, this.notes.filter(({ kind }) => kind !== "warning").length);
  }

  /** How many faults stand in a file: those whose first place lies there. */
  numberIn(name) {
    return this.notes.filter(({ kind, places }) => kind !== "warning" && places[0]?.file === name).length;
  }

  /** The places that are marked in the text: those of faults and warnings. */
  marks() {
    return this.notes.flatMap((note) => note.places.filter((place) => this.go.isHere(place))
      .map((place) => ({ ...place, kind: KINDS[note.kind] })));
  }
}
