// A file of the law on the disk: it is saved by the drafter alone, and changes from outside are taken in.

import { askOnce } from "./ask.js";
import { make } from "./make.js";
import { TextView } from "./text.js";

export class File {
  /** `told` is called when its text is another one than before. */
  constructor({ name, text, sum }, colours, told) {
    Object.assign(this, { name, told, other: null, isGone: false, trouble: "" });
    this.element = make("div", { class: "file", hidden: true });
    this.view = new TextView(this.element, colours, told);
    this.show({ text, sum });
  }

  /** Shows what the file holds. */
  show({ text, sum }) {
    Object.assign(this, { saved: text, sum, other: null });
    this.view.show(text);
  }

  isUnsaved() {
    return this.view.text() !== this.saved;
  }

  /** Saves the text; gives whether the file has changed on the disk, so that it wasn't saved. */
  async save() {
    const text = this.view.text();
    if (text === this.saved) return false;
    const answer = await askOnce("save", { name: this.name, text, sum: this.sum });
    this.trouble = answer?.sum || answer?.isChanged ? "" : answer?.error ?? "the page's server doesn't answer";
    if (answer?.sum) Object.assign(this, { saved: text, sum: answer.sum });
    return Boolean(answer?.isChanged);
  }

  // ---- changes from outside

  /** The file on the disk is told of: taken in at once where nothing would be lost. Gives whether another text is shown. */
  take(state) {
    this.isGone = Boolean(state?.isGone);
    if (state?.text === undefined || state.sum === this.sum || state.sum === this.other?.sum) return false;
    if (!this.isUnsaved()) {
      this.show(state);
      return true;
    }
    if (state.text === this.view.text()) Object.assign(this, { saved: state.text, sum: state.sum, other: null });
    else this.other = state;
    return false;
  }

  /** What is on the page counts, and is saved over the file later. */
  keep() {
    Object.assign(this, { saved: this.other.text, sum: this.other.sum, other: null });
  }
}
