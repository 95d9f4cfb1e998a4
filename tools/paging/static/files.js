// The files of the law: its own, and those of its folder that it includes. One of them is shown, and all that have changed are saved.

import { ask, askOnce } from "./ask.js";
import { File } from "./file.js";
import { button, make } from "./make.js";

const PERIOD = 1000;
const find = (id) => document.getElementById(id);

export class Files {
  /** `desk` is told when a text is another one, when other files are here, and when files of cases have changed. */
  constructor(root, colours, law, desk) {
    Object.assign(this, { root, colours, desk, casesSum: null, tops: new Map(), opening: new Map(), turn: 0 });
    this.bar = make("nav", { class: "files", "aria-label": "Files of the law", hidden: true });
    root.replaceChildren(this.bar);
    this.main = this.file(law);
    this.all = [this.main];
    root.append(this.main.element);
    this.button = find("save");
    this.button.addEventListener("click", () => this.save());
    root.addEventListener("open-file", ({ detail }) => this.open(detail));
    addEventListener("beforeunload", (event) => { if (this.unsaved().length) event.preventDefault(); });
    this.show(this.main.name);
    setTimeout(() => this.look(), PERIOD);
  }

  file(state) {
    return new File(state, this.colours, () => this.desk.changed());
  }

  named(name) {
    return this.all.find((file) => file.name === name);
  }

  unsaved() {
    return this.all.filter((file) => file.isUnsaved());
  }

  /** The law as it stands on the page: its own text, and those of its other files that aren't saved. */
  law() {
    const others = this.unsaved().filter((file) => file !== this.main).map((file) => [file.name, file.view.text()]);
    return { text: this.main.view.text(), others: Object.fromEntries(others) };
  }

  // ---- which files there are, and which is shown

  /** Takes the files that the law includes; what isn't saved stays, also where the law doesn't include it any more. */
  async take(includes) {
    const turn = this.turn += 1;
    const names = includes.filter(({ mayOpen }) => mayOpen).map(({ name }) => name);
    const opened = await Promise.all(names.map((name) => this.named(name) ?? this.opened(name)));
    if (turn !== this.turn) return;
    const kept = this.all.filter((file) => file !== this.main && !names.includes(file.name) && (file.isUnsaved() || file === this.shown));
    const all = [this.main, ...opened.filter((file) => file), ...kept];
    for (const file of this.all) if (!all.includes(file)) file.element.remove();
    for (const file of all) if (!file.element.isConnected) this.root.append(file.element);
    const isNew = all.length !== this.all.length || all.some((file, k) => file !== this.all[k]);
    this.all = all;
    if (isNew) this.draw();
    for (const opens of this.root.querySelectorAll(".opens")) opens.disabled = !this.named(opens.dataset.file);
  }

  /** A file that is read, once where it is asked for twice; nothing where it can't be. */
  opened(name) {
    const read = async () => {
      const state = await askOnce("open", { name });
      this.opening.delete(name);
      return state && !state.isGone ? this.file(state) : undefined;
    };
    if (!this.opening.has(name)) this.opening.set(name, read());
    return this.opening.get(name);
  }

  /** Shows a file that a line includes, and goes to its name. */
  open(name) {
    if (!this.named(name)) return;
    this.show(name);
    this.bar.querySelector("[aria-current]").focus();
  }

  show(name) {
    const file = this.named(name);
    if (file === this.shown) return;
    if (this.shown) this.tops.set(this.shown.name, this.root.scrollTop);
    this.shown = file;
    for (const other of this.all) other.element.hidden = other !== file;
    this.root.scrollTop = this.tops.get(name) ?? 0;
    this.draw();
  }

  draw() {
    this.bar.hidden = this.all.length === 1;
    const focused = this.bar.contains(document.activeElement) ? document.activeElement.dataset.file : null;
    this.bar.replaceChildren(...this.all.map((file) => button(file.name, () => this.show(file.name),
      { "data-file": file.name, "aria-current": file === this.shown ? "true" : null })));
    if (focused) this.bar.querySelector(`[data-file="${CSS.escape(focused)}"]`)?.focus();
    this.desk.shown();
  }

  /** Says at each file how many faults stand in it. */
  count(numberOf) {
    for (const [k, file] of this.all.entries()) {
      const number = numberOf(file.name);
      const told = number ? [" ", make("span", { class: "count", "data-kind": "bad" }, String(number)),
        make("span", { class: "unseen" }, number > 1 ? " faults" : " fault")] : [];
      this.bar.children[k].replaceChildren(file.name, ...told);
    }
  }

  // ---- the disk

  tellSaved() {
    const unsaved = this.unsaved();
    const gone = this.all.filter((file) => file.isGone).map(({ name }) => name);
    const isOne = this.all.length === 1;
    this.button.disabled = !unsaved.length;
    const unread = gone.length ? `${isOne ? "The file" : gone.join(", ")} can't be read` : "";
    const trouble = this.isAway ? "The page's server doesn't answer" : unread || this.unwritten();
    const which = isOne ? "" : `: ${unsaved.map(({ name }) => name).join(", ")}`;
    const said = trouble || (unsaved.length ? `Not saved yet${which}` : "Saved");
    if (find("saved").textContent !== said) find("saved").textContent = said;
    document.title = `${unsaved.length ? "• " : ""}${this.main.name}`;
  }

  async save() {
    const changed = [];
    for (const file of this.unsaved()) changed.push(await file.save());
    if (changed.includes(true)) await this.ask();
    this.tellSaved();
  }

  /** Why files were not saved. */
  unwritten() {
    return this.all.filter(({ trouble }) => trouble).map(({ name, trouble }) => `${name} was not saved: ${trouble}`).join(". ");
  }

  async look() {
    await this.ask();
    setTimeout(() => this.look(), PERIOD);
  }

  /** Asks whether the files have changed on the disk. */
  async ask() {
    const sums = Object.fromEntries(this.all.map(({ name, sum }) => [name, sum]));
    const isThere = await ask("changes", { sums }, (told) => {
      const taken = this.all.filter((file) => file.take(told.files[file.name]));
      if (taken.length) this.tellTaken(taken.map(({ name }) => name));
      if (this.casesSum !== null && this.casesSum !== told.cases) this.desk.casesChanged();
      this.casesSum = told.cases;
    });
    this.isAway = !isThere;
    this.tellOutside();
    this.tellSaved();
  }

  tellTaken(names) {
    const those = this.all.length === 1 ? "The file" : names.join(", ");
    find("told").textContent = `Changed on the disk, and shown as on it now: ${those}.`;
    this.desk.changed();
  }

  /** Asks which text counts where a file has changed on the disk and on the page. */
  tellOutside() {
    const others = this.all.filter(({ other }) => other);
    const told = JSON.stringify(others.map(({ name, other }) => [name, other.sum]));
    if (told === this.toldOutside) return;
    this.toldOutside = told;
    find("outside").hidden = !others.length;
    find("outside").replaceChildren(...others.flatMap((file) => this.asked(file)));
  }

  asked(file) {
    const name = this.all.length === 1 ? "The file" : file.name;
    const settle = (work) => () => { work(); this.tellOutside(); this.desk.changed(); };
    return [make("p", {}, `${name} has changed on the disk, and this page has changes that are not saved.`),
      button("Show the file, and drop the changes here", settle(() => file.show(file.other))), " ",
      button("Keep the changes here, and save over the file later", settle(() => file.keep()))];
  }
}
