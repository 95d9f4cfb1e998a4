// The audit of each scope: each variable with its verdict, what shows it, and what to write.

import { ask, askOnce } from "./ask.js";
import { button, make, sentence } from "./make.js";
import { helpsOf, lineOf, placesOf } from "./notes.js";
import { inputsPlainly, shownText } from "./values.js";

const PAUSE = 250;
const COMPLETE = "Complete: no input ends in a conflict or in no value.";

/** The verdict on a variable in words, and how grave it is. */
function verdictOf({ what, told }) {
  if (what === "Covered") return ["Covered", "good"];
  if (what === "Masked") return [`Masked by ${told.split(" ")[0]}`, "open"];
  if (what !== "Found") return [`${what} ${what === "Undecided derived" ? "" : told}`.trim(), "open"];
  return [told.startsWith("conflict") ? "Found a conflict" : "Found no value", "bad"];
}

export class Audit {
  /** `desk` has the law's text and forms, goes to places, runs inputs, and is told when there is something new to mark. */
  constructor(root, desk) {
    Object.assign(this, { root, desk, sections: [], notes: [], troubles: [] });
    this.job = `audit ${crypto.randomUUID()}`;
    this.summary = make("p", { class: "summary", role: "status" });
    this.running = make("p", { class: "running", hidden: true });
    this.list = make("div", {});
    root.append(make("h2", {}, "Audit"), this.summary, this.running, this.list);
    this.wait("");
  }

  /** Nothing is known of the law as it stands, for this reason. */
  wait(why) {
    this.stop();
    this.clear();
    this.summary.textContent = why;
    this.summary.dataset.kind = "";
  }

  clear() {
    Object.assign(this, { sections: [], notes: [], troubles: [] });
    this.list.replaceChildren();
  }

  stop() {
    clearTimeout(this.timer);
    this.control?.abort();
    if (this.control) askOnce("stop", { job: this.job });
    this.ended();
  }

  ended() {
    clearInterval(this.clock);
    this.control = null;
    this.running.hidden = true;
  }

  /** Audits the law after a pause, in which nothing is typed. */
  soon() {
    this.stop();
    this.timer = setTimeout(() => this.begin(), PAUSE);
  }

  async begin() {
    const scopes = this.desk.scopes();
    if (!scopes.length) return this.wait("The law has no scope yet.");
    const control = new AbortController();
    this.control = control;
    this.tell(Date.now());
    let isFirst = true;
    const isWhole = await ask("audit", { ...this.desk.law(), scopes, job: this.job }, (part) => {
      if (isFirst) this.clear();
      isFirst = false;
      this.take(part);
    }, control.signal);
    if (this.control !== control) return;
    this.ended();
    if (!isWhole) this.troubles.push("The audit broke off.");
    this.draw();
  }

  /** Says that it runs, and for how long, where it takes longer than a moment. */
  tell(began) {
    clearInterval(this.clock);
    this.clock = setInterval(() => {
      const seconds = Math.round((Date.now() - began) / 1000);
      if (this.running.hidden) {
        this.time = make("span", {});
        this.running.replaceChildren(this.time, " ", button("Stop the audit", () => this.stopped()));
        this.running.hidden = false;
      }
      this.time.textContent = `The audit has run for ${seconds} s.`;
    }, 500);
  }

  async stopped() {
    await askOnce("stop", { job: this.job });
    this.control?.abort();
    this.ended();
    this.troubles = ["The audit was stopped."];
    this.draw();
    this.again?.focus();
  }

  take(part) {
    if (part.sections) this.sections.push(...part.sections);
    if (part.trouble) this.troubles.push(`${part.scope}: ${part.trouble}`);
    if (part.notes) this.notes.push(...part.notes);
    this.draw();
  }

  // ---- what is shown

  lines() {
    return this.sections.flatMap((section) => section.lines.map((line) => ({ ...line, scope: section.scope })));
  }

  /** What explains a line of a report. */
  noteOf(line) {
    return this.notes.find((note) => note.scope === line.scope && note.name === line.name && note.code === line.what);
  }

  draw() {
    const grave = this.lines().filter((line) => line.what === "Found").length;
    const open = this.lines().filter((line) => line.what !== "Found" && line.what !== "Covered").length;
    const isComplete = !this.troubles.length && this.sections.length > 0;
    const verdict = grave ? `${grave} found` : open ? `${open} open` : isComplete ? COMPLETE : "";
    const isOver = this.control ? "" : this.troubles.join(" ");
    this.summary.textContent = [verdict, isOver].filter((word) => word).join(" · ");
    this.summary.dataset.kind = grave ? "bad" : open || this.troubles.length ? "open" : "good";
    this.list.replaceChildren(...this.sections.map((section) => this.section(section)));
    this.again = this.troubles.length ? button("Audit again", () => this.soon()) : null;
    if (this.again && !this.control) this.list.append(this.again);
    this.desk.marked({ found: grave, open, isWhole: this.sections.length > 0 });
  }

  section({ scope, lines, verdict }) {
    const rows = lines.map((line) => this.line({ ...line, scope }));
    return make("section", { class: "scope" }, make("h3", {}, scope, " ", make("span", { class: "verdict" }, verdict)),
      rows.length ? make("ul", { class: "verdicts" }, rows) : make("p", {}, "It has no variable to judge."));
  }

  line(line) {
    const [word, kind] = verdictOf(line);
    const note = this.noteOf(line);
    const badge = make("span", { class: "badge", "data-kind": kind }, word);
    const head = make("p", { class: "variable" }, make("code", {}, line.name), " ", badge);
    if (line.what === "Covered") return make("li", {}, head);
    const missing = this.missingOf(line);
    return make("li", {}, head, this.told(line), note && placesOf(note, this.desk.go),
      missing && button(`a case is missing behind ${lineOf(missing, this.desk.go)}`, () => this.desk.go.toMissing(missing),
        { class: "place" }),
      this.input(line), note ? make("details", {}, make("summary", {}, "What this says, and what to do"),
        note.says.map((said) => sentence(said)), helpsOf(note)) : null);
  }

  told(line) {
    if (line.what === "Found") {
      return make("p", {}, line.told.startsWith("conflict") ? "Rules contradict each other:" : "No rule holds for the input below.");
    }
    return line.giving ? make("p", {}, "The input below was tried, and gives: ", make("code", {}, line.giving)) : null;
  }

  input(line) {
    if (!line.input) return null;
    const label = `Run this input, which shows ${line.name}`;
    const run = button("Run this input", () => this.desk.run(line.scope, line.input), { "aria-label": label });
    return make("div", { class: "shows" }, make("p", {}, "The input that shows it:"), shownText(line.input), run);
  }

  // ---- what is marked in the text

  /** The rules that contradict each other. */
  marks() {
    return this.lines().filter((line) => line.what === "Found" && line.told.startsWith("conflict"))
      .flatMap((line) => this.noteOf(line)?.places ?? []).filter((place) => this.desk.go.isHere(place))
      .map((place) => ({ ...place, kind: "on-clash" }));
  }

  /** Where a case is missing: behind the last definition of the variable. */
  missingOf(line) {
    if (line.what !== "Found" || !line.told.startsWith("no value")) return null;
    const at = this.desk.definedAt(line.scope, line.name);
    return at ? { ...at, text: `Behind this a case is missing: no rule gives ${line.name} for ${inputsPlainly(line.input)}.` } : null;
  }

  missing() {
    return this.lines().map((line) => this.missingOf(line)).filter((told) => told);
  }
}
