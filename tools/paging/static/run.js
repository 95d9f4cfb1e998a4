// A run of a scope on an input that is filled in, what comes of it, and how it is kept as a case.

import { ask, askOnce } from "./ask.js";
import { formOf } from "./form.js";
import { button, make, sentence } from "./make.js";
import { noted } from "./notes.js";
import { marksOfTrace, traceOf } from "./trace.js";
import { named, parsed, values } from "./values.js";

export class Run {
  /** `desk` has the law's text, forms and cases, goes to places, and is told when there is something new to mark. */
  constructor(root, desk) {
    Object.assign(this, { root, desk, scope: "", shape: "", result: null });
    this.job = `run ${crypto.randomUUID()}`;
    this.choice = make("select", { id: "run-scope", onchange: () => this.choose(this.choice.value) });
    this.filled = make("select", { id: "run-filled", onchange: () => this.fillFromCase(this.filled.value) });
    this.inside = make("form", { novalidate: true, onsubmit: (event) => { event.preventDefault(); this.run(); } });
    this.out = make("div", { class: "result", tabindex: "-1" });
    this.status = make("p", { class: "summary", role: "status" });
    const chooses = [["Scope", this.choice], ["Fill with", this.filled]].map(([name, field]) =>
      make("div", { class: "field" }, make("label", { for: field.id }, name), field));
    this.chooses = make("div", { class: "chooses" }, chooses);
    root.append(make("h2", {}, "Run"), this.chooses, this.inside, this.status, this.out);
  }

  /** Takes the forms of a law that is accepted; what is filled in stays where the form is the same. */
  take(forms) {
    this.forms = forms;
    this.choice.replaceChildren(...forms.scopes.map(({ name }) => make("option", { value: name }, name)));
    const known = forms.scopes.some(({ name }) => name === this.scope);
    const first = forms.scopes.find(({ name }) => name === this.desk.scopeOfCases()) ?? forms.scopes.at(-1);
    this.choose(known ? this.scope : first?.name ?? "", this.form && known ? this.form.read() : "{}");
    if (this.result) this.run();
  }

  choose(scope, input = "{}") {
    const form = this.forms.scopes.find(({ name }) => name === scope);
    const shape = JSON.stringify([form, this.forms.structures, this.forms.enumerations].map((part) => ({ ...part, defined: 0 })));
    this.choice.value = scope;
    if (shape === this.shape) return;
    if (scope !== this.scope) this.clear();
    Object.assign(this, { scope, shape });
    this.fill(input);
  }

  clear() {
    this.result = null;
    this.status.textContent = "";
    this.out.replaceChildren();
    this.desk.marked();
  }

  fill(input) {
    const scope = this.forms?.scopes.find(({ name }) => name === this.scope);
    this.form = scope ? formOf(this.forms, scope, values(input), () => this.changed()) : null;
    const go = make("button", { type: "submit", class: "first" }, `Run ${this.scope}`);
    this.inside.replaceChildren(...(this.form ? [this.form.element, go] : [make("p", {}, "The law has no scope yet.")]));
  }

  /** The result is of another input than stands in the form now. */
  changed() {
    if (this.result) this.clear();
  }

  /** Lists the cases of which the form may be filled. */
  listCases(cases) {
    const names = cases.map(({ name }) => make("option", { value: name }, name.replaceAll("_", " ")));
    this.filled.replaceChildren(make("option", { value: "" }, cases.length ? "a case .." : "no case yet"), ...names);
    this.filled.disabled = !cases.length;
    this.cases = cases;
  }

  fillFromCase(name) {
    const found = this.cases.find((other) => other.name === name);
    this.filled.value = "";
    if (found) this.show(this.desk.scopeOfCases(), found.input);
  }

  /** Fills the form with an input, and runs it. */
  show(scope, input) {
    if (this.forms?.scopes.some(({ name }) => name === scope)) this.choose(scope, input);
    this.fill(input);
    this.run();
  }

  /** What stands in the form: the scope, and each plain part of its inputs that is given. */
  filledIn() {
    const fields = [...this.inside.querySelectorAll("input[data-type]")].filter((field) => !field.closest("[hidden]"));
    return {
      forms: this.forms, scope: this.forms?.scopes.find(({ name }) => name === this.scope), input: this.form?.read() ?? "{}",
      inputs: fields.map(({ dataset: { path, type }, value }) => ({ path, type, value })),
    };
  }

  async run() {
    const input = this.form.read();
    const { scope } = this;
    const turn = this.turn = (this.turn ?? 0) + 1;
    await ask("run", { ...this.desk.law(), scope, input, job: this.job }, (part) => {
      if (turn !== this.turn) return;
      if (part.status !== undefined) this.result = { ...part, notes: [], scope, input };
      if (part.notes) this.result.notes = part.notes;
      this.draw();
    });
  }

  // ---- what is shown

  draw() {
    const { status, reply, trouble, notes, trace } = this.result;
    this.status.textContent = trouble || (status === 0 ? "The outputs:" : reply);
    this.status.dataset.kind = status === 0 ? "good" : "bad";
    const outputs = status === 0 ? named(parsed(reply)) : null;
    const told = [outputs, ...notes.map((note) => noted(note, this.desk.go)), this.keeping(), traceOf(trace, this.desk.go)];
    this.out.replaceChildren(...told.filter((part) => part));
    this.tellFields(notes);
    this.desk.marked();
  }

  /** Says at the fields what is wrong with what stands in them. */
  tellFields(notes) {
    for (const told of this.inside.querySelectorAll(".wrong")) told.remove();
    for (const field of this.inside.querySelectorAll("[aria-invalid]")) {
      for (const name of ["aria-invalid", "aria-describedby"]) field.removeAttribute(name);
    }
    const path = this.result.reply.match(/^input refused I\d (.*)$/s)?.[1];
    const field = path && [...this.inside.querySelectorAll("[data-path]")].find((other) => other.dataset.path === path);
    if (!field) return;
    const label = notes[0]?.places[0]?.label ?? "";
    field.setAttribute("aria-invalid", "true");
    field.setAttribute("aria-describedby", "wrong");
    field.after(sentence(label ? `This is not taken: ${label}.` : "This is not taken.", "p", { class: "wrong", id: "wrong" }));
  }

  /** The places that a conflict or a gap of the run has in the text. */
  marks() {
    if (!this.result || this.result.status > 3) return [];
    const kind = this.result.status === 1 ? "on-clash" : "on-stop";
    const places = this.result.notes.flatMap((note) => note.places);
    return places.filter((place) => this.desk.go.isHere(place)).map((place) => ({ ...place, kind }));
  }

  /** The rules that have decided, each with its number. */
  traced() {
    return this.result ? marksOfTrace(this.result.trace, this.desk.go) : [];
  }

  // ---- a case

  keeping() {
    if (this.result.trouble || this.result.status > 5 || !this.desk.mayKeep()) return null;
    const name = make("input", { type: "text", id: "case-name", autocomplete: "off" });
    const reply = make("textarea", { id: "case-reply", rows: "3", spellcheck: "false" });
    reply.value = this.result.status ? this.result.reply.split(" at ")[0] : this.result.reply;
    const why = make("p", { role: "status" });
    const keep = async (event) => {
      event.preventDefault();
      const { scope, input } = this.result;
      const answer = await askOnce("keep", { name: name.value.trim().replaceAll(" ", "_"), scope, input, reply: reply.value });
      why.textContent = answer ? answer.why || "The case is kept." : "It was not kept: the page's server doesn't answer.";
      if (answer && !answer.why) this.desk.kept();
    };
    return make("details", { class: "keeping" }, make("summary", {}, "Keep this as a case"),
      make("form", { onsubmit: keep, novalidate: true },
        make("div", { class: "field" }, make("label", { for: "case-name" }, "What the case shows"), name),
        make("div", { class: "field" }, make("label", { for: "case-reply" }, "The reply that the law's text wants"), reply),
        make("p", { class: "hint" }, "The program's own reply. Hold it against the law's text, and mend it where that says otherwise."),
        make("button", { type: "submit" }, "Keep the case"), why));
  }
}
