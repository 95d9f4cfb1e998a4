// A picture of an output along an input: where it jumps, which rule decides from there on, and where it has no value.

import { Latest, ask, askOnce } from "./ask.js";
import { drawn, numberText } from "./drawing.js";
import { make } from "./make.js";
import { placed } from "./notes.js";

const KINDS = ["integer", "decimal", "money", "date"];
const STEPS = 200;
const NARROWEST = 280;
const WIDEST = 900;

/** The parts of an output that can be drawn, by their paths. */
function partsOf(name, type, structures) {
  if (typeof type === "string") return type === "duration" ? [] : [name];
  if (type.form !== "structure") return [];
  return structures[type.number].parts.flatMap((part) => partsOf(`${name}.${part.name}`, part.type, structures));
}

/** From where to where, and in which steps, an input is moved where nobody has said it. */
function reachOf({ type, value }) {
  if (type === "date") {
    const year = Number(/^\d{4}/.exec(value)?.[0] ?? new Date().getFullYear());
    const [from, to] = [Math.max(1, year - 1), Math.min(9998, year + 1) + 1].map((number) => String(number).padStart(4, "0"));
    return { from: `${from}-01-01`, to: `${to}-01-01`, step: "7 days" };
  }
  const now = Math.abs(Number(value)) || 0;
  const least = { integer: 20, decimal: 2, money: 20000 }[type];
  const power = 10 ** Math.floor(Math.log10(Math.max(now, least) * 2));
  const to = Math.ceil((Math.max(now, least) * 2) / power) * power;
  return { from: "0", to: String(to), step: String(type === "integer" ? Math.max(1, Math.round(to / STEPS)) : to / STEPS) };
}

export class Picture {
  /** `desk` has the law's text and the form of Run, and goes to places. */
  constructor(root, desk) {
    Object.assign(this, { root, desk, told: new Map(), picture: null, isDrawn: false });
    this.job = `picture ${crypto.randomUUID()}`;
    this.fields = {
      of: make("select", {}), over: make("select", { onchange: () => this.reach() }),
      ...Object.fromEntries(["from", "to", "step"].map((name) => [name,
        make("input", { type: "text", autocomplete: "off", oninput: () => this.keep() })])),
    };
    const names = { of: "Output", over: "Along", from: "From", to: "To", step: "Step" };
    const made = Object.entries(this.fields).map(([name, field]) => {
      field.id = `picture-${name}`;
      return make("div", { class: "field" }, make("label", { for: field.id }, names[name]), field);
    });
    this.asked = make("form", { class: "chooses", novalidate: true, onsubmit: (event) => { event.preventDefault(); this.draw(); } }, made,
      make("button", { type: "submit", class: "first" }, "Draw"));
    this.given = make("p", { class: "hint" });
    this.status = make("p", { class: "summary", role: "status" });
    this.out = make("div", { class: "drawn" });
    root.append(make("h2", {}, "Picture"), this.given, this.asked, this.status, this.out);
    this.latest = new Latest((question) => this.askFor(question));
    new ResizeObserver(() => this.show()).observe(root);
  }

  // ---- what may be drawn

  /** Takes the outputs of the scope that Run has chosen, and the inputs that its form has now. */
  take() {
    const { scope, forms, inputs } = this.desk.form();
    this.inputs = inputs.filter(({ type }) => KINDS.includes(type));
    const outputs = scope ? scope.outputs.flatMap(({ name, type }) => partsOf(name, type, forms.structures)) : [];
    this.fill(this.fields.of, outputs);
    this.fill(this.fields.over, this.inputs.map(({ path }) => path));
    this.isPossible = outputs.length > 0 && this.inputs.length > 0;
    this.asked.hidden = !this.isPossible;
    this.given.textContent = this.isPossible ? `All other inputs of ${scope.name} are those that stand in the form of Run.`
      : "A picture wants an output and an input that is a number, an amount or a day. Lists have their elements in the form of Run.";
    this.reach();
  }

  fill(field, values) {
    const chosen = field.value;
    field.replaceChildren(...values.map((value) => make("option", { value, selected: value === chosen }, value.replaceAll("_", " "))));
  }

  /** The words of the axis, as they were said of this input or else as they may be. */
  reach() {
    const input = this.inputs.find(({ path }) => path === this.fields.over.value);
    const words = this.told.get(input?.path) ?? (input ? reachOf(input) : { from: "", to: "", step: "" });
    for (const [name, word] of Object.entries(words)) this.fields[name].value = word;
  }

  keep() {
    const words = ["from", "to", "step"].map((name) => [name, this.fields[name].value]);
    this.told.set(this.fields.over.value, Object.fromEntries(words));
  }

  // ---- the program's answers

  /** Draws what is asked for; it is drawn again when the law changes. */
  draw() {
    this.isDrawn = true;
    this.again();
  }

  /** Draws anew what is shown, of the law as it stands. */
  again() {
    if (!this.isDrawn || !this.isPossible) return;
    const words = Object.fromEntries(Object.entries(this.fields).map(([name, { value }]) => [name, value]));
    const { scope, input } = this.desk.form();
    askOnce("stop", { job: this.job });
    this.latest.put({ ...this.desk.law(), scope: scope.name, input, ...words, job: this.job });
  }

  async askFor(question) {
    this.status.dataset.kind = "";
    this.status.textContent = "It is drawn ..";
    const isThere = await ask("picture", question, (part) => {
      this.picture = part.trouble ? null : { ...part, question };
      this.status.textContent = part.trouble ?? (part.isWhole ? this.summary() : "Who decides is asked ..");
      this.status.dataset.kind = part.trouble ? "bad" : "";
      this.show();
      this.desk.marked();
    });
    if (!isThere) this.status.textContent = "The page's server doesn't answer.";
  }

  // ---- what is shown

  summary() {
    const { changes, question } = this.picture;
    const name = (path) => path.replaceAll("_", " ");
    const told = changes.length ? `${changes.length} change${changes.length > 1 ? "s" : ""}` : "no jump, and one rule all along";
    return `${name(question.of)} along ${name(question.over)}: ${told}`;
  }

  show() {
    if (!this.picture) return this.out.replaceChildren();
    if (!this.root.clientWidth) return;
    const width = Math.min(WIDEST, Math.max(NARROWEST, this.root.clientWidth));
    if (this.shown === this.picture && this.width === width) return;
    Object.assign(this, { shown: this.picture, width });
    const { changes, stretches } = this.picture;
    this.out.replaceChildren(drawn(this.picture, width, this.summary()),
      ...(stretches.length ? [make("ul", { class: "stretches" }, stretches.map((stretch) => this.stretch(stretch)))] : []),
      ...(changes.length ? [make("ol", { class: "changes" }, changes.map((change) => this.change(change)))] : []));
  }

  /** The rules that decide from somewhere on, each with the number that it has in the picture. */
  marks() {
    return (this.picture?.changes ?? []).flatMap(({ places }, k) => places.filter((place) => this.desk.go.isHere(place))
      .map((place) => ({ ...place, kind: "on-decided", order: k + 1 })));
  }

  stretch({ kind, fromText, toText, told }) {
    const where = fromText === toText ? `at ${this.value(fromText)}` : `from ${this.value(fromText)} to ${this.value(toText)}`;
    return make("li", {}, make("span", { class: `sign is-${kind.replaceAll(" ", "-")}`, "aria-hidden": "true" }),
      make("strong", {}, kind), ` ${where}: `, make("code", {}, told));
  }

  /** A text of the program with commas at the thousands, where it is a number. */
  value(text) {
    return /^-?\d+(\.\d+)?$/.test(text) ? text.replace(/^-?\d+/, (whole) => numberText(BigInt(whole))) : text;
  }

  change({ at, jump, before, behind, kind, name, heading, places }) {
    const jumps = jump ? `, where it ${jump[1] > jump[0] ? "rises" : "falls"} from ${this.value(before)} to ${this.value(behind)}` : "";
    const begins = kind !== "outputs" ? `: ${kind}` : before === "" ? `: ${this.value(behind)}` : "";
    const variable = name?.split(".").slice(1).join(".");
    const decides = name ? [make("p", { class: "article" }, heading ? `${heading}: ` : "", make("code", {}, variable)),
      make("ul", { class: "places" }, places.map((place) => placed(place, this.desk.go)))] : null;
    return make("li", {}, make("p", { class: "variable" }, `From ${this.value(at)} on${jumps}${begins}`), decides);
  }
}
