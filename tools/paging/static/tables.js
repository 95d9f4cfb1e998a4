// The decision table of a variable, each row tied to the rule in the text that decides there, and the rules that never decide.

import { Latest, ask, askOnce } from "./ask.js";
import { button, make } from "./make.js";
import { lineOf, placed } from "./notes.js";

const PAUSE = 400;
const BEHIND = 1_000_000; // A column behind the end of each line.

export class Tables {
  /** `desk` has the law's text and forms, goes to places, and is told when there is something new to mark. */
  constructor(root, desk) {
    Object.assign(this, { root, desk, tables: [], rules: [], troubles: [], chosen: "" });
    this.job = `tables ${crypto.randomUUID()}`;
    this.status = make("p", { class: "summary", role: "status" });
    this.choice = make("select", { id: "table-variable", onchange: () => this.choose(this.choice.value) });
    this.chooses = make("div", { class: "chooses", hidden: true },
      make("div", { class: "field" }, make("label", { for: this.choice.id }, "Variable"), this.choice));
    this.inside = make("div", {});
    this.below = make("div", {});
    root.append(make("h2", {}, "Table"), this.status, this.chooses, this.inside, this.below);
    this.latest = new Latest((question) => this.askFor(question));
  }

  /** Nothing is known of the law as it stands, for this reason. */
  wait(why) {
    this.stop();
    this.clear();
    this.status.textContent = why;
    this.status.dataset.kind = "";
    this.draw();
  }

  clear() {
    Object.assign(this, { tables: [], rules: [], troubles: [] });
  }

  stop() {
    clearTimeout(this.timer);
    if (this.latest.isBusy) askOnce("stop", { job: this.job });
    this.turn = (this.turn ?? 0) + 1;
  }

  /** Asks for the tables after a pause, in which nothing is typed. */
  soon() {
    this.stop();
    this.timer = setTimeout(() => this.latest.put({ ...this.desk.law(), scopes: this.desk.allScopes(), job: this.job }), PAUSE);
  }

  async askFor(question) {
    const { turn } = this;
    let isFirst = true;
    const isWhole = await ask("tables", question, (part) => {
      if (turn !== this.turn) return;
      if (isFirst) this.clear();
      isFirst = false;
      this.take(part);
    });
    if (turn !== this.turn) return;
    if (!isWhole) this.troubles.push("The page's server doesn't answer.");
    this.tell();
    this.draw();
  }

  take({ scope, table, dead, trouble }) {
    if (table) this.tables.push(...table);
    if (dead) this.rules.push(...dead.map((rule) => ({ ...rule, scope })));
    if (trouble) this.troubles.push(`${scope}: ${trouble}`);
    this.draw();
  }

  // ---- what is shown

  never() {
    return this.rules.filter(({ what }) => what === "never decides");
  }

  tell() {
    const never = this.never().length;
    const rules = never ? `${never} rule${never > 1 ? "s" : ""} never decide${never > 1 ? "" : "s"}` : "";
    const open = this.rules.filter(({ what }) => what !== "never decides" && what !== "decides").length;
    const known = this.rules.length && !never ? (open ? "" : "Each rule decides for some input.") : rules;
    this.status.textContent = [known, open ? `${open} not known` : "", ...this.troubles].filter((word) => word).join(" · ");
    this.status.dataset.kind = never ? "bad" : open || this.troubles.length ? "open" : "good";
  }

  draw() {
    const names = this.tables.map(({ name }) => name);
    if (!names.includes(this.chosen)) this.chosen = (this.tables.find(({ rows }) => rows.length > 1) ?? this.tables[0])?.name ?? "";
    this.choice.replaceChildren(...names.map((name) => make("option", { value: name, selected: name === this.chosen }, name)));
    this.chooses.hidden = !names.length;
    this.choose(this.chosen);
    const open = this.rules.filter(({ what }) => what !== "never decides" && what !== "decides");
    this.below.replaceChildren(...[this.listed("Rules that never decide", this.never()), this.listed("Of these it isn't known", open)]
      .filter((part) => part));
  }

  choose(name) {
    this.chosen = name;
    const table = this.tables.find((other) => other.name === name);
    this.inside.replaceChildren(...(table ? [this.table(table)] : []));
    this.desk.marked();
  }

  table({ name, rows, rest }) {
    const head = ["", "Where", "Decides"].map((title) => make("th", { scope: "col" }, title));
    return make("div", {}, make("table", { class: "decisions" }, make("caption", { class: "unseen" }, `The decision table of ${name}`),
      make("thead", {}, make("tr", {}, head)), make("tbody", {}, rows.map((row, k) => this.row(row, k + 1)))),
    rest === null ? null : make("p", {}, `Further rows are not shown: it has more than ${rest}.`));
  }

  row({ asks, result, places }, number) {
    const conditions = asks.length ? make("ul", {}, asks.map((one) => make("li", {}, this.asked(one)))) : "always";
    const decides = places.length ? make("ul", { class: "places" }, places.map((place) => placed(place, this.desk.go)))
      : make("span", { class: "badge", "data-kind": result === "conflict" || result === "no value" ? "bad" : "good" }, result);
    return make("tr", {}, make("th", { scope: "row" }, String(number)), make("td", {}, conditions), make("td", {}, decides));
  }

  /** A condition; what the scope computes is told by the place where it is asked first. */
  asked({ front, places: [place], behind }) {
    if (!place) return make("code", {}, front + behind);
    const where = `what is asked in ${lineOf(place, this.desk.go)}`;
    const named = this.desk.go.isHere(place) ? button(where, () => this.desk.go.to(place), { class: "place" }) : where;
    return make("span", {}, make("code", {}, front), named, make("code", {}, behind));
  }

  listed(title, rules) {
    if (!rules.length) return null;
    const said = ({ what, told }) => (what === "never decides" ? null : make("p", {}, make("code", {}, `${what} ${told}`)));
    return make("section", { class: "scope" }, make("h3", {}, title), make("ul", { class: "verdicts" }, rules.map((rule) =>
      make("li", {}, make("p", { class: "variable" }, make("code", {}, rule.name), ` of ${rule.scope}`), said(rule),
        make("ul", { class: "places" }, rule.places.map((place) => placed(place, this.desk.go)))))));
  }

  // ---- what is marked in the text

  /** The rules of the chosen table, each with the numbers of its rows. */
  marks() {
    const rows = this.tables.find(({ name }) => name === this.chosen)?.rows ?? [];
    return rows.flatMap(({ places }, k) => places.filter((place) => this.desk.go.isHere(place))
      .map((place) => ({ ...place, kind: "on-decided", order: k + 1 })));
  }

  /** All lines of the rules that never decide. */
  dead() {
    return this.never().flatMap(({ scope, name, places: [place] }) => {
      const last = this.desk.lastLine(scope, name, place) ?? place.line;
      const count = last - place.line + 1;
      return Array.from({ length: count }, (_, k) => ({ ...place, line: place.line + k, column: 1, end: BEHIND, kind: "on-dead" }));
    });
  }
}
