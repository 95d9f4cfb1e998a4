// The page: the law, its panels, and what goes on between them.

import { askOnce } from "./ask.js";
import { Audit } from "./audit.js";
import { Cases } from "./cases.js";
import { Colours } from "./colours.js";
import { Faults } from "./faults.js";
import { Files } from "./files.js";
import { Picture } from "./picture.js";
import { Run } from "./run.js";
import { Tables } from "./tables.js";
import { Tabs } from "./tabs.js";

const find = (id) => document.getElementById(id);

class Page {
  constructor(grammar, law) {
    this.forms = null;
    this.isAccepted = false;
    find("name").textContent = law.name;
    this.tabs = new Tabs(find("tabs"), find("panels"), find("law"), (name) => this.shown(name));
    this.go = {
      isHere: (place) => Boolean(this.files.named(place.file)), isMain: (place) => place.file === law.name,
      to: (place) => this.goTo(place), toMissing: (missing) => this.goToMissing(missing),
    };
    this.faults = new Faults(this.tabs.panel("faults", "Faults"), this.go, (part, law) => this.heard(part, law));
    this.audit = new Audit(this.tabs.panel("audit", "Audit"), this.desk({ marked: (found) => this.audited(found) }));
    this.tables = law.modes.length ? new Tables(this.tabs.panel("table", "Table"), this.desk({ marked: () => this.mark() })) : null;
    this.run = new Run(this.tabs.panel("run", "Run"), this.desk({ marked: () => this.mark(), kept: () => this.cases.soon() }));
    this.picture = new Picture(this.tabs.panel("picture", "Picture"),
      this.desk({ form: () => this.run.filledIn(), marked: () => this.mark() }));
    this.cases = new Cases(this.tabs.panel("cases", "Cases"), this.desk({ counted: (red, green) => this.counted(red, green) }));
    this.files = new Files(find("law"), new Colours(grammar), law, {
      changed: () => this.changed(), shown: () => this.mark(), casesChanged: () => this.isAccepted && this.cases.soon(),
    });
    this.tabs.show(this.tabs.isNarrow() ? "law" : "faults");
    matchMedia("(max-width: 60rem)").addEventListener("change", () => this.widthChanged());
    document.addEventListener("keydown", (event) => this.pressed(event));
    this.changed();
  }

  /** The text of the file that is shown. */
  get view() {
    return this.files.shown.view;
  }

  /** What a panel may ask of the page, and what it tells it. */
  desk(more) {
    return {
      go: this.go, law: () => this.files.law(), scopes: () => this.auditedScopes(), run: (scope, input) => this.runInput(scope, input),
      definedAt: (scope, name) => this.definitions(scope, name).findLast((place) => this.go.isHere(place)),
      lastLine: (scope, name, at) => this.definitions(scope, name).find((place) =>
        place.file === at.file && place.line === at.line && place.column === at.column)?.last,
      allScopes: () => this.forms.scopes.map((scope) => scope.name), scopeOfCases: () => this.cases.told.scope,
      mayKeep: () => this.cases.told.isOffice, ...more,
    };
  }

  /** Another panel is shown. */
  shown(name) {
    if (name === "picture") this.picture.take();
    this.mark();
  }

  widthChanged() {
    if (!this.tabs.isNarrow() && this.tabs.shown === "law") this.tabs.show("faults");
  }

  // ---- when the law changes

  changed() {
    this.files.tellSaved();
    this.faults.put(this.files.law());
  }

  heard(part, law) {
    if (part.includes) this.files.take(part.includes);
    if (part.isAccepted !== undefined) {
      this.isAccepted = part.isAccepted;
      if (this.isAccepted) this.accepted();
      else this.refused();
    }
    if (part.forms && JSON.stringify(law) === JSON.stringify(this.files.law())) this.formed(part.forms);
    this.tabs.count("faults", this.faults.number() ? String(this.faults.number()) : "✓", this.isAccepted ? "good" : "bad");
    this.mark();
  }

  accepted() {
    this.cases.soon();
  }

  refused() {
    this.audit.wait("An audit reads a law that is accepted. Mend the faults first.");
    this.cases.wait("Cases are run on a law that is accepted. Mend the faults first.");
    this.tables?.wait("Tables are those of a law that is accepted. Mend the faults first.");
    this.tabs.count("audit", "");
  }

  /** The forms of the inputs are those of the law as it stands. */
  formed(forms) {
    this.forms = forms;
    this.run.take(forms);
    if (this.tabs.last === "picture" || this.picture.isDrawn) this.picture.take();
    this.picture.again();
    this.audit.soon();
    this.tables?.soon();
  }

  // ---- marks

  /** The places that are marked in the text: of what decides those of the panel that was shown last. */
  places() {
    const decides = { table: () => this.tables.marks(), picture: () => this.picture.marks() }[this.tabs.last] ?? (() => this.run.traced());
    return [...this.faults.marks(), ...this.audit.marks(), ...this.run.marks(), ...decides()];
  }

  mark() {
    if (!this.files) return;
    const marks = [...this.places(), ...this.tables?.dead() ?? []];
    const missing = this.audit.missing();
    for (const { name, view } of this.files.all) {
      view.mark(marks.filter(({ file }) => file === name));
      view.tellMissing(missing.filter(({ file }) => file === name));
    }
    this.files.count((name) => this.faults.numberIn(name));
  }

  audited({ found, open, isWhole }) {
    const kind = found ? "bad" : open ? "open" : "good";
    this.tabs.count("audit", found ? String(found) : open ? "?" : isWhole ? "✓" : "", kind);
    this.mark();
  }

  counted(red, green) {
    this.tabs.count("cases", red ? String(red) : green ? "✓" : "", red ? "bad" : "good");
    this.run.listCases(this.cases.told.cases);
  }

  // ---- going to places

  goTo(place) {
    this.showFile(place.file);
    this.view.go(place);
    find("told").textContent = `${this.go.isMain(place) ? "Line" : `${place.file}, line`} ${place.line}`;
  }

  goToMissing(missing) {
    this.showFile(missing.file);
    this.view.goToMissing(missing);
  }

  showFile(name) {
    if (this.tabs.isNarrow()) this.tabs.show("law");
    this.files.show(name);
  }

  runInput(scope, input) {
    this.tabs.show("run");
    this.run.show(scope, input);
    this.run.out.focus();
  }

  pressed(event) {
    if ((event.ctrlKey || event.metaKey) && event.key.toLowerCase() === "s") {
      event.preventDefault();
      this.files.save();
    } else if (event.key === "F8") {
      event.preventDefault();
      this.goToNext(event.shiftKey ? -1 : 1);
    }
  }

  /** Goes to the next place that is marked, or to the one in front. */
  goToNext(step) {
    const number = ({ file }) => this.files.all.findIndex(({ name }) => name === file);
    const byPlace = new Map(this.places().map((place) => [`${place.line}:${place.column} ${place.file}`, place]));
    const places = [...byPlace.values()].sort((a, b) => number(a) - number(b) || a.line - b.line || a.column - b.column);
    if (!places.length) return;
    this.at = ((this.at ?? (step > 0 ? -1 : 0)) + step + places.length) % places.length;
    this.goTo(places[this.at]);
  }

  // ---- what is known of the law's scopes

  /** The scopes in the order in which they are audited: those that no other one calls first, whose reports have the others too. */
  auditedScopes() {
    const called = new Set(this.forms.scopes.flatMap(({ calls }) => calls));
    const roots = this.forms.scopes.filter(({ name }) => !called.has(name));
    return [...roots, ...this.forms.scopes.filter(({ name }) => called.has(name))].map(({ name }) => name);
  }

  /** The places of the definitions of a variable, in their order. */
  definitions(scope, name) {
    const defined = this.forms?.scopes.find((other) => other.name === scope)?.defined ?? [];
    return defined.find((other) => other.name === name)?.places ?? [];
  }
}

const grammar = await (await fetch("grammar.json")).json();
const law = await askOnce("law", {});
if (law && !law.isGone) window.page = new Page(grammar, law);
else find("saved").textContent = "The law's file can't be read.";
