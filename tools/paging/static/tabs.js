// The panels beside the law, one at a time. Where the page is narrow the law is one of them.

import { make } from "./make.js";

export class Tabs {
  /** `told` is called with the name of what is shown. */
  constructor(list, panels, law, told) {
    Object.assign(this, { list, panels, law, told });
    this.byName = new Map();
    list.addEventListener("keydown", (event) => this.pressed(event));
    this.add("law", "Law", law);
  }

  /** A panel with its tab; gives the element of what is in it. */
  panel(name, title) {
    const inside = make("section", { id: `panel-${name}`, role: "tabpanel", "aria-labelledby": `tab-${name}`, tabindex: "-1" });
    this.panels.append(inside);
    this.add(name, title, inside);
    return inside;
  }

  add(name, title, inside) {
    const count = make("span", { class: "count" });
    const tab = make("button", {
      type: "button", role: "tab", id: `tab-${name}`, "aria-controls": inside.id, "aria-selected": "false", tabindex: "-1",
      onclick: () => this.show(name),
    }, make("span", {}, title), count);
    this.list.append(tab);
    this.byName.set(name, { tab, inside, count });
  }

  /** Says a number at a tab, and of what it is. */
  count(name, text, kind = "") {
    const { count } = this.byName.get(name);
    count.textContent = text;
    count.dataset.kind = kind;
  }

  show(name) {
    this.shown = name;
    if (name !== "law") this.last = name;
    for (const [other, { tab, inside }] of this.byName) {
      const isShown = other === name;
      tab.setAttribute("aria-selected", String(isShown));
      tab.tabIndex = isShown ? 0 : -1;
      inside.classList.toggle("is-shown", isShown);
    }
    document.body.dataset.shown = name === "law" ? "law" : "panel";
    this.told(name);
  }

  /** Whether the law is a panel like the others. */
  isNarrow() {
    return getComputedStyle(this.byName.get("law").tab).display !== "none";
  }

  pressed(event) {
    const names = [...this.byName.keys()].filter((name) => name !== "law" || this.isNarrow());
    const at = names.indexOf(this.shown);
    const to = { ArrowRight: at + 1, ArrowLeft: at - 1 + names.length, Home: 0, End: names.length - 1 }[event.key];
    if (to === undefined) return;
    event.preventDefault();
    const name = names[to % names.length];
    this.show(name);
    this.byName.get(name).tab.focus();
  }
}
