// The cases beside the law, green or red, on the law as it stands on the page.

import { Latest, ask } from "./ask.js";
import { button, make } from "./make.js";
import { shownText } from "./values.js";

const WORDS = { agrees: ["agrees", "good", "✓"], differs: ["differs", "bad", "✗"], unknown: ["no reply beside it", "open", "?"] };
const PAUSE = 150;

export class Cases {
  constructor(root, desk) {
    Object.assign(this, { root, desk, told: { isOffice: true, scope: "", hasReplies: false, cases: [] } });
    this.summary = make("p", { class: "summary", role: "status" });
    this.list = make("ul", { class: "cases" });
    this.below = make("div", {});
    root.append(make("h2", {}, "Cases"), this.summary, this.list, this.below);
    this.latest = new Latest((name) => ask(name, this.desk.law(), (part) => this.take(part)));
  }

  /** Runs the cases after a pause, in which nothing is typed. */
  soon() {
    clearTimeout(this.timer);
    this.isWaiting = false;
    this.timer = setTimeout(() => this.latest.put("cases"), PAUSE);
  }

  /** Nothing is known of the law as it stands, for this reason. */
  wait(why) {
    clearTimeout(this.timer);
    this.isWaiting = true;
    this.list.replaceChildren();
    this.below.replaceChildren();
    this.summary.textContent = why;
    this.summary.dataset.kind = "";
    this.desk.counted(0, 0);
  }

  take(told) {
    if (this.isWaiting) return;
    this.told = told;
    const opened = new Set([...this.list.querySelectorAll("details[open]")].map((details) => details.dataset.name));
    this.list.replaceChildren(...told.cases.map((one) => this.drawn(one, opened.has(one.name))));
    const number = (kind) => told.cases.filter((one) => one.is === kind).length;
    const counts = [["agrees", "agree"], ["differs", "differ"], ["unknown", "without a reply"]];
    const said = counts.map(([kind, word]) => (number(kind) ? `${number(kind)} ${word}` : "")).filter((word) => word).join(" · ");
    this.summary.textContent = said || this.why();
    this.summary.dataset.kind = number("differs") ? "bad" : said && !number("unknown") ? "good" : "open";
    this.below.replaceChildren(...(number("unknown") && told.hasReplies ? [this.computes()] : []));
    this.desk.counted(number("differs"), number("agrees"));
  }

  why() {
    if (!this.told.isOffice) return "Cases stand beside a law whose file is called law.md.";
    return "There is no case yet. Fill in the form of Run, run it, and keep what comes of it.";
  }

  /** Replies that a program in the folder computes: it is run only when one says so. */
  computes() {
    return make("p", {}, "A program beside the law, ", make("code", {}, "replies.py"), ", computes the replies from the law's text. ",
      button("Run replies.py", () => this.latest.put("compute")));
  }

  drawn(one, isOpen) {
    const [word, kind, sign] = WORDS[one.is];
    const badge = make("span", { class: "badge", "data-kind": kind }, make("span", { "aria-hidden": "true" }, `${sign} `), word);
    const texts = [["Input", one.input], ["Wanted", one.wanted], ["The program's reply", one.reply]].filter(([, text]) => text !== null);
    const label = `Put it into the form and run it: ${one.name.replaceAll("_", " ")}`;
    return make("li", {}, make("details", { open: isOpen, "data-name": one.name },
      make("summary", {}, badge, " ", one.name.replaceAll("_", " ")),
      texts.map(([title, text]) => make("div", {}, make("h3", {}, title), shownText(text))),
      button("Put it into the form", () => this.desk.run(this.told.scope, one.input), { "aria-label": label })));
  }
}
