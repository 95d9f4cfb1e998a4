// The trace of a run: which rules have decided, in their order, and where they are marked in the text.

import { make } from "./make.js";
import { placed } from "./notes.js";

const LONG = 100;

/** What is said of a variable: who has decided it, and under which heading. */
function entry({ name, times, heading, places }, go) {
  const [, scope, variable] = name.match(/^([^.]*)\.(.*)$/);
  const often = times > 1 ? `, ${times} times` : "";
  const head = make("p", { class: "variable" }, make("code", {}, variable), make("span", { class: "of" }, ` of ${scope}${often}`));
  const article = heading ? make("p", { class: "article" }, heading) : null;
  const where = places.length ? make("ul", { class: "places" }, places.map((place) => placed(place, go)))
    : make("p", {}, "No rule holds.");
  return make("li", {}, head, article, where);
}

/** The rules that have decided, as a list whose numbers stand in the text, too; nothing where none has. */
export function traceOf(trace, go) {
  if (!trace.length) return null;
  const left = trace.length - LONG;
  return make("section", { class: "trace" }, make("h3", {}, "Which rules decide, in their order"),
    make("ol", {}, trace.slice(0, LONG).map((one) => entry(one, go))),
    left > 0 ? make("p", {}, `And ${left} more, which are marked in the text.`) : null);
}

/** The places of the rules that have decided, each with its number. */
export function marksOfTrace(trace, go) {
  return trace.flatMap(({ places }, k) => places.filter((place) => go.isHere(place))
    .map((place) => ({ ...place, kind: "on-decided", order: k + 1 })));
}
