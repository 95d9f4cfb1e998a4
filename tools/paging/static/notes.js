// What explains a reply, as it is shown: sentences, places with the line that is meant, and what mends it.

import { button, make, sentence } from "./make.js";

const LONG = 60;

/** The end of a line in front of what is meant, or its beginning behind it. */
function shortened(text, isFront) {
  if (text.length <= LONG) return isFront ? text.trimStart() : text;
  return isFront ? `..${text.slice(-LONG)}` : `${text.slice(0, LONG)}..`;
}

/** The number of a line, with the name of its file where that isn't the law's own. */
export function lineOf(place, go) {
  return `${go.isMain(place) ? "" : `${place.file}, `}line ${place.line}`;
}

/** A place: a button that goes there, and the line with what is meant marked. */
export function placed(place, go) {
  const name = lineOf(place, go);
  const title = place.label ? `${name}: ${place.label.replaceAll("`", "")}` : name;
  const head = go.isHere(place) ? button(title, () => go.to(place), { class: "place" }) : make("span", { class: "place" }, title);
  const mark = make("mark", {}, place.piece);
  const line = make("code", { class: "excerpt" }, shortened(place.front, true), mark, shortened(place.behind, false));
  return make("li", {}, head, place.piece || place.front ? line : null);
}

/** The title of a note: its code and its name. */
export function titleOf(note) {
  const front = { further: "Further: ", warning: "Warning: " }[note.kind] ?? "";
  return front + [note.code, note.name].filter((word) => word).join(" ");
}

export function placesOf(note, go) {
  return note.places.length ? make("ul", { class: "places" }, note.places.map((place) => placed(place, go))) : null;
}

export function helpsOf(note) {
  if (!note.helps.length) return null;
  return make("div", { class: "helps" }, make("strong", {}, "To mend it"), note.helps.map((help) => sentence(help)));
}

/** A note as a whole. */
export function noted(note, go) {
  return make("article", { class: `note is-${note.kind}` }, make("h3", {}, titleOf(note)), note.says.map((said) => sentence(said)),
    placesOf(note, go), helpsOf(note));
}
