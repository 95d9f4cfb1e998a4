// Values as JSON has them, where each number is the text that was written: no digit is lost.

import { make } from "./make.js";

/** A number, as it is written. */
export class Written {
  constructor(text) {
    this.text = text;
  }
}

/** The value of a JSON text. */
export function parsed(text) {
  return JSON.parse(text, (key, value, context) => (typeof value === "number" ? new Written(context?.source ?? String(value)) : value));
}

/** The same; nothing where the text is no JSON. */
export function values(text) {
  try {
    return parsed(text);
  } catch {
    return undefined;
  }
}

/** A value as a person reads it: lists and what has names in tables. */
export function shown(value) {
  if (value instanceof Written) return value.text;
  if (value === true || value === false) return value ? "true" : "false";
  if (value === null || typeof value !== "object") return String(value);
  if (Array.isArray(value)) {
    return value.length ? make("ol", { class: "values" }, value.map((part) => make("li", {}, shown(part)))) : "empty list";
  }
  return named(value);
}

/** A value in a sentence. */
export function plainly(value) {
  if (value instanceof Written) return value.text;
  if (Array.isArray(value)) return value.length ? `[${value.map(plainly).join(", ")}]` : "an empty list";
  return value !== null && typeof value === "object" ? namedPlainly(value, ": ") : String(value);
}

function namedPlainly(value, between) {
  return Object.entries(value).map(([name, part]) => `${name}${between}${plainly(part)}`).join(", ");
}

/** The inputs of a JSON text in a sentence. */
export function inputsPlainly(text) {
  return namedPlainly(values(text) ?? {}, " = ");
}

/** What has names, as a table. */
export function named(value) {
  const rows = Object.entries(value).map(([name, part]) => make("tr", {}, make("th", { scope: "row" }, name), make("td", {}, shown(part))));
  return rows.length ? make("table", { class: "values" }, rows) : "nothing";
}

/** A JSON text as a table; the text itself where it is none. */
export function shownText(text) {
  const value = values(text);
  return value === undefined ? text : shown(value);
}
