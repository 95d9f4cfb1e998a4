// A form made of the types of inputs: what is filled in is written as JSON, and the program reads it.

import { button, make } from "./make.js";
import { Written, values } from "./values.js";

const WHOLE = /^-?(?:0|[1-9][0-9]*)$/;
const HINTS = { integer: "a whole number", decimal: "as 0.25", money: "as 1250.50", date: "year, month and day" };
const DURATION = ["months", "days"].map((name) => ({ name, type: "integer" }));
let counted = 0;

/** A field with a name in front of it. `path` is what the program calls this part of an input. */
function labelled(name, path, field, hint) {
  const id = `field-${counted += 1}`;
  field.id = id;
  field.dataset.path = path;
  const label = make("label", { for: id }, name, hint ? make("span", { class: "hint" }, ` ${hint}`) : null);
  return make("div", { class: "field" }, label, field);
}

/** What is written of a value in a field. */
function textIn(value) {
  return value === undefined || value === null ? "" : value instanceof Written ? value.text : String(value);
}

function isRecord(value) {
  return value !== null && typeof value === "object" && !Array.isArray(value) && !(value instanceof Written);
}

/** A part of a form: its element, and `read`, which gives the JSON of what is filled in. */
class Forms {
  constructor(forms, told) {
    Object.assign(this, { forms, told });
  }

  part(name, type, path, value) {
    if (type === "boolean") return this.choice(name, path, [["false", "no"], ["true", "yes"]], String(value === true));
    if (type === "duration") return this.record(name, path, DURATION, value);
    if (typeof type === "string") return this.plain(name, type, path, value);
    if (type.form === "structure") return this.record(name, path, this.forms.structures[type.number].parts, value);
    return type.form === "list" ? this.list(name, type, path, value) : this.enumeration(name, type, path, value);
  }

  plain(name, type, path, value) {
    const isDate = type === "date";
    const field = make("input", {
      type: isDate ? "date" : "text", inputmode: type === "integer" ? "numeric" : isDate ? null : "decimal", autocomplete: "off",
      min: isDate ? "0001-01-01" : null, max: isDate ? "9999-12-31" : null, oninput: this.told,
    });
    field.value = textIn(value);
    field.dataset.type = type;
    const read = () => (type !== "date" && WHOLE.test(field.value.trim()) ? field.value.trim() : JSON.stringify(field.value.trim()));
    return { element: labelled(name, path, field, HINTS[type]), read };
  }

  choice(name, path, options, chosen) {
    const field = make("select", { onchange: this.told },
      options.map(([value, text]) => make("option", { value, selected: value === chosen }, text)));
    return { element: labelled(name, path, field), read: () => field.value, field };
  }

  record(name, path, parts, value) {
    const given = (key) => (isRecord(value) ? value[key] : undefined);
    const made = parts.map((part) => [part.name, this.part(part.name, part.type, `${path}.${part.name}`, given(part.name))]);
    const element = make("fieldset", { "data-path": path }, make("legend", {}, name), made.map(([, part]) => part.element));
    return { element, read: () => `{${made.map(([key, part]) => `${JSON.stringify(key)}:${part.read()}`).join(",")}}` };
  }

  /** A case of an enumeration, and below it the content that the chosen one has. */
  enumeration(name, type, path, value) {
    const { parts } = this.forms.enumerations[type.number];
    const chosen = isRecord(value) ? Object.keys(value)[0] : value ?? parts[0].name;
    const { element, field } = this.choice(name, path, parts.map((part) => [part.name, part.name]), chosen);
    const below = make("div", { class: "content" });
    let content = null;
    const choose = (given) => {
      const part = parts.find((other) => other.name === field.value);
      content = part?.type ? this.part(part.name, part.type, `${path}.${part.name}`, given) : null;
      below.replaceChildren(...(content ? [content.element] : []));
    };
    field.addEventListener("change", () => choose(undefined));
    choose(isRecord(value) ? value[chosen] : undefined);
    const read = () => (content ? `{${JSON.stringify(field.value)}:${content.read()}}` : JSON.stringify(field.value));
    return { element: make("div", {}, element, below), read };
  }

  list(name, type, path, value) {
    let parts = [];
    const items = make("div", {});
    const add = button(`Add to ${name}`, () => change([...now(), undefined]));
    const now = () => parts.map((part) => values(part.read()));
    const fill = (given) => {
      parts = given.map((part, k) => this.part(`${name} ${k + 1}`, type.of, `${path}[${k}]`, part));
      items.replaceChildren(...parts.map((part, k) => make("div", { class: "item" }, part.element,
        button("Take out", () => change(now().filter((other, n) => n !== k)), { "aria-label": `Take out ${name} ${k + 1}` }))));
    };
    const change = (given) => {
      fill(given);
      this.told();
      (items.lastElementChild?.querySelector("input, select") ?? add).focus();
    };
    fill(Array.isArray(value) ? value : []);
    const element = make("fieldset", { class: "list", "data-path": path }, make("legend", {}, name), items, add);
    return { element, read: () => `[${parts.map((part) => part.read()).join(",")}]` };
  }
}

/** The form of a scope's inputs; `value` is what it is filled with, and `told` is called when it changes. */
export function formOf(forms, scope, value, told) {
  const made = new Forms(forms, told);
  const parts = scope.inputs.map(({ name, type, isAsked }) => (isAsked ? { name, ...made.part(name, type, name, value?.[name]) }
    : { name, ...optional(made, name, type, value?.[name], told) }));
  const read = () => {
    const given = parts.map((part) => [part.name, part.read()]).filter(([, text]) => text !== null);
    return `{${given.map(([name, text]) => `${JSON.stringify(name)}:${text}`).join(",")}}`;
  };
  return { element: make("div", { class: "form" }, parts.map((part) => part.element)), read };
}

/** A context, which is given or else computed by the law. */
function optional(made, name, type, value, told) {
  const part = made.part(name, type, name, value);
  const box = make("input", { type: "checkbox", checked: value !== undefined, onchange: () => { show(); told(); } });
  const below = make("div", {}, part.element);
  const show = () => { below.hidden = !box.checked; };
  show();
  const element = make("div", { class: "optional" }, make("label", {}, box, ` give ${name} in place of the law`), below);
  return { element, read: () => (box.checked ? part.read() : null) };
}
