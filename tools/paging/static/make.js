// Makes elements of the page. What comes from a law is text, and never markup.

/** An element with its properties and what is in it: texts and elements. */
export function make(tag, properties = {}, ...inside) {
  const made = document.createElement(tag);
  for (const [name, value] of Object.entries(properties)) {
    if (value === undefined || value === null || value === false) continue;
    if (name.startsWith("on")) made.addEventListener(name.slice(2), value);
    else if (name === "class") made.className = value;
    else made.setAttribute(name, value === true ? "" : value);
  }
  made.append(...inside.flat().filter((part) => part !== null && part !== undefined && part !== ""));
  return made;
}

/** A sentence of the pages: what stands in backticks is code, and what stands between stars is stressed. */
export function sentence(text, tag = "p", properties = {}) {
  const parts = text.split(/(`[^`]+`|\*[^*]+\*)/).filter((part) => part);
  return make(tag, properties, parts.map((part) => {
    if (part.length > 2 && part.startsWith("`")) return make("code", {}, part.slice(1, -1));
    if (part.length > 2 && part.startsWith("*")) return make("em", {}, part.slice(1, -1));
    return part;
  }));
}

/** A button with a text. */
export function button(text, onclick, properties = {}) {
  return make("button", { type: "button", onclick, ...properties }, text);
}
