// The law's own words between the blocks of code, as a person reads them: headings, paragraphs, lists, tables. All of it is text.

import { button, make } from "./make.js";

const HEADING = /^(#{1,6})[ \t]+(.*?)[ \t]*#*$/;
const ITEM = /^\s*(?:[-*+]|\d+[.)])[ \t]+(.*)$/;
const FENCE = /^\s*(`{3,}|~{3,})/;
const PIECES = /(`[^`]+`|\*\*[^*]+\*\*|\*[^*\s][^*]*\*|\[[^\]]+\]\([^)\s]+\))/;

/** The parts of a line: stressed, code, and names of links with where they lead to. */
function inline(text) {
  return text.split(PIECES).filter((piece) => piece).map((piece) => {
    if (/^`[^`]+`$/.test(piece)) return make("code", {}, piece.slice(1, -1));
    if (/^\*\*[^*]+\*\*$/.test(piece)) return make("strong", {}, piece.slice(2, -2));
    if (/^\*[^*\s][^*]*\*$/.test(piece)) return make("em", {}, piece.slice(1, -1));
    const link = piece.match(/^\[([^\]]+)\]\(([^)\s]+)\)$/);
    return link ? make("span", { class: "link", title: link[2] }, link[1]) : piece;
  });
}

/** The lines in groups of one kind: each a heading, and else those up to a blank line or to a line of another kind. */
function groups(lines) {
  const found = [];
  let fence = null;
  for (const line of lines.map((text) => text.replace(/\r$/, ""))) {
    const last = found.at(-1);
    if (fence) {
      last.lines.push(line);
      if (line.trim() === fence) fence = null;
      continue;
    }
    const kind = kindOf(line);
    if (kind === "fence") fence = line.match(FENCE)[1];
    const goesOn = last && last.kind === kind && !["heading", "fence", "blank"].includes(kind);
    const isUnder = last && last.kind === "list" && kind === "paragraph" && /^\s/.test(line);
    if (goesOn || isUnder) last.lines.push(line);
    else found.push({ kind, lines: [line] });
  }
  return found.filter((group) => group.kind !== "blank");
}

function kindOf(line) {
  if (!line.trim()) return "blank";
  if (FENCE.test(line)) return "fence";
  if (HEADING.test(line)) return "heading";
  if (line.startsWith("> Include:")) return "include";
  if (line.startsWith(">")) return "quote";
  if (line.trimStart().startsWith("|")) return "table";
  return ITEM.test(line) ? "list" : "paragraph";
}

function listed(lines) {
  const items = [];
  for (const line of lines) {
    const found = line.match(ITEM);
    if (found) items.push(found[1]);
    else items.push(`${items.pop()} ${line.trim()}`);
  }
  const tag = /^\s*\d/.test(lines[0]) ? "ol" : "ul";
  const start = tag === "ol" ? lines[0].match(/\d+/)[0] : null;
  return make(tag, { start }, items.map((item) => make("li", {}, inline(item))));
}

function tabled(lines) {
  const rows = lines.map((line) => line.trim().replace(/^\||\|$/g, "").split("|").map((cell) => cell.trim()));
  const isRule = (row) => row.every((cell) => /^:?-+:?$/.test(cell));
  const hasHead = rows.length > 1 && isRule(rows[1]);
  const made = rows.filter((row) => !isRule(row)).map((row, k) =>
    make("tr", {}, row.map((cell) => make(hasHead && k === 0 ? "th" : "td", {}, inline(cell)))));
  return make("div", { class: "wide", tabindex: "0", role: "region", "aria-label": "Table" }, make("table", {}, made));
}

/** Headings of the law stand below those of the page. */
function headed(line) {
  const [, signs, text] = line.match(HEADING);
  return make(`h${Math.min(6, signs.length + 1)}`, {}, inline(text));
}

/** A line that includes a file, which a button opens. */
function included(line) {
  const name = line.replace(/^> Include:[ \t]*/, "").trimEnd();
  const opens = ({ target }) => target.dispatchEvent(new CustomEvent("open-file", { bubbles: true, detail: name }));
  const told = { class: "opens", "data-file": name, "aria-label": `Open ${name}` };
  return make("span", {}, "> Include: ", name ? button(name, opens, told) : null);
}

function drawn({ kind, lines }) {
  if (kind === "heading") return headed(lines[0]);
  if (kind === "list") return listed(lines);
  if (kind === "table") return tabled(lines);
  if (kind === "fence") return make("pre", { tabindex: "0" }, lines.slice(1, -1).join("\n"));
  if (kind === "include") return make("p", { class: "include" }, lines.map(included));
  if (kind === "quote") return make("blockquote", {}, inline(lines.map((line) => line.replace(/^> ?/, "")).join(" ")));
  return make("p", {}, inline(lines.join(" ")));
}

/** Some lines of a law as a person reads them. */
export function read(lines) {
  return groups(lines).map(drawn);
}

/** The last heading in some lines; the one in front of them where they have none. */
export function headingOf(lines, before) {
  const last = lines.findLast((line) => HEADING.test(line.replace(/\r$/, "")));
  return last ? last.replace(/\r$/, "").match(HEADING)[2] : before;
}
