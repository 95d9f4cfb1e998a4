// The text of a law in stretches: the law's words, and the blocks of code between them.

const OPENINGS = new Set(["```catala", "```catala-metadata"]);

/** A line without blanks and a carriage return at its end. */
function bare(line) {
  return line.replace(/\r$/, "").replace(/[ \t]+$/, "");
}

/**
 * The stretches of a text. Words stand in front of each block of code, if only of no line. Of code `opening` is the fence in front, and
 * `closing` the one behind, null where it is open.
 */
export function stretchesOf(text) {
  const stretches = [];
  let words = [];
  let code = null;
  for (const line of text.split("\n")) {
    if (code && bare(line) === "```") {
      stretches.push({ ...code, closing: line });
      code = null;
    } else if (code) {
      code.lines.push(line);
    } else if (OPENINGS.has(bare(line))) {
      stretches.push({ kind: "words", lines: words });
      words = [];
      code = { kind: "code", opening: line, lines: [], closing: null };
    } else {
      words.push(line);
    }
  }
  if (code) stretches.push(code);
  if (words.length) stretches.push({ kind: "words", lines: words });
  return stretches;
}

/** All lines of a stretch, with its fences. */
export function linesOf(stretch) {
  if (stretch.kind === "words") return stretch.lines;
  return [stretch.opening, ...stretch.lines, ...(stretch.closing === null ? [] : [stretch.closing])];
}

export function textOf(stretches) {
  return stretches.flatMap(linesOf).join("\n");
}

/** Gives each stretch `first`, the number of its first line in the file, fences apart. */
export function number(stretches) {
  let line = 1;
  for (const stretch of stretches) {
    stretch.first = stretch.kind === "code" ? line + 1 : line;
    line += linesOf(stretch).length;
  }
}

/** What stands in a field to edit some lines. */
export function fieldOf(lines) {
  return lines.map((line) => line.replace(/\r$/, "")).join("\n");
}

/** What a field holds as lines, with the ends of lines that the law has; `isLast` where the law ends there. */
export function linesOfField(value, isCarriage, isLast = false) {
  const lines = value.split("\n");
  return isCarriage ? lines.map((line, k) => (isLast && k === lines.length - 1 ? line : line + "\r")) : lines;
}

/** Whether all lines of a text end with a carriage return. */
export function hasCarriage(text) {
  const carried = text.split("\r\n").length;
  return carried > 1 && carried === text.split("\n").length;
}

// ---- columns of bytes

/** The index in a line of a column that counts bytes from 1. */
export function indexAt(line, column) {
  let bytes = 1;
  let index = 0;
  while (index < line.length && bytes < column) {
    const point = line.codePointAt(index);
    bytes += point < 0x80 ? 1 : point < 0x800 ? 2 : point < 0x10000 ? 3 : 4;
    index += point < 0x10000 ? 1 : 2;
  }
  return index;
}
