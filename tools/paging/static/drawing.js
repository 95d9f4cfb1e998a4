// Draws the course of an output as SVG: its pieces, jumps, places without a value, and the numbers of the rules that decide.

const SPACE = "http://www.w3.org/2000/svg";
const HEIGHT = 320;
const EDGE = { left: 70, right: 16, top: 30, bottom: 34 };
const NICE = [1, 2, 2.5, 5, 10];
const MONTHS = [1, 2, 3, 6, 12, 24, 60, 120, 240, 600, 1200];
const DAYS = [1, 2, 5, 10];
const FIRST_DAY = 719163; // The number of the 1st of January 1970, where days are counted from the year 1 on.

function draw(tag, properties, ...inside) {
  const made = document.createElementNS(SPACE, tag);
  for (const [name, value] of Object.entries(properties)) made.setAttribute(name, value);
  made.append(...inside);
  return made;
}

/** The text of a day that is counted from the year 1 on. */
export function dayText(number) {
  return new Date((number - FIRST_DAY) * 86400000).toISOString().slice(0, 10);
}

/** A number with commas at the thousands. */
export function numberText(number) {
  return number.toLocaleString("en", { maximumFractionDigits: 9 });
}

/** Numbers in steps that are easily read, at most so many. */
function numbersBetween(from, to, most) {
  const least = (to - from) / Math.max(1, most);
  const power = 10 ** Math.floor(Math.log10(least));
  const step = NICE.map((nice) => nice * power).find((nice) => nice >= least * 0.999) ?? 10 * power;
  const first = Math.ceil(from / step - 1e-9);
  const count = Math.max(0, Math.floor(to / step + 1e-9) - first + 1);
  return Array.from({ length: count }, (_, k) => (first + k) * step).map((at) => ({ at, text: numberText(at) }));
}

/** The first days of months or years between two days, or some days of a month, at most so many. */
function daysBetween(from, to, most) {
  const step = DAYS.find((days) => (to - from) / days <= most);
  if (step) return numbersBetween(from, to, (to - from) / step).map(({ at }) => ({ at, text: dayText(at) }));
  const months = MONTHS.find((count) => (to - from) / (30.4 * count) <= most) ?? MONTHS.at(-1);
  const [year, month] = dayText(from).split("-").map(Number);
  const first = Math.floor((12 * year + month - 1) / months) * months;
  const days = Array.from({ length: most + 3 }, (_, k) => first + k * months).map((count) => {
    const text = `${String(Math.floor(count / 12)).padStart(4, "0")}-${String((count % 12) + 1).padStart(2, "0")}`;
    return { at: Date.parse(`${text}-01`) / 86400000 + FIRST_DAY, text: months % 12 ? text : text.slice(0, 4) };
  });
  return days.filter(({ at }) => from <= at && at <= to);
}

function ticksOf(kind, from, to, most) {
  if (kind === "bool") return [{ at: 0, text: "false" }, { at: 1, text: "true" }];
  return (kind === "date" ? daysBetween : numbersBetween)(from, to, most);
}

/** From where to where the output goes, with some room where it is one value alone. */
function reach(picture) {
  const heights = picture.pieces.flatMap((piece) => piece.map(([, y]) => y));
  if (!heights.length) return [0, 1];
  const [low, high] = [Math.min(...heights), Math.max(...heights)];
  const room = (high - low) * 0.06 || Math.max(1, Math.abs(high) * 0.1);
  return [low - room, high + room];
}

/** The picture at a width; `title` says what it shows, for whom it isn't seen. */
export function drawn(picture, width, title) {
  const [low, high] = reach(picture);
  const right = width - EDGE.right;
  const bottom = HEIGHT - EDGE.bottom;
  const across = (x) => EDGE.left + ((x - picture.from) / (picture.to - picture.from)) * (right - EDGE.left);
  const up = (y) => bottom - ((y - low) / (high - low)) * (bottom - EDGE.top);
  const plane = { across, up, right, bottom };
  return draw("svg", { class: "picture", viewBox: `0 0 ${width} ${HEIGHT}`, width, height: HEIGHT, role: "img", "aria-label": title },
    ...picture.stretches.map((stretch) => band(stretch, plane)), ...axes(picture, low, high, plane),
    ...picture.changes.map((change) => jump(change, plane)).filter((part) => part),
    ...picture.pieces.map((piece) => line(piece, plane)), ...numbers(picture.changes, plane));
}

function axes(picture, low, high, { across, up, right, bottom }) {
  const below = ticksOf(picture.isDays ? "date" : "", picture.from, picture.to, Math.floor((right - EDGE.left) / 90));
  const beside = ticksOf(picture.kind, low, high, 6);
  return [
    ...beside.flatMap(({ at, text }) => [draw("line", { class: "grid", x1: EDGE.left, x2: right, y1: up(at), y2: up(at) }),
      draw("text", { x: EDGE.left - 8, y: up(at) + 4, "text-anchor": "end" }, text)]),
    ...below.flatMap(({ at, text }) => [draw("line", { class: "tick", x1: across(at), x2: across(at), y1: bottom, y2: bottom + 5 }),
      draw("text", { x: across(at), y: bottom + 19, "text-anchor": across(at) > right - 24 ? "end" : "middle" }, text)]),
    draw("path", { class: "axis", d: `M${EDGE.left} ${EDGE.top}V${bottom}H${right}` })];
}

/** A place without a value: a band, of at least the width of a line. */
function band({ kind, from, to }, { across, bottom }) {
  const wide = across(to) - across(from);
  const sign = `band is-${kind.replaceAll(" ", "-")}${wide < 2 ? " is-narrow" : ""}`;
  const front = across(from) - (wide < 2 ? 1 : 0);
  return draw("rect", { class: sign, x: front, y: EDGE.top, width: Math.max(2, wide), height: bottom - EDGE.top });
}

function line(piece, { across, up }) {
  if (piece.length === 1) return draw("circle", { class: "dot", cx: across(piece[0][0]), cy: up(piece[0][1]), r: 3 });
  return draw("polyline", { class: "line-of", points: piece.map(([x, y]) => `${across(x).toFixed(2)},${up(y).toFixed(2)}`).join(" ") });
}

/** A jump: a dotted line from one value to the other, with a dot at the one behind. */
function jump({ x, jump: levels }, { across, up }) {
  if (!levels) return null;
  const [one, other] = levels.map(up);
  return draw("g", { class: "jump" }, draw("line", { x1: across(x), x2: across(x), y1: one, y2: other }),
    draw("circle", { cx: across(x), cy: other, r: 3 }));
}

/** The numbers of the changes above the places where they are; of those that stand too near to each other the first. */
function numbers(changes, { across, bottom }) {
  let last = -Infinity;
  return changes.flatMap(({ x }, k) => {
    const at = across(x);
    const parts = [draw("line", { class: "change", x1: at, x2: at, y1: EDGE.top, y2: bottom })];
    if (at - last >= 20) {
      parts.push(draw("circle", { class: "number", cx: at, cy: 14, r: 10 }), draw("text", { class: "number-of", x: at, y: 18,
        "text-anchor": "middle" }, String(k + 1)));
      last = at;
    }
    return parts;
  });
}
