// Colours lines of code by the patterns of a TextMate grammar, as editors do: each line with the rule that is open at its end.

/** A pattern as JavaScript has it, where a letter is one of any script. */
function translated(pattern) {
  return pattern.replaceAll("[^\\W\\d_A-Z]", "(?![A-Z])[\\p{L}\\p{Nl}]").replaceAll("\\w", "[\\p{L}\\p{M}\\p{N}_]");
}

/** The class of a piece, of the name that the grammar gives it. */
function classOf(name) {
  return name.replace(/\.catala$/, "").replaceAll(".", "-");
}

function rulesOf(pattern, grammar) {
  if (pattern.include) return rulesOf(grammar.repository[pattern.include.slice(1)], grammar);
  if (!pattern.match && !pattern.begin) return pattern.patterns.flatMap((inner) => rulesOf(inner, grammar));
  if (pattern.match) return [{ source: translated(pattern.match), kind: classOf(pattern.name), end: null }];
  const [kind, endKind] = [pattern.beginCaptures["1"].name, pattern.endCaptures["0"].name].map(classOf);
  return [{ source: translated(pattern.begin), kind, end: new RegExp(translated(pattern.end), "gu"), endKind }];
}

/** A pattern without groups of its own, so that the groups of a row of them can be counted. */
function ungrouped(source) {
  return source.replace(/\\.|\[(?:\\.|[^\]])*\]|\((?!\?)/g, (piece) => (piece === "(" ? "(?:" : piece));
}

/** What colours a line: all rules in one pattern, of which the first that fits the earliest place counts. */
export class Colours {
  constructor(grammar) {
    this.rules = grammar.patterns.flatMap((pattern) => rulesOf(pattern, grammar));
    this.all = new RegExp(this.rules.map((rule) => `(${ungrouped(rule.source)})`).join("|"), "gu");
  }

  /** The pieces of a line as `{start, end, kind}`, and the rule that is open behind it; `open` is the one in front. */
  pieces(line, open = null) {
    const pieces = [];
    let at = 0;
    if (open) at = this.closed(line, open, pieces);
    if (at === null) return { pieces, open };
    this.all.lastIndex = at;
    for (let found; (found = this.all.exec(line));) {
      const number = found.findIndex((group, k) => k > 0 && group !== undefined) - 1;
      const rule = this.rules[number];
      const word = rule.end ? found[0].replace(/[ \t\r]*$/, "") : found[0];
      pieces.push({ start: found.index, end: found.index + word.length, kind: rule.kind });
      if (rule.end) return { pieces, open: rule };
    }
    return { pieces, open: null };
  }

  /** Where to go on in a line that begins inside a rule; null where the rule is open behind it too. */
  closed(line, open, pieces) {
    open.end.lastIndex = 0;
    const found = open.end.exec(line);
    if (!found) return null;
    const end = found.index + found[0].length;
    if (found[0]) pieces.push({ start: found.index, end, kind: open.endKind });
    return end;
  }
}
