// The mode of the editors: the patterns of the grammar that other editors use, too.

const STYLES = [
  ["comment", "comment"], ["string", "string"], ["constant.numeric", "number"], ["keyword.operator", "operator"],
  ["keyword", "keyword"], ["storage.type", "type"], ["entity.name.type", "sort"], ["entity.name.function", "def"],
  ["variable", "variable"], ["punctuation", "bracket"], ["invalid", "error"],
];

function styleOf(name) {
  return STYLES.find(([front]) => name.startsWith(front))?.[1] ?? null;
}

// Of the patterns that match at a place, the first one is taken.
export function defineMode(grammar) {
  const patterns = grammar.patterns.map(({ name, match }) => ({ style: styleOf(name), match: new RegExp(match, "y") }));
  window.CodeMirror.defineMode("fizhedul", () => ({
    lineComment: "#",
    token(stream) {
      if (stream.eatSpace()) return null;
      for (const { style, match } of patterns) {
        match.lastIndex = stream.pos;
        const found = match.exec(stream.string);
        if (found && found[0]) {
          stream.pos += found[0].length;
          return style;
        }
      }
      stream.next();
      return null;
    },
  }));
}
