// Completion by Tab, and recall by the arrow keys. Nothing here touches the document.

const MOST_TYPED_LINES = 200; // Lines that the arrow keys recall.

// Returns the names that may follow these words.
function namesAfter(world, first, exits) {
  const rooms = [...world.rooms.values()].filter(Boolean), things = [...world.things.values()];
  const line = behind("proof", first) ?? first, has = (verb) => behind(verb, line) !== undefined;
  if (has("route")) return rooms;
  if (has("meet")) return [...world.people, ...things];
  return has("go") ? exits : [...exits, ...things, ...world.people, ...rooms];
}

// Returns the completions of a line, each as a whole line. The longest suffix of the line that is a prefix of a name is
// completed.
function completions(world, verbs, text) {
  const exits = world.exitsOf(world.here).map((exit) => world.exits.get(exit).name).filter(Boolean);
  const starts = [...text.matchAll(/(?:^|[ ,])(?=[^ ,])/g)].map(({ index, 0: gap }) => index + gap.length);
  for (const start of starts) {
    const head = text.slice(0, start), tail = text.slice(start).toLowerCase();
    const names = start === 0 ? [...verbs, ...exits] : namesAfter(world, text, exits);
    const found = [...new Set(names)].filter((name) => name.toLowerCase().startsWith(tail));
    const longer = found.filter((name) => name.length > tail.length);
    if (longer.length) return longer.sort().map((name) => head + name);
  }
  return [];
}

// The typed lines, as the arrow keys recall them: those that begin with the text that was there at the first press.
class Earlier {
  constructor(lines = []) {
    this.lines = lines;
    this.rest();
  }

  add(line) {
    if (this.lines[this.lines.length - 1] !== line) this.lines.push(line);
    if (this.lines.length > MOST_TYPED_LINES) this.lines.shift();
    this.rest();
  }

  // Starts again from the text that is typed.
  rest() {
    this.at = this.lines.length;
    this.draft = undefined;
  }

  // Returns the next line in this direction (-1 is back) with the typed prefix, or the typed text after the newest
  // line; undefined before the oldest.
  move(way, text) {
    this.draft ??= text;
    for (let at = this.at + way; at >= 0 && at < this.lines.length; at += way)
      if (this.lines[at].startsWith(this.draft) && this.lines[at] !== text) return this.lines[this.at = at];
    if (way < 0) return undefined;
    const { draft } = this;
    this.rest();
    return draft;
  }
}
