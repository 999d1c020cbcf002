// The text of a history: docs/HISTORY.md. It is read line by line; a longer text with the same prefix is read from
// there.

const AT_ONCE = 64; // Entries that are read between two pauses.
const MOST_ENTRIES = 65536, MOST_DESK = 64, MOST_COST = 10000, MOST_SAID = 900;

// A change, with the fields of all kinds. A field that a kind lacks keeps this value.
class Change {
  constructor(kind, actor) {
    this.kind = kind;
    this.actor = actor;
    this.object = undefined;
    this.to = undefined; // For `dig` an old room, for `move` the place.
    this.names = undefined; // One text, with commas.
    this.key = undefined;
    this.cost = 0;
    this.hasOut = this.hasBack = false;
  }
}

// Readers of what follows the actor, for each kind of change. They set the fields, and return true if it can be read.
const KINDS = {
  dig(cursor, change) {
    const isNew = cursor.take("new ");
    change.to = isNew ? undefined : cursor.take("old ") ? cursor.sharp() : undefined;
    if (isNew ? cursor.names() === undefined : change.to === undefined) return false;
    change.hasOut = cursor.take(" out ");
    if (!change.hasOut) return isNew;
    if (cursor.names() === undefined) return false;
    change.hasBack = cursor.take(" back ");
    return !change.hasBack || cursor.names() !== undefined;
  },
  make: (cursor) => cursor.names() !== undefined,
  player(cursor, change) {
    change.names = cursor.names(1);
    return change.names !== undefined;
  },
  lock(cursor, change) {
    if (!takeObject(cursor, change) || !cursor.take(" ")) return false;
    change.key = new KeyReader(cursor).read();
    return change.key !== undefined;
  },
  unlock: takeObject,
  move(cursor, change) {
    if (!takeObject(cursor, change) || !cursor.take(" ")) return false;
    change.to = cursor.sharp();
    return change.to !== undefined;
  },
  walk: takeObject,
  cost(cursor, change, format) {
    if (!takeObject(cursor, change) || !cursor.take(" ")) return false;
    change.cost = cursor.number(MOST_COST);
    return change.cost > 0 || (change.cost === 0 && format === 2);
  },
  rename(cursor, change) {
    if (!takeObject(cursor, change) || !cursor.take(" ")) return false;
    change.names = cursor.names();
    return change.names !== undefined;
  },
  recycle: takeObject,
  say: takeSaid,
  emote: takeSaid,
};

function takeObject(cursor, change) {
  change.object = cursor.sharp();
  return change.object !== undefined;
}

function takeSaid(cursor) {
  const { text, at, end } = cursor;
  for (let to = at; to < end; to += 1) {
    const byte = text.charCodeAt(to);
    if (!(byte >= SPACE && byte < 127)) return false;
  }
  cursor.at = end;
  return end > at && end - at <= MOST_SAID && text.charCodeAt(at) !== SPACE && text.charCodeAt(end - 1) !== SPACE;
}

// Returns the change of an entry with this version; undefined for any other line.
function entryOf(cursor, version, format) {
  if (cursor.number(version) !== version || !cursor.take(" ")) return undefined;
  if (!cursor.number(MOST_DESK) || !cursor.take(" ")) return undefined;
  const space = cursor.text.indexOf(" ", cursor.at), kind = cursor.text.slice(cursor.at, Math.max(space, 0));
  if (!Object.hasOwn(KINDS, kind)) return undefined;
  cursor.at = space + 1;
  const change = new Change(kind, cursor.sharp());
  if (change.actor === undefined || !cursor.take(" ")) return undefined;
  return KINDS[kind](cursor, change, format) && cursor.isAtEnd ? change : undefined;
}

// The lines of a text, each ended by a line feed. One CR before the line feed is dropped.
class Lines {
  constructor(text, at = 0, count = 0) {
    this.text = text;
    this.at = at;
    this.count = count; // How many lines were read.
    this.line = new Cursor(text);
  }

  get isAtEnd() {
    return this.at === this.text.length;
  }

  // Returns the next line as a cursor, which the next call reuses; undefined if no line feed follows.
  take() {
    const { text, at, line } = this, feed = text.indexOf("\n", at);
    if (feed < 0) return undefined;
    this.at = feed + 1;
    this.count += 1;
    line.at = at;
    line.told = [];
    line.end = feed > at && text.charCodeAt(feed - 1) === CR ? feed - 1 : feed;
    return line;
  }

  // Returns to the beginning of the last line.
  back(at) {
    if (this.at !== at) this.count -= 1;
    this.at = at;
  }

  // Returns the next line as a text.
  next() {
    const line = this.take();
    return line && this.text.slice(line.at, line.end);
  }
}

// The entries of a history's text. `front` is the prefix of the text that has their lines. `hear` is called with each
// change and the names of its line: the history itself keeps only the names that its rules compare.
class History {
  constructor(hear) {
    this.hear = hear;
    this.front = "";
    this.format = 0;
    this.changes = [];
  }

  // Reads a text, and yields its progress, up to a half: the other half is the replay. Returns the fault, or undefined.
  // A text that extends the one before is read from there.
  *read(text) {
    if (this.front === "" || !text.startsWith(this.front)) Object.assign(this, new History(this.hear));
    const lines = new Lines(text, this.front.length, this.format ? this.changes.length + 1 : 0);
    if (!this.format) {
      const first = lines.next()?.match(/^mud history ([12])$/);
      if (!first) return "not a history";
      this.format = Number(first[1]);
    }
    while (this.readEntries(lines)) yield lines.at / text.length / 2;
    this.front = text.slice(0, lines.at);
    return this.readEnd(lines);
  }

  // Reads some entries. Returns true if more may follow.
  readEntries(lines) {
    for (let count = 0; count < AT_ONCE; count += 1) {
      const { at } = lines, version = this.changes.length + 1, line = lines.take();
      const change = line && entryOf(line, version, this.format);
      if (!change || version > MOST_ENTRIES) {
        lines.back(at);
        return false;
      }
      this.changes.push(change);
      this.hear?.(change, line.told);
    }
    return true;
  }

  // Reads the last line, after all entries. Returns the fault, or undefined.
  readEnd(lines) {
    const count = this.changes.length, line = lines.take();
    if (!line) return "history without end";
    if (line.take("end ")) {
      const isLast = line.number(count) === count && line.isAtEnd;
      return isLast && lines.isAtEnd ? undefined : `history line ${lines.count + isLast}`;
    }
    const isOver = count === MOST_ENTRIES && entryOf(line, count + 1, this.format);
    return isOver ? "history too long" : `history line ${lines.count}`;
  }
}
