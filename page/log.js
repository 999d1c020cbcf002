// The log: what was typed, answered and heard, as entries (conversation.js). It is drawn once a frame, in groups with a
// layout of their own, so that the cost of an entry does not depend on the length of the log. Screen readers get a
// separate region, without long answers.

const MOST_ENTRIES = 5000; // The most entries of the log.
const MOST_LINES = 150000; // The most lines of all entries, which bounds long answers.
const MOST_KEPT = 600; // The most entries that a reload keeps.
const GROUP = 100; // Entries of a group.
const FOLDED = 20; // The least number of lines of a folded answer.
const MOST_OPEN = 1000; // The most lines that an opened answer shows.
const MOST_SPOKEN = 12; // The most entries of a frame that are read aloud.
const SIGNS = { mine: "> ", page: "-- " };

// Returns true for an answer that is folded: one of many lines, a history or a proof.
function isLong({ kind, lines }) {
  return lines.length >= FOLDED || (kind === "reply" && (SAID.history.test(lines[0]) || SAID.proof.test(lines[0])));
}

function timeOf(entry) {
  const time = new Date(entry.time), two = (number) => String(number).padStart(2, "0");
  return `${two(time.getHours())}:${two(time.getMinutes())}`;
}

// Returns the text of an entry in the saved log.
function textOf({ kind, version, lines, mark }) {
  const first = kind === "reply" ? `[${version}] ` : SIGNS[kind] ?? "";
  return first + lines.join("\n") + (mark?.text ? `  {${mark.text}}` : "");
}

// The entries; the oldest are dropped.
class Book {
  constructor() {
    this.entries = [];
    this.lines = 0;
  }

  add(entry) {
    entry.time ??= Date.now();
    entry.counted = entry.lines.length;
    this.entries.push(entry);
    this.lines += entry.counted;
  }

  // Counts the new lines of an entry.
  grown(entry) {
    this.lines += entry.lines.length - entry.counted;
    entry.counted = entry.lines.length;
  }

  // Returns true if a group of the oldest entries can be dropped.
  isFull(group) {
    return this.entries.length > MOST_ENTRIES || (this.lines > MOST_LINES && this.entries.length > group);
  }

  drop(count) {
    for (const { counted } of this.entries.splice(0, count)) this.lines -= counted;
  }

  text() {
    return this.entries.map((entry) => `${timeOf(entry)} ${textOf(entry)}\n`).join("");
  }

  // Returns what a reload keeps: the last entries, and the first line of a long one.
  kept() {
    return this.entries.slice(-MOST_KEPT).map(({ kind, version, line, lines, time, mark }) => {
      const told = isLong({ kind, lines }) ? [lines[0] + ` (${lines.length} lines)`] : lines;
      return { kind, version, line, lines: told, time, mark: mark?.isDone ? mark : undefined };
    });
  }
}

class Log {
  constructor(parts, book) {
    Object.assign(this, { parts, book, waiting: [], changed: new Set(), groups: [], isAtEnd: true, unseen: 0 });
    this.soon = onceAFrame(() => this.flush());
    on(parts.log, () => this.scrolled(), "scroll");
    on(parts.fresh, () => this.toEnd());
    new ResizeObserver(() => this.isAtEnd && this.pin()).observe(parts.log);
  }

  // Shows an entry, or its changes.
  show(entry) {
    if (entry.node) this.changed.add(entry);
    else if (!entry.isWaiting) this.waiting.push(entry);
    entry.isWaiting = true;
    this.soon();
  }

  // Shows a line of the page itself.
  tell(text, kind = "page") {
    this.show({ kind, lines: [text] });
  }

  // Shows a typed line, and scrolls to the end.
  mine(line) {
    this.isAtEnd = true;
    this.show({ kind: "mine", lines: [line] });
  }

  flush() {
    const entries = this.waiting.splice(0), isAtEnd = this.isAtEnd;
    for (const entry of entries) {
      this.book.add(entry);
      this.last().append(entry.node = nodeOf(entry));
    }
    for (const entry of this.changed) this.renew(entry);
    this.changed.clear();
    this.trim();
    this.speak(entries);
    if (isAtEnd) this.pin();
    else this.count(entries.reduce((sum, entry) => sum + (isLong(entry) ? 1 : entry.lines.length), 0));
  }

  // Returns the group for the next entry. Browsers lay out groups before the last two only when they are visible.
  last() {
    const group = this.groups[this.groups.length - 1];
    if (group && group.childElementCount < GROUP) return group;
    const next = element("div", "");
    this.groups.push(next);
    this.groups[this.groups.length - 3]?.classList.add("done");
    this.parts.entries.append(next);
    return next;
  }

  trim() {
    while (this.groups.length > 1 && this.book.isFull(this.groups[0].childElementCount)) {
      const group = this.groups.shift();
      this.book.drop(group.childElementCount);
      group.remove();
    }
  }

  // Draws an entry again: it has grown, or its mark has changed.
  renew(entry) {
    this.book.grown(entry);
    const node = nodeOf(entry);
    if (entry.node.open) node.open = true;
    entry.node.replaceWith(node);
    entry.node = node;
  }

  // Hands entries to screen readers, without typed lines and long answers.
  speak(entries) {
    const { spoken } = this.parts, heard = entries.filter((entry) => entry.kind !== "mine" && entry.isSilent !== true);
    const said = heard.slice(0, MOST_SPOKEN).map((entry) =>
      isLong(entry) ? `${entry.lines[0]}, ${entry.lines.length} lines` : entry.lines.join(", "));
    if (heard.length > MOST_SPOKEN) said.push(`and ${heard.length - MOST_SPOKEN} more`);
    for (const text of said) spoken.append(element("p", "", text));
    while (spoken.childElementCount > 3 * MOST_SPOKEN) spoken.firstChild.remove();
  }

  // ---- the end of the log

  scrolled() {
    const { log } = this.parts;
    this.isAtEnd = log.scrollTop + log.clientHeight >= log.scrollHeight - 24;
    if (this.isAtEnd) this.count(-this.unseen);
  }

  pin() {
    this.parts.log.scrollTop = 1e9;
    this.count(-this.unseen);
  }

  toEnd() {
    this.isAtEnd = true;
    this.pin();
  }

  count(lines) {
    if (!lines) return;
    this.unseen += lines;
    this.parts.fresh.hidden = this.unseen === 0;
    this.parts.fresh.textContent = this.unseen === 1 ? "1 new line" : `${this.unseen} new lines`;
  }
}

// ---- how an entry looks. Texts are set as textContent: nothing that a player types becomes markup.

// Returns the classes of an entry: its kind, and for some replies one more.
function classesOf({ kind, line, lines }) {
  if (kind !== "reply") return kind;
  return isRefusal(lines) ? "reply refused" : isLook(line ?? "") ? "reply place" : "reply";
}

function nodeOf(entry) {
  const { kind, version, lines, mark } = entry, isFolded = isLong(entry);
  const node = element(isFolded ? "details" : "p", classesOf(entry)), head = isFolded ? element("summary", "") : node;
  const heard = kind === "notice" ? lines[0].match(SAID.notice) : undefined;
  node.dataset.time = timeOf(entry);
  if (kind === "reply" && version !== undefined) head.append(element("span", "version", `[${version}] `));
  if (heard) head.append(element("span", "version", `(${heard[1]}) `));
  if (isFolded) node.append(head, ...folded(node, lines));
  head.append(isFolded ? `${lines[0]} ` : heard ? heard[2] : (SIGNS[kind] ?? "") + lines.join("\n"));
  if (isFolded) head.append(element("b", "", `${lines.length.toLocaleString("en")} lines`));
  if (mark) head.append(markOf(mark));
  return node;
}

// Returns the inside of a folded answer, which gets its first lines when it is opened.
function folded(node, lines) {
  const inner = element("pre", "");
  node.setAttribute("aria-live", "off");
  on(node, () => {
    if (!node.open || inner.textContent) return;
    const more = lines.length - MOST_OPEN;
    const rest = more > 0 ? `\n.. and ${more} more: save the log` : "";
    inner.textContent = lines.slice(1, MOST_OPEN).join("\n") + rest;
  }, "toggle");
  return [inner];
}

// Returns the node of a mark { text, kind, task }: a button if it has a task.
function markOf({ text, kind, task }) {
  const node = element(task ? "button" : "span", `mark ${kind}`, text);
  if (task) Object.assign(node, { type: "button", onclick: task });
  return node;
}
