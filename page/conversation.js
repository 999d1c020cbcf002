// Pairs the server's answers with typed lines. Nothing here touches the document.
//
// An entry is one item of the log: { kind, lines }. A reply also has { version, volume, line, quiet, isDone }. The kind
// is `reply`, `notice`, `refusal` (a reply without a number), `host` or `greeting`. A quiet entry answers a line that
// the page sent for itself; the log does not show it.
//
// A version belongs to the last volume that this connection named, or to volume 1 before it names any.

const MOST_PROOFS = 100; // Proofs that are kept until they are saved.

class Conversation {
  constructor(world) {
    this.world = world ?? new World();
    this.history = undefined; // The last history, as { version, text }.
    this.proofs = []; // The last proofs of this volume, likewise.
    this.onAnswer = () => {}; // Called once with each whole answer.
    this.onEnd = () => {}; // Called with the number and the proofs of a volume that has ended.
    this.volume = 1; // The volume of the last version.
    this.connectLine = undefined; // The last line that logged the player in, and the player's name.
    this.name = undefined;
    this.begin();
  }

  // Starts a connection in which nothing was typed. What earlier connections answered is kept.
  begin() {
    this.end();
    this.tail = "";
    this.asked ??= [];
    this.drop();
    this.answer = undefined;
    this.hasLeft = false;
    this.isIn = false; // True once a player is logged in on this connection.
    this.before = { volume: this.volume, version: this.latest }; // The last version of the connection before.
    this.latest = 0; // The greatest version that was named in this volume.
    this.told = 1; // The volume that this connection named last.
    this.world.here = undefined;
  }

  // Notes a line that is sent. The server does not answer blank lines. `answered` goes into the entry of the answer.
  say(line, quiet = false, answered = undefined) {
    if (words(line) !== "") this.asked.push({ line: words(line), quiet, answered });
  }

  // Gives up the lines that have no answer: the connection has ended.
  drop() {
    for (const { answered } of this.asked.splice(0)) answered?.();
  }

  // Takes a piece of the server's output, and returns the entries that are new or have grown. A line may span pieces.
  take(piece) {
    const lines = (this.tail + piece).split("\r\n"), entries = new Set();
    this.tail = lines.pop();
    for (const text of lines) {
      const entry = this.takeLine(text);
      if (entry && !entry.quiet) entries.add(entry);
    }
    if (this.tail === "") this.finish();
    return [...entries];
  }

  takeLine(text) {
    const notice = text.match(SAID.notice), reply = text.match(SAID.reply);
    if (notice) return this.takeNotice(text, Number(notice[1]), notice[2]);
    if (reply) return this.takeReply(Number(reply[1]), reply[2]);
    if (SAID.failed.test(text)) return this.takeRefusal(text);
    if (SAID.volume.test(text)) this.takeVolume(Number(text.match(SAID.volume)[1]));
    if (["volume", "host", "ended"].some((row) => SAID[row].test(text))) return { kind: "host", lines: [text] };
    if (!this.answer) return { kind: "greeting", lines: [text] };
    this.answer.lines.push(text);
    return this.answer;
  }

  takeVolume(volume) {
    this.told = volume;
    this.reach(0);
  }

  // Notes a version; the answer before it is whole. Each volume counts its own versions.
  reach(version) {
    const { volume } = this;
    this.end();
    this.volume = this.told;
    this.latest = volume === this.told ? Math.max(this.latest, version) : version;
    if (volume !== this.told) this.giveUp(volume);
  }

  // Drops the history and hands on the proofs of a volume that has ended.
  giveUp(volume) {
    this.history = undefined;
    this.onEnd(volume, this.proofs.splice(0));
  }

  takeNotice(text, version, heard) {
    this.reach(version);
    readNotice(this.world, heard);
    return { kind: "notice", lines: [text], version };
  }

  takeReply(version, text) {
    this.reach(version);
    const asked = this.asked.shift() ?? { line: "", quiet: false };
    this.answer = { kind: "reply", version, volume: this.volume, ...asked, lines: [text], isDone: false };
    return this.answer;
  }

  takeRefusal(text) {
    this.end();
    const asked = this.asked.shift() ?? { line: "", quiet: false };
    const refusal = { kind: "refusal", ...asked, lines: [text], isDone: true };
    this.onAnswer(refusal);
    return refusal;
  }

  // Finishes the answer if its last line is here.
  finish() {
    if (this.answer && isWhole(this.answer)) this.done(this.answer);
  }

  // Reads an answer and reports it once. An answer that grows later is read again.
  done(answer) {
    const isFirst = !answer.isDone, { length } = answer.lines;
    if (answer.read === length) return;
    Object.assign(answer, { isDone: true, read: length });
    this.read(answer);
    if (!isFirst) return;
    this.keep(answer);
    this.onAnswer(answer);
  }

  // Updates the world from a whole answer. A history that the page asked for itself is not read into the world: the map
  // shows what the player has seen.
  read(answer) {
    const { line, lines, quiet } = answer, head = headOf(answer);
    if (!quiet && isWhole(answer)) readAnswer(this.world, answer);
    if (head === "bye") this.hasLeft = true;
    if (head !== "welcome") return;
    if (isBefore(answer, this.before)) {
      this.world.clear();
      this.giveUp(this.volume);
    }
    this.isIn = true;
    this.connectLine = line;
    this.name = firstName(behind("connect", line)?.replace(/^([^" ]+) .*$/, "$1"));
  }

  // Returns the number of changes since an answer; infinity if the answer is of an earlier volume.
  since({ volume, version }) {
    return volume === this.volume ? this.latest - version : Infinity;
  }

  // Ends the answer: the next one begins, or the connection has ended.
  end() {
    if (this.answer) this.done(this.answer);
    this.answer = undefined;
  }

  // Keeps a whole history or proof, to be saved.
  keep(answer) {
    const { version, lines } = answer, text = lines.slice(1).join("\n") + "\n", head = headOf(answer);
    if (!isWhole(answer)) return;
    if (head === "history") this.history = { version, text };
    if (head !== "proof") return;
    this.proofs.push({ version, text });
    if (this.proofs.length > MOST_PROOFS) this.proofs.shift();
  }
}

// Returns true if a version precedes another: in an earlier volume, or in the same volume by its number.
function isBefore(one, other) {
  return one.volume < other.volume || (one.volume === other.volume && one.version < other.version);
}

// Returns true if the last line of an answer is here. Only histories and proofs have a last line of their own.
function isWhole(answer) {
  return SAID[`${headOf(answer)}End`]?.test(answer.lines.at(-1)) ?? true;
}
