// Checks answers: the page asks for the proof and the history by quiet lines, and its own checker judges them. Nothing
// here touches the document.

const MOST_BY_ITSELF = 20000; // The greatest version at which an answer is checked without a click.
const HISTORY_GAP = 10000; // The least number of milliseconds between two histories.

// Returns true for an answer that has a certificate: a route, a meeting, or the absence of one.
function isProvable(entry) {
  return !entry.quiet && ["route", "noWay", "meeting"].includes(headOf(entry));
}

function isProof(entry) {
  return headOf(entry) === "proof" && isWhole(entry);
}

// The checker's lines (docs/CHECKER.md) in plain words.
const DOUBTS = [
  [/^refused: version (\d+)/, "the history has no version $1 yet"],
  [/^refused: no such player (#\d+)/, "$1 is no player"],
  [/^refused: wrong start (#\d+)/, "$1 stands elsewhere"],
  [/^refused: start label (#\d+)/, "the costs of $1 do not begin with 0"],
  [/^refused: arc (#\d+) of (#\d+)/, "exit $1 is open to $2, and leads on for less than was told"],
  [/^refused: walk broken at (\d+) of (#\d+)/, "exit $1 of the way of $2 does not begin where the one before ends"],
  [/^refused: walk locked at (\d+) of (#\d+)/, "exit $1 of the way of $2 is locked"],
  [/^refused: walk cost of (#\d+)/, "the way of $1 does not cost what was told"],
  [/^refused: conclusion/, "the answer does not follow from the ways"],
];

// Returns a line of the checker in plain words.
function inWords(line) {
  const [pattern, words] = DOUBTS.find(([one]) => one.test(line)) ?? [];
  return pattern ? `refused: ${line.match(pattern)[0].replace(pattern, words)}` : line.replace("accepted", "checked");
}

// Returns the mark of an answer from the checker's finding on its proof. The answer may be the proof itself.
function markFor({ verdict, text, says }, entry, proof) {
  const mark = (kind, words) => ({ kind, isDone: true, text: words }), isSame = entry.volume === proof.volume;
  const isNow = isSame && entry.version === proof.version;
  const at = `at ${proof.version}${isSame ? "" : ` of volume ${proof.volume}`}`;
  if (verdict !== "accepted") return mark("alarm", inWords(text));
  if (entry === proof || says === entry.lines.join("\n")) return mark("checked", isNow ? "checked" : `checked ${at}`);
  return isNow ? mark("alarm", `refused: the proof is of another answer: ${says}`) :
    mark("checked", `not the answer any more: ${at} ${says}, checked`);
}

class Checks {
  // act: { ask(line), later(task, wait), now(), mark(entry) }; judge: a checker.Checker, for the history of one volume.
  constructor(judge, act) {
    Object.assign(this, { judge, act, volume: 1, last: Promise.resolve(), isAlways: true });
  }

  // Checks an answer, or gives it a button that does.
  answered(entry) {
    if (entry.quiet || !(isProvable(entry) || isProof(entry))) return;
    const isByItself = this.isAlways && entry.version <= MOST_BY_ITSELF && isProvable(entry);
    if (isByItself) this.check(entry);
    else this.mark(entry, { kind: "offer", text: "check", task: () => this.check(entry) });
  }

  mark(entry, mark) {
    entry.mark = mark;
    this.act.mark(entry);
  }

  // Checks an answer after those before it, and shows the progress.
  check(entry) {
    const show = (part) => this.mark(entry, { kind: "", text: `checking ${Math.round(100 * part)} %` });
    const task = () => this.check(entry);
    const again = (fault) => ({ kind: "offer", text: `not checked: ${fault.message} Again?`, task });
    show(0);
    this.last = this.last.then(() => this.find(entry, show)).catch(again).then((mark) => this.mark(entry, mark));
    return this.last;
  }

  async find(entry, show) {
    const proof = isProof(entry) ? entry : await this.ask(`proof ${entry.line}`);
    if (!isProof(proof)) throw new Error(proof.lines[0]);
    const { judge } = this;
    this.stays(proof.volume);
    const fault = judge.count < proof.version ? await this.learn(judge, proof.volume, show) : undefined;
    return markFor(fault ?? await judge.check(proof.lines.slice(1).join("\n") + "\n", show), entry, proof);
  }

  // Throws if a volume has ended: the server gives out the history of the current volume alone.
  stays(volume) {
    if (volume !== this.volume) throw new Error(`volume ${volume} has ended.`);
  }

  // Returns the server's answer to a quiet line.
  async ask(line) {
    const answer = await this.act.ask(line);
    if (!answer) throw new Error("the connection was lost");
    return answer;
  }

  // Has the judge read the current history of a volume. Returns the finding if the history is faulty.
  async learn(judge, volume, show) {
    const wait = (this.learnedAt ?? -HISTORY_GAP) + HISTORY_GAP - this.act.now();
    if (wait > 0) await new Promise((go) => this.act.later(go, wait));
    const answer = await this.ask("@history");
    this.learnedAt = this.act.now();
    if (headOf(answer) !== "history") throw new Error(answer.lines[0]);
    this.stays(volume);
    const found = await judge.history(answer.lines.slice(1).join("\n") + "\n", show);
    return found.verdict ? found : undefined;
  }
}
