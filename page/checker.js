// The checker of docs/CHECKER.md. It works in slices, between which the page handles events.

const SLICE = 8; // Milliseconds of a slice.
const STEP = 16; // Changes between two looks at the clock.

// Runs a generator to its end, and returns its result.
function atOnce(steps) {
  for (;;) {
    const { done, value } = steps.next();
    if (done) return value;
  }
}

// Yields to the event loop. A message arrives sooner than a timer, which browsers delay.
function pause() {
  return new Promise((resolve) => {
    const { port1, port2 } = new MessageChannel();
    port1.onmessage = () => {
      port1.close();
      resolve();
    };
    port2.postMessage(0);
  });
}

// Runs a generator in slices, and reports the progress after each, from 0 to 1. Returns its result.
async function inSlices(steps, progress) {
  for (let began = performance.now(); ; ) {
    const { done, value } = steps.next();
    if (done) return value;
    if (performance.now() - began < SLICE) continue;
    progress?.(value);
    await pause();
    began = performance.now();
  }
}

function finding(line, more) {
  return { verdict: line.split(":")[0], text: line, ...more };
}

// A history and its worlds: that of all changes, and that of the version that was asked for last.
class Verdicts {
  constructor() {
    this.history = new History();
    this.last = new Realm();
    this.past = new Realm();
    this.fault = undefined;
  }

  // Reads and replays a history's text. Returns its fault, as the checker spells it, or undefined.
  *take(text) {
    const before = this.history.changes;
    this.fault = yield* this.history.read(text);
    if (this.history.changes !== before) [this.last, this.past] = [new Realm(), new Realm()];
    const { changes } = this.history;
    if (!this.fault && !(yield* this.follow(this.last, changes.length)))
      this.fault = `history change ${this.last.version + 1}`;
    if (this.fault) this.history = new History();
    return this.fault;
  }

  // Replays the changes up to a version in a world, and yields the progress, from a half on. Returns true if all of
  // them are legal.
  *follow(realm, version) {
    const { changes } = this.history, began = realm.version;
    while (realm.version < version) {
      if (!realm.actUntil(Math.min(version, realm.version + STEP), changes)) return false;
      yield (1 + (realm.version - began) / (version - began)) / 2;
    }
    return true;
  }

  // Returns the world of a version of this history.
  *realm(version) {
    if (version === this.last.version) return this.last;
    if (version < this.past.version) this.past = new Realm();
    yield* this.follow(this.past, version);
    return this.past;
  }

  // Returns the finding on a certificate's text.
  *judge(text) {
    if (this.fault) return finding(`unreadable: ${this.fault}`);
    const { certificate, fault } = yield* new CertificateReader(text).read();
    if (!certificate) return finding(`unreadable: proof line ${fault}`);
    const { version } = certificate, says = replyOf(certificate);
    if (version > this.history.changes.length) return finding(`refused: version ${version}`, { version, says });
    const doubt = yield* doubtOf(yield* this.realm(version), certificate);
    return finding(doubt ? `refused: ${doubt}` : "accepted", { version, says });
  }
}

// The checker that the page calls. Each call waits for the one before.
class Checker {
  constructor() {
    this.verdicts = new Verdicts();
    this.before = Promise.resolve();
  }

  // The number of changes of the history.
  get count() {
    return this.verdicts.history.changes.length;
  }

  inTurn(steps, progress) {
    const done = this.before.then(() => inSlices(steps, progress));
    this.before = done.catch(() => undefined);
    return done;
  }

  // Reads a history's text in place of the last one. Returns { count }, or the finding if it cannot be read.
  async history(text, progress) {
    const fault = await this.inTurn(this.verdicts.take(text), progress);
    return fault ? finding(`unreadable: ${fault}`) : { count: this.count };
  }

  // Returns the finding on a certificate's text: { verdict, text, version, says }; `says` is the reply that it proves.
  check(proof, progress) {
    return this.inTurn(this.verdicts.judge(proof), progress);
  }

  // Returns the finding on each certificate of a record, by the history of the record.
  async judgeRecord(text, progress) {
    const { history, proofs } = parts(text), own = new Checker(), found = [];
    const { verdict, text: line } = await own.history(history, progress);
    if (verdict) return [{ verdict, text: line }];
    for (const proof of proofs) found.push(await own.check(proof, progress));
    return found;
  }
}

// Returns what a certificate's text claims, unchecked: { version, says }; undefined if it cannot be read.
function statement(proof) {
  const { certificate } = atOnce(new CertificateReader(proof).read());
  return certificate && { version: certificate.version, says: replyOf(certificate) };
}

// Returns the objects of a history's world with their first names: { number, name, isRoom, isExit, from, to, place }.
// Returns undefined if the text is no whole history, or a change of it is illegal.
function told(text) {
  const realm = new Realm(), names = new Map();
  let isLegal = true;
  const fault = atOnce(new History((change, said) => {
    const first = change.kind === "rename" ? change.object : realm.next;
    isLegal &&= realm.act(change);
    said.forEach((one, at) => names.set(first + at, one.split(",")[0]));
  }).read(text));
  if (fault || !isLegal) return undefined;
  const { kind, from, to, place } = realm;
  return [...kind.keys()].filter((number) => kind[number]).map((number) => ({ number, name: names.get(number),
    isRoom: kind[number] === ROOM, isExit: kind[number] === EXIT, from: from[number], to: to[number],
    place: place[number] }));
}

// ---- records: a history's text followed by certificates

// Returns the length of a text up to the end of the first line of this kind, or of the whole text without one.
function lengthTo(text, isLast) {
  const lines = new Lines(text);
  for (let line = lines.next(); line !== undefined; line = lines.next()) if (isLast(line)) return lines.at;
  return text.length;
}

// Splits a text that the checker reads as one: the history, and the rest.
function halvesOf(text) {
  const end = lengthTo(text, (line) => line.startsWith("end "));
  return { history: text.slice(0, end), rest: text.slice(end) };
}

// Splits a record: its history, and each of its certificates.
function parts(text) {
  const { history, rest } = halvesOf(text), proofs = [];
  for (let at = 0; at < rest.length || proofs.length === 0; at += proofs.at(-1).length)
    proofs.push(rest.slice(at, at + lengthTo(rest.slice(at), (line) => line === "end")));
  return { history, proofs };
}

function record(history, proofs) {
  return history + proofs.join("");
}
