// The text of a certificate: docs/CERTIFICATES.md.

const MOST_COUNT = 999999999, MOST_MEMBERS = 8;

// A certificate is { form, version, members, room, cost, isMeeting }. A member is { player, from, labels, walk }:
// labels are [room, cost, exits] with ascending rooms, and the walk is a list of exits, undefined for `walk none`.
// `room` is undefined if there is no meeting, and `cost` if there is no way.
class CertificateReader {
  constructor(text) {
    this.lines = new Lines(text);
    this.line = undefined; // A cursor in the current line.
    this.wanted = 0; // The number of that line.
    this.certificate = { form: 0, version: 0, members: [], room: undefined, cost: undefined, isMeeting: false };
  }

  // Reads the text, and yields between lines and within long ones. Returns { certificate }, or { fault } with the
  // number of the bad line.
  *read() {
    const { certificate, lines } = this, bad = () => ({ fault: this.wanted });
    if (!this.begin("mud proof ")) return bad();
    certificate.form = this.lastNumber(2);
    if (!certificate.form || !this.begin("version ")) return bad();
    certificate.version = this.lastNumber(MOST_COUNT);
    if (certificate.version === undefined) return bad();
    for (this.begin(); this.line?.take("member "); this.begin()) {
      if (!this.readMember() || !(yield* this.readLabels()) || !(yield* this.readWalk())) return bad();
    }
    if (!this.isConclusion() || !this.begin("end") || !this.line.isAtEnd) return bad();
    return lines.isAtEnd ? { certificate } : { fault: lines.count + 1 };
  }

  // Goes to the next line. Returns true if it begins with this word.
  begin(word = "") {
    this.wanted = this.lines.count + 1;
    this.line = this.lines.take();
    return this.line !== undefined && this.line.take(word);
  }

  // Reads the number that ends the line; undefined if more follows.
  lastNumber(most) {
    const number = this.line.number(most);
    return this.line.isAtEnd ? number : undefined;
  }

  // Reads the rest of a member's first line. Returns true if it can be read.
  readMember() {
    const { members } = this.certificate, { line } = this;
    const player = line.sharp(), from = line.take(" from ") ? line.sharp() : undefined;
    if (player === undefined || from === undefined || !line.isAtEnd) return false;
    return members.push({ player, from, labels: [], walk: [] }) <= MOST_MEMBERS;
  }

  // Reads the line of a member's labels. Returns true if it can be read.
  *readLabels() {
    if (!this.begin("labels")) return false;
    const { line, certificate } = this, { labels } = certificate.members.at(-1);
    for (let before = -1; line.take(" "); ) {
      const room = line.sharp(), cost = line.take(":") ? line.number(MOST_COUNT) : undefined;
      const exits = certificate.form === 1 ? 0 : line.take("/") ? line.number(MOST_COUNT) : undefined;
      if (cost === undefined || exits === undefined || !(room > before)) return false;
      labels.push([room, cost, exits]);
      before = room;
      if (labels.length % 1024 === 0) yield 1;
    }
    yield 1;
    return line.isAtEnd;
  }

  // Reads the line of a member's walk. Returns true if it can be read.
  *readWalk() {
    if (!this.begin("walk")) return false;
    const { line } = this, member = this.certificate.members.at(-1);
    if (line.take(" nothing")) return line.isAtEnd;
    if (line.take(" none")) {
      member.walk = undefined;
      return line.isAtEnd;
    }
    while (line.take(" ")) {
      const exit = line.sharp();
      if (exit === undefined) return false;
      if (member.walk.push(exit) % 1024 === 0) yield 1;
    }
    yield 1;
    return line.isAtEnd && member.walk.length > 0;
  }

  // Reads the conclusion. Returns true if it can be read, and fits the number of members.
  isConclusion() {
    const { certificate, line } = this, count = certificate.members.length;
    if (!line || count === 0) return false;
    certificate.isMeeting = count > 1;
    if (count > 1 && line.take("meet none")) return line.isAtEnd;
    certificate.room = line.take(count > 1 ? "meet " : "route ") ? line.sharp() : undefined;
    if (certificate.room === undefined) return false;
    if (count === 1 && line.take(" no way")) return line.isAtEnd;
    certificate.cost = line.take(" cost ") ? this.lastNumber(MOST_COUNT) : undefined;
    return certificate.cost !== undefined;
  }
}

// Returns the reply that a certificate proves, as docs/GUIDE.md spells it.
function replyOf({ members, room, cost, isMeeting }) {
  const sharps = (numbers) => numbers.map((number) => `#${number}`).join(" ");
  const way = ({ from, walk }, to, price) => `#${from}${to} cost ${price} by ${sharps(walk ?? []) || "nothing"}`;
  if (!isMeeting) {
    const to = ` to #${room}`;
    return cost === undefined ? `route #${members[0].from}${to} no way` : `route ${way(members[0], to, cost)}`;
  }
  const party = `meet ${sharps(members.map(({ player }) => player))}`;
  if (room === undefined) return `${party} no meeting`;
  const price = ({ labels }) => labels.find(([labelled]) => labelled === room)?.[1];
  const lines = members.map((member) => `  #${member.player} from ${way(member, "", price(member))}`);
  return [`${party} at #${room} cost ${cost}`, ...lines].join("\n");
}
