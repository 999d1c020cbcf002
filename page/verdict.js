// Checks a certificate in the world of its version: the doubts of docs/CERTIFICATES.md, in their order.

// The labels of a member, by room number: the cost, and the number of exits. The cost NOWHERE means no label.
class Labels {
  constructor(labels) {
    this.cost = new Int32Array(MOST_NUMBER + 1).fill(NOWHERE);
    this.exits = new Int32Array(MOST_NUMBER + 1);
    for (const [room, cost, exits] of labels) [this.cost[room], this.exits[room]] = [cost, exits];
  }

  has(room) {
    return this.cost[room] !== NOWHERE;
  }

  is(room, cost, exits) {
    return this.cost[room] === cost && this.exits[room] === exits;
  }

  // Returns true if the room has a label that is at most this one.
  isAtMost(room, cost, exits) {
    if (!this.has(room)) return false;
    return this.cost[room] < cost || (this.cost[room] === cost && this.exits[room] <= exits);
  }
}

// One member of a certificate in a world.
class Doubter {
  constructor(realm, form, { player, from, labels, walk }) {
    Object.assign(this, { realm, player, from, walk, labels: new Labels(labels) });
    this.listed = labels;
    this.step = form === 2 ? 1 : 0; // What one exit adds to the exits of a label.
    this.judge = new Judge(realm, player);
    this.price = 0; // The cost of the walk.
    this.end = from; // The room in which the walk ends.
  }

  // Returns the first of the doubts 1 to 7, or undefined. Yields now and then.
  *doubt(isSecond) {
    const { realm, player, from, labels } = this;
    if (realm.kind[player] !== PLAYER || isSecond) return `no such player #${player}`;
    if (realm.place[player] !== from) return `wrong start #${player}`;
    const isRoom = ([room]) => realm.kind[room] === ROOM;
    if (!labels.is(from, 0, 0) || !this.listed.every(isRoom)) return `start label #${player}`;
    const arc = yield* this.faultyArc();
    if (arc !== undefined) return `arc #${arc} of #${player}`;
    return this.walk && (yield* this.doubtOfWalk());
  }

  *faultyArc() {
    const { realm, labels } = this;
    for (let exit = 0; exit < realm.next; exit += 1) {
      if (exit % 256 === 0) yield 1;
      const room = realm.from[exit], to = realm.to[exit];
      if (realm.kind[exit] !== EXIT || !labels.has(room) || !this.judge.isOpen(exit)) continue;
      if (!labels.isAtMost(to, labels.cost[room] + realm.price[exit], labels.exits[room] + this.step)) return exit;
    }
    return undefined;
  }

  *doubtOfWalk() {
    const { realm, player, walk } = this;
    for (const [at, exit] of walk.entries()) {
      if (realm.kind[exit] !== EXIT || realm.from[exit] !== this.end) return `walk broken at ${at + 1} of #${player}`;
      this.end = realm.to[exit];
      this.price += realm.price[exit];
      if (at % 1024 === 1023) yield 1;
    }
    for (const [at, exit] of walk.entries()) {
      if (!this.judge.isOpen(exit)) return `walk locked at ${at + 1} of #${player}`;
      if (at % 1024 === 1023) yield 1;
    }
    return this.labels.is(this.end, this.price, this.step * walk.length) ? undefined : `walk cost of #${player}`;
  }

  endsIn(room) {
    return this.walk !== undefined && this.end === room;
  }
}

// Returns true if the conclusion agrees with the walks and the labels of the members: doubt 8.
function agrees(realm, { room, cost, isMeeting }, members) {
  const isClaimed = isMeeting ? room !== undefined : cost !== undefined;
  if ((isClaimed || !isMeeting) && realm.kind[room] !== ROOM) return false;
  if (isClaimed && !members.every((member) => member.endsIn(room))) return false;
  if (isClaimed && Math.max(...members.map(({ price }) => price)) !== cost) return false;
  if (!isClaimed && members.some(({ walk }) => walk !== undefined)) return false;
  if (!isMeeting) return isClaimed || !members[0].labels.has(room);
  const common = members[0].listed.map(([number]) => number)
    .filter((number) => members.every(({ labels }) => labels.has(number)));
  const greatest = (number) => Math.max(...members.map(({ labels }) => labels.cost[number]));
  const isBetter = (number) => greatest(number) < cost || (greatest(number) === cost && number < room);
  return isClaimed ? !common.some(isBetter) : common.length === 0;
}

// Returns the first doubt about a certificate, or undefined. Yields now and then.
function* doubtOf(realm, certificate) {
  const members = [], players = new Set();
  for (const member of certificate.members) {
    const doubter = new Doubter(realm, certificate.form, member);
    const doubt = yield* doubter.doubt(players.has(member.player));
    if (doubt) return doubt;
    members.push(doubter);
    players.add(member.player);
    yield 1;
  }
  return agrees(realm, certificate, members) ? undefined : "conclusion";
}
