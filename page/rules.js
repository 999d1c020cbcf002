// The world that a history leads to: docs/WORLD.md. An illegal change is not made.

const ROOM = 1, EXIT = 2, THING = 3, PLAYER = 4;
const HALL = 0, WIZARD = 1, NOWHERE = -1, MOST_NESTING = 3;
const IS_SO = 1, IS_NOT_SO = 2; // What a judge found; 0 where it was not asked yet.

class Realm {
  constructor() {
    const numbers = () => new Int16Array(MOST_NUMBER + 1).fill(NOWHERE);
    this.version = 0;
    this.next = 0;
    this.kind = new Uint8Array(MOST_NUMBER + 1); // 0 for a number without an object.
    [this.owner, this.place, this.from, this.to, this.price] = [numbers(), numbers(), numbers(), numbers(), numbers()];
    this.uses = new Uint16Array(MOST_NUMBER + 1); // The number of objects in it, and of ends of exits at it.
    this.keys = new Map(); // Object to its key.
    this.askers = new Map(); // Object to the objects whose keys ask it.
    this.names = new Map(); // Player to its names, in lower case.
    this.named = new Map(); // Name to its player.
    this.add(ROOM, WIZARD);
    this.add(PLAYER, WIZARD);
    this.put(WIZARD, HALL);
    this.call(WIZARD, "Wizard");
  }

  // Makes a change if it is legal. Returns true if it was made.
  act(change) {
    if (change.kind !== "player" && this.kind[change.actor] !== PLAYER) return false;
    if (!this[change.kind](change)) return false;
    this.version += 1;
    return true;
  }

  // Makes the changes of a list up to a version. Returns true if all of them are legal.
  actUntil(version, changes) {
    while (this.version < version) if (!this.act(changes[this.version])) return false;
    return true;
  }

  // ---- small steps

  add(kind, owner) {
    this.kind[this.next] = kind;
    this.owner[this.next] = owner;
    return this.next++;
  }

  makeExit(owner, from, to) {
    const exit = this.add(EXIT, owner);
    [this.from[exit], this.to[exit], this.price[exit]] = [from, to, 1];
    this.uses[from] += 1;
    this.uses[to] += 1;
  }

  put(object, place) {
    if (this.place[object] !== NOWHERE) this.uses[this.place[object]] -= 1;
    this.place[object] = place;
    this.uses[place] += 1;
  }

  call(player, text) {
    for (const name of this.names.get(player) ?? []) this.named.delete(name);
    this.names.set(player, text.toLowerCase().split(","));
    for (const name of this.names.get(player)) this.named.set(name, player);
  }

  hasRoomFor(count) {
    return this.next + count <= MOST_NUMBER + 1;
  }

  isFree(names, player) {
    return names.toLowerCase().split(",").every((name) => (this.named.get(name) ?? player) === player);
  }

  owns(actor, object) {
    return actor === WIZARD || this.owner[object] === actor;
  }

  isOwnObject({ actor, object }) {
    return this.kind[object] !== 0 && this.kind[object] !== PLAYER && this.owns(actor, object);
  }

  isUnlocked(object, candidate) {
    return !this.keys.has(object) || new Judge(this, candidate).isUnlocked(object);
  }

  // ---- keys

  setKey(object, key) {
    for (const asked of this.keys.get(object)?.asked ?? []) this.askers.get(asked).delete(object);
    this.keys.delete(object);
    if (!key) return;
    this.keys.set(object, key);
    for (const asked of key.asked) {
      if (!this.askers.has(asked)) this.askers.set(asked, new Set());
      this.askers.get(asked).add(object);
    }
  }

  // Returns the length of the longest chain of questions from some objects, where `further` gives the objects that one
  // asks. Counting stops one above the limit.
  depth(objects, further) {
    let count = 0;
    for (let level = new Set(objects); level.size && count <= MOST_NESTING; count += 1)
      level = new Set([...level].flatMap((object) => [...(further(object) ?? [])]));
    return count;
  }

  // Returns true if all keys nest within the limit when the object has this key. A cycle exceeds any limit.
  nests(object, key) {
    const down = this.depth(key.asked, (one) => (one === object ? key : this.keys.get(one))?.asked);
    if (down === 0) return true;
    return down + this.depth(this.askers.get(object) ?? [], (one) => this.askers.get(one)) <= MOST_NESTING;
  }

  // ---- the kinds of changes

  dig({ actor, to, hasOut, hasBack }) {
    const isNew = to === undefined;
    if (!isNew && this.kind[to] !== ROOM) return false;
    if (!this.hasRoomFor(isNew + hasOut + hasBack)) return false;
    const here = this.place[actor], there = isNew ? this.add(ROOM, actor) : to;
    if (hasOut) this.makeExit(actor, here, there);
    if (hasBack) this.makeExit(actor, there, here);
    return true;
  }

  make({ actor }) {
    if (!this.hasRoomFor(1)) return false;
    this.put(this.add(THING, actor), actor);
    return true;
  }

  player({ actor, names }) {
    if (actor !== this.next || !this.hasRoomFor(1) || !this.isFree(names, actor)) return false;
    this.put(this.add(PLAYER, actor), HALL);
    this.call(actor, names);
    return true;
  }

  lock(change) {
    const { object, key } = change;
    if (!this.isOwnObject(change) || !key.objects.every((one) => this.kind[one] !== 0)) return false;
    if (!this.nests(object, key)) return false;
    this.setKey(object, key);
    return true;
  }

  unlock(change) {
    if (!this.isOwnObject(change)) return false;
    this.setKey(change.object, undefined);
    return true;
  }

  // Returns the room or the player that holds a thing, through other things.
  holder(thing) {
    let at = thing;
    while (this.kind[at] === THING) at = this.place[at];
    return at;
  }

  isInReach(actor, thing) {
    const holder = this.holder(thing);
    return holder === actor || holder === this.place[actor];
  }

  isPlaceFor(actor, to) {
    if (to === actor || to === this.place[actor]) return true;
    if (this.kind[to] === PLAYER) return this.place[to] === this.place[actor];
    return this.kind[to] === THING && this.isInReach(actor, to);
  }

  isWithin(object, thing) {
    let at = object;
    while (at !== NOWHERE && at !== thing) at = this.place[at];
    return at === thing;
  }

  move({ actor, object, to }) {
    if (this.kind[object] !== THING || !this.isInReach(actor, object) || this.place[object] === to) return false;
    if (!this.isPlaceFor(actor, to) || this.isWithin(to, object)) return false;
    if (!this.isUnlocked(to, object) || !this.isUnlocked(object, to)) return false;
    this.put(object, to);
    return true;
  }

  walk({ actor, object }) {
    if (this.kind[object] !== EXIT || this.from[object] !== this.place[actor]) return false;
    if (!this.isUnlocked(object, actor) || !this.isUnlocked(this.to[object], actor)) return false;
    this.put(actor, this.to[object]);
    return true;
  }

  cost({ actor, object, cost }) {
    if (this.kind[object] !== EXIT || !this.owns(actor, object)) return false;
    this.price[object] = cost;
    return true;
  }

  rename({ actor, object, names }) {
    if (this.kind[object] === 0 || !this.owns(actor, object)) return false;
    if (this.kind[object] !== PLAYER) return true;
    if (!this.isFree(names, object)) return false;
    this.call(object, names);
    return true;
  }

  recycle(change) {
    const { object } = change;
    if (!this.isOwnObject(change) || object === HALL || this.uses[object] !== 0) return false;
    if (this.kind[object] === EXIT) for (const end of [this.from[object], this.to[object]]) this.uses[end] -= 1;
    if (this.place[object] !== NOWHERE) this.uses[this.place[object]] -= 1;
    this.setKey(object, undefined);
    this.kind[object] = 0;
    this.place[object] = NOWHERE;
    return true;
  }

  say() {
    return true;
  }

  emote() {
    return true;
  }
}

// What is locked for one candidate, while the world does not change.
class Judge {
  constructor(realm, candidate) {
    this.realm = realm;
    this.candidate = candidate;
    this.within = new Uint8Array(realm.next);
    this.unlocked = new Uint8Array(realm.next);
  }

  // Returns true if the candidate is the object, or contains it at any depth.
  has(object) {
    if (this.realm.kind[object] === 0) return false;
    const passed = [];
    let at = object;
    while (at !== NOWHERE && at !== this.candidate && this.within[at] === 0) {
      passed.push(at);
      at = this.realm.place[at];
    }
    const found = at === this.candidate || this.within[at] === IS_SO;
    for (const one of passed) this.within[one] = found ? IS_SO : IS_NOT_SO;
    return found;
  }

  isUnlocked(object) {
    const { kind, keys } = this.realm;
    if (kind[object] === 0) return false;
    if (this.unlocked[object] === 0) {
      const key = keys.get(object);
      this.unlocked[object] = !key || this.isMet(key.tree) ? IS_SO : IS_NOT_SO;
    }
    return this.unlocked[object] === IS_SO;
  }

  isMet(tree) {
    if (tree.sign === "#") return this.has(tree.object);
    if (tree.sign === "?") return this.isUnlocked(tree.object);
    if (tree.sign === "!") return !this.isMet(tree.of);
    return tree.sign === "&&" ? this.isMet(tree.left) && this.isMet(tree.right)
      : this.isMet(tree.left) || this.isMet(tree.right);
  }

  // Returns true if an exit is open: docs/ROADS.md.
  isOpen(exit) {
    return this.isUnlocked(exit) && this.isUnlocked(this.realm.to[exit]);
  }
}
