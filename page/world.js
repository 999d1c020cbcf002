// What the player knows of the world. Nothing here touches the document. An exit is { name, from, to, locked }; a field
// that is not known is undefined.

const MOST_TYPED = 1000; // The server accepts lines of at most this many characters.
const MOST_NAMES = 2000; // Names of things and players that Tab completes.

// Returns a line as the server reads it: printable ASCII, with tabs as spaces.
function typed(line) {
  return line.replace(/\t/g, " ").replace(/[^ -~]/g, "").slice(0, MOST_TYPED);
}

// Returns the words of a line, joined by single spaces.
function words(line) {
  return line.trim().split(/ +/).join(" ");
}

class World {
  constructor() {
    this.rooms = new Map(); // Room number to name.
    this.exits = new Map(); // Exit number to exit.
    this.ties = new Map(); // Room number to the exits that leave it or lead to it.
    this.visited = new Set(); // The rooms that the player was in.
    this.things = new Map(); // Number of a thing or a player to its name.
    this.people = new Set(); // The names of players that were heard.
    this.me = undefined; // The player's number.
    this.here = undefined; // The number of the player's room.
    this.route = []; // The exits of the last route.
    this.walked = 0; // How many of them the player has walked.
    this.revision = 0; // Increases with each change of what is drawn.
    this.age = 0; // Increases when all of this becomes void.
  }

  // Forgets everything: the server has another world.
  clear() {
    for (const kept of [this.rooms, this.exits, this.ties, this.visited, this.things, this.people]) kept.clear();
    this.plan([]);
    this.age += 1;
  }

  room(number, name) {
    const known = this.rooms.get(number);
    if (this.rooms.has(number) && (name === undefined || name === known)) return;
    this.rooms.set(number, name ?? known);
    this.revision += 1;
  }

  exit(number, told) {
    const known = this.exits.get(number) ?? {}, exit = { ...known, ...told };
    if (this.exits.has(number) && Object.keys(told).every((key) => known[key] === told[key])) return;
    this.untie(number);
    this.exits.set(number, exit);
    for (const room of [exit.from, exit.to]) if (room !== undefined) this.tie(number, room);
    this.revision += 1;
  }

  tie(exit, room) {
    this.room(room);
    if (!this.ties.has(room)) this.ties.set(room, new Set());
    this.ties.get(room).add(exit);
  }

  untie(number) {
    const { from, to } = this.exits.get(number) ?? {};
    this.ties.get(from)?.delete(number);
    this.ties.get(to)?.delete(number);
  }

  // Returns the numbers of the exits that leave a room, in ascending order.
  exitsOf(room) {
    const ties = [...this.ties.get(room) ?? []];
    return ties.filter((exit) => this.exits.get(exit).from === room).sort((a, b) => a - b);
  }

  // Moves the player to a room.
  arrive(room) {
    this.here = room;
    this.room(room);
    this.visited.add(room);
    this.revision += 1;
  }

  // Removes an object, and with a room its exits.
  forget(number) {
    for (const exit of [number, ...this.ties.get(number) ?? []]) {
      this.untie(exit);
      this.exits.delete(exit);
    }
    for (const kept of [this.rooms, this.ties, this.visited, this.things]) kept.delete(number);
    if (this.route.some((exit) => !this.exits.has(exit))) this.plan([]);
    this.revision += 1;
  }

  // Sets the route; the player has walked no exit of it.
  plan(exits) {
    this.route = exits;
    this.walked = 0;
    this.revision += 1;
  }

  // Sets the name of a thing or a player. Above the limit the oldest name is dropped.
  thing(number, name) {
    this.things.set(number, name);
    if (this.things.size > MOST_NAMES) this.things.delete(this.things.keys().next().value);
  }

  heard(name) {
    this.people.add(name);
    if (this.people.size > MOST_NAMES) this.people.delete(this.people.values().next().value);
  }

  // Returns the one exit of this room that a text names: by its number or its name, or by a prefix if not `whole`.
  exitNamed(text, whole) {
    const number = text.match(/^#(\d{1,9})$/);
    if (number) return this.exits.has(Number(number[1])) ? Number(number[1]) : undefined;
    const own = this.exitsOf(this.here).filter((exit) => this.exits.get(exit).name !== undefined);
    const named = (test) => own.filter((exit) => test(this.exits.get(exit).name.toLowerCase()));
    const wanted = text.toLowerCase();
    const same = named((name) => name === wanted);
    const found = same.length || whole ? same : named((name) => name.startsWith(wanted));
    return found.length === 1 ? found[0] : undefined;
  }

  // Returns what the tab keeps of the world; `from` rebuilds the world.
  kept() {
    const { rooms, exits, visited, things, people, me, route, walked } = this;
    return { rooms: [...rooms], exits: [...exits], visited: [...visited], things: [...things], people: [...people], me,
      route, walked };
  }

  static from({ rooms, exits, visited, things, people, me, route, walked }) {
    const world = new World();
    for (const [number, name] of rooms) world.room(number, name ?? undefined);
    for (const [number, exit] of exits) world.exit(number, exit);
    Object.assign(world, { visited: new Set(visited), things: new Map(things), people: new Set(people), me });
    return Object.assign(world, { route, walked });
  }
}
