// Updates the world from the server's answers. SAID has the patterns of the server's lines, and WORDS the words of
// typed lines, by the names of their rows in texts.json.

// Returns the rest of a line after this verb; undefined if the line has another verb.
function behind(verb, line = "") {
  const [, first, rest] = line.match(/^(\S*) *([^]*)$/);
  return WORDS[verb].includes(first.toLowerCase()) ? rest : undefined;
}

// Returns the texts before and after the first preposition `to`. Without one the second text is empty.
function aroundTo(text = "") {
  const [first, ...rest] = text.split(new RegExp(` (${WORDS.to.join("|")}) `, "i"));
  return [first, rest.slice(1).join(" ")];
}

// Reads a list such as `north #3, south #4`. Returns pairs [number, name].
function listed(text) {
  return text.split(WORDS.comma[0]).map((one) => one.match(SAID.named)).filter(Boolean)
    .map(([, name, number]) => [Number(number), name]);
}

// Returns the first of some names, without quotes; undefined if it is empty.
function firstName(text = "") {
  const name = text.replace(/"/g, "").split(",")[0].trim();
  return name === "" ? undefined : name;
}

// Returns true for a refusal. No other text of docs/COMMANDS.md ends as a refusal does.
function isRefusal(lines) {
  return lines.length === 1 && SAID.refused.test(lines[0]);
}

function isLook(line) {
  return behind("look", line) === "";
}

// Returns the name of the row that the first line of a reply matches; undefined if the page reads no such reply. A room
// may be named `welcome`, so the answer to a look is matched with its own row alone.
function headOf({ kind, line, lines: [text] }) {
  const heads = behind("look", line) === undefined ? Object.keys(READERS) : ["named"];
  return kind === "reply" ? heads.find((name) => SAID[name].test(text)) : undefined;
}

function readLook(world, [, number], line, lines) {
  const [, name] = lines[0].match(SAID.named), isHere = isLook(line);
  const further = (row) => lines.slice(1).map((one) => one.match(SAID[row])).find(Boolean);
  const exits = further("exits"), contents = further("contents"), way = further("leads");
  if (contents) for (const [thing, called] of listed(contents[1])) world.thing(thing, called);
  if (way) world.exit(number, { name, from: Number(way[1]), to: Number(way[2]) });
  if (isHere) world.arrive(number);
  if (isHere || exits || world.rooms.has(number)) readRoom(world, number, name, exits ? listed(exits[1]) : []);
  else if (!way) world.thing(number, name);
}

// Sets a room and all of its exits. Exits that were known and are not listed are removed.
function readRoom(world, number, name, exits) {
  world.room(number, name);
  const now = new Map(exits);
  for (const exit of world.exitsOf(number)) if (!now.has(exit)) world.forget(exit);
  for (const [exit, called] of now) world.exit(exit, { name: called, from: number });
}

function readDug(world, _, line, [text]) {
  const [doors, named] = aroundTo(behind("dig", line)), [out, back] = doors.split("|").map(firstName);
  const made = text.match(SAID.dug)[1].split(WORDS.comma[0]);
  const [room, exit, other] = ["newRoom", "newExit", "newBack"].map((row) =>
    made.map((one) => one.match(SAID[row])?.[1]).find(Boolean)).map((one) => one && Number(one));
  const old = named.match(/^"?#(\d{1,9})"?$/), to = room ?? (old ? Number(old[1]) : undefined);
  if (room) world.room(to, firstName(named || doors));
  if (exit) world.exit(exit, { name: out, from: world.here, to });
  if (other) world.exit(other, { name: back, from: to, to: world.here });
}

function readWalk(world, [exit, to]) {
  world.exit(exit, world.here === undefined ? { to, locked: false } : { from: world.here, to, locked: false });
  const isNext = world.route[world.walked] === exit;
  world.arrive(to);
  if (isNext) world.walked += 1;
}

// Marks the exit of a refused walk as locked; the lock may be that of the room behind it.
function readLocked(world, _, line) {
  const exit = world.exitNamed(behind("go", line) ?? line, behind("go", line) === undefined);
  if (exit !== undefined) world.exit(exit, { locked: true });
}

function readRenamed(world, [number], line) {
  const name = firstName(aroundTo(behind("rename", line))[1]);
  if (name === undefined) return;
  if (world.rooms.has(number)) world.room(number, name);
  if (world.exits.has(number)) world.exit(number, { name });
  if (world.things.has(number)) world.thing(number, name);
}

// Returns the exits of a route's answer, in order.
function exitsOnWay(text) {
  return [...(text.match(SAID.route)?.[4] ?? "").matchAll(/#(\d+)/g)].map(([, exit]) => Number(exit));
}

function readMade(world, [number], line) {
  const name = firstName(behind("create", line));
  if (name !== undefined) world.thing(number, name);
}

function readHeld(world, _, line, [text]) {
  for (const [thing, name] of listed(text.match(SAID.held)[1])) world.thing(thing, name);
}

// Replaces all rooms and exits by those of a history, and moves the player to the room that it has for them.
function readHistory(world, _, line, lines) {
  const objects = checker.told(lines.slice(1).join("\n") + "\n"), { me, visited, route } = world;
  if (!objects) return;
  const locked = [...world.exits.keys()].filter((exit) => world.exits.get(exit).locked);
  for (const kept of [world.rooms, world.exits, world.ties]) kept.clear();
  for (const { number, name, isRoom, isExit, from, to } of objects)
    if (isRoom) world.room(number, name ?? WORDS.hall[0]);
    else if (isExit) world.exit(number, { name, from, to });
    else if (name) world.thing(number, name);
  for (const exit of locked) if (world.exits.has(exit)) world.exit(exit, { locked: true });
  for (const room of visited) if (!world.rooms.has(room)) visited.delete(room);
  const here = objects.find(({ number }) => number === me)?.place ?? world.here;
  if (here !== undefined) world.arrive(here);
  if (route.some((exit) => !world.exits.has(exit))) world.plan([]);
}

// The rows that the first line of a reply may match, with their readers. A reader gets the world, the numbers of the
// first line, the typed line, and all lines of the answer.
const READERS = {
  welcome: (world, [me]) => Object.assign(world, { me, here: undefined }),
  walked: readWalk, dug: readDug, made: readMade, renamed: readRenamed, locked: readLocked, held: readHeld,
  recycled: (world, [number]) => world.forget(number),
  unlocked: (world, [number]) => world.exits.has(number) && world.exit(number, { locked: false }),
  route: (world, _, line, [text]) => world.plan(exitsOnWay(text)), noWay: (world) => world.plan([]),
  history: readHistory, meeting() {}, proof() {}, bye() {},
};

// Updates the world from a whole answer.
function readAnswer(world, entry) {
  const { line, lines } = entry, head = headOf(entry);
  if (head) (READERS[head] ?? readLook)(world, lines[0].match(SAID[head]).slice(1).map(Number), line, lines);
}

// Remembers the name of the player whom a notice is about.
function readNotice(world, text) {
  const heard = text.match(SAID.heard);
  if (heard) world.heard(heard.slice(1).find(Boolean));
}
