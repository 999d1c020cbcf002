// The hands: which line an exit's button sends, how a route is walked, and what Tab and the arrow keys give.
import assert from "node:assert/strict";
import { test } from "node:test";
import { logic } from "./loaded.mjs";
import { after, tell } from "./talk.mjs";

const VERBS = logic.verbsOf(logic.COMMANDS);
const HALL = ["look", "[4] The Hall #0", "  contents brass key #12, Ann #9, Brass Band #13",
  "  exits north #3, look #5, north #7, the gate #8, a\\b #10"];

test("an exit is walked by its name where that means only it, and else by its number", () => {
  const { world } = after(HALL);
  const lines = [3, 5, 7, 8, 10].map((exit) => logic.lineFor(world, exit, VERBS));
  assert.deepEqual(lines, ["go #3", "go #5", "go #7", "the gate", "go #10"]);
});

// A player in #0 who asked the way to #4, which is 3 and 5; and his trip.
function onTheWay() {
  const talk = after(["look", "[4] The Hall #0", "  exits north #3"]);
  const [entry] = tell(talk, "route to #4", "[4] route #0 to #4 cost 2 by #3 #5");
  return { talk, trip: new logic.Trip(entry) };
}

test("a route is walked exit by exit, to its end", () => {
  const { talk, trip } = onTheWay(), { world } = talk;
  assert.equal(trip.next(world), 3);
  const [first] = tell(talk, "go #3", "[5] went by #3 to #2");
  assert.equal(trip.stepped(world, first), undefined);
  assert.equal(trip.next(world), 5);
  tell(talk, "go #5", "[6] went by #5 to #4");
  assert.deepEqual([trip.next(world), trip.isThere(world)], [undefined, true]);
});

test("at one go each step is sent when the one before has succeeded, and none after a refusal", () => {
  const { talk, trip } = onTheWay(), { world } = talk;
  trip.isRunning = true;
  const [first] = tell(talk, "go #3", "[5] went by #3 to #2");
  assert.equal(trip.stepped(world, first), 5);
  const [second] = tell(talk, "go #5", "[5] That exit is locked.");
  assert.equal(trip.stepped(world, second), undefined);
  assert.deepEqual([trip.isRunning, trip.fault], [false, "That exit is locked."]);
  trip.isRunning = true;
  assert.equal(trip.stepped(world, undefined), undefined);
  assert.equal(trip.isRunning, false);
});

test("who leaves the way has no next exit of it", () => {
  const { talk, trip } = onTheWay();
  tell(talk, "south", "[5] went by #9 to #6");
  assert.deepEqual([trip.next(talk.world), trip.isThere(talk.world)], [undefined, false]);
});

test("a way that there is not has no steps", () => {
  const talk = after(["look", "[4] The Hall #0"]), [entry] = tell(talk, "route to #4", "[4] route #0 to #4 no way");
  const trip = new logic.Trip(entry);
  assert.deepEqual([trip.next(talk.world), trip.isNoWay, trip.isThere(talk.world)], [undefined, true, false]);
});

test("Tab completes commands, exits, things, players and rooms that were told", () => {
  const talk = after(HALL, ["@dig west to Old Library", "[5] dug room #20, exit #21"]);
  talk.take('(6) Bobby says, "hi"\r\n');
  const found = (text) => logic.completions(talk.world, VERBS, text);
  assert.deepEqual(found("inv"), ["inventory"]);
  assert.deepEqual(found("the"), ["the gate"]);
  assert.deepEqual(found("take bras"), ["take Brass Band", "take brass key"]);
  assert.deepEqual(found("take brass k"), ["take brass key"]);
  assert.deepEqual(found("route to old l"), ["route to Old Library"]);
  assert.deepEqual(found("meet Ann, bob"), ["meet Ann, Bobby"]);
  assert.deepEqual(found("go th"), ["go the gate"]);
  assert.deepEqual([found("zzz"), found(""), found("take x\u2028")], [[], [], []]);
});

test("the arrow keys go through the lines that begin as what was typed", () => {
  const earlier = new logic.Earlier();
  for (const line of ["look", "say one", "north", "say two"]) earlier.add(line);
  const all = [earlier.move(-1, ""), earlier.move(-1, "say two"), earlier.move(1, "north")];
  assert.deepEqual(all, ["say two", "north", "say two"]);
  earlier.rest();
  const said = [earlier.move(-1, "say"), earlier.move(-1, "say two"), earlier.move(-1, "say one")];
  assert.deepEqual(said, ["say two", "say one", undefined]);
  assert.deepEqual([earlier.move(1, "say one"), earlier.move(1, "say two")], ["say two", "say"]);
});
