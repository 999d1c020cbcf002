// What is drawn of the map: labels that overlap nothing, letters that fit, and no more than a bound.
import assert from "node:assert/strict";
import { test } from "node:test";
import { logic, seeded } from "./loaded.mjs";

const NAMES = ["north", "south", "east", "west", "up", "down", "nw", "a rather long name of an exit", "n", "door"];
const LETTERS = 12 * 0.6; // How wide a letter of 12 pixels of a typewriter's face is.

// A world of some rooms and exits at random, by a seed.
function world(seed, roomCount, exitCount) {
  const below = seeded(seed), made = new logic.World();
  for (let room = 0; room < roomCount; room += 1)
    made.room(room * 2, below(5) ? `Room number ${room} of a long name` : undefined);
  for (let exit = 0; exit < exitCount; exit += 1) {
    const to = below(6) ? below(roomCount) * 2 : undefined, from = below(roomCount) * 2;
    made.exit(exit * 2 + 1, { name: NAMES[below(NAMES.length)], from, to, locked: below(4) === 0 });
  }
  made.arrive(below(roomCount) * 2);
  made.plan([1, 3]);
  return made;
}

function drawn(made, view = {}) {
  const layout = new logic.Layout();
  while (!layout.update(made));
  const { sheet, x, y, z } = layout.cell(made.here);
  return new logic.Picture(made, layout, { sheet, floor: z, x, y, scale: 1, wide: 1200, tall: 900, ...view });
}

// A world of these exits, each as [number, name, from, to].
function worldOf(exits, here = 0) {
  const made = new logic.World();
  for (const [number, name, from, to] of exits) made.exit(number, { name, from, to });
  made.arrive(here);
  return made;
}

test("no label overlaps a room or another label, whatever the world and the scale", () => {
  for (let seed = 1; seed <= 80; seed += 1) {
    const { boxes, labels } = drawn(world(seed, 1 + seed % 40, seed % 90), { scale: 0.7 + (seed % 4) / 3 });
    const all = [...boxes, ...labels];
    for (const label of labels)
      assert.ok(!all.some((other) => other !== label && logic.overlap(label, other)), `world ${seed}: ${label.text}`);
  }
});

test("letters fit into their boxes, and a box that is too small has none", () => {
  for (const scale of [2, 1, 0.8, 0.5, 0.3, 0.1])
    for (const { lines, wide, tall } of drawn(world(4, 40, 60), { scale }).boxes) {
      for (const line of lines) assert.ok(line.length * LETTERS <= wide, `${line} at ${scale}`);
      assert.ok(lines.length * 12 <= tall, `${lines} at ${scale}`);
    }
});

test("each exit of a small world is drawn with its label, near where it begins", () => {
  const told = [[3, "north", 0, 2], [4, "south", 2, 0], [6, "east", 0, 5], [7, "west", 5, 0], [9, "down", 0, 8],
    [11, "gap", 5, 2], [12, "loop", 2, 2], [13, "gate", 5, undefined]];
  const { boxes, labels, ways } = drawn(worldOf(told)), place = (room) => boxes.find((box) => box.room === room);
  const labelled = new Set(labels.flatMap(({ exits }) => exits));
  assert.deepEqual([...labelled].sort((a, b) => a - b), told.map(([number]) => number));
  assert.ok(place(2).y < place(0).y && place(5).x > place(0).x && !place(8));
  for (const { exits: [number], x, y, wide, tall } of labels) {
    const { middle } = place(told.find(([exit]) => exit === number)[2]);
    const near = Math.hypot(Math.max(0, Math.abs(x + wide / 2 - middle[0]) - wide / 2),
      Math.max(0, Math.abs(y + tall / 2 - middle[1]) - tall / 2));
    assert.ok(near < logic.CELL.wide * 0.6, `exit ${number} has its label ${near} away`);
  }
  assert.equal(ways.filter(({ arrow }) => arrow !== undefined).length, 1);
  assert.deepEqual(place(0).marks.map(({ isUp, isKnown }) => [isUp, isKnown]), [[false, true]]);
});

test("a way bows round a room that lies between its ends", () => {
  const { ways } = drawn(worldOf([[1, "east", 0, 2], [3, "east", 2, 4], [5, "past", 0, 4]]));
  const bent = ways.filter(({ bend }) => bend).flatMap(({ exits }) => exits);
  assert.deepEqual([ways.length, bent], [3, [5]]);
});

test("rooms that were seen, heard of, locked, and the player's own are told apart", () => {
  const made = worldOf([[1, "east", 0, 2], [3, "north", 0, 4], [5, "west", 0, 6]]);
  made.exit(3, { locked: true });
  made.arrive(2);
  const { boxes } = drawn(made);
  assert.deepEqual(Object.fromEntries(boxes.map(({ room, kind }) => [room, kind])),
    { 0: "seen", 2: "here", 4: "locked", 6: "heard" });
});

test("the part of a route that was walked is drawn apart from what is left", () => {
  const made = worldOf([[1, "east", 0, 2], [3, "north", 2, 4]]);
  made.plan([1, 3]);
  made.walked = 1;
  const { ways } = drawn(made);
  assert.deepEqual(ways.map(({ isRoute, isWalked }) => [isRoute, isWalked]), [[false, true], [true, false]]);
});

// A street of so many streets.
function city(wide, tall) {
  const exits = [];
  for (let room = 0; room < wide * tall; room += 1) {
    if (room % wide) exits.push([20000 + room, "west", room, room - 1]);
    if (room >= wide) exits.push([40000 + room, "north", room, room - wide]);
  }
  return worldOf(exits, 777);
}

test("what is drawn has a bound, and says where it is not all", () => {
  const all = worldOf(Array.from({ length: 8100 }, (_, at) => [20000 + at, `way ${at}`, Math.floor(at / 90), at % 90]));
  for (const [made, scale] of [[city(60, 50), 0.08], [world(7, 150, 8000), 1], [world(7, 1, 8000), 1], [all, 0.3]]) {
    const found = drawn(made, { scale, wide: 4000, tall: 3000 });
    assert.ok(found.boxes.length <= logic.MOST_ROOMS && found.ways.length <= logic.MOST_WAYS);
    assert.ok(found.labels.length <= logic.MOST_LABELS);
    assert.ok(found.boxes.some(({ kind }) => kind === "here"));
    if (scale < 1) assert.equal(found.isWhole, false);
  }
  assert.equal(drawn(world(7, 20, 40), { wide: 8000, tall: 8000 }).isWhole, true);
});

test("the same stands in the list", () => {
  const made = worldOf([[3, "north", 0, 2], [4, "south", 2, 0], [5, "out", 2, undefined]]);
  made.room(0, "The Hall");
  made.exit(3, { locked: true });
  made.plan([4]);
  assert.deepEqual(logic.listOf(made), [
    { room: 0, text: "The Hall #0, you are here: north to #2 (locked)" },
    { room: 2, text: "a room #2, locked: south to #0 (on the route), out" },
  ]);
  assert.equal(logic.listOf(world(3, 900, 0)).length, 500);
  const [{ text }] = logic.listOf(world(3, 1, 4000));
  assert.ok(text.length < 3000 && / and \d+ more$/.test(text));
});

test("a way may have any name, also one that every object of the language has", () => {
  for (const name of ["constructor", "__proto__", "toString", "hasOwnProperty"]) {
    const { boxes, ways } = drawn(worldOf([[3, name, 0, 2], [4, name, 2, undefined]]));
    assert.deepEqual([boxes.length, ways.length], [2, 2], name);
  }
});
