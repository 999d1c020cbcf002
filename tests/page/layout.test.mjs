// Where rooms lie on the map: as the names of ways say, and never otherwise than before.
import assert from "node:assert/strict";
import { test } from "node:test";
import { logic, seeded } from "./loaded.mjs";

// The names of ways as a mapmaker has them: north is up on the sheet, `up` leads to the floor above.
const WAYS = { north: [0, -1, 0], south: [0, 1, 0], east: [1, 0, 0], west: [-1, 0, 0], northeast: [1, -1, 0],
  southwest: [-1, 1, 0], northwest: [-1, -1, 0], southeast: [1, 1, 0], up: [0, 0, 1], down: [0, 0, -1] };
const NAMES = Object.keys(WAYS), back = (name) => NAMES[NAMES.indexOf(name) ^ 1];
const LEAST = 0.95; // The share of ways that has to be drawn as they are named.
const MOST_WORK = 4000; // The cells that may be weighed for one frame, which takes some milliseconds.

// The share of the ways with such a name that lead on the map where it says, whatever their length.
function share(world, layout) {
  let all = 0, right = 0;
  for (const { name, from, to } of world.exits.values()) {
    if (!WAYS[name] || to === undefined) continue;
    const a = layout.cell(from), b = layout.cell(to), way = [b.x - a.x, b.y - a.y, b.z - a.z];
    const isFloor = WAYS[name][2] !== 0, seen = isFloor ? [0, 0, Math.sign(way[2])] : way.map(Math.sign);
    const isSlant = !isFloor && way[0] && way[1];
    all += 1;
    const isEven = !isSlant || Math.abs(way[0]) === Math.abs(way[1]);
    if (a.sheet === b.sheet && String(seen) === String(WAYS[name]) && isEven) right += 1;
  }
  return all ? right / all : 1;
}

// How each room lies to the first one of its sheet.
function lies(layout) {
  const firsts = new Map(), found = new Map();
  for (const room of layout.cells.keys()) {
    const cell = layout.cell(room), first = firsts.get(cell.sheet) ?? cell;
    firsts.set(cell.sheet, first);
    found.set(room, { sheet: cell.sheet, at: [cell.x - first.x, cell.y - first.y, cell.z - first.z] });
  }
  return found;
}

// Whether rooms that were on one sheet lie to each other as before.
function assertKept(before, layout, what) {
  const now = lies(layout), anchors = new Map();
  for (const [room, { sheet, at }] of before) {
    if (!now.has(room)) continue;
    const apart = now.get(room).at.map((one, axis) => one - at[axis]).join(" ");
    if (!anchors.has(sheet)) anchors.set(sheet, apart);
    assert.equal(apart, anchors.get(sheet), `${what}: #${room} moved`);
  }
}

// A player goes through these exits, and is told of each as he takes it. The worst share on the way; it is
// looked at after each step that told something.
function explore(exits, steps) {
  const world = new logic.World(), layout = new logic.Layout();
  let worst = 1, before = lies(layout);
  for (const step of steps) {
    const { from, to, name } = exits[step], isNew = !world.exits.has(1000 + step);
    world.arrive(from);
    world.exit(1000 + step, { name, from, to });
    world.arrive(to);
    layout.update(world);
    if (!isNew) continue;
    worst = Math.min(worst, share(world, layout));
    assertKept(before, layout, `step by ${name}`);
    before = lies(layout);
  }
  return { world, layout, worst };
}

// All exits are told at once, as by a history.
function told(exits, world = new logic.World(), layout = new logic.Layout()) {
  world.room(0);
  exits.forEach((exit, at) => world.exit(1000 + at, exit));
  while (!layout.update(world));
  return { world, layout };
}

// A walk at random through exits, from #0, that takes so many steps.
function stroll(exits, count, below) {
  const leaving = new Map(), steps = [];
  exits.forEach(({ from }, at) => leaving.set(from, [...leaving.get(from) ?? [], at]));
  for (let room = 0; steps.length < count && leaving.has(room); room = exits[steps[steps.length - 1]].to)
    steps.push(leaving.get(room)[below(leaving.get(room).length)]);
  return steps;
}

function pair(name, from, to) {
  return [{ name, from, to }, { name: back(name), from: to, to: from }];
}

// A house of thirteen rooms on four floors, with a garden behind a gate, whose name says nothing of where it leads.
const HOUSE = [
  ...pair("north", 0, 1), ...pair("east", 1, 2), ...pair("west", 1, 3), ...pair("up", 1, 4), ...pair("north", 1, 5),
  ...pair("down", 2, 6), ...pair("east", 6, 7), ...pair("north", 4, 8), ...pair("east", 4, 9), ...pair("west", 4, 10),
  ...pair("up", 4, 11), { name: "gate", from: 0, to: 12 }, { name: "path", from: 12, to: 0 },
];

function grid(wide, tall) {
  const exits = [];
  for (let room = 0; room < wide * tall; room += 1) {
    if (room % wide < wide - 1) exits.push(...pair("east", room, room + 1));
    if (room < wide * (tall - 1)) exits.push(...pair("south", room, room + wide));
  }
  return exits;
}

// A tour of 40 rooms, each by a way at random from the one before, of which one in three has a way back.
function tour(seed) {
  const below = seeded(seed), exits = [], steps = [];
  for (let room = 1; room < 40; room += 1) {
    const [there, again] = pair(NAMES[below(NAMES.length)], room - 1, room);
    steps.push(exits.push(there) - 1);
    if (below(3) === 0) exits.push(again);
  }
  return { exits, steps };
}

for (const [what, exits, count] of [["a house of 13 rooms", HOUSE, 400], ["a grid of 200 rooms", grid(20, 10), 2500]])
  test(`${what}: ways lead as they are named while it is explored, and after its history`, () => {
    const found = explore(exits, stroll(exits, count, seeded(5)));
    assert.ok(found.worst >= LEAST, `${found.worst} while exploring`);
    const before = lies(found.layout);
    told(exits, found.world, found.layout);
    assertKept(before, found.layout, "history");
    assert.ok(share(found.world, found.layout) >= LEAST);
    const whole = told(exits);
    assert.ok(share(whole.world, whole.layout) >= LEAST, "the history alone");
    assert.equal(whole.layout.cells.size, new Set(exits.flatMap(({ from, to }) => [from, to])).size);
  });

test("a tour of 40 rooms: the same, for forty tours", () => {
  for (let seed = 1; seed <= 40; seed += 1) {
    const { exits, steps } = tour(seed), found = explore(exits, steps);
    assert.ok(found.worst >= LEAST, `tour ${seed}: ${found.worst}`);
    const whole = told(exits);
    assert.ok(share(whole.world, whole.layout) >= LEAST, `tour ${seed}, history alone`);
  }
});

test("no two rooms have one cell, and #0 is the origin", () => {
  for (const exits of [HOUSE, grid(20, 10), ...[1, 2, 3].map((seed) => tour(seed).exits)]) {
    const { layout } = told(exits), cells = [...layout.cells.keys()].map((room) => layout.cell(room));
    assert.equal(new Set(cells.map(({ x, y, z }) => `${x} ${y} ${z}`)).size, cells.length);
    const { x, y, z } = layout.cell(0);
    assert.deepEqual([x, y, z], [0, 0, 0]);
  }
});

test("a way that leads to a placed room places its room, and two parts that a way joins become one", () => {
  const world = new logic.World(), layout = new logic.Layout();
  const at = (room) => ["x", "y", "z"].map((one) => layout.cell(room)[one]);
  world.arrive(0);
  world.exit(50, { name: "east", from: 7, to: 8 });
  layout.update(world);
  assert.notEqual(layout.cell(7).sheet, layout.cell(0).sheet);
  world.exit(51, { name: "north", from: 8, to: 0 });
  layout.update(world);
  assert.deepEqual([at(0), at(8), at(7)], [[0, 0, 0], [0, 1, 0], [-1, 1, 0]]);
  world.exit(52, { name: "west", from: 9, to: 0 });
  layout.update(world);
  assert.deepEqual(at(9), [1, 0, 0]);
});

test("up and down are floors of their own", () => {
  const ways = [["up", 0, 1], ["northeast", 0, 2], ["down", 0, 3], ["north", 1, 4]];
  const { layout } = told(ways.flatMap((way) => pair(...way)));
  assert.deepEqual([1, 2, 3, 4].map((room) => layout.cell(room).z), [1, 0, -1, 1]);
});

test("what is kept of a layout gives the same one", () => {
  const { layout } = told(HOUSE), again = logic.Layout.from(JSON.parse(JSON.stringify(layout.kept())));
  const places = (one) => [...lies(one)].map(([room, { at }]) => [room, at]);
  assert.deepEqual(places(again), places(layout));
});

// How many cells are weighed until a world has its places: in all, and in one frame at most.
function work(world, layout = new logic.Layout()) {
  const counts = [layout.work];
  for (let isSettled = false; !isSettled; counts.push(layout.work)) isSettled = layout.update(world);
  const frames = counts.slice(1).map((count, at) => count - counts[at]);
  return { all: layout.work - counts[0], most: Math.max(...frames) };
}

// A world of so many rooms and exits at random.
function tangle(rooms, exits, seed) {
  const below = seeded(seed), world = new logic.World();
  for (let room = 0; room < rooms; room += 1) world.room(room);
  for (let exit = 0; exit < exits; exit += 1)
    world.exit(10000 + exit, { name: NAMES[below(10)], from: below(rooms), to: below(rooms) });
  return world;
}

test("the work grows no faster than the world, and that for one frame has a bound", () => {
  assert.ok(work(tangle(800, 3200, 3)).all < 8 * work(tangle(200, 800, 3)).all);
  for (const [rooms, exits] of [[200, 1000], [150, 8000], [1000, 7000], [4000, 4000]])
    assert.ok(work(tangle(rooms, exits, 9)).most < MOST_WORK, `${rooms} rooms, ${exits} exits`);
});

test("many parts that become one at once take no more work for a frame", () => {
  const pairs = Array.from({ length: 1000 }, (_, at) => ({ name: "east", from: 2 * at, to: 2 * at + 1 }));
  const { world, layout } = told(pairs), below = seeded(3);
  pairs.slice(1).forEach(({ from }, at) => world.exit(90000 + at, { name: "gate", from, to: below(from) }));
  assert.ok(work(world, layout).most < MOST_WORK);
  assert.equal(new Set([...layout.cells.values()].map(({ sheet }) => sheet)).size, 1);
});
