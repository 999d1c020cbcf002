// The layout of the map: each room has a cell of a grid, in the direction that the names of exits give. A room keeps
// its cell. Nothing here touches the document.
//
// A way is an exit between two rooms. Rooms that ways connect lie on one sheet, which has floors: `up` leads to the
// floor above. A new way between two sheets moves the smaller sheet next to the larger one, all of its rooms by one
// offset. So the rooms of a sheet keep their positions relative to each other.

const LONGEST_STEP = 10; // The letters of the longest direction, `north-east`.
const STRETCH = 16; // The most cells that a straight way spans where nearer cells are taken.
const MOST_WEIGHED = 5; // The most ways that are weighed for the cell of a room.
const PER_WAY = 2; // The cells that are tried for each of them.
const MOST_WORK = 3000; // About the most cells that one update weighs; the next one continues.
const SIDE = 1 << 14, MIDDLE = SIDE / 2; // Cells a row, and floors: more than a world has objects.
const KEPT_WAY = 100, PASSED = 8, BESIDE = 12; // The worth of a way in its direction, and the costs of hiding ways.

// The steps of directions: cells to the east, to the south, up. This is a Map: a plain object also has `constructor`,
// which may be the name of an exit.
const STEPS = new Map(Object.entries({
  north: [0, -1, 0], south: [0, 1, 0], east: [1, 0, 0], west: [-1, 0, 0], northeast: [1, -1, 0], northwest: [-1, -1, 0],
  southeast: [1, 1, 0], southwest: [-1, 1, 0], up: [0, 0, 1], down: [0, 0, -1],
  n: [0, -1, 0], s: [0, 1, 0], e: [1, 0, 0], w: [-1, 0, 0], ne: [1, -1, 0], nw: [-1, -1, 0], se: [1, 1, 0],
  sw: [-1, 1, 0], u: [0, 0, 1], d: [0, 0, -1],
}));

// Returns the step of an exit; undefined if its name is no direction.
function stepOf(exit) {
  const { name } = exit;
  if (name === undefined || name.length > LONGEST_STEP) return undefined;
  return STEPS.get(name) ?? STEPS.get(name.toLowerCase().replace(/^(north|south)[ -](east|west)$/, "$1$2"));
}

// Returns true if an offset lies in the direction of a step.
function isAlong([x, y, z], [dx, dy, dz]) {
  if (dz) return Math.sign(z) === dz;
  return z === 0 && Math.sign(x) === dx && Math.sign(y) === dy && (!dx || !dy || Math.abs(x) === Math.abs(y));
}

// The offsets of the cells around one, nearest first. Diagonal cells precede straight ones, which ways may need.
const AROUND = [];
for (let x = -9; x <= 9; x += 1) for (let y = -9; y <= 9; y += 1) if (x || y) AROUND.push([x, y]);
const askew = ([x, y]) => Math.hypot(x, y) + (x && y ? 0 : 0.9);
AROUND.sort((a, b) => askew(a) - askew(b));

function keyOf(x, y, z) {
  return ((z + MIDDLE) * SIDE + x + MIDDLE) * SIDE + y + MIDDLE;
}

// The rooms of a grid with floors, and the cells that the ways between them cross.
class Sheet {
  constructor() {
    this.rooms = new Map(); // Key of a taken cell to its room.
    this.passed = new Map(); // Key of a cell to the number of ways that cross it.
    this.spent = new Map(); // Cell and step of a way to the number of its candidates that are taken.
    this.right = this.low = 0; // The greatest x and y.
  }

  isFree([x, y, z]) {
    return !this.rooms.has(keyOf(x, y, z));
  }

  put(room, [x, y, z]) {
    this.rooms.set(keyOf(x, y, z), room);
    this.right = Math.max(this.right, x);
    this.low = Math.max(this.low, y);
  }

  // Returns the candidate of this number for the end of a way from a cell, best first. Candidates beyond all rooms are
  // free.
  candidate([x, y, z], step, number) {
    const up = step ? step[2] : 0, straight = !step ? 0 : up ? 1 : STRETCH, far = number + 1;
    if (number < straight) return up ? [x, y, z + up] : [x + step[0] * far, y + step[1] * far, z];
    const round = AROUND[number - straight];
    return round ? [x + round[0], y + round[1], z + up] : [this.right + far - straight - AROUND.length, y, z + up];
  }

  // Returns some free cells for the end of a way from a cell. Cells that were found taken are not tried again.
  some(cell, step) {
    const name = `${cell} ${step}`, found = [];
    for (let number = this.spent.get(name) ?? 0; found.length < PER_WAY; number += 1) {
      const one = this.candidate(cell, step, number);
      if (this.isFree(one)) found.push(one);
      else if (!found.length) this.spent.set(name, number + 1);
    }
    return found;
  }
}

// Returns how many of the cells between two cells of one floor fit, by their keys.
function passed([x, y, z], [x2, y2, z2], fits) {
  const count = z === z2 ? Math.max(Math.abs(x2 - x), Math.abs(y2 - y)) : 0;
  let found = 0;
  if (count > 2 * STRETCH) return found;
  for (let at = 1; at < count; at += 1) {
    const across = x + (x2 - x) * at / count, down = y + (y2 - y) * at / count;
    if (fits(keyOf(Math.round(across), Math.round(down), z))) found += 1;
  }
  return found;
}

class Layout {
  constructor() {
    this.cells = new Map(); // Each room's { sheet, at: [x, y, z] }.
    this.work = 0; // The number of cells weighed so far.
  }

  has(sheet) {
    return [...this.cells.values()].some((cell) => cell.sheet === sheet);
  }

  // Returns the cell of a room. The cell of #0 is the origin of its sheet.
  cell(room) {
    const cell = this.cells.get(room), hall = this.cells.get(0);
    if (!cell) return undefined;
    const [x, y, z] = hall?.sheet === cell.sheet ? hall.at : [0, 0, 0];
    return { sheet: cell.sheet, x: cell.at[0] - x, y: cell.at[1] - y, z: cell.at[2] - z };
  }

  // Places new rooms, and removes those that are gone. Returns true if all rooms are placed: the work of one call is
  // bounded.
  update(world) {
    for (const [room, { sheet, at }] of this.cells) {
      if (world.rooms.has(room)) continue;
      sheet.rooms.delete(keyOf(...at));
      this.cells.delete(room);
    }
    const fresh = [...world.rooms.keys()].filter((room) => !this.cells.has(room)).sort((a, b) => a - b);
    const most = this.work + MOST_WORK;
    this.spread(world, fresh.flatMap((room) => this.neighbours(world, room).filter(({ cell }) => cell)
      .map(({ step }) => ({ other: room, step }))), most);
    for (const room of fresh) {
      if (this.cells.has(room)) continue;
      if (this.work >= most) return false;
      this.settle(room, new Sheet(), [0, 0, 0], []);
      this.spread(world, this.neighbours(world, room), most);
    }
    return this.joinAll(world, most);
  }

  // Returns the ways of a room: for each the other room, its cell, and the step from there to here.
  neighbours(world, room) {
    const found = [];
    for (const number of world.ties.get(room) ?? []) {
      const exit = world.exits.get(number), isOut = exit.from === room, other = isOut ? exit.to : exit.from;
      if (other === undefined || other === room) continue;
      const step = stepOf(exit);
      found.push({ other, cell: this.cells.get(other), step: isOut ? step?.map((one) => -one) : step });
    }
    return found;
  }

  // Places the rooms of these ways and all that ways connect to them, those in a direction first.
  spread(world, ways, most) {
    const named = [], other = [], seen = new Set();
    const sort = ({ other: room, cell, step }) => {
      const key = step ? -room - 1 : room;
      if (cell || seen.has(key)) return;
      seen.add(key);
      (step ? named : other).push(room);
    };
    ways.forEach(sort);
    for (let first = 0, second = 0; first < named.length || second < other.length;) {
      if (this.work >= most) return;
      const room = first < named.length ? named[first++] : other[second++];
      if (this.cells.has(room)) continue;
      const near = this.neighbours(world, room);
      this.place(room, near.filter(({ cell }) => cell));
      near.forEach(sort);
    }
  }

  // Places a room in the cell where its ways to placed rooms keep their directions and hide the least.
  place(room, placed) {
    const first = placed.find(({ step }) => step) ?? placed[0], { sheet } = first.cell;
    const ways = [first, ...placed].filter(({ cell }) => cell.sheet === sheet).slice(0, MOST_WEIGHED);
    let best, most = -Infinity;
    for (const { cell: { at }, step } of ways)
      for (const cell of sheet.some(at, step)) {
        const worth = this.worth(sheet, cell, ways);
        if (worth > most) [best, most] = [cell, worth];
      }
    this.settle(room, sheet, best, ways);
  }

  settle(room, sheet, at, ways) {
    const pass = (key) => sheet.passed.set(key, (sheet.passed.get(key) ?? 0) + 1);
    sheet.put(room, at);
    this.cells.set(room, { sheet, at });
    this.work += 1;
    for (const { cell } of ways) passed(cell.at, at, pass);
  }

  // Returns the worth of a cell for a room with these ways.
  worth(sheet, cell, ways) {
    const isTaken = (key) => sheet.rooms.has(key);
    let worth = -BESIDE * (sheet.passed.get(keyOf(...cell)) ?? 0);
    for (const { cell: { at }, step } of ways) {
      const apart = cell.map((one, axis) => one - at[axis]);
      this.work += 1;
      if (step && isAlong(apart, step)) worth += KEPT_WAY;
      worth -= Math.abs(apart[0]) + Math.abs(apart[1]) + (apart[2] && !step ? KEPT_WAY : 0);
      worth -= PASSED * passed(at, cell, isTaken);
    }
    return worth;
  }

  // Joins sheets that ways connect, by ways in a direction first. Returns true if all are joined.
  joinAll(world, most) {
    const apart = [...world.exits.values()].filter(({ from, to }) => {
      const [a, b] = [this.cells.get(from), this.cells.get(to)];
      return a && b && a.sheet !== b.sheet;
    });
    for (const exit of [...apart.filter(stepOf), ...apart.filter((exit) => !stepOf(exit))]) {
      if (this.work >= most) return false;
      this.join(exit);
    }
    return true;
  }

  join(exit) {
    const from = this.cells.get(exit.from), to = this.cells.get(exit.to), step = stepOf(exit);
    if (from.sheet === to.sheet) return;
    const isFirst = from.sheet.rooms.size >= to.sheet.rooms.size;
    const [stays, goes] = isFirst ? [from, to] : [to, from];
    const way = step && !isFirst ? step.map((one) => -one) : step;
    this.move(goes.sheet, stays.sheet, this.offset(stays, goes, way));
  }

  // Returns the offset by which a sheet moves, so that all of its rooms come to free cells.
  offset(stays, goes, step) {
    const rooms = [...goes.sheet.rooms.values()].map((room) => this.cells.get(room).at);
    for (let number = 0; ; number += 1) {
      const cell = stays.sheet.candidate(stays.at, step, number);
      const apart = cell.map((one, axis) => one - goes.at[axis]);
      const isFree = rooms.every((at) => {
        this.work += 1;
        return stays.sheet.isFree(at.map((one, axis) => one + apart[axis]));
      });
      if (isFree) return apart;
    }
  }

  move(sheet, target, apart) {
    for (const room of sheet.rooms.values()) {
      const at = this.cells.get(room).at.map((one, axis) => one + apart[axis]);
      target.put(room, at);
      this.cells.set(room, { sheet: target, at });
    }
  }

  // Returns what the tab keeps of the layout; `from` rebuilds the layout.
  kept() {
    const sheets = [...new Set([...this.cells.values()].map(({ sheet }) => sheet))];
    return [...this.cells].map(([room, { sheet, at }]) => [room, sheets.indexOf(sheet), ...at]);
  }

  static from(kept) {
    const layout = new Layout(), sheets = [];
    for (const [room, number, ...at] of kept) layout.settle(room, sheets[number] ??= new Sheet(), at, []);
    return layout;
  }
}
