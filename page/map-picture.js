// What is drawn of a floor of the map: boxes, ways and labels, in pixels of the window. Nothing here touches the
// document.
//
// A view is { sheet, floor, x, y, scale, wide, tall }: the cell in the middle of the window, the scale, and the size of
// the window. Letters have one size at all scales; where they do not fit they are left out.

const MOST_ROOMS = 800, MOST_WAYS = 2000, MOST_LABELS = 600; // The most that is drawn.
const MOST_LISTED = 500, MOST_NAMED = 40; // The most rooms of the list, and exits of each.
const LETTER = 7.3, LINE = 15; // The width of a letter and the height of a line, in pixels.
const CELL = { wide: 190, tall: 108 }, BOX = { wide: 118, tall: 42 };
const STUB = 26; // The length of a way whose end is not known.
const TWO_LINES = 34, ONE_LINE = 17; // The least height of a box with a name and a number, or a name alone.
const LABELLED = 0.7; // The least scale at which ways have labels.
const BEND = 0.62; // How far a way bends around a room, in cells.
const LONGEST = 18; // The most letters of a label.
const BUCKET = 96; // The side of the squares of the overlap search.
const SPOTS = [[0, 1], [0, -1], [1, 1], [1, -1]]; // The places of a label: lines along its way, and the side.
const ASIDE = [[1, 1], [-1, 1], [1, -1], [-1, -1], [1, 0], [-1, 0]]; // Where other ways are drawn.

function short(text, most) {
  return text.length > most ? text.slice(0, Math.max(1, most - 2)) + ".." : text;
}

// Returns the rectangle around a middle.
function around(x, y, wide, tall) {
  return { x: x - wide / 2, y: y - tall / 2, wide, tall };
}

function overlap(a, b) {
  return a.x < b.x + b.wide && b.x < a.x + a.wide && a.y < b.y + b.tall && b.y < a.y + a.tall;
}

// Rectangles by the squares that they touch, so that only near ones are compared.
class Taken {
  constructor() {
    this.squares = new Map();
  }

  isFree(box) {
    const { x, y, wide, tall } = box;
    for (let across = Math.floor(x / BUCKET); across <= (x + wide) / BUCKET; across += 1)
      for (let down = Math.floor(y / BUCKET); down <= (y + tall) / BUCKET; down += 1) {
        const square = this.squares.get(across * 4096 + down);
        if (square && square.some((other) => overlap(box, other))) return false;
      }
    return true;
  }

  add(box) {
    const { x, y, wide, tall } = box;
    for (let across = Math.floor(x / BUCKET); across <= (x + wide) / BUCKET; across += 1)
      for (let down = Math.floor(y / BUCKET); down <= (y + tall) / BUCKET; down += 1) {
        const key = across * 4096 + down;
        if (this.squares.has(key)) this.squares.get(key).push(box);
        else this.squares.set(key, [box]);
      }
  }
}

// Returns how a room is drawn: `here`, `seen`, `heard` if the player was never there, `locked` if all ways to it are.
function kindOf(world, room) {
  if (room === world.here) return "here";
  if (world.visited.has(room)) return "seen";
  const ways = [...world.ties.get(room) ?? []].map((exit) => world.exits.get(exit)).filter(({ to }) => to === room);
  return ways.length && ways.every(({ locked }) => locked) ? "locked" : "heard";
}

function sizeOf({ scale }) {
  return { wide: BOX.wide * scale, tall: BOX.tall * scale };
}

// Returns the middle of a cell in the window.
function middleOf({ x, y, scale, wide, tall }, cell) {
  return [wide / 2 + (cell.x - x) * CELL.wide * scale, tall / 2 + (cell.y - y) * CELL.tall * scale];
}

// Returns the boxes of the floor's rooms in the window, and how many rooms the floor has. Above the limit the nearest
// to the middle are taken.
function boxesOf(world, layout, view) {
  const { wide, tall } = view, size = sizeOf(view), boxes = [];
  let count = 0;
  for (const room of layout.cells.keys()) {
    const cell = layout.cell(room);
    if (cell.sheet !== view.sheet || cell.z !== view.floor) continue;
    count += 1;
    const [x, y] = middleOf(view, cell);
    if (Math.abs(x - wide / 2) > wide / 2 + size.wide || Math.abs(y - tall / 2) > tall / 2 + size.tall) continue;
    boxes.push({ room, middle: [x, y], ...around(x, y, size.wide, size.tall) });
  }
  const far = ({ middle: [x, y], room }) => room === world.here ? -1 : Math.hypot(x - wide / 2, y - tall / 2);
  if (boxes.length > MOST_ROOMS) boxes.sort((a, b) => far(a) - far(b)).length = MOST_ROOMS;
  for (const box of boxes) Object.assign(box, { kind: kindOf(world, box.room), lines: linesOf(world, box), marks: [] });
  return { boxes, count };
}

// Returns the lines in a box: the name and the number, as far as they fit.
function linesOf(world, { room, wide, tall }) {
  const most = Math.floor((wide - 8) / LETTER), name = world.rooms.get(room) ?? "?";
  if (tall >= TWO_LINES) return [short(name, most), `#${room}`];
  return tall >= ONE_LINE && most >= 3 ? [short(name, most)] : [];
}

// Returns the exits of the drawn rooms, bundled by the two rooms that they connect: { from, to, exits }. An exit is
// taken from the room that it leaves, or from the other one if that room is not drawn.
function bundlesOf(world, places) {
  const bundles = new Map();
  for (const room of places.keys())
    for (const number of world.ties.get(room) ?? []) {
      const exit = world.exits.get(number), { from, to } = exit;
      if (from === undefined || (from !== room && places.has(from))) continue;
      const key = to === undefined ? -number : Math.min(from, to) * 65536 + Math.max(from, to);
      if (bundles.has(key)) bundles.get(key).exits.push([number, exit]);
      else if (bundles.size < MOST_WAYS) bundles.set(key, { from, to, exits: [[number, exit]] });
    }
  return [...bundles.values()];
}

// Returns the point where a line from the middle of a box leaves it.
function edge({ middle: [x, y], wide, tall }, dx, dy) {
  const part = Math.min(dx ? wide / 2 / Math.abs(dx) : Infinity, dy ? tall / 2 / Math.abs(dy) : Infinity);
  return [x + dx * part, y + dy * part];
}

// Returns the label of some exits, of at most this many letters.
function labelOf(exits, most) {
  const [, { name }] = exits[0];
  return short(name ?? "?", most) + (exits.length > 1 ? ` +${exits.length - 1}` : "");
}

class Picture {
  constructor(world, layout, view) {
    Object.assign(this, { world, layout, view, ways: [], labels: [], taken: new Taken(), aside: new Map() });
    Object.assign(this, boxesOf(world, layout, view));
    this.places = new Map(this.boxes.map((box) => [box.room, box]));
    for (const box of this.boxes) this.taken.add(box);
    const bundles = bundlesOf(world, this.places);
    for (const bundle of bundles) if (this.ways.length < MOST_WAYS) this.draw(bundle);
    this.isWhole = this.boxes.length < MOST_ROOMS && Math.max(bundles.length, this.ways.length) < MOST_WAYS;
  }

  // Returns the box of a room; outside of the window it has no lines.
  boxOf(room) {
    const cell = this.layout.cell(room);
    return this.places.get(room) ?? (cell && { middle: middleOf(this.view, cell), room, ...sizeOf(this.view) });
  }

  draw({ from, to, exits }) {
    const out = exits.filter(([, exit]) => exit.from === from);
    if (to === undefined || to === from) return out.forEach((one) => this.drawStub(this.places.get(from), one));
    const back = exits.filter(([, exit]) => exit.from !== from), a = this.layout.cell(from), b = this.layout.cell(to);
    if (!a || !b || a.sheet !== b.sheet) return this.drawAway(out, back);
    if (a.z === b.z) return this.drawWay(this.boxOf(from), this.boxOf(to), out, back);
    if (a.z === this.view.floor) this.drawFloor(this.places.get(from), out, b.z > a.z);
    if (b.z === this.view.floor) this.drawFloor(this.places.get(to), back, a.z > b.z);
  }

  // Draws ways to rooms that have no cell yet.
  drawAway(out, back) {
    const drawn = [...out, ...back].filter(([, { from }]) => this.places.has(from));
    for (const one of drawn) this.drawStub(this.places.get(one[1].from), one);
  }

  // Returns how exits are drawn: locked, or on the route, if one of them is.
  look(exits) {
    const { route, walked } = this.world, at = exits.map(([number]) => route.lastIndexOf(number));
    const isLocked = exits.some(([, { locked }]) => locked), isRoute = at.some((one) => one >= walked);
    const isWalked = !isRoute && at.some((one) => one >= 0);
    return { exits: exits.map(([number]) => number), isLocked, isRoute, isWalked };
  }

  // Draws a way between two rooms of the floor. It bends if a third room lies between them.
  drawWay(first, second, out, back) {
    const [x1, y1] = first.middle, [x2, y2] = second.middle, dx = x2 - x1, dy = y2 - y1, far = Math.hypot(dx, dy);
    const bow = this.isHidden(first.room, second.room) ? 2 * BEND * CELL.tall * this.view.scale / far : 0;
    const bend = [(x1 + x2) / 2 - dy * bow, (y1 + y2) / 2 + dx * bow];
    const aims = [[bend[0] - x1, bend[1] - y1], [bend[0] - x2, bend[1] - y2]];
    const ends = [edge(first, ...aims[0]), edge(second, ...aims[1])];
    const arrow = !back.length ? 1 : !out.length ? 0 : undefined;
    this.ways.push({ ends, bend: bow ? bend : undefined, arrow, ...this.look([...out, ...back]) });
    if (out.length) this.label(ends[0], aims[0], out);
    if (back.length) this.label(ends[1], aims[1], back);
  }

  // Returns true if a straight way between two rooms crosses a third.
  isHidden(from, to) {
    const a = this.layout.cells.get(from), b = this.layout.cells.get(to);
    return passed(a.at, b.at, (key) => a.sheet.rooms.has(key)) > 0;
  }

  // Draws a way whose end is not known, or that leads back to its room.
  drawStub(box, [number, exit]) {
    const step = stepOf(exit);
    if (step?.[2] && exit.to === undefined) return this.drawFloor(box, [[number, exit]], step[2] > 0);
    const count = this.aside.get(box.room) ?? 0, isNamed = step && !step[2];
    if (!isNamed) this.aside.set(box.room, count + 1);
    if ((!isNamed && count >= ASIDE.length) || this.ways.length >= MOST_WAYS) return;
    const [dx, dy] = isNamed ? step : ASIDE[count], aim = [dx * CELL.wide, dy * CELL.tall], far = Math.hypot(...aim);
    const start = edge(box, ...aim), stub = STUB * Math.min(1, this.view.scale);
    const end = [start[0] + aim[0] / far * stub, start[1] + aim[1] / far * stub];
    this.ways.push({ ends: [start, end], isStub: true, ...this.look([[number, exit]]) });
    this.label(start, aim, [[number, exit]], exit.to === exit.from ? " (here)" : "");
  }

  // Draws exits to another floor: a mark at the box, with a label.
  drawFloor(box, exits, isUp) {
    if (!box || !exits.length) return;
    const x = box.x + box.wide * (isUp ? 0.86 : 0.14), y = box.y + (isUp ? 0 : box.tall);
    box.marks.push({ x, y, isUp, isKnown: exits.some(([, { to }]) => to !== undefined), ...this.look(exits) });
    this.label([x, y], [0, isUp ? -1 : 1], exits);
  }

  // Adds a label to the right of its way, near its beginning, or at another place that is free. It is shortened to fit,
  // and left out if no place is free.
  label([x, y], [dx, dy], exits, note = "") {
    const { scale } = this.view, far = Math.hypot(dx, dy);
    if (scale < LABELLED || this.labels.length >= MOST_LABELS) return;
    const most = Math.abs(dx) > Math.abs(dy) * 2 ? Math.max(5, Math.floor((far - BOX.wide * scale) / LETTER)) : LONGEST;
    const text = labelOf(exits, most) + note, wide = text.length * LETTER, [ux, uy] = [dx / far, dy / far];
    const look = this.look(exits);
    for (const [along, side] of SPOTS) {
      const on = (Math.abs(ux) * wide + Math.abs(uy) * LINE) / 2 + 4 + along * LINE;
      const off = ((Math.abs(uy) * wide + Math.abs(ux) * LINE) / 2 + (look.isLocked ? 8 : 3)) * side;
      const box = around(x + ux * on - uy * off, y + uy * on + ux * off, wide, LINE);
      if (!this.taken.isFree(box)) continue;
      this.taken.add(box);
      this.labels.push({ ...box, text, ...look });
      return;
    }
  }
}

// Returns the map in words, a line for each room: { room, text }.
function listOf(world, most = MOST_LISTED) {
  return [...world.rooms.keys()].sort((a, b) => a - b).slice(0, most).map((room) => {
    const exits = world.exitsOf(room), more = exits.length - MOST_NAMED, kind = kindOf(world, room);
    const ways = exits.slice(0, MOST_NAMED).map((number) => wayText(world, number));
    if (more > 0) ways.push(`and ${more} more`);
    const note = { here: ", you are here", seen: "", heard: ", not seen yet", locked: ", locked" }[kind];
    const name = `${world.rooms.get(room) ?? "a room"} #${room}${note}`;
    return { room, text: name + (ways.length ? ": " + ways.join(", ") : "") };
  });
}

function wayText(world, number) {
  const exit = world.exits.get(number);
  const to = exit.to === undefined ? "" : ` to #${exit.to}`;
  const isRoute = world.route.includes(number, world.walked);
  const notes = (exit.locked ? " (locked)" : "") + (isRoute ? " (on the route)" : "");
  return (exit.name ?? "an exit") + to + notes;
}
