// The map on the page: the part that is shown, the controls that move it, and the list beside it.

const SCALES = { least: 0.08, most: 2, step: 1.25 };
const FADE = 1500; // Milliseconds for which a finished route stays visible.
const MOVED = 5; // Pixels that a finger moves before it drags the map.
const PAN = 60; // Pixels that an arrow key moves the map.

class MapView {
  constructor(parts, onRoom) {
    Object.assign(this, { parts, onRoom, layout: new Layout(), age: 0, drawn: -1, listed: -1, fingers: new Map() });
    this.view = { sheet: undefined, floor: 0, x: 0, y: 0, scale: 1, wide: 0, tall: 0 };
    this.soon = onceAFrame(() => this.draw());
    this.pen = parts.canvas.getContext("2d");
    this.listen();
    new ResizeObserver(() => this.soon()).observe(parts.window);
    on(parts.map, () => this.show(this.world), "toggle");
    on(parts.words, () => this.list(), "toggle");
    on(matchMedia("(prefers-color-scheme: dark)"), this.soon, "change");
  }

  // Draws the world if it has changed and the map is open.
  show(world) {
    const isMoved = this.world !== world || this.here !== world.here;
    Object.assign(this, { world, here: world.here });
    this.parts.summary.textContent = this.summary();
    if (isMoved) this.isMovedByHand = false;
    if (world.revision !== this.drawn) this.soon();
    this.list();
    if (world.route.length && world.walked >= world.route.length) this.fade();
  }

  summary() {
    const { rooms, here } = this.world, place = here === undefined ? "" : `: ${rooms.get(here) ?? "a room"} #${here}`;
    return `Map${place}`;
  }

  // Removes a finished route a little later.
  fade() {
    const { route } = this.world;
    if (this.fading === route) return;
    this.fading = route;
    setTimeout(() => {
      if (this.world.route === route) this.world.plan([]);
      this.show(this.world);
    }, FADE);
  }

  draw() {
    const { parts, view, world } = this;
    if (!world || !parts.map.open || !parts.window.clientWidth) return;
    if (this.age !== world.age) this.layout = new Layout();
    this.age = world.age;
    const isSettled = this.layout.update(world), { clientWidth: wide, clientHeight: tall } = parts.window;
    Object.assign(view, { wide, tall });
    this.follow();
    const picture = new Picture(world, this.layout, view), ratio = devicePixelRatio;
    picture.pointer = this.pointer();
    const [width, height] = [Math.round(wide * ratio), Math.round(tall * ratio)], { canvas } = parts;
    if (canvas.width !== width || canvas.height !== height) Object.assign(canvas, { width, height });
    this.pen.setTransform(ratio, 0, 0, ratio, 0, 0);
    paint(this.pen, picture, inksOf(parts.window));
    Object.assign(this, { picture, drawn: isSettled ? world.revision : -1 });
    parts.note.textContent = isSettled ? this.note(picture) : "Placing rooms ..";
    parts.floor.textContent = this.floorName();
    if (!isSettled) this.soon();
  }

  // Keeps the player's room in the window, unless the map was moved by hand since the player's last step. A sheet may
  // have been joined to another one.
  follow() {
    const { view } = this, cell = this.layout.cell(this.here) ?? this.layout.cell(0);
    if (!cell || (this.isMovedByHand && this.layout.has(view.sheet))) return;
    const isOther = view.sheet !== cell.sheet, [x, y] = middleOf(view, cell), { wide, tall } = sizeOf(view);
    Object.assign(view, { sheet: cell.sheet, floor: cell.z });
    const isIn = x > wide && x < view.wide - wide && y > tall && y < view.tall - tall;
    if (isOther || !isIn) Object.assign(view, { x: cell.x, y: cell.y });
  }

  // Returns the point at the edge of the window that is nearest to the player's room; undefined if the room is visible.
  pointer() {
    const { view } = this, cell = this.layout.cell(this.here);
    if (!cell || cell.sheet !== view.sheet || cell.z !== view.floor) return undefined;
    const [x, y] = middleOf(view, cell), edge = 18;
    if (x > 0 && x < view.wide && y > 0 && y < view.tall) return undefined;
    return { x: Math.max(edge, Math.min(view.wide - edge, x)), y: Math.max(edge, Math.min(view.tall - edge, y)),
      turn: Math.atan2(y - view.tall / 2, x - view.wide / 2) };
  }

  note({ boxes, count, isWhole }) {
    const all = this.world.rooms.size, apart = all - count;
    if (!all) return "Type look to see where you are.";
    const part = isWhole ? "" : `Drawn in part: ${boxes.length} rooms, the nearest. `;
    return `${part}${all} ${all === 1 ? "room" : "rooms"}` + (apart ? `, ${apart} on other floors or apart` : "");
  }

  floorName() {
    const { floor } = this.view;
    return floor ? `floor ${floor > 0 ? "+" : ""}${floor}` : "floor 0";
  }

  // Updates the list of rooms. Existing items stay, so that a reader keeps its place while the world changes.
  list() {
    const { world, parts } = this;
    if (!world || !parts.words.open || !parts.map.open || this.listed === world.revision) return;
    this.listed = world.revision;
    const wanted = listOf(world);
    this.items ??= new Map();
    for (const [room, { item }] of this.items) if (!world.rooms.has(room)) item.remove(), this.items.delete(room);
    let after = parts.rooms.firstElementChild;
    for (const { room, text } of wanted) {
      const { item, button } = this.items.get(room) ?? this.newItem(room);
      if (button.textContent !== text) button.textContent = text;
      if (item === after) after = after.nextElementSibling;
      else parts.rooms.insertBefore(item, after);
    }
    const more = world.rooms.size - wanted.length;
    parts.more.textContent = more > 0 ? `${more} more rooms are not listed.` : "";
  }

  newItem(room) {
    const item = element("li", ""), button = element("button", "");
    button.type = "button";
    on(button, () => this.onRoom(room));
    item.append(button);
    this.items.set(room, { item, button });
    return this.items.get(room);
  }

  // ---- controls

  listen() {
    const { window: pane, up, down, larger, smaller, whole, home } = this.parts;
    on(pane, (event) => this.press(event), "pointerdown");
    on(pane, (event) => this.drag(event), "pointermove");
    for (const name of ["pointerup", "pointercancel"]) on(pane, (event) => this.lift(event), name);
    on(pane, (event) => {
      event.preventDefault();
      this.zoom(SCALES.step ** -Math.sign(event.deltaY), event.offsetX, event.offsetY);
    }, "wheel");
    on(pane, (event) => this.key(event), "keydown");
    on(up, () => this.change({ floor: this.view.floor + 1 }));
    on(down, () => this.change({ floor: this.view.floor - 1 }));
    on(larger, () => this.zoom(SCALES.step));
    on(smaller, () => this.zoom(1 / SCALES.step));
    on(whole, () => this.whole());
    on(home, () => this.home());
  }

  change(values) {
    this.isMovedByHand = true;
    Object.assign(this.view, values);
    this.soon();
  }

  home() {
    this.change({ sheet: undefined, scale: Math.max(1, this.view.scale) });
    this.isMovedByHand = false;
  }

  // Shows all rooms of the floor.
  whole() {
    const { view } = this, cells = [...this.layout.cells.keys()].map((room) => this.layout.cell(room))
      .filter(({ sheet, z }) => sheet === view.sheet && z === view.floor);
    if (!cells.length) return;
    const range = (axis) => cells.reduce(([a, b], cell) => [Math.min(a, cell[axis]), Math.max(b, cell[axis])],
      [Infinity, -Infinity]);
    const [left, right] = range("x"), [top, low] = range("y");
    const fits = Math.min(view.wide / ((right - left + 1) * CELL.wide), view.tall / ((low - top + 1) * CELL.tall));
    this.change({ x: (left + right) / 2, y: (top + low) / 2, scale: Math.max(SCALES.least, Math.min(1, fits)) });
  }

  // Scales the map around a point of the window.
  zoom(times, x = this.view.wide / 2, y = this.view.tall / 2) {
    const { view } = this, scale = Math.max(SCALES.least, Math.min(SCALES.most, view.scale * times));
    const part = 1 / view.scale - 1 / scale, dx = (x - view.wide / 2) / CELL.wide, dy = (y - view.tall / 2) / CELL.tall;
    this.change({ scale, x: view.x + dx * part, y: view.y + dy * part });
  }

  pan(dx, dy) {
    const { view } = this;
    this.change({ x: view.x - dx / CELL.wide / view.scale, y: view.y - dy / CELL.tall / view.scale });
  }

  press(event) {
    this.fingers.set(event.pointerId, [event.offsetX, event.offsetY]);
    this.moved = this.fingers.size > 1 ? MOVED : 0;
  }

  drag(event) {
    const from = this.fingers.get(event.pointerId), to = [event.offsetX, event.offsetY];
    if (!from) return;
    const [dx, dy] = [to[0] - from[0], to[1] - from[1]];
    const others = [...this.fingers].filter(([id]) => id !== event.pointerId);
    this.moved += Math.hypot(dx, dy);
    if (this.moved < MOVED) return;
    event.currentTarget.setPointerCapture(event.pointerId);
    this.fingers.set(event.pointerId, to);
    if (!others.length) return this.pan(dx, dy);
    const [, other] = others[0], apart = ([x, y]) => Math.hypot(x - other[0], y - other[1]);
    this.zoom(apart(to) / Math.max(1, apart(from)), (to[0] + other[0]) / 2, (to[1] + other[1]) / 2);
  }

  lift(event) {
    const from = this.fingers.get(event.pointerId);
    this.fingers.delete(event.pointerId);
    if (!from || this.moved >= MOVED || event.type !== "pointerup") return;
    const { boxes = [], pointer } = this.picture ?? {}, box = boxes.find((one) => overlap(one, around(...from, 1, 1)));
    if (box) this.onRoom(box.room);
    else if (pointer && Math.hypot(from[0] - pointer.x, from[1] - pointer.y) < 40) this.home();
  }

  key(event) {
    const moves = { ArrowLeft: [PAN, 0], ArrowRight: [-PAN, 0], ArrowUp: [0, PAN], ArrowDown: [0, -PAN] };
    const { floor } = this.view, tasks = { "+": () => this.zoom(SCALES.step), "-": () => this.zoom(1 / SCALES.step),
      Home: () => this.home(), PageUp: () => this.change({ floor: floor + 1 }),
      PageDown: () => this.change({ floor: floor - 1 }), 0: () => this.whole() };
    const task = moves[event.key] ? () => this.pan(...moves[event.key]) : tasks[event.key];
    if (!task || event.ctrlKey || event.metaKey) return;
    event.preventDefault();
    task();
  }
}
