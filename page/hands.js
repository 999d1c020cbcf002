// What a player does by clicks: the exits of the room, and a route that is walked exit by exit or all at once.

const MOST_BUTTONS = 60; // The most exits of a room that have buttons.

// Returns true if a line begins with a verb. The server never reads such a line as the name of an exit.
function isCommand(verbs, line) {
  return verbs.includes(line.split(" ")[0].toLowerCase());
}

// Returns the line that walks through an exit: its name if that names no other exit and is no command, or its number.
function lineFor(world, number, verbs) {
  const { name } = world.exits.get(number);
  const isPlain = name !== undefined && /^[A-Za-z][A-Za-z0-9 '-]*$/.test(name) && words(name) === name;
  return isPlain && !isCommand(verbs, name) && world.exitNamed(name, true) === number ? name : `go #${number}`;
}

// A route that the player asked for, and the progress on it.
class Trip {
  constructor(entry) {
    const head = headOf(entry), [text] = entry.lines, [from, to, cost] = text.match(SAID[head]).slice(1).map(Number);
    Object.assign(this, { entry, from, to, cost, exits: exitsOnWay(text), isNoWay: head === "noWay" });
    Object.assign(this, { isRunning: false, fault: "" });
  }

  isThere(world) {
    return !this.isNoWay && world.here === this.to;
  }

  // Returns the next exit; undefined at the end of the route, or off it.
  next(world) {
    const { route, walked } = world, exit = this.exits[walked];
    const isShown = route.length === this.exits.length && route.every((one, at) => one === this.exits[at]);
    const from = walked ? world.exits.get(this.exits[walked - 1])?.to : this.from;
    return isShown && exit !== undefined && from === world.here ? exit : undefined;
  }

  // Takes the answer to a step, undefined if the connection was lost. Returns the exit of the next automatic step.
  stepped(world, entry) {
    const isOn = entry !== undefined && headOf(entry) === "walked";
    if (!isOn) this.fault = entry ? entry.lines[0] : "the connection was lost";
    const exit = isOn && this.isRunning ? this.next(world) : undefined;
    this.isRunning = exit !== undefined;
    return exit;
  }

  // Returns the text that is shown for the trip.
  text(world) {
    const name = `${world.rooms.get(this.to) ?? "room"} #${this.to}`, count = this.exits.length;
    if (this.isNoWay) return `No way to ${name}`;
    if (this.isThere(world)) return `You are at ${name}`;
    const way = `cost ${this.cost}, exit ${world.walked + 1} of ${count}`;
    return `To ${name}: ${way}` + (this.fault ? `. Stopped: ${this.fault}` : "");
  }
}

// The exit buttons and the route bar. `act` is { say(line, answered), since(entry), arrived() }.
class Hands {
  constructor(parts, world, verbs, act) {
    Object.assign(this, { parts, world, verbs, act });
    this.soon = onceAFrame(() => this.draw());
    on(parts.step, () => this.go(false));
    on(parts.all, () => this.trip?.isRunning ? this.stop() : this.go(true));
    on(parts.again, () => this.act.say(this.trip.entry.line));
    on(parts.close, () => this.close());
  }

  // Starts a trip where an answer is a route.
  answered(entry) {
    if (["route", "noWay"].includes(headOf(entry))) this.trip = new Trip(entry);
    this.soon();
  }

  // Walks through the next exit, or through `all` that are left until a step is refused.
  go(all) {
    const exit = this.trip?.next(this.world);
    if (exit === undefined) return;
    Object.assign(this.trip, { isRunning: all, fault: "" });
    this.take(this.trip, exit);
  }

  take(trip, exit) {
    this.act.say(`go #${exit}`, (entry) => {
      const next = trip.stepped(this.world, entry);
      if (next !== undefined && trip === this.trip) this.take(trip, next);
      else this.act.arrived();
      this.soon();
    });
    this.soon();
  }

  stop() {
    if (this.trip) this.trip.isRunning = false;
    this.soon();
  }

  close() {
    this.stop();
    this.trip = undefined;
    this.world.plan([]);
    this.act.arrived();
    this.soon();
  }

  draw() {
    this.drawExits();
    this.endTrip();
    const { parts, trip, world } = this;
    parts.route.hidden = !trip;
    if (!trip) return;
    const next = trip.next(world), since = this.act.since(trip.entry), { mark, volume } = trip.entry;
    const isOpen = next !== undefined, left = trip.exits.length - world.walked;
    const isLost = !isOpen && !trip.isNoWay && !trip.isThere(world);
    parts.told.textContent = trip.text(world) + (isLost ? ". You left this way" : "");
    parts.mark.textContent = mark?.text ?? "";
    parts.mark.className = `mark ${mark?.kind ?? ""}`;
    parts.age.textContent = since === Infinity ? `of volume ${volume}` :
      since > 0 ? `${since} ${since === 1 ? "change" : "changes"} since` : "";
    parts.again.hidden = !(since > 0 || isLost);
    parts.step.hidden = !isOpen || trip.isRunning;
    parts.step.textContent = isOpen ? `Go: ${world.exits.get(next)?.name ?? `#${next}`}` : "";
    parts.all.hidden = !isOpen || (left < 2 && !trip.isRunning);
    parts.all.textContent = trip.isRunning ? "Stop" : `Go all ${left}`;
  }

  // Ends the trip once the player walks on from its end.
  endTrip() {
    const { trip } = this, isThere = trip?.isThere(this.world);
    if (isThere) trip.wasThere = true;
    else if (trip?.wasThere) this.trip = undefined;
  }

  // Draws a button for each exit of the room. Existing buttons are reused, so that the focus stays.
  drawExits() {
    const { parts, world } = this, exits = world.exitsOf(world.here).slice(0, MOST_BUTTONS);
    const hadFocus = parts.exits.contains(document.activeElement);
    while (parts.exits.childElementCount > exits.length) parts.exits.lastChild.remove();
    while (parts.exits.childElementCount < exits.length) parts.exits.append(this.exitButton());
    exits.forEach((number, at) => this.drawExit(parts.exits.children[at], number));
    if (hadFocus && !parts.exits.contains(document.activeElement)) parts.line.focus();
  }

  exitButton() {
    const button = element("button", "exit");
    button.type = "button";
    button.append(element("b", ""), element("small", ""));
    on(button, () => this.act.say(lineFor(this.world, Number(button.dataset.exit), this.verbs)));
    return button;
  }

  drawExit(button, number) {
    const { name, to, locked } = this.world.exits.get(number), [way, room] = button.children;
    const place = to === undefined ? "" : this.world.rooms.get(to) ?? `#${to}`;
    const text = locked ? `${place} (locked)`.trim() : place, isNext = this.trip?.next(this.world) === number;
    if (way.textContent !== (name ?? `#${number}`)) way.textContent = name ?? `#${number}`;
    if (room.textContent !== text) room.textContent = text;
    button.dataset.exit = number;
    button.className = `exit${locked ? " locked" : ""}${isNext ? " next" : ""}`;
  }
}
