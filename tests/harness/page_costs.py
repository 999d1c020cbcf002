"""The costs of the page in a browser: a burst of notices, a picture of the map, the check of an answer.

A time is that of the fastest try, since other programs use the machine.
"""

SECOND, FRAME, SLOWEST = 1000, 16, 100  # Milliseconds: for a burst, a map of 200 rooms, and any map.
WORLDS = [(200, 1000, FRAME), (150, 8000, SLOWEST), (4000, 4000, SLOWEST), (1000, 7000, SLOWEST)]
# The rooms and changes of a world, and the milliseconds for a check there; the changes of the longest history.
CHECKED, SOON, LONGEST = (2000, 20_000), 50, 65_536
TRIES = 15
# The milliseconds until a burst of 1,000 notices is shown, in a full log that has a long history.
BURST = """(async () => {
  const frame = () => new Promise((go) => requestAnimationFrame(() => setTimeout(go)));
  const burst = (count) => { for (let at = 0; at < count; at += 1) heard(`(${at}) Bob says, "line ${at}"\\r\\n`); };
  talk.say("@history");
  const lines = Array.from({ length: 65536 }, (_, at) => `${at + 1} 1 say #2 line ${at}\\r\\n`);
  heard(`[65536] history\\r\\nmud history 2\\r\\n${lines.join("")}end 65536\\r\\n`);
  const times = [];
  for (let round = 0; round < 14; round += 1) {
    const began = performance.now();
    burst(1000);
    await frame();
    if (round > 5) times.push(performance.now() - began);
  }
  return Math.min(...times);
})()"""
# The milliseconds of the slowest picture of a random world that is learned at once. The page draws pictures while it
# places rooms, and one more.
PICTURES = """((rooms, exits, tries) => {
  const names = ["north", "south", "east", "west", "northeast", "southwest", "northwest", "southeast", "up", "down"];
  let state = 7;
  const below = (most) => (state = (Math.imul(state, 1103515245) + 12345) & 0x7fffffff, (state >> 8) % most);
  for (const kept of [world.rooms, world.exits, world.ties]) kept.clear();
  for (let room = 0; room < rooms; room += 1) world.room(room, `Room ${room}`);
  for (let exit = 0; exit < exits; exit += 1)
    world.exit(10000 + exit, { name: names[below(10)], from: below(rooms), to: below(rooms) });
  world.arrive(0);
  const dearest = () => {
    const times = [];
    map.layout = new Layout();
    for (let isSettled = false; !isSettled; ) {
      const began = performance.now();
      isSettled = map.drawn === world.revision;
      map.draw();
      times.push(performance.now() - began);
    }
    return Math.max(...times);
  };
  return Math.min(...Array.from({ length: tries }, dearest));
})"""
# The milliseconds until an answer is checked by a new history: the route through a row of rooms.
CHECK = """(async (rooms, changes, tries) => {
  const room = (at) => at ? 3 * at - 1 : 0, all = Array.from({ length: rooms }, (_, at) => at), last = rooms - 1;
  const lines = all.slice(1).flatMap((at) =>
    [`dig #1 new "Room ${at}" out "on" back "back"`, `walk #1 #${room(at) + 1}`]);
  const more = [`walk #1 #${room(last) + 2}`, `walk #1 #${room(last) + 1}`, `cost #1 #${room(last) + 1} 1`,
    `say #1 I am here, and nobody else is.`];
  while (lines.length < changes) lines.push(more[(lines.length - 2 * last) % more.length]);
  const entries = lines.map((line, at) => `${at + 1} 1 ${line}\\n`).join("");
  const history = `mud history 2\\n${entries}end ${changes}\\n`;
  const labels = all.map((at) => ` #${room(at)}:${last - at}/${last - at}`).join("");
  const walk = all.slice(1).reverse().map((at) => ` #${room(at) + 2}`).join("");
  const proof = `mud proof 2\\nversion ${changes}\\nmember #1 from #${room(last)}\\nlabels${labels}\\nwalk${walk}\\n` +
    `route #0 cost ${last}\\nend\\n`;
  const times = [];
  for (let at = 0; at < tries; at += 1) {
    const began = performance.now(), judge = new checker.Checker();
    await judge.history(history);
    const { text } = await judge.check(proof);
    if (text !== "accepted") return text;
    times.push(performance.now() - began);
  }
  return Math.min(...times);
})"""
# The longest time in milliseconds for which the check of the longest history blocks the page.
STANDSTILL = """(async (changes, tries) => {
  const lines = Array.from({ length: changes }, (_, at) => `${at + 1} 1 say #1 line ${at}\\n`);
  const history = `mud history 2\\n${lines.join("")}end ${changes}\\n`, found = [];
  for (let at = 0; at < tries; at += 1) {
    let last = performance.now(), most = 0;
    const tick = setInterval(() => {
      most = Math.max(most, performance.now() - last);
      last = performance.now();
    });
    const { count } = await new checker.Checker().history(history);
    clearInterval(tick);
    if (count !== changes) return "the history is not read";
    found.push(most);
  }
  return Math.min(...found);
})"""


def count_costs(count, browser):
    """Tests the costs of a burst, of a picture of the map and of a check."""

    def count_time(what, expression, most):
        took = browser.value(expression)
        count(f"{browser.name}: {what}", isinstance(took, (int, float)) and took <= most, f"{took} ms")

    count_time("1,000 notices within a second", BURST, SECOND)
    for rooms, exits, most in WORLDS:
        count_time(f"a map of {rooms} rooms and {exits} exits", f"{PICTURES}({rooms}, {exits}, {TRIES})", most)
    rooms, changes = CHECKED
    count_time(f"a check of {rooms} rooms and {changes} changes", f"{CHECK}({rooms}, {changes}, {TRIES})", SOON)
    count_time("play goes on while a history is checked", f"{STANDSTILL}({LONGEST}, {TRIES})", SOON)
