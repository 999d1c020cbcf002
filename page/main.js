// The page itself: it hands the server's output to the log, the map and the hands, and sends what the player does.

const PLACES = { guest: "connect NAME", player: "say Hello" }; // The placeholders of the input line.
const NAME = document.title;
const part = (id) => document.getElementById(id);
const parts = (...ids) => Object.fromEntries(ids.map((id) => [id, part(id)]));

const later = (task, wait) => setTimeout(task, wait);
const kept = keptInTab() ?? {};
const talk = new Conversation(kept.world && World.from(kept.world));
const { world } = talk, verbs = verbsOf(COMMANDS);
const log = new Log(parts("log", "entries", "fresh", "spoken"), new Book());
const map = new MapView({ ...parts("map", "canvas", "note", "floor", "up", "down", "larger", "smaller", "whole",
  "home", "words", "rooms", "more"), window: part("picture"), summary: part("map-name") }, askWay);
const link = new Connection({
  dial: () => new WebSocket(location.origin.replace(/^http/, "ws") + "/play"), now: () => performance.now(), later,
  cancel: (timer) => clearTimeout(timer), chance: Math.random,
}, { open: opened, text: heard, closed, state: showState });
const hands = new Hands(parts("exits", "route", "told", "mark", "age", "again", "step", "all", "close", "line"), world,
  verbs, { say: (line, answered) => say(line, { answered }), since: (entry) => talk.since(entry), arrived });
const line = new Line(part("form"), part("line"), { send: (text) => say(text), world, verbs, page: turnPage },
  kept.typed);
const checks = new Checks(undefined, {
  ask: (text) => new Promise((answered) => say(text, { quiet: true, answered }) || answered(undefined)),
  later, now: () => performance.now(),
  mark: (entry) => (log.show(entry), hands.soon()),
});

// ---- what goes out

// Sends a line, and returns true if there is a connection. A quiet line is not shown, and its answer is not. `answered`
// is called with the answer, or with undefined if the connection ends first.
function say(text, { quiet = false, isUnseen = false, answered } = {}) {
  if (!link.isOn()) {
    if (!quiet) log.tell(`not connected${part("line").value ? ": your line waits" : ""}`);
    return false;
  }
  if (!quiet && !isUnseen) log.mine(text);
  talk.say(text, quiet, answered);
  link.send(text);
  return true;
}

// Asks for the route to a room.
function askWay(room) {
  say(`route to #${room}`);
}

// Looks at the room that the player has come to.
function arrived() {
  if (part("looks").checked && world.here !== lookedAt && link.isOn()) say("look", { isUnseen: true });
  lookedAt = world.here;
}

let lookedAt, isBack = false;

// ---- what comes

function opened() {
  talk.begin();
  beginChecks();
  lookedAt = undefined;
  const { connectLine } = talk;
  if (connectLine) isBack = say(connectLine, { answered: () => (isBack = false) });
}

function heard(text) {
  const entries = talk.take(text);
  for (const entry of entries) log.show(entry);
  takeAnswers();
  if (document.hidden) showUnread(entries.filter(({ kind }) => kind !== "greeting").length);
  showWorld();
}

// Gives the checks a new judge: each connection and each volume has a history of its own.
function beginChecks() {
  Object.assign(checks, { judge: new checker.Checker(), volume: talk.volume });
}

// Offers a button that saves the proofs of a volume that has ended: no later record has them.
function offerProofs(volume, proofs) {
  const task = () => saveFile(`volume-${volume}-proofs.txt`, proofs.map(({ text }) => text).join(""));
  log.show({ kind: "page", lines: [`volume ${volume} has ended, proofs of it: ${proofs.length}`],
    mark: { kind: "offer", text: "save them", task } });
}

const tasks = [];
talk.onAnswer = (entry) => tasks.push(() => answered(entry));
talk.onEnd = (volume, proofs) => {
  beginChecks();
  if (proofs.length) tasks.push(() => offerProofs(volume, proofs));
};

// Does what the shown answers lead to.
function takeAnswers() {
  for (const task of tasks.splice(0)) task();
}

function answered(entry) {
  entry.answered?.(entry);
  if (entry.quiet || entry.kind !== "reply") return;
  const head = headOf(entry);
  if (head === "welcome") welcomed();
  else if (head === "walked" && !hands.trip?.isRunning) arrived();
  if (isLook(entry.line)) lookedAt = world.here;
  hands.answered(entry);
  checks.answered(entry);
}

function welcomed() {
  part("state").textContent = stateText("on");
  hands.trip = undefined;
  if (part("looks").checked) say("look", { isUnseen: true });
  if (document.activeElement === part("name") || document.activeElement === document.body) part("line").focus();
}

function closed({ why, wasOpen, isLeft, code }) {
  talk.end();
  takeAnswers();
  talk.drop();
  hands.stop();
  if (talk.hasLeft) Object.assign(talk, { hasLeft: false, connectLine: undefined, name: undefined });
  if (wasOpen || !closed.last || closed.last !== why) log.tell(isLeft ? "you have left" : `disconnected: ${why}`);
  closed.last = wasOpen ? undefined : why;
  if (!wasOpen && code === 1006) findOrigin();
  showWorld();
}

// Tells why the server refuses the page: it has another origin, which the answer to a plain request names.
async function findOrigin() {
  let text;
  try {
    text = await (await fetch("/play", { cache: "no-store" })).text();
  } catch {
    return;
  }
  const origin = originIn(text), isOther = origin && origin !== location.origin;
  if (isOther) link.stop();
  const told = isOther ? `this world is played at ${origin}, and this page is at ${location.origin}: open it there` :
    `the server does not let this page play: is ${location.origin} its own?`;
  if (closed.told !== told) log.tell(closed.told = told);
}

// ---- what is shown

function stateText(state) {
  if (state === "on") return talk.isIn ? `${talk.name} #${world.me}` : "connected, no name yet";
  return { dialing: "connecting ..", waiting: "disconnected", off: "not connected" }[state];
}

function showState(state) {
  part("state").textContent = stateText(state);
  document.body.dataset.state = state;
  part("connect").hidden = state === "on" || state === "dialing";
  showGuest();
  showWait();
}

// Shows the seconds until the page reconnects.
function showWait() {
  const left = Math.ceil((link?.nextAt - performance.now()) / 1000);
  part("wait").textContent = link?.state === "waiting" && left > 0 ? `, next try in ${left} s` : "";
}

function showGuest() {
  const isGuest = link.isOn() && !talk.isIn && !isBack, wasGuest = !part("guest").hidden;
  part("guest").hidden = !isGuest;
  if (isGuest && !wasGuest && !part("line").value) part("name").focus();
  part("line").placeholder = isGuest || !link.isOn() ? PLACES.guest : PLACES.player;
}

function showWorld() {
  link.hasLeft = talk.hasLeft;
  showGuest();
  map.show(world);
  hands.soon();
}

let unread = 0;

function showUnread(more) {
  unread = document.hidden ? unread + more : 0;
  document.title = unread ? `(${unread}) ${NAME}` : NAME;
}

function turnPage(way) {
  part("log").scrollBy({ top: way * part("log").clientHeight * 0.8 });
}

// Makes the page as tall as the visible part of the window, above a phone's keyboard.
function fit() {
  const { height } = visualViewport;
  document.documentElement.style.setProperty("--tall", `${height}px`);
  document.body.classList.toggle("keyed", height < 480 && innerWidth < 832);
}

// ---- saving

async function save() {
  const needed = Math.max(0, ...talk.proofs.map(({ version }) => version));
  if (!talk.history || talk.history.version < needed) {
    const answer = await checks.act.ask("@history");
    if (!answer || headOf(answer) !== "history") return log.tell(`not saved: ${answer?.lines[0] ?? "not connected"}`);
  }
  const { name, text } = recordOf(talk), count = talk.proofs.length;
  saveFile(name, text);
  const how = count === 1 ? `mud_check < ${name}` : "docs/CHECKER.md, Records, or Check a saved file in the menu";
  log.tell(`saved ${name}, with ${count} ${count === 1 ? "proof" : "proofs"}. To check it: ${how}`);
}

async function checkFile(file) {
  if (!file) return;
  const found = await new checker.Checker().judgeRecord(await file.text());
  const lines = found.map(({ text, version, says }) => (version ? `[${version}] ${says}: ` : "") + inWords(text));
  log.show({ kind: "page", lines: [`${file.name}:`, ...lines] });
}

function keep() {
  const settings = Object.fromEntries(["looks", "checks", "times"].map((id) => [id, part(id).checked]));
  const { connectLine, name, latest, volume } = talk;
  keepInTab({ latest, volume, world: world.kept(), layout: map.layout.kept(), log: log.book.kept(),
    typed: line.earlier.lines, draft: part("line").value, connectLine, name, settings, isOpen: part("map").open });
}

function restore() {
  const { layout, log: entries = [], connectLine, name, latest, volume = 1, settings = {}, isOpen, draft = "" } = kept;
  if (layout) map.layout = Layout.from(layout);
  Object.assign(talk, { connectLine, name, latest, volume });
  for (const [id, value] of Object.entries(settings)) part(id).checked = value;
  for (const entry of entries) log.show({ ...entry, isSilent: true });
  if (entries.length) log.show({ kind: "page", lines: ["above: what this tab had before"], isSilent: true });
  part("line").value = draft;
  part("map").open = isOpen ?? matchMedia("(min-width: 52.01rem)").matches;
}

// ---- what is pressed

function listen() {
  on(part("connect"), () => link.connect());
  on(part("ask"), () => openHelp(part("help"), part("commands")));
  on(part("save"), save);
  on(part("save-log"), () => saveFile("log.txt", log.book.text()));
  on(part("file"), ({ target }) => checkFile(target.files[0]).then(() => (target.value = "")), "change");
  on(part("checks"), ({ target }) => (checks.isAlways = target.checked), "change");
  on(part("times"), showTimes, "change");
  on(part("guest"), (event) => {
    event.preventDefault();
    const name = typed(part("name").value).trim();
    if (name) say(`connect ${/ /.test(name) ? `"${name}"` : name}`);
  }, "submit");
  on(window, () => link.hurry(), "online");
  on(window, keep, "pagehide");
  on(document, () => {
    if (document.hidden) return keep();
    showUnread(0);
    link.hurry();
  }, "visibilitychange");
  on(visualViewport, fit, "resize");
  setInterval(showWait, 1000);
}

function showTimes() {
  document.body.classList.toggle("timed", part("times").checked);
}

restore();
listen();
checks.isAlways = part("checks").checked;
showTimes();
fit();
map.show(world);
link.connect();
