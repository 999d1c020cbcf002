// The replies of docs/COMMANDS.md and docs/GUIDE.md, read as the page reads them.
import assert from "node:assert/strict";
import { test } from "node:test";
import { logic } from "./loaded.mjs";
import { after, exits, rooms, tell } from "./talk.mjs";

const HALL = ["look", "[4] The Hall #0", "  contents Wizard #1", "  exits north #3, the gate #7"];

test("a line is what the server takes of it", () => {
  assert.equal(logic.typed("say\tgr\u00fcn \u007f!"), "say grn !");
  assert.equal(logic.typed("a".repeat(1001)).length, 1000);
});

test("look tells the room, its exits, and where the player is", () => {
  const talk = after(["connect Ann", "[1] welcome #9"], HALL);
  assert.deepEqual(rooms(talk), ["#0 The Hall"]);
  assert.deepEqual(exits(talk), ["#3 north 0-undefined", "#7 the gate 0-undefined"]);
  assert.deepEqual([talk.world.me, talk.world.here, [...talk.world.visited]], [9, 0, [0]]);
  assert.deepEqual([...talk.world.things], [[1, "Wizard"]]);
});

test("a look at another thing moves nobody", () => {
  const box = ["look at #9", "[4] box #9", "  contents coin #10"];
  const talk = after(HALL, box, ["l north", "[4] north #3", "  from #0 to #2 cost 1"]);
  assert.equal(talk.world.here, 0);
  assert.deepEqual(rooms(talk), ["#0 The Hall", "#2 undefined"]);
  assert.deepEqual(exits(talk), ["#3 north 0-2", "#7 the gate 0-undefined"]);
});

test("exits that a later look does not list are gone", () => {
  const talk = after(HALL, ["look", "[6] The Hall #0", "  exits north #3"]);
  assert.deepEqual(exits(talk), ["#3 north 0-undefined"]);
  tell(talk, "look", "[7] The Hall #0");
  assert.deepEqual(exits(talk), []);
});

test("a walk tells where its exit leads", () => {
  const talk = after(HALL, ["north", "[4] went by #3 to #2"], ["look", "[4] Yard #2", "  exits south #4"]);
  assert.deepEqual(exits(talk), ["#3 north 0-2", "#4 south 2-undefined", "#7 the gate 0-undefined"]);
  assert.equal(talk.world.here, 2);
  tell(talk, "go south", "[4] went by #4 to #0");
  assert.deepEqual(exits(talk).slice(0, 2), ["#3 north 0-2", "#4 south 2-0"]);
});

test("a dig tells rooms and both ways, with their first names", () => {
  const library = ['@dig out,o|back , b to "The Library", Lib', "[1] dug room #2, exit #3, exit back #4"];
  const talk = after(["look", "[0] The Hall #0"], library,
    ["@dig gap to #2", "[2] dug exit #5"], ["@dig Cellar", "[3] dug room #6"]);
  assert.deepEqual(rooms(talk), ["#0 The Hall", "#2 The Library", "#6 Cellar"]);
  assert.deepEqual(exits(talk), ["#3 out 0-2", "#4 back 2-0", "#5 gap 0-2"]);
});

test("an exit is locked as soon as it was refused, by its name, its number or a beginning", () => {
  const north = (line, answer) => exits(after(HALL, [line, `[4] ${answer}`]))[0];
  for (const line of ["north", "GO nor", "go #3"])
    assert.equal(north(line, "That exit is locked."), "#3 north 0-undefined locked");
  assert.equal(north("north", "That place is locked."), "#3 north 0-undefined locked");
  assert.equal(north("nor", "I couldn't understand that."), "#3 north 0-undefined");
  assert.equal(north("take north", "That place is locked."), "#3 north 0-undefined");
});

test("a walk or an unlocking ends that", () => {
  const locked = ["north", "[4] That exit is locked."];
  assert.equal(exits(after(HALL, locked, ["@unlock north", "[5] unlocked #3"]))[0], "#3 north 0-undefined");
  assert.equal(exits(after(HALL, locked, ["north", "[5] went by #3 to #2"]))[0], "#3 north 0-2");
});

test("the last route is kept, until there is no way", () => {
  const talk = after(HALL, ["route to Yard", "[4] route #0 to #2 cost 3 by #3 #4"]);
  assert.deepEqual(talk.world.route, [3, 4]);
  const proof = ["mud proof 2", "version 4", "member #9 from #0", "labels #0:0/0", "walk none", "route #2 no way"];
  tell(talk, "proof route to Yard", "[4] proof", ...proof, "end");
  assert.deepEqual(talk.world.route, [3, 4]);
  tell(talk, "route to #2", "[4] route #0 to #2 no way");
  assert.deepEqual(talk.world.route, []);
});

test("names and rooms change, and go", () => {
  const renamed = ["@rename #3 to Up stairs, up", "[5] renamed #3"];
  const talk = after(HALL, renamed, ["@recycle #7", "[6] recycled #7"]);
  assert.deepEqual(exits(talk), ["#3 Up stairs 0-undefined"]);
});

test("notices are no answers, and the order of the replies says what they answer", () => {
  const talk = new logic.Conversation();
  for (const line of ["look", "   ", "north", "look"]) talk.say(line);
  const hall = ["[4] The Hall #0", "  exits north #3"];
  const sent = ['(3) Bob says, "[9] look"', ...hall, "(out of memory)", "(4) Bob leaves by north.", ...hall];
  const shown = talk.take(sent.map((line) => line + "\r\n").join(""));
  const kinds = ["notice", "reply", "refusal", "notice", "reply"];
  assert.deepEqual(shown.map(({ kind }) => kind), kinds);
  assert.deepEqual(shown.map(({ line }) => line), [undefined, "look", "north", undefined, "look"]);
  assert.deepEqual([talk.asked, exits(talk), talk.world.here], [[], ["#3 north 0-undefined"], 0]);
  assert.deepEqual([talk.latest, [...talk.world.people]], [4, ["Bob"]]);
});

test("any cutting of what is sent tells the same", () => {
  const lines = ["[4] The Hall #0", "  exits north #3", "[4] went by #3 to #2", "[4] Yard #2", "  exits up #4"];
  const sent = lines.map((line) => line + "\r\n").join("");
  for (let size = 1; size < sent.length; size += 1) {
    const talk = new logic.Conversation();
    let told = 0;
    talk.onAnswer = () => (told += 1);
    for (const line of ["look", "north", "look"]) talk.say(line);
    for (let at = 0; at < sent.length; at += size) talk.take(sent.slice(at, at + size));
    assert.deepEqual([exits(talk), talk.world.here], [["#3 north 0-2", "#4 up 2-undefined"], 2], `pieces of ${size}`);
    assert.equal(told, 3, `pieces of ${size}`);
  }
});

const TALE = [
  "mud history 2", '1 1 dig #1 new "Cellar,Vault"', '2 1 dig #1 old #2 out "down"',
  '3 1 dig #1 new "Yard,Y" out "door,d" back "way back,b"', '4 1 make #1 "lamp,light"', '5 1 player #8 "Bob"',
  "6 1 walk #8 #5", '7 1 make #8 "cup"', '8 1 dig #1 new "Pool"', '9 1 rename #1 #3 "hatch"',
  '10 1 say #1 out "x" back "y"', "11 1 recycle #1 #9", "end 11",
];

test("a history tells all rooms and exits, and where the player is", () => {
  const talk = after(["connect Bob", "[11] welcome #8"], ["@history", "[11] history", ...TALE]);
  assert.deepEqual(rooms(talk), ["#0 The Hall", "#2 Cellar", "#4 Yard", "#10 Pool"]);
  assert.deepEqual(exits(talk), ["#3 hatch 0-2", "#5 door 0-4", "#6 way back 4-0"]);
  assert.equal(talk.world.here, 4);
});

const MEMBER = ["member #8 from #4", "labels #4:0/0", "walk nothing"];
const PROOF = ["mud proof 2", "version 11", ...MEMBER, "route #4 cost 0", "end"];

test("the history and the proofs are kept as the checker reads them", () => {
  const talk = after(["@history", "[11] history", ...TALE], ["proof route to here", "[11] proof", ...PROOF],
    ["proof route", "[11] I couldn't understand that."], ["proof meet", "[11] proof", "mud proof 2"]);
  talk.begin();
  assert.deepEqual(talk.history, { version: 11, text: TALE.join("\n") + "\n" });
  assert.deepEqual(talk.proofs, [{ version: 11, text: PROOF.join("\n") + "\n" }]);
});

test("an answer in several pieces is told once, when it is whole", () => {
  const talk = after(), told = [];
  talk.onAnswer = ({ line, lines }) => told.push([line, lines.length]);
  for (const line of ["@history", "proof route to here", "look"]) talk.say(line);
  for (const line of ["[11] history", ...TALE, "[11] proof", ...PROOF, "[11] Yard #4"]) talk.take(line + "\r\n");
  assert.deepEqual(told, [["@history", 14], ["proof route to here", 8], ["look", 1]]);
  assert.deepEqual([talk.history.version, talk.world.here], [11, 4]);
});

test("what the page asks quietly is not shown, and tells no more than the player saw", () => {
  const talk = after(["look", "[11] Yard #4", "  exits door #5"]), told = [];
  talk.say("@history", true, ({ lines }) => told.push(lines.length));
  talk.onAnswer = (entry) => entry.answered(entry);
  const shown = talk.take(["[11] history", ...TALE, "(12) Bob arrives."].map((line) => line + "\r\n").join(""));
  assert.deepEqual(shown.map(({ kind }) => kind), ["notice"]);
  assert.deepEqual([told, rooms(talk), talk.history.version], [[14], ["#4 Yard"], 11]);
});

test("what is looked at may be named as any other answer begins", () => {
  const names = ["welcome", "went by #3 to", "dug room", "route #0 to #2 cost 1 by #3", "recycled", "proof", "history"];
  for (const name of names) {
    const talk = after(["connect Ann", "[1] welcome #9"], HALL), told = [];
    talk.onAnswer = (answer) => told.push(logic.headOf(answer));
    tell(talk, "look box", `[5] ${name} #12`);
    tell(talk, "l", `[5] ${name} #0`, "  exits north #3");
    assert.deepEqual(told, ["named", "named"]);
    assert.deepEqual([talk.connectLine, talk.world.me, talk.world.here, talk.world.route], ["connect Ann", 9, 0, []]);
    assert.deepEqual([talk.world.things.get(12), rooms(talk), exits(talk)],
      [name, [`#0 ${name}`], ["#3 north 0-undefined"]]);
  }
});

test("what the server says of itself answers nothing", () => {
  const talk = after(HALL);
  talk.say("north");
  const lines = ["(host: back in 5 minutes)", "(not stored)", "(server stops)"];
  const shown = talk.take(lines.map((line) => line + "\r\n").join(""));
  assert.deepEqual(shown.map(({ kind, line }) => [kind, line]),
    [["host", undefined], ["refusal", "north"], ["host", undefined]]);
});

test("a history that is cut changes nothing", () => {
  const talk = after(HALL), before = [rooms(talk), exits(talk)];
  tell(talk, "@history", "[11] history", ...TALE.slice(0, 5));
  talk.end();
  assert.deepEqual([rooms(talk), exits(talk), talk.history], [...before, undefined]);
});

test("what was asked and not answered is told so when the connection ends", () => {
  const talk = after(), told = [];
  talk.say("@history", true, (entry) => told.push(entry));
  talk.end();
  talk.drop();
  assert.deepEqual([told, talk.asked], [[undefined], []]);
});

test("who came in is known by name, and by the line that lets him in again", () => {
  const lines = [["connect Ann", "Ann"], ["connect Ann of the Hill", "Ann"], ['connect "Old Ann"', "Old Ann"]];
  for (const [line, name] of lines) {
    const talk = after([line, "[3] welcome #9"]);
    assert.deepEqual([talk.isIn, talk.connectLine, talk.name], [true, line, name]);
    talk.begin();
    assert.deepEqual([talk.isIn, talk.connectLine], [false, line]);
  }
});

test("where versions go back it is another world, of which nothing was told", () => {
  const talk = after(["connect Ann", "[7] welcome #9"], ["look", "[8] The Hall #0", "  exits north #3"]);
  talk.begin();
  tell(talk, "connect Ann", "[8] welcome #9");
  assert.deepEqual([rooms(talk), talk.world.age], [["#0 The Hall"], 0]);
  talk.begin();
  tell(talk, "connect Ann", "[5] welcome #2");
  assert.deepEqual([rooms(talk), exits(talk), talk.world.age], [[], [], 1]);
});

test("who has left is not to come back", () => {
  assert.equal(after(["quit", "[4] bye"]).hasLeft, true);
  assert.equal(after(["quit now", "[4] I couldn't understand that."]).hasLeft, false);
  const talk = after(["quit", "[4] bye"]);
  talk.begin();
  assert.equal(talk.hasLeft, false);
});

test("each text of a refusal is taken for one, and no other reply is", async () => {
  const { readFileSync } = await import("node:fs");
  const page = readFileSync(new URL("../../docs/COMMANDS.md", import.meta.url), "utf8");
  const texts = [...page.matchAll(/^\| \d+ \| \w+ \| `([^`]+)`/gm)].map(([, text]) => text);
  assert.equal(texts.length, 18);
  for (const text of texts) assert.ok(logic.isRefusal([text]), text);
  for (const text of ["said", "version", "bye", "The Hall #0", "route #0 to #2 no way", "key of #3 is nothing"])
    assert.ok(!logic.isRefusal([text]), text);
});

// A conversation that was told a history and a proof of volume 1, and what it says of volumes that end.
function inFirstVolume() {
  const talk = after(["connect Bob", "[11] welcome #8"], ["@history", "[11] history", ...TALE],
    ["proof route to here", "[11] proof", ...PROOF]), ended = [];
  talk.onEnd = (volume, proofs) => ended.push([volume, proofs.map(({ version }) => version)]);
  return { talk, ended };
}

test("a new volume begins versions anew: the history is dropped, the proofs are handed on, the world stays", () => {
  const { talk, ended } = inFirstVolume(), before = [rooms(talk), exits(talk)];
  const shown = talk.take("(volume 2)\r\n(3) Bob arrives.\r\n");
  assert.deepEqual(shown.map(({ kind }) => kind), ["host", "notice"]);
  assert.deepEqual([talk.volume, talk.latest, talk.history, talk.proofs], [2, 3, undefined, []]);
  assert.deepEqual([ended, rooms(talk), exits(talk)], [[[1, [11]]], ...before]);
  tell(talk, "@history", "[4] history", "mud history 2", "1 1 say #1 hi", "end 1");
  assert.equal(logic.recordOf(talk).name, "volume-2-record-4.txt");
  assert.equal(logic.recordOf(inFirstVolume().talk).name, "record-11.txt");
});

test("what is answered before the line of a volume is of the volume before, however it is cut", () => {
  const lines = ["[12] went by #6 to #0", "(volume 2)", "[4] The Hall #0", "  exits door #5", "(5) Ann arrives."];
  const sent = lines.map((line) => line + "\r\n").join("");
  for (let size = 1; size <= sent.length; size += 1) {
    const { talk, ended } = inFirstVolume(), told = [];
    talk.onAnswer = ({ line, volume, version }) => told.push([line, volume, version]);
    for (const line of ["way back", "look"]) talk.say(line);
    for (let at = 0; at < sent.length; at += size) talk.take(sent.slice(at, at + size));
    assert.deepEqual(told, [["way back", 1, 12], ["look", 2, 4]], `pieces of ${size}`);
    assert.deepEqual([ended, talk.latest], [[[1, [11]]], 5], `pieces of ${size}`);
  }
});

test("a line that waits over the end of a volume is answered in the next one", () => {
  const { talk } = inFirstVolume();
  talk.say("look");
  const [, entry] = talk.take("(volume 2)\r\n[4] Yard #4\r\n");
  assert.deepEqual([entry.line, entry.volume], ["look", 2]);
});

test("changes are counted in a volume, and an answer of an earlier one is old", () => {
  const { talk } = inFirstVolume(), [first] = tell(talk, "look", "[12] Yard #4");
  talk.take("(14) Ann arrives.\r\n");
  assert.equal(talk.since(first), 2);
  talk.take("(volume 2)\r\n");
  const [second] = tell(talk, "look", "[3] Yard #4");
  assert.deepEqual([talk.since(first), talk.since(second)], [Infinity, 0]);
});

test("a connection in the next volume goes on with the same world, and one in an earlier volume has another", () => {
  const { talk, ended } = inFirstVolume(), before = rooms(talk);
  const comes = (...lines) => {
    talk.begin();
    talk.take("Welcome. Type: connect NAME\r\n");
    tell(talk, "connect Bob", ...lines);
  };
  comes("(volume 2)", "[4] welcome #8");
  assert.deepEqual([talk.volume, talk.world.age, rooms(talk), ended], [2, 0, before, [[1, [11]]]]);
  tell(talk, "proof route to here", "[4] proof", ...PROOF);
  comes("(volume 2)", "[5] welcome #8");
  assert.deepEqual([talk.world.age, talk.proofs.length, ended.length], [0, 1, 1]);
  comes("[9] welcome #2");
  assert.deepEqual([talk.volume, talk.world.age, rooms(talk), ended.slice(1)], [1, 1, [], [[2, [4]], [1, []]]]);
});

test("another world of the same volume has another history", () => {
  const { talk, ended } = inFirstVolume();
  talk.begin();
  tell(talk, "connect Ann", "[5] welcome #2");
  assert.deepEqual([talk.history, talk.proofs, ended], [undefined, [], [[1, [11]]]]);
});
