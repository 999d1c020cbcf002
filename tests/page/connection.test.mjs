// When a lost connection is tried again, by a clock that the test turns.
import assert from "node:assert/strict";
import { test } from "node:test";
import { logic } from "./loaded.mjs";

class Clock {
  constructor() {
    this.time = 0;
    this.tasks = [];
  }

  later(task, wait) {
    this.tasks.push({ task, at: this.time + wait });
    return this.tasks[this.tasks.length - 1];
  }

  cancel(timer) {
    this.tasks = this.tasks.filter((one) => one !== timer);
  }

  // Goes on to the next task. How long that was.
  next() {
    const first = this.tasks.reduce((a, b) => a.at <= b.at ? a : b), wait = first.at - this.time;
    this.cancel(first);
    this.time = first.at;
    first.task();
    return wait;
  }
}

// A connection by that clock, and what it told.
function made(chance = 0.5) {
  const clock = new Clock(), sockets = [], told = [];
  const connection = new logic.Connection({
    dial: () => sockets[sockets.push({ sent: [], send(line) { this.sent.push(line); } }) - 1],
    now: () => clock.time, later: (task, wait) => clock.later(task, wait), cancel: (timer) => clock.cancel(timer),
    chance: () => (typeof chance === "function" ? chance() : chance),
  }, { open: () => told.push("open"), text: () => {}, state: () => {}, closed: ({ why }) => told.push(why) });
  connection.connect();
  return { clock, connection, sockets, told, last: () => sockets[sockets.length - 1] };
}

function lose(one, lasted, code = 1006, reason = "") {
  if (lasted !== undefined) one.last().onopen();
  one.clock.time += lasted ?? 0;
  one.last().onclose({ code, reason });
}

test("waits grow to half a minute where the server is not reached", () => {
  const one = made(), waits = [];
  for (let tries = 0; tries < 8; tries += 1) {
    lose(one);
    waits.push(one.clock.next());
  }
  assert.deepEqual(waits, [1000, 2000, 4000, 8000, 16000, 30000, 30000, 30000]);
});

test("a connection that is let in and closed at once does not begin anew with one second", () => {
  const one = made(), waits = [];
  for (let tries = 0; tries < 5; tries += 1) {
    lose(one, 10, 1011);
    waits.push(one.clock.next());
  }
  assert.deepEqual(waits, [1000, 2000, 4000, 8000, 16000]);
  lose(one, logic.LASTED, 1006);
  assert.equal(one.clock.next(), logic.FIRST_WAIT);
});

test("chance moves each wait by half of it at most, and spreads those who come back", () => {
  for (const [chance, wait] of [[0, 500], [0.999, 1499]]) {
    const one = made(chance);
    lose(one);
    assert.equal(Math.round(one.clock.next()), wait);
  }
});

test("the network that is there again, or a click, tries at once; while it is connected nothing is dialled", () => {
  const one = made();
  for (let tries = 0; tries < 5; tries += 1) {
    lose(one);
    if (tries < 4) one.clock.next();
  }
  one.connection.hurry();
  assert.deepEqual([one.sockets.length, one.clock.tasks.length], [6, 0]);
  one.connection.hurry();
  one.connection.connect();
  one.last().onopen();
  one.connection.connect();
  one.connection.hurry();
  assert.equal(one.sockets.length, 6);
});

test("after quit, and after the code 1000, it stays away", () => {
  const quit = made(), ended = made();
  quit.last().onopen();
  quit.connection.hasLeft = true;
  quit.last().onclose({ code: 1006, reason: "" });
  lose(ended, 5000, 1000);
  for (const one of [quit, ended]) assert.deepEqual([one.connection.state, one.clock.tasks.length], ["off", 0]);
  quit.connection.connect();
  lose(quit, 20000);
  assert.equal(quit.clock.tasks.length, 1);
});

test("the reason of a refusal is told", () => {
  const reasons = [[1013, "server full"], [1013, "too many sessions"], [1001, ""], [1006, ""]].map(([code, reason]) => {
    const one = made();
    lose(one, code === 1006 ? undefined : 5, code, reason);
    return one.told[one.told.length - 1];
  });
  assert.deepEqual(reasons, ["the server says: server full", "the server says: too many sessions",
    "the server has stopped", "the server is not reached"]);
  const lost = made();
  lose(lost, 60000);
  assert.deepEqual(lost.told, ["open", "the connection was lost"]);
});

test("the server's own origin is read where its refusal names it, and in no other text", () => {
  const refusal = "403 Forbidden: this world is played at http://localhost:8000\r\n";
  assert.equal(logic.originIn(refusal), "http://localhost:8000");
  for (const text of ["403 Forbidden\r\n", `<a href="https://proxy.example.org">${refusal}</a>`])
    assert.equal(logic.originIn(text), undefined);
});
