// The log: what is kept of it, and that an entry costs the same whatever stands there. The page is a stand-in, which
// counts what is asked of it.
import assert from "node:assert/strict";
import { test } from "node:test";
import { logic } from "./loaded.mjs";

let counted = 0; // What was asked of the page so far.

// A node of the stand-in. A node that asks for sizes has the whole page laid out, so nobody asks here.
class Node {
  constructor(name) {
    Object.assign(this, { name, nodes: [], dataset: {}, classes: new Set(), hidden: true, textContent: "" });
    this.classList = { add: (one) => this.classes.add(one) };
  }

  append(...nodes) {
    counted += nodes.length;
    for (const node of nodes) if (node instanceof Node) node.parent = this;
    this.nodes.push(...nodes);
  }

  remove() {
    counted += 1;
    const { nodes } = this.parent;
    nodes.splice(nodes.indexOf(this), 1);
  }

  replaceWith(node) {
    counted += 1;
    node.parent = this.parent;
    this.parent.nodes[this.parent.nodes.indexOf(this)] = node;
  }

  get childElementCount() {
    return this.nodes.length;
  }

  get firstChild() {
    return this.nodes[0];
  }

  get text() {
    return this.textContent + this.nodes.map((node) => node.text ?? node).join("");
  }

  set scrollTop(_) {
    counted += 1;
  }

  addEventListener(name, task) {
    this[name] = task;
  }

  setAttribute(name, value) {
    this[name] = value;
  }
}

const frames = [];
Object.assign(globalThis, {
  document: { createElement: (name) => new Node(name), hidden: false },
  requestAnimationFrame: (task) => frames.push(task),
  ResizeObserver: class { observe() {} },
});

function nextFrame() {
  for (const task of frames.splice(0)) task();
}

function made() {
  const parts = Object.fromEntries(["log", "entries", "fresh", "spoken"].map((name) => [name, new Node(name)]));
  return { parts, log: new logic.Log(parts, new logic.Book()) };
}

function notice(number) {
  return { kind: "notice", version: number, lines: [`(${number}) Bob says, "${number}"`] };
}

// An answer of so many lines.
function answer(count) {
  return { kind: "reply", version: 8, line: "@history", lines: Array.from({ length: count }, (_, at) => `line ${at}`) };
}

// What so many notices cost in one frame.
function cost(log, count) {
  const before = counted;
  for (let number = 0; number < count; number += 1) log.show(notice(number));
  nextFrame();
  return counted - before;
}

test("a burst costs the same on an empty log, on a full one, and with a history of 65,536 changes in it", () => {
  const { log } = made(), first = cost(log, 1000);
  log.show(answer(65539));
  cost(log, logic.MOST_ENTRIES);
  const full = cost(log, 1000);
  assert.ok(full <= first * 1.1, `${first} at first, ${full} on a full log`);
});

test("the log and its lines have a bound, and the oldest go", () => {
  const { parts, log } = made();
  cost(log, logic.MOST_ENTRIES + 5 * logic.GROUP);
  const shown = parts.entries.nodes.flatMap(({ nodes }) => nodes);
  assert.ok(shown.length <= logic.MOST_ENTRIES && shown.length > logic.MOST_ENTRIES - 2 * logic.GROUP);
  assert.equal(shown.length, log.book.entries.length);
  assert.equal(shown[shown.length - 1].text, log.book.entries[shown.length - 1].lines[0]);
  for (let number = 0; number < 200; number += 1) {
    log.show(answer(65539));
    nextFrame();
  }
  assert.ok(log.book.lines <= 150000 + logic.GROUP * 65539);
});

test("an answer of twenty lines is folded, and not read aloud; a shorter one is", () => {
  const { parts, log } = made();
  for (const count of [logic.FOLDED - 1, logic.FOLDED]) log.show(answer(count));
  log.mine("say hello");
  nextFrame();
  const [{ nodes }] = parts.entries.nodes;
  assert.deepEqual(nodes.map(({ name }) => name), ["p", "details", "p"]);
  assert.equal(nodes[1]["aria-live"], "off");
  assert.ok(!nodes[1].text.includes("line 19"));
  nodes[1].open = true;
  nodes[1].toggle();
  assert.ok(nodes[1].text.includes("line 19"));
  assert.deepEqual(parts.spoken.nodes.map(({ text }) => text.slice(0, 16)), ["line 0, line 1, ", "line 0, 20 lines"]);
});

test("a history and a proof are folded, however few lines they have", () => {
  const { parts, log } = made();
  log.show({ kind: "reply", version: 3, line: "proof route to #2", lines: ["proof", "mud proof 2", "end"] });
  log.show({ kind: "reply", version: 3, line: "@history", lines: ["history", "mud history 2", "end 0"] });
  log.mine("proof");
  nextFrame();
  assert.deepEqual(parts.entries.nodes[0].nodes.map(({ name }) => name), ["details", "details", "p"]);
  assert.deepEqual(parts.spoken.nodes.map(({ textContent }) => textContent), ["proof, 3 lines", "history, 3 lines"]);
  assert.deepEqual(log.book.kept().map(({ lines: [first] }) => first), ["proof (3 lines)", "history (3 lines)", "proof"]);
});

test("what is read aloud of a burst has a bound", () => {
  const { parts, log } = made();
  cost(log, 1000);
  assert.ok(parts.spoken.nodes.length < 20);
  assert.match(parts.spoken.nodes[parts.spoken.nodes.length - 1].text, /^and \d+ more$/);
});

test("scrolled away, new lines are counted; one's own line goes back to the end", () => {
  const { parts, log } = made();
  cost(log, 10);
  log.isAtEnd = false;
  log.show(notice(1));
  log.show({ kind: "reply", version: 2, line: "look", lines: ["The Hall #0", "  exits north #3"] });
  nextFrame();
  assert.deepEqual([parts.fresh.hidden, parts.fresh.textContent], [false, "3 new lines"]);
  log.mine("look");
  nextFrame();
  assert.deepEqual([parts.fresh.hidden, log.isAtEnd], [true, true]);
});

test("an entry that grows or is marked is shown in its place", () => {
  const { parts, log } = made();
  const entry = { kind: "reply", version: 2, line: "route to #3", lines: ["route #0 to #3 no way"] };
  log.show(entry);
  log.show(notice(5));
  nextFrame();
  entry.mark = { kind: "checked", text: "checked" };
  log.show(entry);
  nextFrame();
  assert.deepEqual(parts.entries.nodes[0].nodes.map(({ text }) => text),
    ["[2] route #0 to #3 no waychecked", '(5) Bob says, "5"']);
});

test("the log is saved as it stands, and a reload keeps its end without long answers", () => {
  const { log } = made();
  log.mine("look");
  log.show({ kind: "reply", version: 2, line: "look", lines: ["The Hall #0", "  exits north #3"] });
  log.show(notice(7));
  log.tell("disconnected");
  log.show(answer(30));
  nextFrame();
  const saved = log.book.text().split("\n").map((line) => line.replace(/^\d\d:\d\d /, "")).slice(0, 5);
  assert.deepEqual(saved, ["> look", "[2] The Hall #0", "  exits north #3", '(7) Bob says, "7"', "-- disconnected"]);
  const kept = log.book.kept();
  assert.deepEqual(kept.map(({ kind }) => kind), ["mine", "reply", "notice", "page", "reply"]);
  assert.deepEqual(kept[4].lines, ["line 0 (30 lines)"]);
});

test("what a player says is never markup", () => {
  const { parts, log } = made();
  log.show({ kind: "notice", version: 1, lines: ["(1) Bob says, \"<img src=x onerror=alert(1)>\""] });
  nextFrame();
  const [node] = parts.entries.nodes[0].nodes;
  assert.ok(node.nodes.every((one) => typeof one === "string" || !one.innerHTML));
  assert.ok(node.text.includes("<img src=x"));
});
