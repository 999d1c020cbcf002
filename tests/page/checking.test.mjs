// `checked` beside an answer: what the page asks for it, what it makes of the checker's finding, and that it asks for
// no history more often than each ten seconds.
import assert from "node:assert/strict";
import { test } from "node:test";
import { logic } from "./loaded.mjs";

const ROUTE = "route #0 to #2 cost 1 by #3";

// Checks with a server that gives these answers by the beginning of the line, and a checker that finds this.
function made({ found = {}, version = 4, volume = 1, answers = {} } = {}) {
  const asked = [], waits = [];
  let time = 0;
  const judge = { count: 0, async history() { return { count: this.count = version }; },
    check: async () => ({ verdict: "accepted", text: "accepted", says: ROUTE, ...found }) };
  const proof = { kind: "reply", version, volume, line: "proof route to #2", lines: ["proof", "mud proof 2", "end"] };
  const history = { kind: "reply", version, volume, line: "@history", lines: ["history", "mud history 2", "end 4"] };
  const act = { now: () => time, mark: () => {}, later: (go, wait) => (waits.push(wait), (time += wait), go()),
    ask: async (line) => (asked.push(line), { "@history": history, ...answers }[line] ?? answers.proof ?? proof) };
  const checks = Object.assign(new logic.Checks(judge, act), { volume });
  return { checks, asked, waits, judge, history };
}

function route(version = 4, lines = [ROUTE]) {
  return { kind: "reply", version, volume: 1, line: "route to #2", lines, quiet: false };
}

async function markOf(entry, setup) {
  const { checks } = made(setup);
  checks.answered(entry);
  await checks.last;
  return entry.mark && [entry.mark.kind, entry.mark.text];
}

test("an answer whose proof is accepted and says the same is checked", async () => {
  assert.deepEqual(await markOf(route()), ["checked", "checked"]);
  assert.deepEqual(await markOf(route(3)), ["checked", "checked at 4"]);
});

test("a doubt is told in words", async () => {
  const doubts = [["refused: walk locked at 1 of #9", "refused: exit 1 of the way of #9 is locked"],
    ["refused: arc #3 of #9", "refused: exit #3 is open to #9, and leads on for less than was told"],
    ["refused: conclusion", "refused: the answer does not follow from the ways"]];
  for (const [text, words] of doubts)
    assert.deepEqual(await markOf(route(), { found: { verdict: "refused", text } }), ["alarm", words]);
  const unreadable = { verdict: "unreadable", text: "unreadable: proof line 3" };
  assert.deepEqual(await markOf(route(), { found: unreadable }), ["alarm", "unreadable: proof line 3"]);
});

test("each line of docs/CHECKER.md that refuses has words of its own", async () => {
  const { readFileSync } = await import("node:fs");
  const page = readFileSync(new URL("../../docs/CHECKER.md", import.meta.url), "utf8");
  const lines = [...page.matchAll(/^\| `(refused: [^`]+)`/gm)].map(([, line]) => line.replace(/\b[VPXI]\b/g, "7"));
  assert.ok(lines.length >= 9);
  for (const line of lines) assert.notEqual(logic.inWords(line), line);
});

test("a proof of another answer of the same version is refused; of a later one it is told", async () => {
  const other = { says: "route #0 to #2 no way" };
  const [kind, text] = await markOf(route(), { found: other });
  assert.equal(kind, "alarm");
  assert.match(text, /^refused: .*no way$/);
  assert.equal((await markOf(route(3), { found: other }))[0], "checked");
});

test("what is asked is the proof, and the history only where it is not known that far", async () => {
  const { checks, asked, waits, judge } = made();
  for (const entry of [route(), route()]) checks.answered(entry);
  await checks.last;
  assert.deepEqual(asked, ["proof route to #2", "@history", "proof route to #2"]);
  judge.count = 0;
  checks.answered(route());
  await checks.last;
  assert.deepEqual(waits, [10000]);
});

test("how far a check is stands beside the answer", async () => {
  const { checks, judge } = made(), entry = route(), told = [];
  const at = (part) => (progress) => {
    told.push(entry.mark.text);
    progress(part);
    told.push(entry.mark.text);
  };
  judge.history = async (_, progress) => (at(0.254)(progress), { count: 4 });
  judge.check = async (_, progress) => (at(0.75)(progress), { verdict: "accepted", text: "accepted", says: ROUTE });
  checks.answered(entry);
  await checks.last;
  assert.deepEqual(told, ["checking 0 %", "checking 25 %", "checking 25 %", "checking 75 %"]);
});

test("a refusal of the proof, and a lost connection, are told, and the check can be asked for again", async () => {
  const refused = { kind: "refusal", line: "proof route to #2", lines: ["(out of memory)"] };
  const entry = route(), mark = await markOf(entry, { answers: { proof: refused } });
  assert.deepEqual(mark, ["offer", "not checked: (out of memory) Again?"]);
  assert.equal(typeof entry.mark.task, "function");
});

test("only routes, meetings and proofs are checked, and old worlds of many changes by a click", async () => {
  assert.equal(await markOf({ ...route(), lines: ["There is no such thing."] }), undefined);
  assert.equal(await markOf({ ...route(), line: "look", lines: ["route #0 to #2 cost 1 by #3 #5"] }), undefined);
  assert.equal(await markOf({ ...route(), quiet: true }), undefined);
  assert.deepEqual(await markOf(route(20001)), ["offer", "check"]);
  const proof = { kind: "reply", version: 4, line: "proof route to #2", lines: ["proof", "mud proof 2", "end"] };
  assert.deepEqual(await markOf(proof), ["offer", "check"]);
});

test("an answer may be checked by a proof of the next volume, which is named", async () => {
  assert.deepEqual(await markOf(route(), { volume: 2 }), ["checked", "checked at 4 of volume 2"]);
  const other = { says: "route #0 to #2 no way" };
  const [kind, text] = await markOf(route(), { volume: 2, found: other });
  assert.deepEqual([kind, text], ["checked", `not the answer any more: at 4 of volume 2 ${other.says}, checked`]);
});

test("a proof of a volume that has ended is not held against the history of another", async () => {
  const proof = { ...route(), line: "proof route to #2", lines: ["proof", "mud proof 2", "end"] };
  const { checks, asked, judge } = made({ volume: 2 });
  judge.count = 9;
  checks.answered(proof);
  await proof.mark.task();
  assert.deepEqual([proof.mark.kind, proof.mark.text], ["offer", "not checked: volume 1 has ended. Again?"]);
  assert.deepEqual(asked, []);
});

test("where a volume ends while its history is asked for, the answer is not checked", async () => {
  const { checks, history } = made(), entry = route(), ask = checks.act.ask;
  checks.act.ask = async (line) => {
    if (line === "@history") [checks.volume, history.volume] = [2, 2];
    return ask(line);
  };
  checks.answered(entry);
  await checks.last;
  assert.deepEqual([entry.mark.kind, entry.mark.text], ["offer", "not checked: volume 1 has ended. Again?"]);
});
