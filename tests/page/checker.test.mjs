// The page's checker, as the page calls it: in slices, with a history that grows. What it says of pairs, the part
// `checkers` compares.
import assert from "node:assert/strict";
import { createRequire } from "node:module";
import { test } from "node:test";

const { Checker, Verdicts, statement, record, parts } = createRequire(import.meta.url)("../../page/check.js").loaded();

const LINES = [
  '1 1 player #2 "Bob"',
  '2 2 dig #2 new "Garden" out "east" back "west"',
  "3 1 walk #1 #4",
];

function history(count) {
  return ["mud history 2", ...LINES.slice(0, count), `end ${count}`, ""].join("\n");
}

function proof(version, end, ...members) {
  const lines = members.flatMap(([from, labels, walk]) => [`member ${from}`, `labels ${labels}`, `walk ${walk}`]);
  return ["mud proof 2", `version ${version}`, ...lines, end, "end", ""].join("\n");
}

const EARLY = proof(2, "route #3 cost 1", ["#1 from #0", "#0:0/0 #3:1/1", "#4"]);
const LATE = proof(3, "route #0 cost 1", ["#1 from #3", "#0:1/1 #3:0/0", "#5"]);
const FIRST = proof(1, "route #0 cost 0", ["#1 from #0", "#0:0/0", "nothing"]);
const BOTH = [["#2 from #0", "#0:0/0 #3:1/1", "nothing"], ["#1 from #3", "#0:1/1 #3:0/0", "#5"]];

async function told(checker, text) {
  return (await checker.check(text)).text;
}

test("an answer is found, with the reply that it proves", async () => {
  const checker = new Checker();
  assert.deepEqual(await checker.history(history(3)), { count: 3 });
  const says = "route #3 to #0 cost 1 by #5";
  assert.deepEqual(await checker.check(LATE), { verdict: "accepted", text: "accepted", version: 3, says });
  const wrong = LATE.replace("cost 1", "cost 2");
  const other = says.replace("cost 1", "cost 2");
  const refused = { verdict: "refused", text: "refused: conclusion", version: 3, says: other };
  assert.deepEqual(await checker.check(wrong), refused);
  assert.deepEqual(await checker.check("mud proof 2\n"), { verdict: "unreadable", text: "unreadable: proof line 2" });
});

test("the replies of docs/GUIDE.md", () => {
  const says = (...words) => statement(proof(...words)).says;
  assert.equal(says(3, "route #0 cost 0", ["#2 from #0", "#0:0/0", "nothing"]), "route #0 to #0 cost 0 by nothing");
  assert.equal(says(3, "route #3 no way", ["#2 from #0", "#0:0/0", "none"]), "route #0 to #3 no way");
  const members = "\n  #2 from #0 cost 0 by nothing\n  #1 from #3 cost 1 by #5";
  assert.equal(says(3, "meet #0 cost 1", ...BOTH), `meet #2 #1 at #0 cost 1${members}`);
  assert.equal(says(3, "meet none", ...BOTH), "meet #2 #1 no meeting");
  assert.equal(statement("mud proof 3\n"), undefined);
});

test("a history goes on, and versions are asked in any order", async () => {
  const checker = new Checker();
  await checker.history(history(2));
  assert.equal(await told(checker, EARLY), "accepted");
  assert.equal(await told(checker, LATE), "refused: version 3");
  await checker.history(history(3));
  for (const text of [LATE, EARLY, LATE, FIRST, EARLY, FIRST]) assert.equal(await told(checker, text), "accepted");
  await checker.history(history(2));
  assert.deepEqual([checker.count, await told(checker, LATE)], [2, "refused: version 3"]);
  assert.equal(await told(checker, EARLY), "accepted");
});

test("a history that goes on otherwise is another one", async () => {
  const checker = new Checker();
  await checker.history(history(3));
  await checker.history(history(3).replace("Garden", "Jungle").replace('"east" back "west"', '"east"'));
  assert.equal(await told(checker, LATE), "refused: walk broken at 1 of #1");
});

test("a faulty history is none, and a good one may follow", async () => {
  const checker = new Checker();
  await checker.history(history(2));
  const fault = "unreadable: history change 3";
  const illegal = history(3).replace("walk #1 #4", "walk #1 #5");
  assert.deepEqual(await checker.history(illegal), { verdict: "unreadable", text: fault });
  assert.deepEqual([checker.count, await told(checker, EARLY)], [0, fault]);
  const line = "unreadable: history line 4";
  assert.equal((await checker.history(history(3).replace("3 1 ", "4 1 "))).text, line);
  assert.deepEqual(await checker.history(history(3)), { count: 3 });
  assert.equal(await told(checker, EARLY), "accepted");
});

// A history with so many changes behind the first three that it takes several slices.
function long(count) {
  const said = Array.from({ length: count }, (_, at) => `${at + 4} 1 say #1 hi`);
  return ["mud history 2", ...LINES, ...said, `end ${count + 3}`, ""].join("\n");
}

test("calls wait for one another", async () => {
  const checker = new Checker(), parts = [];
  const calls = [checker.history(long(60000), (part) => parts.push(part))];
  calls.push(checker.check(LATE.replace("version 3", "version 60003")));
  calls.push(checker.history(history(2)), checker.check(LATE));
  const [, late, , early] = await Promise.all(calls);
  assert.deepEqual([late.text, early.text], ["accepted", "refused: version 3"]);
  assert.ok(parts.length > 0, "it took one slice");
});

test("a record is judged by its own history", async () => {
  const checker = new Checker();
  await checker.history(history(2));
  const text = record(history(3), [LATE, EARLY, LATE.replace("cost 1", "cost 2")]);
  const found = await checker.judgeRecord(text);
  assert.deepEqual(found.map((one) => one.text), ["accepted", "accepted", "refused: conclusion"]);
  assert.equal(checker.count, 2);
  assert.deepEqual(parts(text).proofs.slice(0, 2), [LATE, EARLY]);
  assert.deepEqual(parts(text.replaceAll("\n", "\r\n")).proofs.length, 3);
  assert.deepEqual((await checker.judgeRecord(history(3))).map((one) => one.text), ["unreadable: proof line 1"]);
  assert.deepEqual(await checker.judgeRecord("\n"), [{ verdict: "unreadable", text: "unreadable: not a history" }]);
});

test("a long history is read and replayed in many steps, and a long certificate too", () => {
  const verdicts = new Verdicts(), steps = [...verdicts.take(long(20000))];
  assert.ok(steps.length > 1500 && steps[0] >= 0 && steps.at(-1) <= 1, `${steps.length} steps`);
  assert.ok(steps.every((part, at) => at === 0 || part >= steps[at - 1]), "a step back");
  assert.equal(verdicts.fault, undefined);
  const walk = Array(50000).fill("#4").join(" ");
  assert.ok([...verdicts.judge(LATE.replace("walk #5", `walk ${walk}`))].length > 40);
});
