// The page of what can be typed has each line of docs/COMMANDS.md, and its verbs are those of the table.
import assert from "node:assert/strict";
import { readFileSync } from "node:fs";
import { test } from "node:test";
import { logic } from "./loaded.mjs";

const text = readFileSync(new URL("../../docs/COMMANDS.md", import.meta.url), "utf8");

// The first cells of the table of commands: what stands before the second bar that no code has.
function cells() {
  const begin = text.indexOf("|---|---|---|\n", text.indexOf("## The commands"));
  const lines = text.slice(begin, text.indexOf("\n\n", begin)).split("\n").slice(1);
  return lines.map((line) => line.slice(2).split(" | ")[0]);
}

test("each line of the table is there, in its order", () => {
  assert.ok(cells().length > 20);
  assert.deepEqual(logic.COMMANDS.map(([typed]) => typed), cells());
});

test("each has what comes of it, and no text that leads elsewhere", () => {
  for (const [typed, comes] of logic.COMMANDS) assert.ok(comes.length > 0 && !/see below/.test(comes), typed);
});

test("the verbs are those that docs/COMMANDS.md names", () => {
  const verbs = ["connect", "look", "l", "inventory", "inv", "i", "go", "take", "get", "drop", "put", "give", "say",
    "emote", "@dig", "@create", "@lock", "@unlock", "@key", "@cost", "@rename", "@recycle", "route", "meet", "proof",
    "@version", "@history", "quit"];
  assert.deepEqual([...logic.verbsOf(logic.COMMANDS)].sort(), verbs.sort());
});
