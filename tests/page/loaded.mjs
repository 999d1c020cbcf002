// The logic of the page, as the page has it: its whole script but for main.js, which begins to do something.
import { execFileSync } from "node:child_process";
import { fileURLToPath } from "node:url";

const maker = fileURLToPath(new URL("../../page/make_page.py", import.meta.url));
const source = execFileSync("python3", [maker, "--logic"], { encoding: "utf8", maxBuffer: 1 << 24 });
const names = `Conversation, World, typed, words, isRefusal, Layout, stepOf, isAlong, Picture, listOf, overlap, CELL,
  MOST_ROOMS, MOST_WAYS, MOST_LABELS, Connection, originIn, FIRST_WAIT, MOST_WAIT, LASTED, Book, Log, MOST_ENTRIES,
  FOLDED, GROUP, Trip, lineFor, completions, Earlier, COMMANDS, verbsOf, Checks, inWords, checker, headOf, recordOf`;

export const logic = new Function(`${source} return { ${names} };`)();

// Numbers at random, by a seed: a function that gives one below a bound.
export function seeded(seed) {
  let state = seed;
  return (most) => {
    state = (Math.imul(state, 1103515245) + 12345) & 0x7fffffff;
    return (state >> 8) % most;
  };
}
