#!/usr/bin/env node
// check.js HISTORY PROOF: judges two files as mud_check does, with its lines and statuses (docs/CHECKER.md). check.js:
// judges standard input. check.js --record [FILE]: judges each certificate of a record, a line each; the status is the
// greatest. check.js --many: judges pairs from standard input, a line each. A line before each pair has the lengths of
// its history and its certificate in bytes. Tests judge many pairs in one run.
//
// It runs the files of the page's checker, and is not a part of the page.
const { readFileSync, writeSync } = require("node:fs");
const { join } = require("node:path");

const FILES = ["keys.js", "history.js", "rules.js", "certificate.js", "verdict.js", "checker.js"];
const STATUS = { accepted: 0, refused: 1, unreadable: 2 };

// Loads the checker's files into one scope, as make_page.py does.
function loaded() {
  const source = FILES.map((name) => readFileSync(join(__dirname, name), "utf8")).join("");
  const names = "Checker, statement, record, parts, Verdicts, atOnce, halvesOf";
  return new Function(`"use strict"; ${source} return { ${names} };`)();
}

// Returns the text of a file, one character a byte, or the checker's line if it cannot be read.
function textOf(name) {
  try {
    return { text: readFileSync(name, "latin1") };
  } catch {
    return { fault: `unreadable: file ${name === 0 ? "-" : name}` };
  }
}

// Returns the checker's lines on a history and its certificates.
function linesOf(checker, history, proofs) {
  const verdicts = new checker.Verdicts();
  const fault = checker.atOnce(verdicts.take(history));
  if (fault) return [`unreadable: ${fault}`];
  return proofs.map((proof) => checker.atOnce(verdicts.judge(proof)).text);
}

function many(checker, text) {
  const lines = [];
  for (let at = 0; at < text.length; ) {
    const end = text.indexOf("\n", at);
    const [history, proof] = text.slice(at, end).split(" ").map(Number);
    const middle = end + 1 + history;
    lines.push(...linesOf(checker, text.slice(end + 1, middle), [text.slice(middle, middle + proof)]));
    at = middle + proof;
  }
  return lines;
}

// Returns the lines that the arguments ask for; undefined for wrong arguments.
function asked(words) {
  const checker = loaded(), isRecord = words[0] === "--record", isMany = words[0] === "--many";
  const names = isRecord || isMany ? words.slice(1) : words;
  if (names.some((name) => name.startsWith("-") && name !== "-")) return undefined;
  if (names.length > (isRecord ? 1 : isMany ? 0 : 2) || (!isRecord && names.length === 1)) return undefined;
  const [first, second] = (names.length ? names : [0]).map(textOf);
  const fault = first.fault ?? second?.fault;
  if (fault) return [fault];
  if (isMany) return many(checker, first.text);
  const { history, rest } = checker.halvesOf(first.text);
  if (isRecord) return linesOf(checker, history, checker.parts(first.text).proofs);
  return second ? linesOf(checker, first.text, [second.text]) : linesOf(checker, history, [rest]);
}

function main(words) {
  const lines = asked(words);
  if (!lines) {
    process.stderr.write("usage: check.js [HISTORY PROOF] | --record [FILE] | --many\n");
    return 2;
  }
  try {
    writeSync(1, lines.map((line) => `${line}\n`).join(""));
  } catch {
    return 2;
  }
  return Math.max(0, ...lines.map((line) => STATUS[line.split(":")[0]]));
}

module.exports = { loaded };
if (require.main === module) process.exitCode = main(process.argv.slice(2));
