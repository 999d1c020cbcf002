// The style: texts have a contrast of 4.5 to 1 with what they stand on, borders one of 3 to 1 (WCAG 2.2, 1.4.3 and
// 1.4.11).
import assert from "node:assert/strict";
import { readFileSync } from "node:fs";
import { test } from "node:test";

const style = readFileSync(new URL("../../page/page.css", import.meta.url), "utf8");
const NAMED = /--([a-z]+): (#[0-9a-f]{6})/g;
const colours = (text) => Object.fromEntries([...text.matchAll(NAMED)].map(([, ...one]) => one));
const light = colours(style.slice(0, style.indexOf("@media")));
const [, night] = style.match(/prefers-color-scheme: dark\)(.*?)\}/s);
const THEMES = { light, dark: { ...light, ...colours(night) } };

function luminance(colour) {
  const [red, green, blue] = [1, 3, 5].map((at) => parseInt(colour.slice(at, at + 2), 16) / 255)
    .map((part) => part <= 0.04045 ? part / 12.92 : ((part + 0.055) / 1.055) ** 2.4);
  return 0.2126 * red + 0.7152 * green + 0.0722 * blue;
}

function contrast(a, b) {
  const [low, high] = [luminance(a), luminance(b)].sort((one, other) => one - other);
  return (high + 0.05) / (low + 0.05);
}

function assertContrast(named, a, b, least) {
  const found = contrast(named[a], named[b]);
  assert.ok(found >= least, `${a} on ${b}: ${found}`);
}

for (const [theme, named] of Object.entries(THEMES)) {
  test(`${theme}: texts`, () => {
    for (const text of ["fore", "dim", "mark", "note", "off", "good"])
      for (const under of ["back", "sheet"]) assertContrast(named, text, under, 4.5);
    for (const text of ["fore", "dim"]) assertContrast(named, text, "room", 4.5);
    assertContrast(named, "sheet", "mark", 4.5);
  });

  test(`${theme}: borders`, () => {
    for (const under of ["back", "sheet"])
      for (const line of ["edge", "mark", "off", "dim"]) assertContrast(named, line, under, 3);
  });
}
