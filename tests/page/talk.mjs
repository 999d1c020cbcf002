// What is typed and what is sent, told to a conversation as the page would.
import { logic } from "./loaded.mjs";

// A conversation after these lines, each with what the server sends for it: its lines, or none for a blank line.
export function after(...turns) {
  const talk = new logic.Conversation();
  talk.take("Welcome. Type: connect NAME\r\n");
  for (const [line, ...lines] of turns) tell(talk, line, ...lines);
  return talk;
}

export function tell(talk, line, ...lines) {
  talk.say(line);
  return talk.take(lines.map((text) => text + "\r\n").join(""));
}

// What is known of the exits, as texts.
export function exits(talk) {
  return [...talk.world.exits].sort(([a], [b]) => a - b)
    .map(([number, { name, from, to, locked }]) => `#${number} ${name} ${from}-${to}${locked ? " locked" : ""}`);
}

export function rooms(talk) {
  return [...talk.world.rooms].sort(([a], [b]) => a - b).map(([number, name]) => `#${number} ${name}`);
}
