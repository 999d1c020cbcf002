// The connection: when the page reconnects, and what a close code means. Nothing here touches the document. Clock,
// chance and socket come from `tools`, so that tests supply their own.

const FIRST_WAIT = 1000, MOST_WAIT = 30000; // Milliseconds before the page reconnects.
const LASTED = 10000; // Milliseconds after which a connection resets the wait.
const HAS_LEFT = 1000; // The close code after `quit` (RFC 6455, section 7.4.1).
const REASONS = new Map([[1001, "the server has stopped"], [1006, "the server is not reached"],
  [1011, "the server is out of memory"], [1013, "the server is full"]]);

// Returns the reason of a close in words: the server's own if it gives one.
function whyClosed(code, reason, wasOpen) {
  if (code === 1006 && wasOpen) return "the connection was lost";
  return reason ? `the server says: ${reason}` : REASONS.get(code) ?? `code ${code}`;
}

class Connection {
  // tools: { dial, now, later, cancel, chance }, where dial() returns a socket; heard: { open, text, closed, state }.
  constructor(tools, heard) {
    Object.assign(this, { tools, heard, state: "off", wait: FIRST_WAIT });
  }

  turn(state) {
    this.state = state;
    this.heard.state(state);
  }

  isOn() {
    return this.state === "on";
  }

  // Connects at once, and cancels a pending attempt.
  connect() {
    if (this.state === "on" || this.state === "dialing") return;
    this.tools.cancel(this.timer);
    this.openedAt = undefined;
    const socket = this.socket = this.tools.dial();
    socket.onopen = () => this.opened();
    socket.onmessage = (event) => this.heard.text(event.data);
    socket.onclose = (event) => this.closed(event.code, event.reason);
    this.turn("dialing");
  }

  // Makes a pending attempt at once: the network is back, or the tab is visible again.
  hurry() {
    if (this.state === "waiting") this.connect();
  }

  opened() {
    this.openedAt = this.tools.now();
    this.turn("on");
    this.heard.open();
  }

  send(line) {
    this.socket.send(line);
  }

  // Handles a close. The page reconnects later, unless the player quit or the server ended the session.
  closed(code, reason = "") {
    const { tools } = this, wasOpen = this.openedAt !== undefined;
    if (wasOpen && tools.now() - this.openedAt >= LASTED) this.wait = FIRST_WAIT;
    const isLeft = this.hasLeft || code === HAS_LEFT;
    this.hasLeft = false;
    if (!isLeft) {
      const wait = this.wait * (0.5 + tools.chance());
      this.wait = Math.min(MOST_WAIT, this.wait * 2);
      this.nextAt = tools.now() + wait;
      this.timer = tools.later(() => this.connect(), wait);
    }
    this.turn(isLeft ? "off" : "waiting");
    this.heard.closed({ code, reason, why: whyClosed(code, reason, wasOpen), wasOpen, isLeft });
  }

  // Does not reconnect until the player asks for it.
  stop() {
    this.tools.cancel(this.timer);
    this.turn("off");
  }
}

// Returns the origin that the server names when it refuses a page from elsewhere; undefined for any other text.
function originIn(text) {
  return text.trim().match(SAID.elsewhere)?.[1];
}
