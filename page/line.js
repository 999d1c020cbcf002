// The input line: Enter sends it, Tab completes it, the arrow keys recall earlier lines, Escape clears it.

class Line {
  // act: { send(line), world, verbs, page(way) }; send returns true if the line was sent.
  constructor(form, input, act, lines) {
    Object.assign(this, { input, act, earlier: new Earlier(lines), offers: [] });
    on(form, (event) => this.submit(event), "submit");
    on(input, (event) => this.key(event), "keydown");
    on(input, () => {
      this.earlier.rest();
      this.offers = [];
    }, "input");
  }

  // Sends the line. A line that cannot be sent stays in the field.
  submit(event) {
    event.preventDefault();
    const line = typed(this.input.value);
    if (line === "" || !this.act.send(line)) return;
    this.earlier.add(line);
    this.set("");
  }

  set(text) {
    this.input.value = text;
    this.input.setSelectionRange(text.length, text.length);
  }

  key(event) {
    const { key } = event, isPlain = !event.ctrlKey && !event.altKey && !event.metaKey;
    const tasks = { ArrowUp: () => this.back(-1), ArrowDown: () => this.back(1), Escape: () => this.clear(),
      Tab: () => this.complete(event.shiftKey), PageUp: () => this.act.page(-1), PageDown: () => this.act.page(1) };
    if (key !== "Tab" && key !== "Shift") this.offers = [];
    if (!isPlain || !tasks[key]) return;
    if (tasks[key]() !== false) event.preventDefault();
  }

  back(way) {
    const text = this.earlier.move(way, this.input.value);
    if (text !== undefined) this.set(text);
  }

  clear() {
    this.set("");
    this.earlier.rest();
  }

  // Puts the next completion into the line. Without one Tab moves the focus, as ever.
  complete(isBack) {
    const text = this.input.value;
    if (text === "") return false;
    if (!this.offers.length || !this.offers.includes(text)) {
      this.offers = completions(this.act.world, this.act.verbs, text);
      if (this.offers.length) this.offers.push(text);
    }
    if (!this.offers.length) return false;
    const at = this.offers.indexOf(text), count = this.offers.length;
    this.set(this.offers[(at + (isBack ? count - 1 : 1)) % count]);
    return true;
  }
}
