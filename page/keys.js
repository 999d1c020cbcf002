// Names and keys as a history spells them: docs/KEYS.md. A key is spelled as it is printed, so each has one spelling.

const MOST_NUMBER = 8191; // The greatest object number.
const MOST_NAMES = 4, LONGEST_NAME = 60, MOST_ATOMS = 16, MOST_NOTS = 64;
const CR = 13, SPACE = 32, QUOTE = 34, SHARP = 35, COMMA = 44, ZERO = 48;

// IN_NAME[byte] is 1 if names may contain the byte.
const IN_NAME = new Uint8Array(127).fill(1, SPACE);
for (const sign of '"\\,|&!?()') IN_NAME[sign.charCodeAt(0)] = 0;

// A position in a text, up to an end. A function that reads moves it past what it read, or leaves it where it was.
class Cursor {
  constructor(text, at = 0, end = text.length) {
    this.text = text;
    this.at = at;
    this.end = end;
    this.told = []; // The names that were read.
  }

  get isAtEnd() {
    return this.at === this.end;
  }

  // Reads a word. Returns true if it is here.
  take(word) {
    if (!this.text.startsWith(word, this.at) || this.at + word.length > this.end) return false;
    this.at += word.length;
    return true;
  }

  // Reads a decimal number up to a limit, without leading zeros; undefined for anything else.
  number(most) {
    const { text, at } = this;
    let to = at, number = 0;
    for (; to < this.end; to += 1) {
      const digit = text.charCodeAt(to) - ZERO;
      if (!(digit >= 0 && digit <= 9)) break;
      number = 10 * number + digit;
    }
    if (to === at || number > most || (to > at + 1 && text.charCodeAt(at) === ZERO)) return undefined;
    this.at = to;
    return number;
  }

  // Reads `#n` and returns n; undefined for anything else.
  sharp() {
    if (this.text.charCodeAt(this.at) !== SHARP || this.isAtEnd) return undefined;
    this.at += 1;
    return this.number(MOST_NUMBER);
  }

  // Returns the end of the name that begins at a position and is followed by a comma or a quote; undefined without one.
  endOfName(at) {
    let to = at, last = SPACE;
    for (; to < this.end; to += 1) {
      const byte = this.text.charCodeAt(to);
      if (byte === COMMA || byte === QUOTE) break;
      if (!IN_NAME[byte] || (byte === SPACE && last === SPACE)) return undefined;
      last = byte;
    }
    const isName = last !== SPACE && to - at <= LONGEST_NAME && this.text.charCodeAt(at) !== SHARP;
    return isName && to < this.end ? to : undefined;
  }

  // Reads names in quotes, separated by commas without spaces. Returns the text between the quotes.
  names(most = MOST_NAMES) {
    if (this.text.charCodeAt(this.at) !== QUOTE) return undefined;
    const begin = this.at + 1;
    for (let count = 1, at = begin; count <= most; count += 1) {
      const to = this.endOfName(at);
      if (to === undefined) return undefined;
      at = to + 1;
      if (this.text.charCodeAt(to) === COMMA) continue;
      this.at = at;
      const names = this.text.slice(begin, to);
      this.told.push(names);
      return names;
    }
    return undefined;
  }
}

// Reads a key: { tree, objects, asked }. A tree is { sign, object } with the sign `#` or `?`, or { sign: "!", of }, or
// { sign, left, right } with `&&` or `||`. `objects` has the numbers of all objects of the tree, `asked` those with
// `?`.
class KeyReader {
  constructor(cursor) {
    this.cursor = cursor;
    this.objects = [];
    this.asked = [];
    this.nots = 0;
    this.joins = 0; // Joins in parentheses.
  }

  // Returns the key that the text up to the end spells; undefined if it spells none.
  read() {
    const tree = this.chain();
    return tree && this.cursor.isAtEnd ? { tree, objects: this.objects, asked: this.asked } : undefined;
  }

  // Reads operands with operators between them, which associate to the left.
  chain() {
    let left = this.unary();
    while (left) {
      const sign = this.cursor.take(" && ") ? "&&" : this.cursor.take(" || ") ? "||" : undefined;
      if (!sign) break;
      const right = this.operand();
      left = right && { sign, left, right };
    }
    return left;
  }

  // Reads the operand of `!` or the right side of an operator. A join has parentheses here, and nothing else has.
  operand() {
    if (!this.cursor.take("(")) return this.unary();
    this.joins += 1;
    const inner = this.joins < MOST_ATOMS ? this.chain() : undefined;
    return inner?.left && this.cursor.take(")") ? inner : undefined;
  }

  unary() {
    if (!this.cursor.take("!")) return this.object();
    this.nots += 1;
    const of = this.nots <= MOST_NOTS ? this.operand() : undefined;
    return of && { sign: "!", of };
  }

  object() {
    const sign = this.cursor.take("?") ? "?" : "#", object = this.cursor.sharp();
    if (object === undefined || this.objects.length === MOST_ATOMS) return undefined;
    this.objects.push(object);
    if (sign === "?") this.asked.push(object);
    return { sign, object };
  }
}
