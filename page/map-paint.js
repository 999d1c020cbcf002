// Paints a picture of the map on a canvas. Colour is never the only difference: a room that was seen has a solid
// border, one that was only heard of a dashed border, and one behind locked ways a double border and a lock.

const INKS = ["back", "fore", "dim", "mark", "off", "room", "code"];

// Returns the current colours and font of the style.
function inksOf(element) {
  const style = getComputedStyle(element);
  return Object.fromEntries(INKS.map((name) => [name, style.getPropertyValue(`--${name}`).trim()]));
}

function paint(pen, picture, ink) {
  const { wide, tall } = picture.view;
  pen.clearRect(0, 0, wide, tall);
  Object.assign(pen, { font: `12px ${ink.code}`, textAlign: "center", textBaseline: "middle", lineJoin: "round" });
  for (const way of picture.ways) paintWay(pen, way, ink);
  for (const label of picture.labels) paintLabel(pen, label, ink);
  for (const box of picture.boxes) paintRoom(pen, box, ink);
  for (const way of picture.ways) if (way.isLocked) paintLock(pen, ...halfway(way), ink);
  const here = picture.boxes.find(({ kind }) => kind === "here");
  if (picture.pointer && !here) paintPointer(pen, picture.pointer, ink);
}

function paintWay(pen, { ends: [[x1, y1], [x2, y2]], bend, arrow, isStub, isLocked, isRoute, isWalked }, ink) {
  const isMarked = isRoute || isWalked;
  pen.strokeStyle = pen.fillStyle = isMarked ? ink.mark : isLocked ? ink.off : ink.dim;
  pen.lineWidth = isRoute ? 4 : isLocked || isWalked ? 2 : 1.5;
  pen.setLineDash(isWalked ? [2, 5] : isLocked ? [6, 4] : isStub ? [3, 3] : []);
  pen.beginPath();
  pen.moveTo(x1, y1);
  if (bend) pen.quadraticCurveTo(...bend, x2, y2);
  else pen.lineTo(x2, y2);
  pen.stroke();
  pen.setLineDash([]);
  const from = bend ?? (arrow ? [x1, y1] : [x2, y2]);
  if (arrow !== undefined) paintArrow(pen, from, arrow ? [x2, y2] : [x1, y1]);
}

// Returns the middle of a way.
function halfway({ ends: [a, b], bend }) {
  return a.map((one, axis) => (one + b[axis] + 2 * (bend?.[axis] ?? (one + b[axis]) / 2)) / 4);
}

// Paints the head of an arrow: the way leads in this direction alone.
function paintArrow(pen, [x1, y1], [x2, y2]) {
  const turn = Math.atan2(y2 - y1, x2 - x1);
  pen.beginPath();
  pen.moveTo(x2, y2);
  for (const side of [-0.4, 0.4]) pen.lineTo(x2 - 10 * Math.cos(turn + side), y2 - 10 * Math.sin(turn + side));
  pen.fill();
}

function paintLock(pen, x, y, ink) {
  pen.fillStyle = pen.strokeStyle = ink.off;
  pen.fillRect(x - 5, y - 2, 10, 8);
  pen.lineWidth = 2;
  pen.beginPath();
  pen.arc(x, y - 2, 3.5, Math.PI, 0);
  pen.stroke();
}

function paintRoom(pen, { x, y, wide, tall, kind, lines, marks }, ink) {
  const isHere = kind === "here", isSmall = tall < ONE_LINE;
  pen.fillStyle = isHere && isSmall ? ink.mark : kind === "heard" ? ink.back : ink.room;
  pen.strokeStyle = isHere ? ink.mark : kind === "locked" ? ink.off : ink.dim;
  pen.lineWidth = isHere ? 3 : 1.5;
  pen.setLineDash(kind === "heard" ? [5, 3] : []);
  pen.beginPath();
  pen.roundRect(x, y, wide, tall, Math.min(7, tall / 3));
  pen.fill();
  pen.stroke();
  pen.setLineDash([]);
  if (kind === "locked" && !isSmall) pen.strokeRect(x + 3.5, y + 3.5, wide - 7, tall - 7);
  if (kind === "locked") paintLock(pen, x + 1, y + 1, ink);
  if (isHere) paintHere(pen, x, y + tall / 2, ink);
  lines.forEach((text, at) => {
    pen.fillStyle = at || kind === "heard" ? ink.dim : ink.fore;
    pen.fillText(text, x + wide / 2, y + tall / 2 + (at - (lines.length - 1) / 2) * LINE);
  });
  for (const mark of marks) paintMark(pen, mark, ink);
}

// Paints the diamond at the left of the player's room.
function paintHere(pen, x, y, ink) {
  pen.fillStyle = ink.mark;
  pen.beginPath();
  for (const [dx, dy] of [[-8, 0], [0, -8], [8, 0], [0, 8]]) pen.lineTo(x + dx, y + dy);
  pen.fill();
}

// Paints the triangle of an exit up or down; it is empty if the other end is not known.
function paintMark(pen, { x, y, isUp, isKnown, isLocked, isRoute }, ink) {
  pen.fillStyle = isKnown ? isRoute ? ink.mark : isLocked ? ink.off : ink.fore : ink.back;
  pen.strokeStyle = isRoute ? ink.mark : isLocked ? ink.off : ink.fore;
  pen.lineWidth = 1.5;
  pen.beginPath();
  for (const [dx, dy] of [[-7, 4], [7, 4], [0, -7]]) pen.lineTo(x + dx, y + (isUp ? dy : -dy));
  pen.closePath();
  pen.fill();
  pen.stroke();
  if (isLocked) paintLock(pen, x + 11, y, ink);
}

function paintLabel(pen, { x, y, wide, tall, text, isRoute, isLocked }, ink) {
  pen.fillStyle = ink.back;
  pen.fillRect(x, y, wide, tall);
  pen.fillStyle = isRoute ? ink.mark : isLocked ? ink.off : ink.fore;
  pen.fillText(text, x + wide / 2, y + tall / 2 + 0.5, wide);
}

// Paints the arrow at the edge of the window that points to the player's room.
function paintPointer(pen, { x, y, turn }, ink) {
  pen.fillStyle = ink.mark;
  pen.beginPath();
  for (const [far, side] of [[13, 0], [11, 2.5], [11, -2.5]])
    pen.lineTo(x + far * Math.cos(turn + side), y + far * Math.sin(turn + side));
  pen.fill();
  pen.fillText("you", x - 24 * Math.cos(turn), y - 16 * Math.sin(turn));
}
