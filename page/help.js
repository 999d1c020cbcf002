// The help: the table of docs/COMMANDS.md, which make_page.py puts into COMMANDS. A row is [what is typed, what it
// does], with code between backquotes.

// Returns the verbs of the table: the first word of each row that begins with one.
function verbsOf(commands) {
  const codes = ([typed]) => typed.replace(/ \(.*|, which .*/, "").split("`").filter((_, at) => at % 2);
  const lines = commands.flatMap(codes);
  return [...new Set(lines.map((line) => line.match(/^@?[a-z]+/)?.[0]).filter(Boolean))];
}

// Returns the nodes of a text with code between backquotes.
function withCode(text) {
  return text.split("`").map((part, at) => at % 2 ? element("code", "", part) : part);
}

function rowOf(cells) {
  const row = element("tr", "");
  for (const text of cells) {
    const cell = element("td", "");
    cell.append(...withCode(text));
    row.append(cell);
  }
  return row;
}

// Fills the table once, and opens the dialog.
function openHelp(dialog, body) {
  if (!body.childElementCount) body.append(...COMMANDS.map(rowOf));
  dialog.showModal();
}
