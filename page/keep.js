// What the tab keeps across a reload, and what is saved to a file.

const KEPT = "seamountcup"; // The key in the tab's session storage.
const FORM = 1; // The version of the kept value's format.
const GIVEN_UP = 600000; // Milliseconds after which the address of a saved file is revoked.

// Keeps a value in the tab. Returns false if the storage is full or closed.
function keepInTab(value) {
  try {
    sessionStorage.setItem(KEPT, JSON.stringify({ form: FORM, ...value }));
  } catch {
    return false;
  }
  return true;
}

// Removes and returns the kept value. A page that fails on it starts without it the next time.
function keptInTab() {
  try {
    const kept = JSON.parse(sessionStorage.getItem(KEPT));
    sessionStorage.removeItem(KEPT);
    return kept?.form === FORM ? kept : undefined;
  } catch {
    return undefined;
  }
}

// Saves a text to a file. One click saves one file: browsers limit how many they save at once.
function saveFile(name, text) {
  const link = document.createElement("a");
  link.href = URL.createObjectURL(new Blob([text], { type: "text/plain" }));
  link.download = name;
  link.click();
  setTimeout(() => URL.revokeObjectURL(link.href), GIVEN_UP);
}

// Returns the name and the text of the record of a conversation.
function recordOf({ history, proofs, volume }) {
  const text = checker.record(history.text, proofs.map((proof) => proof.text));
  return { name: `${volume > 1 ? `volume-${volume}-` : ""}record-${history.version}.txt`, text };
}
