// Helpers of all parts of the page: nodes, event handlers, and work that runs once a frame.

const BEHIND = 250; // Milliseconds after which a hidden tab runs a task.

// Returns a function that has the task run once before the next frame, however often it is called. A hidden tab draws
// no frames and runs the task by a timer.
function onceAFrame(task) {
  let isAsked = false;
  const run = () => {
    isAsked = false;
    task();
  };
  return () => {
    if (isAsked) return;
    isAsked = true;
    if (document.hidden) setTimeout(run, BEHIND);
    else requestAnimationFrame(run);
  };
}

// Adds an event handler to a node; without a name, for clicks.
function on(node, task, name = "click") {
  node.addEventListener(name, task, { passive: false });
}

function element(name, kind, text = "") {
  const node = document.createElement(name);
  node.className = kind;
  node.textContent = text;
  return node;
}
