"use strict";
// The scenario at the left: it is run anew as one types, the view shows its run, and a fault line stands beside the word that causes it.

let waiting = null;

// Marks the word that causes a fault in the mirror, which stands below the text, and puts the fault line beside it.
function markFault(text, said) {
  const mirror = at("mirror"), found = said === null ? null : placeOfFault(text, said);
  mirror.replaceChildren();
  if (at("fault")) at("fault").remove();
  if (!found) return;
  const [from, to, why] = found, mark = document.createElement("mark"), word = text.slice(from, to);
  mark.textContent = word.trim() === "" ? ` ${word}` : word;
  mirror.append(text.slice(0, from), mark, text.slice(to) + "\n");
  line(at("paper"), "div", `${said}: ${why}`).id = "fault";
  placeFault();
}

// The line on which one types, from its top to its bottom.
function lineOfCaret() {
  const [before, mark, after] = at("mirror").childNodes, range = document.createRange(), word = mark.firstChild;
  const caret = at("scenario").selectionStart, end = after.length - 1, past = Math.min(caret - (at("scenario").value.length - end), end);
  const [node, place] = caret < before.length ? [before, caret] : past < 0 ? [word, Math.min(caret - before.length, word.length - 1)] : [after, past];
  range.setStart(node, place);
  range.setEnd(node, place + 1);
  const { top, bottom } = range.getBoundingClientRect(), edge = at("paper").getBoundingClientRect().top;
  return [top - edge, bottom - edge];
}

// Keeps the mirror and the fault line where the text is scrolled to: the fault line stands below its word, or above it, and not on the line on which
// one types.
function placeFault() {
  const mirror = at("mirror"), mark = mirror.querySelector("mark"), box = at("fault");
  mirror.scrollTop = at("scenario").scrollTop;
  if (!mark || !box) return;
  const wide = at("paper").clientWidth - box.offsetWidth - 6, tall = at("paper").clientHeight - box.offsetHeight - 4;
  const within = (place, most) => Math.max(4, Math.min(place, most));
  const above = mark.offsetTop - mirror.scrollTop, [top, bottom] = lineOfCaret();
  const places = [above + mark.offsetHeight + 3, above - box.offsetHeight - 3, bottom + 3].map(place => within(place, tall));
  const isFree = place => document.activeElement !== at("scenario") || place >= bottom || place + box.offsetHeight <= top;
  box.style.left = `${within(mark.offsetLeft, wide)}px`;
  box.style.top = `${places.find(isFree) || places[0]}px`;
}

// Says how a run ended. What isn't the run of this text stays pale.
function sayOutcome(text, isWrong) {
  at("outcome").textContent = text;
  at("outcome").classList.toggle("wrong", isWrong);
  document.body.classList.toggle("stale", isWrong && RUN !== null);
  if (isWrong && RUN === null) at("words").textContent = "There is no run to show.";
}

// The text of a scenario, whose run the program prints without a fault.
function longText(text) {
  const run = runText(text, false);
  if (run.status !== 0 && run.status !== 5) throw new Error(run.text.trim() || `the program ends with ${run.status}`);
  return run.text;
}

function runScenario(moment) {
  const text = at("scenario").value;
  let run = null;
  try { run = runText(text, at("brief").checked); } catch (wrong) { return sayOutcome(`The program has stopped: ${wrong.message}`, true); }
  const fault = run.text.split("\n").find(line => line.startsWith("tapestry: "));
  at("printed").textContent = run.text;
  const said = fault ? fault.replace(/^tapestry: (not a scenario: )?/, "") : null;
  markFault(text, run.status === 3 ? said : null);
  if (run.status !== 0 && run.status !== 5) return sayOutcome(`${fault || "tapestry: no memory"}; exit status ${run.status}`, true);
  try {
    load(runOf(at("brief").checked ? longText(text) : run.text, at("example").value, longText), moment);
    sayOutcome(`exit status ${run.status}`, false);
  } catch (wrong) { sayOutcome(`exit status ${run.status}; no view: ${wrong.message}`, true); }
}

// Scrolls to the word that causes a fault.
function showFault() {
  const mark = at("mirror").querySelector("mark"), paper = at("scenario");
  if (mark) paper.scrollTop = mark.offsetTop - paper.clientHeight / 2;
  placeFault();
}

// Chooses the first object of a run, so that its pointers and a walk to its root are drawn.
function showObject() {
  if (RUN === null || state.object !== "" || !RUN.objects.length) return;
  at("object").value = state.object = RUN.objects[0];
  show();
}

function takeExample() {
  const example = EXAMPLES.find(one => one.name === at("example").value);
  at("scenario").value = example.text;
  at("brief").checked = example.brief;
  at("scenario").setSelectionRange(0, 0);
  at("scenario").scrollTop = 0;
  runScenario(0);
  showFault();
  showObject();
}

function listExamples() {
  const groups = { tour: "a tour", run: "runs", refused: "refused" };
  Object.entries(groups).forEach(([sort, title]) => {
    const group = document.createElement("optgroup");
    group.label = title;
    EXAMPLES.filter(one => one.sort === sort).forEach(one => { line(group, "option", one.name.replace(/-/g, " ")).value = one.name; });
    at("example").append(group);
  });
}

at("scenario").addEventListener("input", () => { clearTimeout(waiting); waiting = setTimeout(() => runScenario(state.moment), 120); });
["scroll", "keyup", "pointerup", "focus", "blur"].forEach(event => at("scenario").addEventListener(event, placeFault));
at("brief").addEventListener("change", () => runScenario(state.moment));
at("example").addEventListener("change", takeExample);
window.addEventListener("resize", placeFault);
at("title").textContent = document.title = "Tapestry in a page";
listExamples();
if (asked.example) at("example").value = asked.example;
const ready = loadProgram().then(() => {
  takeExample();
  if (asked.moment) go(+asked.moment);
}, wrong => sayOutcome("This browser doesn't take the program, which wants WebAssembly with memory of 64 bits (Chromium from 133, Firefox from 134): "
  + wrong.message, true));
