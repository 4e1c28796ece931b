"use strict";
// The text of the puzzle, which is the same thing as what is drawn: what of it was read, where its faults are, and what was undone.

// What the server told first: colours, names and sets; `let`, for the scripts of the pages read it too.
let DATA = {palette: ["#888888"], distances: [[0]], colours: {}, letters: "A", sets: []};
// The text; what was read of it, and of which text that was; what is drawn in the editor: the region, or a piece by its entry, which has no line as long
// as it has no cell.
const studio = {text: "", told: null, lines: new Lines("", []), chosen: null, past: [], future: [], layer: 0, asking: 0, answered: 0, title: "puzzle"};
const NOTHING = {lines: [], faults: [], colours: {}, region: {required: [], optional: []}, numbers: {ways: {}, why: [], notes: [], pieces: [0, 0], region: [0, 0]}};

const ENDED = "The studio that this page belongs to has ended. What you drew is still here: save it, or start the studio again and open it.";

// A number, and so many things of a kind.
const many = number => number.toLocaleString("en");
function counted(number, one, more = one + "s") { return many(number) + " " + (number === 1 ? one : more); }

// Changes the lines once they are those of the text: what was typed or undone a moment ago is read first.
let later = [];
function onceRead(act) { if (studio.lines.text === studio.text) act(); else later.push(act); }

// As many children of a kind as are wanted, to be drawn anew: those that are there stay, since a click is lost if what was pressed goes before it ends.
function kept(parent, kind, many, name) {
  while (parent.children.length > many) parent.lastElementChild.remove();
  while (parent.children.length < many) make(parent, kind, "", name);
  return [...parent.children];
}

// Asks the server. What it can't do is an error with its sentence.
async function ask(name, body = {}, kind = "application/json") {
  let answer;
  try {
    answer = await fetch(name, {method: "POST", headers: {"Content-Type": kind}, body: kind === "application/json" ? JSON.stringify(body) : body});
  } catch {
    throw new Error(ENDED);
  }
  if (!answer.ok) {
    const told = await answer.json().catch(() => ({}));
    throw new Error(told.said ? told.said[0].toUpperCase() + told.said.slice(1) : "The studio answered with " + answer.status + ".");
  }
  return answer;
}
async function askedFor(name, body) { return (await ask(name, body)).json(); }

// Says something at the top of the page; with a question there is a button that does something.
function say(words, isBad = false, yes = null, act = null) {
  get("message").hidden = !words;
  get("message").classList.toggle("bad", isBad);
  get("messagetext").textContent = words;
  get("messageyes").hidden = !yes;
  get("messageyes").textContent = yes || "";
  get("messageyes").onclick = () => { say(""); act(); };
}
// Runs something that asks the server, and says what goes wrong.
async function trying(act) { try { await act(); } catch (why) { say(why.message || String(why), true); } }

// Keeps the text as it is now, to come back to.
function remember() {
  const last = studio.past[studio.past.length - 1];
  if (last && last.text === studio.text) return;
  studio.past.push({text: studio.text, names: studio.chosen?.names || ""});
  if (studio.past.length > 300) studio.past.shift();
  studio.future = [];
}

// Another text, by whatever came about; what is drawn follows once it is read.
function setText(text, {fromText = false, keep = true} = {}) {
  if (text === studio.text) return;
  if (keep) remember();
  studio.text = text;
  if (!fromText) get("text").value = text;
  get("undo").disabled = !studio.past.length;
  get("redo").disabled = !studio.future.length;
  drawMarks();
  soonRead();
}

// The text after drawing: what was written into its lines.
function drawn(chosen = studio.chosen) {
  studio.chosen = chosen;
  setText(studio.lines.text);
  drawAll();
}

// Goes back to a text before, or on again.
function travel(from, to) {
  const there = from.pop();
  if (!there) return;
  to.push({text: studio.text, names: studio.chosen?.names || ""});
  setText(there.text, {keep: false});
  studio.wanted = there.names;
}

// Reads the text a moment after the last change; an answer to an older text is left alone.
let waiting = 0;
function soonRead() { clearTimeout(waiting); studio.asking++; waiting = setTimeout(() => trying(read), 90); }
async function read() {
  const number = studio.asking, {text} = studio, told = await askedFor("read", {text});
  if (number !== studio.asking) return;
  studio.answered = number;
  take(text, told);
  history.replaceState(null, "", await addressed());
}

// What the page's own address is, so that it can be loaded again.
async function addressed() {
  const hash = studio.text ? await packed(studio.text, studio.title) : "";
  return location.pathname + (hash && hash.length < LINK_LONG ? "#" + hash : "");
}

// Takes what was read of a text, and keeps what is chosen, where it still is.
function take(text, told) {
  const before = studio.chosen;
  studio.told = told;
  studio.lines = new Lines(text, told.lines);
  DATA.colours = told.colours;
  // (a new piece is asked for as long as it has no line)
  if (before !== "region" && !(before?.isAsked && !before.line && studio.wanted === undefined)) {
    const {pieces} = studio.lines, names = studio.wanted || before?.names;
    const isThere = it => it.line === before?.line, isNamed = it => it.names === names;
    studio.chosen = pieces.find(it => isThere(it) && isNamed(it)) || pieces.find(isNamed) || pieces.find(isThere) || pieces[0] || newPiece();
  }
  chooseTyped();
  studio.wanted = undefined;
  const acts = later;
  later = [];
  acts.forEach(act => act());
  drawAll();
}

// The piece, or the region, of the line in which somebody types.
function chooseTyped() {
  if (document.activeElement !== get("text") || studio.lines.text !== studio.text) return;
  const line = studio.text.slice(0, get("text").selectionStart).split("\n").length, entry = studio.lines.entries.find(it => it.line === line);
  if (entry) studio.chosen = entry.kind === "piece" ? entry : "region";
}

// Marks the faults in the text: behind the words that are typed lie the same words, with marks.
function drawMarks() {
  const marks = get("marks"), rows = studio.text.split("\n"), faults = studio.told && studio.lines.text === studio.text ? studio.told.faults : [];
  marks.textContent = "";
  rows.forEach((row, at) => {
    let done = 0;
    for (const fault of faults.filter(it => it.line === at + 1).sort((one, other) => one.from - other.from)) {
      if (fault.from < done) continue;
      marks.append(row.slice(done, fault.from));
      make(marks, "mark", row.slice(fault.from, fault.to) || " ");
      done = fault.to;
    }
    marks.append(row.slice(done) + "\n");
  });
  marks.scrollTop = get("text").scrollTop;
  marks.scrollLeft = get("text").scrollLeft;
}

// The faults in words; each leads to its place.
function drawFaults() {
  const list = get("faults"), {faults, other, more} = studio.told, said = JSON.stringify([faults, other, more]);
  if (list.dataset.said === said) return;
  list.dataset.said = said;
  list.textContent = "";
  const shown = faults.filter(it => !it.is_missing);
  get("text").setAttribute("aria-invalid", shown.length > 0);
  if (other) make(list, "li", "Note: " + other + ".");
  for (const fault of shown) {
    const button = make(make(list, "li"), "button", (fault.line ? "Line " + fault.line + ", column " + (fault.from + 1) + ": " : "") + fault.what);
    button.onclick = () => goTo(fault);
  }
  if (more) make(list, "li", "and " + more + " more");
}

// Selects in the text what a fault is about.
function goTo(fault) {
  const box = get("text"), rows = studio.text.split("\n"), start = rows.slice(0, Math.max(0, fault.line - 1)).reduce((sum, row) => sum + row.length + 1, 0);
  box.focus();
  box.setSelectionRange(start + fault.from, start + Math.max(fault.from + 1, fault.to));
  box.scrollTop = Math.max(0, (fault.line - 3) * parseFloat(getComputedStyle(box).lineHeight));
}

// What the numbers show: whether all can fit.
function drawNumbers() {
  const {numbers} = studio.told, box = get("numbers"), missing = studio.told.faults.filter(it => it.is_missing).map(it => it.name);
  const isEmpty = missing.includes("EmptyRegion"), hasPiece = studio.lines.pieces.length > 0;
  const said = !hasPiece ? "Draw a piece, or add a set of pieces." : isEmpty ? "Now say which region the pieces fill." : numbers.headline;
  get("headline").textContent = said ? said[0].toUpperCase() + said.slice(1) : "";
  get("headline").className = "headline " + (numbers.state || "");
  box.textContent = "";
  const row = (name, value) => { const pair = make(box, "div"); make(pair, "dt", name); make(pair, "dd", value); };
  const [sure, most] = numbers.pieces, [least, region] = numbers.region;
  row("Pieces", (most > sure ? sure + " to " : "") + counted(most, "cell") + (numbers.any?.length ? ", and any number of " + numbers.any.join(" ") : ""));
  row("Region", counted(region, "cell") + (region > least ? ", of which " + (region - least) + " may stay empty" : ""));
  if (region) row("Chessboard", numbers.colours[0] + " and " + numbers.colours[1] + " cells");
  if (numbers.options) row("Ways", numbers.options.toLocaleString("en"));
  list("why", [...numbers.why, ...numbers.large ? ["this is too large for the program: " + numbers.large] : []]);
  list("notes", numbers.notes);
  get("notesbox").hidden = !numbers.notes.length;
  get("notessaid").textContent = numbers.notes.length === 1 ? "1 note" : numbers.notes.length + " notes";
}
function list(id, words) { const box = get(id); box.textContent = ""; words.forEach(it => make(box, "li", it[0].toUpperCase() + it.slice(1))); }

// Everything that follows from the text.
function drawAll() {
  if (!studio.told) studio.told = NOTHING;
  drawMarks();
  drawFaults();
  drawNumbers();
  drawPieces();
  drawEditor();
  drawKinds();
  note();
}

// What the page notes of what it shows, for tests.
function note() {
  const {chosen, told, lines} = studio, isRegion = chosen === "region";
  Object.assign(document.body.dataset, {pieces: lines.pieces.length, cells: isRegion ? told.numbers.region[1] : chosen?.cells.length || 0,
    chosen: isRegion ? "region" : chosen?.names || "", layer: studio.layer, faults: told.faults.length, headline: get("headline").textContent,
    read: lines.text === studio.text && studio.answered === studio.asking ? 1 : 0});
}
