"use strict";
// The studio's page begins: it asks the server what it has to know, and takes the puzzle of its address, if there is one.

// What is typed is drawn.
function listenText() {
  const box = get("text");
  let typed = 0;
  box.oninput = () => {
    const before = Date.now() - typed > 1500;
    typed = Date.now();
    setText(box.value, {fromText: true, keep: before});
  };
  document.addEventListener("selectionchange", () => {
    const before = studio.chosen;
    chooseTyped();
    if (studio.chosen !== before) choosePiece(studio.chosen);
  });
  box.onscroll = () => { get("marks").scrollTop = box.scrollTop; get("marks").scrollLeft = box.scrollLeft; };
  get("undo").onclick = () => travel(studio.past, studio.future);
  get("redo").onclick = () => travel(studio.future, studio.past);
  get("messageno").onclick = () => say("");
}

// Keys that act everywhere but where a text is typed, which has its own undo.
function listenKeys() {
  document.addEventListener("keydown", event => {
    const isTyping = /^(INPUT|TEXTAREA|SELECT)$/.test(event.target.tagName), key = event.key.toLowerCase();
    if (!(event.ctrlKey || event.metaKey) || event.altKey) return;
    if (key === "s") { event.preventDefault(); get("save").click(); }
    if (key === "o") { event.preventDefault(); get("openfile").click(); }
    if (isTyping) return;
    if (key === "z" && !event.shiftKey) { event.preventDefault(); get("undo").click(); }
    if (key === "y" || key === "z" && event.shiftKey) { event.preventDefault(); get("redo").click(); }
  });
}

// Shows what the server told of the program.
function drawProgram({version, revision, bounds}) {
  get("program").textContent = "Polylab " + version + ", revision " + revision;
  get("stop").title = "A search takes " + bounds.memory + " MB at most, and waits after " + bounds.minutes + " minutes";
  for (const [name, words] of DATA.sets) make(get("sets"), "option", words).value = name;
}

async function beginStudio() {
  studio.chosen = newPiece();
  drawAll();
  const begun = await askedFor("begin");
  DATA = {...DATA, ...begun, colours: {}};
  drawProgram(begun);
  studio.chosen = newPiece();
  listenText();
  listenKeys();
  listenPieces();
  listenGrid();
  listenSolid();
  listenSearch();
  listenFiles();
  listenLinks();
  setTitle("puzzle");
  try {
    const found = await unpacked(location.hash);
    if (found) { openText(found.text, found.name); studio.past = []; }
  } catch { say("The puzzle in the address of this page is spoilt: the address may have been cut.", true); }
  await read();
  get("undo").disabled = true;
  document.body.dataset.begun = 1;
}
trying(beginStudio);
