"use strict";
// Puzzles come and go: files that are opened, dropped and saved, links, and what is printed. Files are read and written by the browser alone.

const MOST_FILE = 1 << 24;

// Hands a file to whoever looks at the page.
function saveFile(blob, name) {
  const link = document.createElement("a");
  link.href = URL.createObjectURL(blob);
  link.download = name.replace(/[^\w .-]/g, "_");
  link.click();
  setTimeout(() => URL.revokeObjectURL(link.href), 60000);
}

// Opens a page that was made, to be printed.
function openMade(address) {
  if (!window.open(address, "_blank")) say("The browser held back a new tab: allow it for this page, and try again.", true);
}

// A name for the puzzle.
function setTitle(name) {
  studio.title = name.replace(/[^ -~\u00a0-\uffff]/g, "").slice(0, 60).trim() || "puzzle";
  get("title").value = studio.title;
  document.title = studio.title + " – Polylab studio";
}

// Another puzzle; the one before comes back by Undo.
function openText(text, name) {
  // (until the text is read a piece without a name stands for what will be chosen)
  studio.chosen = text === studio.lines.text ? studio.lines.pieces[0] || newPiece() : {...newPiece(), names: ""};
  studio.layer = 0;
  studio.wanted = "";
  if (name) setTitle(name);
  if (text === studio.text) drawAll(); else setText(text);
}

// Opens a file: a text or, by the server, what can be made into one.
async function openFile(file) {
  if (file.size > MOST_FILE) throw new Error(file.name + " has " + Math.round(file.size / 1e6) + " MB, and a puzzle has one at most: it isn't opened.");
  let told;
  try {
    told = await (await ask("open", await file.arrayBuffer(), "application/octet-stream")).json();
  } catch (why) { throw new Error(file.name + ": " + why.message); }
  openText(told.text, file.name.replace(/\.[^.]*$/, ""));
  say(told.notes.length ? file.name + " was opened. " + told.notes.map(it => "Note: " + it + ".").join(" ") : file.name + " was opened.");
}

// What is dropped on the page: one file, or a text.
function dropped(event) {
  event.preventDefault();
  get("drop").hidden = true;
  const files = [...event.dataTransfer.files], text = event.dataTransfer.getData("text/plain");
  if (files.length > 1) say("One puzzle at a time: here are " + files.length + " files.", true);
  else if (files.length) trying(() => openFile(files[0]));
  else if (text) trying(() => openLink(text));
  else say("Nothing was dropped that can be opened: a file is.", true);
}

// Opens the puzzle of a link, or a text that is given in its place.
async function openLink(words) {
  const link = words.trim();
  if (!/^https?:/.test(link)) { if (link.length > LINK_TEXT) throw new Error("This text is longer than any puzzle."); openText(words, ""); return; }
  let found = null;
  try { found = await unpacked(new URL(link).hash); } catch { throw new Error("This link is spoilt: it may have been cut when it was copied."); }
  if (!found) throw new Error("This link holds no puzzle.");
  openText(found.text, found.name);
}

// The link that holds the puzzle. It leads to the studio of whoever clicks it, at the port that a first studio takes.
async function showLink() {
  const link = DATA.link + "#" + await packed(studio.text, studio.title);
  get("linktext").value = link;
  get("linksaid").textContent = link.length > 2000 ? "It has " + link.length + " characters; some programs for mail cut links that are longer than 2,000." : "";
  get("linkdialog").showModal();
}

// The puzzle as a file of BurrTools, and what BurrTools can't say.
async function saveBurrTools() {
  const {text, notes} = await askedFor("burrtools", {text: studio.text, title: studio.title});
  saveFile(new Blob([text], {type: "application/xml"}), studio.title + ".xmpuzzle");
  if (notes.length) say(notes.map(it => "Note: " + it + ".").join(" "));
}

async function makeSolids() {
  const values = {edge: +get("edge").value, gap: +get("gap").value, bevel: +get("bevel").value, format: get("format").value};
  try {
    saveFile(await (await ask("solids", {...values, text: studio.text})).blob(), studio.title + "-" + values.format + ".zip");
    get("solidsaid").textContent = "";
    get("soliddialog").close();
  } catch (why) { get("solidsaid").textContent = why.message; }
}

// A puzzle that a link brought, in another tab of this browser; it is opened when whoever sits here says so.
function listenLinks() {
  if (!window.BroadcastChannel) return;
  const channel = new BroadcastChannel("polylab studio");
  channel.onmessage = event => {
    const {text, name} = event.data || {};
    if (typeof text !== "string" || typeof name !== "string" || text.length > LINK_TEXT) return;
    channel.postMessage("here");
    say("A link brought the puzzle “" + (name || "without a name").slice(0, 60) + "”.", false, "Open it", () => openText(text, name));
  };
}

function listenFiles() {
  get("fresh").onclick = () => { openText("", "puzzle"); say("A new puzzle. Undo brings the one before back."); };
  get("openfile").onclick = () => get("file").click();
  get("file").onchange = () => { const [file] = get("file").files; get("file").value = ""; if (file) trying(() => openFile(file)); };
  get("save").onclick = () => saveFile(new Blob([studio.text], {type: "text/plain"}), studio.title + ".puzzle");
  get("link").onclick = () => trying(showLink);
  get("copylink").onclick = async () => {
    get("linktext").select();
    const isCopied = await navigator.clipboard?.writeText(get("linktext").value).then(() => true, () => false);
    get("linksaid").textContent = isCopied ? "Copied." : "Copy it by Ctrl+C.";
  };
  get("takelink").onclick = async () => { get("linkdialog").close(); await trying(() => openLink(get("openlink").value)); get("openlink").value = ""; };
  get("sheet").onclick = () => trying(async () => openMade((await askedFor("sheet", {text: studio.text, title: studio.title})).address));
  get("solids").onclick = () => { get("solidsaid").textContent = ""; get("soliddialog").showModal(); };
  get("burrtools").onclick = () => trying(saveBurrTools);
  get("makesolids").onclick = makeSolids;
  get("title").onchange = () => setTitle(get("title").value);
  let inside = 0;
  window.addEventListener("dragenter", event => { event.preventDefault(); inside++; get("drop").hidden = false; });
  window.addEventListener("dragleave", () => { if (--inside <= 0) { inside = 0; get("drop").hidden = true; } });
  window.addEventListener("dragover", event => event.preventDefault());
  window.addEventListener("drop", event => { inside = 0; dropped(event); });
}
