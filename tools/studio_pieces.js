"use strict";
// The list of pieces and the region to choose from, and what is said of the piece that is chosen: its name, colour, and how often it is used.

// The colour of a piece: the one that the text chooses for its name, or its own.
function colourOf(names) {
  const name = symbolsOf(names)[0], all = [...new Set([...studio.lines.pieces.flatMap(it => symbolsOf(it.names)), name])].sort();
  return DATA.colours[name] || DATA.palette[all.indexOf(name) % DATA.palette.length];
}

// A piece that is still without cells: it has no line yet.
function newPiece() { return {kind: "piece", need: "", mirror: false, names: freeNames()[0] || "A", cells: [], comment: ""}; }

// The names that no piece has, capital letters first.
function freeNames() { return studio.lines.free(DATA.letters.slice(10) + DATA.letters.slice(0, 10)); }

const START = [-0.6, 0.5], pencil = new Picture();
// A small picture of some cells, in a canvas that isn't wider than it is.
function drawSmall(canvas, cells, colour, spare = []) {
  const pen = canvas.getContext("2d"), all = [...cells, ...spare];
  pen.clearRect(0, 0, canvas.width, canvas.height);
  if (!all.length) return;
  const shape = new Solid(atCorner(all), all.map((_, at) => at < cells.length ? 0 : 1), 2), faces = shape.faces(body => body >= 0);
  const view = {turn: START[0], tilt: START[1], zoom: 1}, paints = [colour, "#e8e8e4"].map(rgb);
  const how = {width: canvas.width, height: canvas.height, samples: 2, paints, line: 1.6};
  pen.putImageData(pencil.draw(shape, faces, shape.moves(0), view, how), 0, 0);
}

// How often a piece is used, in a word or two.
function usedOf(entry) {
  const {least, most} = numberOf(entry.names);
  const copies = most > 1 ? (least < most ? least + " to " + most : most) + " copies" : "";
  const often = {any: "any number", maybe: "or left out"}[entry.need] || copies;
  return [often, entry.mirror ? "reflected too" : ""].filter(Boolean).join(", ");
}

// The pieces, and the region, each as a card to choose.
function drawPieces() {
  const box = get("pieces"), {pieces} = studio.lines, chosen = studio.chosen, list = chosen !== "region" && chosen && !chosen.line ? [...pieces, chosen] : pieces;
  const held = document.activeElement?.closest?.("#pieces .card")?.dataset.names;
  kept(box, "li", list.length).forEach((row, at) => {
    const entry = list[at], card = row.firstChild || makeCard(row), [canvas, words] = card.children;
    card.dataset.names = entry.names;
    words.textContent = "";
    drawSmall(canvas, entry.cells, colourOf(entry.names));
    const ways = studio.told.numbers.ways[entry.names.replace("+", "")[0]];
    make(words, "b", entry.names);
    make(words, "small", counted(entry.cells.length, "cell") + (ways !== undefined && studio.told.numbers.region[1] ? ", " + counted(ways, "way") : ""));
    if (usedOf(entry)) make(words, "small", usedOf(entry), "used");
    if (entry.same?.length) make(words, "small", "same shape as " + entry.same.join(" "), "kin");
    card.setAttribute("aria-current", entry === chosen);
    card.onclick = () => choosePiece(entry);
    if (entry.names === held) card.focus({preventScroll: true});
  });
  get("nopieces").hidden = pieces.length > 0;
  drawRegionCard();
}

function makeCard(row) {
  const card = make(row, "button", "", "card"), canvas = make(card, "canvas");
  make(card, "span");
  Object.assign(canvas, {width: 96, height: 76});
  canvas.setAttribute("aria-hidden", "true");
  return card;
}

function drawRegionCard() {
  const {required, optional} = studio.told.region, {box} = studio.lines, size = required.length + optional.length ? sizeOf([...required, ...optional]) : null;
  drawSmall(get("region").querySelector("canvas"), required.length <= MOST_REGION ? required : [], "#b9c4d6", optional.length <= MOST_REGION ? optional : []);
  get("regionname").textContent = size ? (box && !studio.lines.of("cells").length ? "" : "within ") + size.join(" × ") : "No region yet";
  get("regionsaid").textContent = size ? required.length + optional.length + " cells" : "Choose a box";
  get("region").setAttribute("aria-current", studio.chosen === "region");
  drawBoxes();
}

// Boxes that have as many cells as the pieces, to be chosen by a click.
function drawBoxes() {
  const box = get("boxes"), [sure, most] = studio.told.numbers.pieces, found = [];
  const isAsked = !studio.told.numbers.region[1] && sure && sure === most && !studio.told.numbers.any?.length;
  if (box.dataset.of === String(isAsked && sure)) return;
  box.dataset.of = isAsked && sure;
  box.textContent = "";
  if (!isAsked) return;
  for (let z = 1; z <= 32; z++) for (let y = z; y <= 32; y++) if (sure % (y * z) === 0 && sure / y / z >= y && sure / y / z <= 32) found.push([sure / y / z, y, z]);
  // (the most like a cube first)
  found.sort((one, other) => Math.max(...one) - Math.max(...other));
  if (found.length) make(box, "small", sure + " cells fit in ");
  for (const size of found.slice(0, 4)) make(box, "button", size.join(" × ")).onclick = () => onceRead(() => { studio.lines.setBox(size); drawn("region"); });
}

// Another piece in the editor.
function choosePiece(entry) {
  studio.chosen = entry;
  studio.layer = entry === "region" ? 0 : Math.min(studio.layer, Math.max(0, ...entry.cells.map(cell => cell[2])));
  drawPieces();
  drawEditor();
  note();
}

// Writes the line of the piece that is chosen, where it has one.
function written() { if (studio.chosen.line) studio.lines.write(studio.chosen); drawn(); }

// What is said of the piece, or of the region.
function drawControls() {
  const entry = studio.chosen, isRegion = entry === "region";
  for (const id of ["ofpiece", "piecetools"]) get(id).hidden = isRegion;
  get("ofregion").hidden = !isRegion;
  get("editorhead").textContent = isRegion ? "The region to fill" : "Piece " + entry.names;
  const kin = isRegion ? [] : [["the same shape as ", entry.same], ["mirror image of ", entry.mirrored]].filter(([, names]) => names?.length);
  get("kin").textContent = kin.map(([words, names]) => words + names.join(" ")).join(", ");
  if (isRegion) {
    const size = studio.lines.box?.size;
    ["boxx", "boxy", "boxz"].forEach((id, axis) => { if (document.activeElement !== get(id)) get(id).value = size ? size[axis] : get(id).value || 3; });
    return;
  }
  const {least, most} = numberOf(entry.names), isMany = most > 1 && entry.need !== "any";
  if (document.activeElement !== get("piecename")) get("piecename").value = entry.names.replace("+", "")[0];
  get("colour").value = colourOf(entry.names);
  get("need").value = isMany ? "copies" : entry.need;
  get("mirror").checked = entry.mirror;
  get("counts").hidden = !isMany;
  if (document.activeElement !== get("least")) get("least").value = least;
  if (document.activeElement !== get("most")) get("most").value = most;
  for (const id of ["turnx", "turny", "turnz", "reflect", "shift", "copy"]) get(id).disabled = !entry.cells.length;
}

// As many names as are asked for: those that it has, and then free ones.
function namesFor(entry, least, most) {
  const own = symbolsOf(entry.names), free = freeNames(), all = [...own, ...free].slice(0, most);
  if (all.length < most) { say("There are 62 names for pieces, and not so many are free.", true); return null; }
  return all.slice(0, least).join("") + (least < most ? "+" + all.slice(least).join("") : "");
}

// How often the piece is used.
function setNeed(need, least, most) {
  const entry = studio.chosen;
  if (need === "copies" && !(most >= 2)) [least, most] = [2, 2];
  most = Math.min(62, most);
  const names = need === "copies" ? namesFor(entry, Math.max(0, Math.min(least || 0, most)), most) : symbolsOf(entry.names)[0];
  if (!names) { drawControls(); return; }
  Object.assign(entry, {names, need: need === "copies" ? "" : need});
  written();
}

function setName(name) {
  const entry = studio.chosen, own = symbolsOf(entry.names);
  if (name === own[0]) return;
  if (!/^[0-9A-Za-z]$/.test(name)) { say("A piece has one letter or digit as its name.", true); return; }
  if (!own.includes(name) && !studio.lines.free(DATA.letters).includes(name)) { say("There is a piece " + name + " already.", true); return; }
  const plus = entry.names.indexOf("+"), names = [name, ...own.slice(1).filter(it => it !== name)];
  if (names.length < own.length) names.push(own[0]);
  entry.names = plus < 0 ? names.join("") : names.slice(0, plus).join("") + "+" + names.slice(plus).join("");
  written();
}

// The colour stands in a comment of the piece's line, or of a line of its own where that has another comment.
function setColour(colour) {
  const entry = studio.chosen, name = symbolsOf(entry.names)[0], words = "# colour " + name + " " + colour, {rows} = studio.lines;
  const own = new RegExp("#[ \\t]*colou?r[ \\t]+" + name + "[ \\t]+#[0-9a-fA-F]{6}"), at = rows.findIndex(row => own.test(row));
  if (!entry.line) return;
  if (at >= 0) rows[at] = rows[at].replace(own, words);
  else if (!(entry.comment || "").trim()) { entry.comment = " " + words; studio.lines.write(entry); }
  else rows[rows.length - 1] === "" ? rows.splice(rows.length - 1, 0, words) : rows.push(words);
  if (at >= 0 && entry.line === at + 1) entry.comment = " " + rows[at].slice(rows[at].indexOf("#"));
  DATA.colours = {...DATA.colours, [name]: colour};
  drawn();
}

// A piece with other cells.
function setCells(cells) {
  const entry = studio.chosen;
  entry.cells = cells;
  studio.layer = Math.min(studio.layer, Math.max(0, ...cells.map(cell => cell[2])));
  written();
}

// The cells moved by one along each axis, so that there is room before them.
function makeRoom() {
  const next = studio.chosen.cells.map(cell => cell.map(along => along + 1));
  if (Math.max(...next.flat()) >= LONGEST) { say("A piece reaches 32 cells far at most.", true); return; }
  studio.layer = Math.min(LONGEST - 1, studio.layer + 1);
  setCellsOnly(next);
}
function setCellsOnly(cells) { studio.chosen.cells = cells; written(); }

function copyPiece() {
  const entry = {...studio.chosen, names: freeNames()[0], comment: "", line: undefined};
  if (!entry.names) { say("There are 62 names for pieces, and all are taken.", true); return; }
  if (entry.need !== "any" && entry.need !== "maybe") entry.need = "";
  drawn(studio.lines.add(entry));
}

function removePiece() {
  const entry = studio.chosen, at = studio.lines.pieces.indexOf(entry);
  if (entry.line) studio.lines.remove(entry);
  const {pieces} = studio.lines;
  studio.chosen = pieces[Math.min(Math.max(0, at), pieces.length - 1)] || newPiece();
  drawn();
}

// Adds the lines of a set, each by a name that is free.
async function addSet(name) {
  const {lines} = await askedFor("set", {name}), told = await askedFor("read", {text: lines.join("\n") + "\n"});
  onceRead(() => addLines(told.lines));
}
function addLines(added) {
  const free = freeNames();
  if (added.length > free.length) { say("There are 62 names for pieces, and " + free.length + " are free: the set has " + added.length + ".", true); return; }
  let first = null;
  for (const read of added) {
    const left = freeNames(), names = left.includes(read.names) ? read.names : left[0];
    const entry = studio.lines.add({...read, names, comment: ""});
    first = first || entry;
  }
  drawn(first);
}

function listenPieces() {
  const value = id => get(id).value, whole = id => Math.floor(+value(id)), press = (id, act) => { get(id).onclick = () => onceRead(act); };
  // (what stands in a box is taken at once: it is drawn anew when the text is read)
  const change = (id, read, act) => { get(id).onchange = () => { const words = read(); onceRead(() => act(...words)); }; };
  press("newpiece", () => { grid.at = [0, 0]; choosePiece({...newPiece(), isAsked: true}); get("grid").querySelector("[tabindex='0']")?.focus(); });
  get("region").onclick = () => choosePiece("region");
  for (const id of ["need", "least", "most"]) change(id, () => [value("need"), whole("least"), whole("most")], setNeed);
  change("piecename", () => [value("piecename")], name => { setName(name); get("piecename").value = symbolsOf(studio.chosen.names)[0]; });
  change("mirror", () => [get("mirror").checked], isMirrored => { studio.chosen.mirror = isMirrored; written(); });
  change("colour", () => [value("colour")], setColour);
  ["x", "y", "z"].forEach((name, axis) => press("turn" + name, () => setCells(turnedBy(studio.chosen.cells, axis))));
  press("reflect", () => setCells(reflected(studio.chosen.cells)));
  press("shift", makeRoom);
  press("copy", copyPiece);
  press("remove", removePiece);
  get("sets").onchange = () => { const name = get("sets").value; get("sets").value = ""; if (name) trying(() => addSet(name)); };
  get("setbox").onclick = () => {
    const size = ["boxx", "boxy", "boxz"].map(whole);
    if (!size.every(it => it >= 1 && it <= LONGEST)) { say("A box is 1 to 32 cells long, wide and high.", true); return; }
    onceRead(() => { studio.lines.setBox(size); drawn("region"); });
  };
}
