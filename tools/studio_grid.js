"use strict";
// The grid on which cells are set and taken away, layer by layer: by the mouse, a finger, or keys. It grows by a row, a column and a layer beyond what is drawn.

const GRID_LEAST = 4;
// The cells that are drawn, as a map from each to how it is: filled, spare (it may stay empty), or cut (out of the box).
function cellsNow() {
  const cells = new Map();
  if (studio.chosen !== "region") { studio.chosen.cells.forEach(cell => cells.set(keyOf(cell), "filled")); return cells; }
  for (const entry of studio.lines.of("cut")) entry.cells.filter(cell => studio.lines.isInBox(cell)).forEach(cell => cells.set(keyOf(cell), "cut"));
  for (const [key, how] of studio.lines.region()) cells.set(key, how);
  return cells;
}

// How many cells the grid has along each axis.
function gridSize(cells) {
  const far = [0, 0, 0];
  for (const key of cells.keys()) key.split(",").forEach((along, axis) => { far[axis] = Math.max(far[axis], +along + 1); });
  return far.map((it, axis) => Math.min(LONGEST, Math.max(axis < 2 ? GRID_LEAST : 1, it + 1)));
}

// What a cell is called by a screen reader.
function cellSaid([x, y, z], how) {
  return "x " + x + ", y " + y + ", z " + z + ", " + ({filled: "filled", spare: "may stay empty", cut: "cut out"}[how] || "empty");
}

// The grid of the layer that is chosen. It is made anew where its size changed, and else written over, so that the focus stays.
const grid = {size: null, at: [0, 0], paints: null};
function drawGrid() {
  const cells = cellsNow(), size = gridSize(cells), table = get("grid");
  studio.layer = Math.min(studio.layer, size[2] - 1);
  if (!grid.size || grid.size[0] !== size[0] || grid.size[1] !== size[1]) makeGrid(table, size);
  grid.size = size;
  grid.at = [Math.min(grid.at[0], size[0] - 1), Math.min(grid.at[1], size[1] - 1)];
  const mark = studio.chosen === "region" ? "" : symbolsOf(studio.chosen.names)[0], colour = studio.chosen === "region" ? "" : colourOf(studio.chosen.names);
  for (let y = 0; y < size[1]; y++) for (let x = 0; x < size[0]; x++) {
    const cell = table.rows[y + 1].cells[x + 1], place = [x, y, studio.layer], how = cells.get(keyOf(place)) || "";
    cell.className = how + (cells.has([x, y, studio.layer - 1].join()) && cells.get([x, y, studio.layer - 1].join()) !== "cut" ? " under" : "");
    cell.textContent = how === "filled" ? mark : how === "spare" ? "+" : how === "cut" ? "✕" : "";
    cell.style.background = how === "filled" ? colour : "";
    cell.style.color = how === "filled" && colour ? isDark(colour) ? "#fff" : "#17171b" : "";
    cell.setAttribute("aria-label", cellSaid(place, how));
    cell.setAttribute("aria-selected", how === "filled" || how === "spare");
    cell.tabIndex = x === grid.at[0] && y === grid.at[1] ? 0 : -1;
  }
  drawLayers(cells, size);
}

// A table with a head for each column and row.
function makeGrid(table, [wide, high]) {
  const hadFocus = table.contains(document.activeElement);
  table.textContent = "";
  table.style.setProperty("--wide", wide);
  table.setAttribute("aria-rowcount", high);
  table.setAttribute("aria-colcount", wide);
  const head = table.insertRow();
  head.setAttribute("aria-hidden", "true");
  make(head, "th", "y\\x");
  for (let x = 0; x < wide; x++) make(head, "th", DIGITS[x]);
  for (let y = 0; y < high; y++) {
    const row = table.insertRow();
    row.setAttribute("role", "row");
    make(row, "th", DIGITS[y]).setAttribute("aria-hidden", "true");
    for (let x = 0; x < wide; x++) row.insertCell().setAttribute("role", "gridcell");
  }
  grid.at = [Math.min(grid.at[0], wide - 1), Math.min(grid.at[1], high - 1)];
  if (hadFocus) table.rows[grid.at[1] + 1].cells[grid.at[0] + 1].focus();
}

// A small picture of each layer, to choose it by.
function drawLayers(cells, size) {
  const tabs = get("layertabs"), many = size[2], hadFocus = tabs.contains(document.activeElement);
  kept(tabs, "button", many, "layertab").forEach((tab, z) => {
    const isNow = z === studio.layer, [canvas, said] = tab.children.length ? tab.children : [make(tab, "canvas"), make(tab, "span")];
    tab.setAttribute("role", "tab");
    tab.setAttribute("aria-selected", isNow);
    tab.setAttribute("aria-label", "Layer z = " + z);
    tab.tabIndex = isNow ? 0 : -1;
    tab.onclick = () => chooseLayer(z);
    drawLayer(canvas, cells, size, z);
    said.textContent = "z = " + DIGITS[z];
    if (isNow && hadFocus) tab.focus();
  });
  get("layersaid").textContent = "Layer z = " + studio.layer + (studio.layer ? ". A dot is a cell of the layer below." : ", the lowest.");
}
function drawLayer(canvas, cells, size, z) {
  const side = Math.max(1, Math.floor(40 / Math.max(size[0], size[1]))), pen = canvas.getContext("2d");
  canvas.width = side * size[0];
  canvas.height = side * size[1];
  canvas.setAttribute("aria-hidden", "true");
  const colour = studio.chosen === "region" ? "#8fa3c4" : colourOf(studio.chosen.names);
  for (let x = 0; x < size[0]; x++) for (let y = 0; y < size[1]; y++) {
    const how = cells.get([x, y, z].join());
    pen.fillStyle = how === "filled" ? colour : how === "spare" ? "#f0d78a" : "#8882";
    pen.fillRect(x * side, y * side, side - (side > 3 ? 1 : 0), side - (side > 3 ? 1 : 0));
  }
}

function chooseLayer(z) {
  if (z < 0 || z >= grid.size[2] || z === studio.layer) return;
  studio.layer = z;
  drawGrid();
  soonSolid();
  note();
}

// How a cell becomes by a click: what it is not, or what it is told to be while the mouse goes on.
function changed(how) {
  const isSpare = studio.chosen === "region" && get("how").querySelector("[value=spare]").checked;
  if (isSpare) return how === "spare" ? "filled" : "spare";
  return how === "filled" || studio.chosen === "region" && how === "spare" ? "none" : "filled";
}

// A cell is set, or taken away.
function setCell(place, how) {
  const now = cellsNow().get(keyOf(place)) || "none", was = now === "cut" ? "none" : now;
  if (how === was) return;
  if (studio.chosen === "region") {
    if (how !== "none" && was === "none" && cellsNow().size >= MOST_REGION) { say("A region has 4,096 cells at most.", true); return; }
    studio.lines.setRegion(place, how);
    drawn("region");
    return;
  }
  const entry = studio.chosen;
  if (how === "filled" && entry.cells.length >= MOST_CELLS) { say("A piece has 64 cells at most.", true); return; }
  entry.cells = how === "filled" ? [...entry.cells, place] : without(entry.cells, place);
  if (!entry.line) studio.lines.add(entry); else if (entry.cells.length) studio.lines.write(entry); else { studio.lines.remove(entry); delete entry.line; }
  drawn(entry);
}

// A cell becomes what it isn't.
function switchCell(place) { setCell(place, changed(cellsNow().get(keyOf(place)))); }

// The cell of the grid at a point of the page, or null.
function placeAt(x, y) {
  const cell = document.elementFromPoint(x, y)?.closest?.("#grid td");
  return cell && [cell.cellIndex - 1, cell.parentElement.rowIndex - 1, studio.layer];
}

// Moves the one cell that Tab comes to.
function goToCell(x, y) {
  if (x < 0 || y < 0 || x >= grid.size[0] || y >= grid.size[1]) return;
  const table = get("grid"), cell = (at, row) => table.rows[row + 1].cells[at + 1];
  cell(...grid.at).tabIndex = -1;
  grid.at = [x, y];
  cell(x, y).tabIndex = 0;
  cell(x, y).focus();
}

function listenGrid() {
  const table = get("grid");
  let painting = null, isFinger = false, isDown = false;
  const lifted = () => { painting = null; isDown = false; };
  // (a finger that moves on goes over the page: what it taps is set when it is lifted)
  table.onclick = event => {
    const place = isFinger && placeAt(event.clientX, event.clientY);
    if (place) { goToCell(place[0], place[1]); onceRead(() => switchCell(place)); }
  };
  table.onpointerdown = event => {
    const place = placeAt(event.clientX, event.clientY);
    isFinger = event.pointerType === "touch";
    if (!place || event.button !== 0 || isFinger) return;
    event.preventDefault();
    goToCell(place[0], place[1]);
    isDown = true;
    onceRead(() => {
      const how = changed(cellsNow().get(keyOf(place)));
      if (isDown) painting = how;
      setCell(place, how);
    });
  };
  table.onpointermove = event => {
    if (painting === null || !event.buttons) return;
    const place = placeAt(event.clientX, event.clientY), how = painting;
    if (place) onceRead(() => setCell(place, how));
  };
  window.addEventListener("pointerup", lifted);
  window.addEventListener("pointercancel", lifted);
  table.onkeydown = event => {
    if (event.ctrlKey || event.metaKey || event.altKey) return;
    const [x, y] = grid.at, last = grid.size[0] - 1;
    const to = {ArrowLeft: [x - 1, y], ArrowRight: [x + 1, y], ArrowUp: [x, y - 1], ArrowDown: [x, y + 1], Home: [0, y], End: [last, y]}[event.key];
    const by = {PageUp: 1, PageDown: -1}[event.key];
    if (to) goToCell(...to);
    else if (by) { chooseLayer(studio.layer + by); goToCell(...grid.at); }
    else if (event.key === " " || event.key === "Enter") onceRead(() => { switchCell([x, y, studio.layer]); goToCell(...grid.at); });
    else return;
    event.preventDefault();
  };
  get("layertabs").onkeydown = event => {
    const by = {ArrowRight: 1, ArrowDown: 1, ArrowLeft: -1, ArrowUp: -1, Home: -LONGEST, End: LONGEST}[event.key];
    if (by === undefined) return;
    event.preventDefault();
    chooseLayer(Math.max(0, Math.min(grid.size[2] - 1, studio.layer + by)));
  };
}
