"use strict";
// The page of a search: the steps, where the search stands at each, its tree so far, the covers found, and the board of a puzzle.

let now = 0, pointed = null;
const pieceNames = DATA.board ? [...new Set(Object.values(DATA.board.laid).map(([name]) => name[0]).filter(Boolean))].sort() : [];
const SVG = "http://www.w3.org/2000/svg";

// Adds an element of a picture.
function draw(parent, kind, values, text) {
  const made = parent.appendChild(document.createElementNS(SVG, kind));
  for (const key in values) made.setAttribute(key, values[key]);
  if (text !== undefined) made.textContent = text;
  return made;
}

// An option is never a bare number: its items stand beside it, and the board shows it while the pointer is on it.
function option(parent, number) {
  const chip = make(parent, "span", "", "option");
  make(chip, "b", "option " + number);
  chip.append(DATA.options[number] ? " " + DATA.options[number] : " (its items weren't told)");
  points(chip, number);
  return chip;
}

// The pointer over an element points at its option.
function points(element, number) {
  element.dataset.option = number;
  element.onpointerenter = () => point(number);
  element.onpointerleave = () => point(null);
}

// Marks an option wherever it stands, and lays it over the board; null is none.
function point(number) {
  pointed = number;
  document.querySelectorAll("[data-option]").forEach(it => it.classList.toggle("pointed", number !== null && it.dataset.option === String(number)));
  drawBoard();
}

// A line of items under a heading, or what is said where there is none.
function items(parent, title, list, said) {
  make(parent, "h2", title);
  const line = make(parent, "p");
  if (!list.length) line.textContent = said;
  list.forEach(item => make(line, "span", item, "chip"));
}

// A table of items, each with the options that it has left.
function left(parent, list, kind) {
  const table = make(parent, "table", "", "items");
  for (const [name, numbers] of list) {
    const row = table.insertRow(), cell = row.insertCell(), options = row.insertCell();
    make(cell, "span", name, "chip " + kind);
    make(cell, "span", (numbers.length || "no") + (numbers.length > 1 ? " options left" : " option left"), numbers.length ? "count" : "count none");
    numbers.slice(0, 60).forEach(number => option(options, number));
    if (numbers.length > 60) make(options, "span", "and " + (numbers.length - 60) + " more", "hint");
  }
  return table;
}

// A table that is reached by Tab, and whose options are pointed at by the arrow keys.
function browsed(table) {
  const frame = document.createElement("div"), chips = table.querySelectorAll(".option");
  let at = -1;
  table.replaceWith(frame);
  frame.append(table);
  frame.className = "browsed";
  if (!chips.length) return;
  frame.tabIndex = 0;
  frame.setAttribute("role", "group");
  frame.setAttribute("aria-label", "Items with the options left; arrow keys go from option to option");
  frame.onkeydown = event => {
    const by = {ArrowRight: 1, ArrowDown: 1, ArrowLeft: -1, ArrowUp: -1}[event.key];
    if (!by) return;
    event.preventDefault();
    event.stopPropagation();
    at = (at + by + chips.length) % chips.length;
    point(chips[at].dataset.option);
    inSight(frame, chips[at]);
  };
  frame.onblur = () => { at = -1; point(null); };
}

// Where the search stands at this row: what was replied, what is taken, chosen, left and covered.
function drawState() {
  const row = DATA.rows[now], box = get("state");
  box.textContent = "";
  const steps = row.number === null ? "" : ", after " + (row.number === 1 ? "1 step" : row.number + " steps");
  get("where").textContent = "Row " + (now + 1) + " of " + DATA.rows.length + steps;
  get("says").textContent = "";
  make(get("says"), "b", row.label || row.command);
  get("says").append(row.label ? (row.label === "Done" ? ": " : ": next it ") + row.says : "");
  if (row.command && row.command !== "show" && !/^step$/.test(row.command)) {
    make(box, "h2", "Reply to " + row.command);
    make(box, "pre", row.replies.join("\n") || "(no reply)");
    const line = make(box, "p");
    row.named.forEach(number => option(line, number));
  }
  if (DATA.board) make(box, "div", "", "board").id = "board";
  if (!row.label) return;
  make(box, "h2", "Options taken");
  const taken = make(box, "p");
  row.path.forEach(number => option(taken, number));
  if (row.label === "X6") { option(taken, row.cursor); make(taken, "span", "(which is taken back next)", "hint"); }
  if (!taken.firstChild) taken.textContent = "none";
  if (row.label === "Done") return;
  if (!row.shown) { make(box, "p", "What is covered wasn't told: tools/session --show tells it.", "hint"); return; }
  if (row.chosen) { make(box, "h2", "Chosen now"); browsed(left(box, [row.chosen], "now")); }
  make(box, "h2", "Still to be covered");
  if (row.active.length) browsed(left(box, row.active, "")); else make(box, "p", row.chosen ? "nothing else" : "nothing is left to cover");
  items(box, "Covered by the options taken", row.covered, "nothing");
  if (row.second.length) {
    const more = make(box, "details");
    make(more, "summary", row.second.length === 1 ? "1 item that may be covered" : row.second.length + " items that may be covered");
    left(more, row.second, "");
  }
}

// An option's colour: that of its piece or, where its piece has no name, its own.
function colourOf(number) {
  const name = DATA.board.laid[number]?.[0][0], at = name ? pieceNames.indexOf(name) : number;
  return DATA.palette[at % DATA.palette.length];
}

// The board in layers, with the pieces that were laid; the option under the pointer, or else the one that is tried next, lies over it.
function drawBoard() {
  const box = get("board");
  if (!box) return;
  box.textContent = "";
  const row = told(), shown = pointed ?? (["X5", "X6"].includes(row.label) && row.cursor !== "past" ? row.cursor : null);
  const [wide, , deep] = sizeOf(DATA.board.cells);
  boardPicture(box, row.path, shown, Math.max(14, Math.min(34, Math.floor(680 / deep / (wide + 0.5)))));
  const kind = pointed !== null ? "Option " : row.label === "X6" ? "Taken back next: option " : "Tried next: option ";
  make(box, "p", shown === null ? "" : kind + shown + (DATA.options[shown] ? " = " + DATA.options[shown] : ""), "hint boardsaid");
}

// The board with the pieces of these options, each square so wide, and the outline of one more option.
function boardPicture(box, path, shown, side) {
  const laid = path.map(number => ({number, cells: DATA.board.laid[number]?.[1] || [], name: DATA.board.laid[number]?.[0][0] || ""}));
  const [wide, high, deep] = sizeOf(DATA.board.cells);
  const spare = new Set(DATA.board.spare.map(cell => cell.join())), over = new Set((DATA.board.laid[shown]?.[1] || []).map(cell => cell.join()));
  const at = new Map();
  for (const piece of laid) for (const cell of piece.cells) at.set(cell.join(), piece);
  const inRegion = new Set(DATA.board.cells.map(cell => cell.join())), across = wide * side + 14;
  const head = deep > 1 ? 18 : 4, width = deep * across - 8, viewBox = `0 0 ${width} ${high * side + head + 4}`;
  const svg = draw(box, "svg", {class: "cells", viewBox, width, role: "img", "aria-label": "The board"});
  for (let z = 0; z < deep; z++) {
    if (deep > 1) draw(svg, "text", {x: z * across + 3, y: 12, class: "layer"}, "z = " + z);
    const cells = DATA.board.cells.filter(cell => cell[2] === z), spot = (x, y) => [z * across + 3 + x * side, head + y * side];
    for (const [x, y] of cells) {
      const [px, py] = spot(x, y), key = [x, y, z].join(), piece = at.get(key), isOver = over.has(key);
      const fill = piece ? colourOf(piece.number) : isOver ? colourOf(shown) : "var(--sheet)";
      draw(svg, "rect", {x: px, y: py, width: side, height: side, fill, "fill-opacity": piece || !isOver ? 1 : 0.55, class: spare.has(key) ? "cell spare" : "cell"});
      if (piece?.name) draw(svg, "text", {x: px + side / 2, y: py + side / 2, fill: isDark(colourOf(piece.number)) ? "#fff" : "#17171b"}, piece.name);
    }
    for (const [x, y] of cells) {
      const key = [x, y, z].join();
      for (const [dx, dy, ends] of [[-1, 0, [0, 0, 0, 1]], [1, 0, [1, 0, 1, 1]], [0, -1, [0, 0, 1, 0]], [0, 1, [0, 1, 1, 1]]]) {
        const next = [x + dx, y + dy, z].join(), [px, py] = spot(x, y);
        const line = {x1: px + side * ends[0], y1: py + side * ends[1], x2: px + side * ends[2], y2: py + side * ends[3]};
        if (!inRegion.has(next) || at.get(next) !== at.get(key)) draw(svg, "line", {...line, class: at.get(key) || at.get(next) ? "border" : "rim"});
        if (over.has(key) && !over.has(next)) draw(svg, "line", {...line, class: "over"});
      }
    }
  }
}

// The tree: a node for each choice the search came to so far, a level for each option taken.
const WIDE = 58, HIGH = 70, MOST = 160;
// The nodes that the search came to up to this row. Of a large tree those below what isn't on the path are hidden.
function treeNow() {
  const isSo = row => row >= 0 && row <= now;
  const nodes = DATA.tree.map(([above, number, from, dead, done, visit], id) => ({id, above, number, from, dead: isSo(dead), done: isSo(done), visit: isSo(visit),
    below: [], hidden: 0})).filter(node => node.from <= now);
  const byId = new Map(nodes.map(node => [node.id, node]));
  for (const node of nodes) if (node.above >= 0) byId.get(node.above).below.push(node);
  for (const node of nodes) node.below.sort((one, other) => one.number - other.number);
  for (const node of [...nodes].reverse()) node.leads = node.visit || node.below.some(it => it.leads);
  for (let at = byId.get(stands()); at; at = byId.get(at.above)) at.isOn = true;
  if (nodes.length > MOST) for (const node of nodes) if (!node.isOn && node.below.length) { node.hidden = node.below.length; node.below = []; }
  return {root: byId.get(0), many: nodes.length};
}

// The row that told last where the search stands, and the node there.
function told() {
  let row = now;
  while (row > 0 && !DATA.rows[row].label) row--;
  return DATA.rows[row];
}
function stands() { return told().node || 0; }

// An option as short as can be: its piece, or its first items.
function shortly(number) {
  const text = DATA.options[number] || "", name = DATA.board?.laid[number]?.[0][0];
  return name ? "piece " + name : text.length > 9 ? text.slice(0, 8) + "…" : text;
}

// Draws the tree: a node stands above the middle of those below it, and leaves side by side. Answers how many choices it has.
function drawTree() {
  const box = get("tree"), {root, many} = treeNow(), current = stands();
  box.textContent = "";
  let leaves = 0, deep = 0;
  const place = (node, level) => {
    node.level = level;
    deep = Math.max(deep, level);
    node.below.forEach(it => place(it, level + 1));
    node.x = node.below.length ? (node.below[0].x + node.below[node.below.length - 1].x) / 2 : 34 + WIDE * leaves++;
    node.y = 22 + HIGH * level;
  };
  place(root, 0);
  const width = Math.max(120, 22 + WIDE * leaves), height = 66 + HIGH * deep;
  const svg = draw(box, "svg", {width, height, viewBox: `0 0 ${width} ${height}`, role: "img", "aria-label": "The tree of the search so far, " + many + " choices"});
  const put = node => {
    for (const it of node.below) { draw(svg, "line", {x1: node.x, y1: node.y, x2: it.x, y2: it.y, class: it.isOn ? "on" : ""}); put(it); }
    const found = node.visit ? "visit" : node.dead ? "dead" : node.done && !node.leads ? "done" : "";
    const kind = [node.id === current ? "lit" : node.isOn ? "on" : "", found, node.above < 0 ? "root" : ""].join(" ");
    const group = draw(svg, "g", {class: "node " + kind});
    draw(group, "circle", {cx: node.x, cy: node.y, r: 15});
    draw(group, "text", {x: node.x, y: node.y}, node.above < 0 ? "start" : node.number);
    const sign = node.visit ? "cover" : node.dead ? "dead end" : node.hidden ? node.hidden + " below" : "";
    if (node.above >= 0) draw(group, "text", {x: node.x, y: node.y + 23, class: "sign own"}, shortly(node.number));
    if (sign) draw(group, "text", {x: node.x, y: node.y + 35, class: "sign"}, sign);
    draw(group, "title", {}, node.above < 0 ? "the start" : "option " + node.number + (DATA.options[node.number] ? " = " + DATA.options[node.number] : ""));
    if (node.above >= 0) points(group, node.number);
    group.onclick = () => go(node.from);
    if (node.id === current) group.id = "present";
  };
  put(root);
  get("legend").textContent = "A node is a choice, with the number of its option; point at one to see its items. Lit: where the search stands. " +
    "A dead end has an item without an option left; a grey node is done and led to no cover.";
  const present = get("present").getBoundingClientRect(), frame = box.getBoundingClientRect();
  box.scrollLeft += present.left - frame.left - frame.width / 2;
  box.scrollTop += present.top - frame.top - frame.height / 2;
  return many;
}

// The covers found up to this row. Answers how many they are.
function drawCovers() {
  const list = get("covers"), found = DATA.covers.filter(([row]) => row <= now);
  list.textContent = "";
  for (const [row, numbers] of found) {
    const item = make(list, "li");
    numbers.forEach(number => option(item, number));
    if (DATA.board) boardPicture(item, numbers, null, 15);
    const button = make(item, "button", "Go there");
    button.onclick = () => go(row);
  }
  get("nocover").hidden = found.length > 0;
  return found.length;
}

// Shows this row, everywhere on the page.
function all() {
  pointed = null;
  document.querySelectorAll("#steps li").forEach((li, k) => {
    li.classList.toggle("now", k === now);
    li.setAttribute("aria-selected", k === now);
    if (k === now) { get("steps").setAttribute("aria-activedescendant", li.id); inSight(get("steps"), li); }
  });
  get("back").disabled = now === 0;
  get("next").disabled = now === DATA.rows.length - 1;
  drawState();
  drawBoard();
  const row = DATA.rows[now];
  Object.assign(document.body.dataset, {step: now + 1, steps: DATA.rows.length, covered: row.covered.length, items: row.active.length,
    chosen: row.chosen ? row.chosen[0] : "", nodes: drawTree(), covers: drawCovers()});
}

// Moves a list, and not the page, so that a row of it is seen.
function inSight(list, row) {
  if (row.offsetTop < list.scrollTop) list.scrollTop = row.offsetTop;
  else if (row.offsetTop + row.offsetHeight > list.scrollTop + list.clientHeight) list.scrollTop = row.offsetTop + row.offsetHeight - list.clientHeight;
}

// Goes to a row.
function go(row) { if (row >= 0 && row < DATA.rows.length) { now = row; all(); } }

// Makes the list of rows, and goes where the page's address asks for.
function begin() {
  DATA.rows.forEach((row, k) => {
    const li = make(get("steps"), "li", row.row);
    li.id = "row-" + (k + 1);
    li.setAttribute("role", "option");
    if (row.command && !["show", "step"].includes(row.command) && row.label) make(li, "span", row.command, "command");
    li.onclick = () => go(k);
  });
  get("back").onclick = () => go(now - 1);
  get("next").onclick = () => go(now + 1);
  document.onkeydown = event => {
    const isList = event.target === get("steps");
    const to = {ArrowLeft: now - 1, ArrowRight: now + 1, ...(isList ? {ArrowUp: now - 1, ArrowDown: now + 1, Home: 0, End: DATA.rows.length - 1,
      PageUp: Math.max(0, now - 12), PageDown: Math.min(DATA.rows.length - 1, now + 12)} : {})}[event.key];
    if (to !== undefined && !event.altKey && !event.ctrlKey && !event.metaKey) { event.preventDefault(); go(to); }
  };
  if (+asked.get("step") >= 1) now = Math.min(DATA.rows.length, Math.floor(+asked.get("step"))) - 1;
  all();
}
begin();
