"use strict";
// The page of packings: the solid that is turned, its pieces and layers, and the list of packings to choose from.

const view = get("view"), pen = view.getContext("2d");
const marks = [...new Set(DATA.packings.join(""))].filter(mark => mark !== "_").sort();
const nameOf = body => DATA.names[marks[body]] || marks[body];
const numberOfMark = new Map(marks.map((mark, body) => [mark, body]));
const bodiesOf = packing => Array.from(DATA.packings[packing], mark => mark === "_" ? -1 : numberOfMark.get(mark));
const START = firstView(sizeOf(DATA.cells));
const APART = 2.2;                               // how far pieces go where they are pulled apart most
const looked = {...START}, hidden = new Set();
const firstOf = [];                              // of each class the first packing
DATA.classes?.forEach((number, k) => { firstOf[number] ??= k; });
let packing = 0, listed = [], solid, paints, picture = new Picture(), isMoving = false, settling = 0;

// A colour for each piece of a packing, the one that is chosen for its name or another; they differ from packing to packing, as other pieces touch.
function paintsOf(shape) {
  const near = neighbours(marks.length, shape.cells, (x, y, z) => shape.at(x, y, z));
  return coloursOf(marks.length, near).map((colour, body) => DATA.colours[nameOf(body)[0]] || DATA.palette[colour]);
}

// The packing that is chosen, drawn: at once while it is turned, and with more samples when it rests.
function draw() {
  const scale = window.devicePixelRatio || 1, width = Math.round(view.clientWidth * scale), height = Math.round(view.clientHeight * scale);
  if (!width || !height) return;
  if (view.width !== width || view.height !== height) { view.width = width; view.height = height; }
  const upto = +get("upto").value, shown = new Set();
  const faces = solid.faces((body, cell) => body >= 0 && !hidden.has(body) && cell[2] < upto);
  faces.forEach(face => shown.add(face.body));
  // (as many samples as a frame has time for: fewer while it moves, fewer in a large window)
  const samples = Math.max(1, Math.min(3, Math.floor(Math.sqrt((isMoving ? 1.5e6 : 6e6) / (width * height)))));
  const moves = solid.moves(get("apart").value / 100 * APART), unit = unitOf(solid, moves, looked, width, height);
  const line = Math.max(scale, Math.min(2.2 * scale, 0.03 * unit));
  pen.putImageData(picture.draw(solid, faces, moves, looked, {width, height, samples, paints: paints.map(rgb), line}), 0, 0);
  const spots = picture.spots(solid);
  if (get("ghosts").checked) drawGhosts(upto, scale);
  if (get("names").checked) drawNames(pen, spots, nameOf, scale);
  drawAxes();
  const cells = solid.cells.filter((cell, k) => shown.has(solid.bodies[k]) && cell[2] < upto).length;
  Object.assign(document.body.dataset, {packing: packing + 1, cells, pieces: shown.size, total: DATA.packings.length, listed: listed.length,
    turn: looked.turn.toFixed(2), tilt: looked.tilt.toFixed(2), zoom: looked.zoom.toFixed(2), unit: unit.toFixed(1), scale, samples,
    named: [...spots].map(([body, spot]) => [nameOf(body), spot.x.toFixed(0), spot.y.toFixed(0), spot.round.toFixed(1)].join(":")).join(" ")});
}

// The outlines of the pieces that are hidden, over the picture.
function drawGhosts(upto, scale) {
  pen.strokeStyle = "#8888";
  pen.lineWidth = scale;
  pen.beginPath();
  for (const face of solid.faces((body, cell) => hidden.has(body) && cell[2] < upto)) for (const [from, to] of picture.borders(solid, face)) {
    pen.moveTo(...from);
    pen.lineTo(...to);
  }
  pen.stroke();
}

// What is shown, as an SVG: the faces that look this way, from the back to the front, with thick lines between pieces; and the names.
function svgOf() {
  const {width, height} = picture, points = list => list.map(point => point.map(it => it.toFixed(1)).join(",")).join(" ");
  const drawn = picture.faces.filter(face => picture.towards(face) > 1e-4).map(face => ({face, ...picture.square(solid, face)}));
  drawn.sort((one, other) => one.depth - other.depth);
  const parts = drawn.map(({face, corners}) => {
    const light = 0.66 + 0.34 * picture.towards(face), paint = rgb(paints[face.body]).map(it => Math.round(light * it));
    const thick = picture.borders(solid, face).map(line => `<polyline points="${points(line)}" stroke-width="3.6" stroke-opacity="1"/>`);
    return `<polygon points="${points(corners)}" fill="rgb(${paint})"/>${thick.join("")}`;
  });
  const names = !get("names").checked ? [] : [...picture.spots(solid)].map(([body, {x, y, round}]) =>
    `<text x="${x.toFixed(1)}" y="${y.toFixed(1)}" font-size="${Math.max(8, Math.min(22, 1.25 * round)).toFixed(1)}">${nameOf(body).replace(/&/g, "&amp;").replace(/</g, "&lt;")}</text>`);
  return `<svg xmlns="http://www.w3.org/2000/svg" width="${width}" height="${height}" viewBox="0 0 ${width} ${height}">\n` +
    `<g stroke="#24242a" stroke-width=".6" stroke-opacity=".5" stroke-linejoin="round" stroke-linecap="round">\n${parts.join("\n")}\n</g>\n` +
    '<g font-family="sans-serif" font-weight="bold" text-anchor="middle" dominant-baseline="central" paint-order="stroke" stroke="#fff" stroke-width="3" ' +
    `stroke-linejoin="round">\n${names.join("\n")}\n</g>\n</svg>\n`;
}

// Hands a file to whoever looks at the page.
function save(end, address) {
  const link = document.createElement("a");
  link.href = address;
  link.download = "packing-" + (packing + 1) + "." + end;
  link.click();
}

// Draws in the next frame; more finely once nothing has moved for a while.
let waits = false;
function soon(moves) {
  isMoving = Boolean(moves);
  clearTimeout(settling);
  if (moves) settling = setTimeout(() => soon(false), 140);
  if (waits) return;
  waits = true;
  requestAnimationFrame(() => { waits = false; draw(); });
}

// Where x, y and z go, as three lines.
function drawAxes() {
  const axes = axesOf(looked), svg = get("axes");
  svg.textContent = "";
  ["x", "y", "z"].forEach((name, k) => {
    const [x, y] = axes[k], line = svg.appendChild(document.createElementNS(svg.namespaceURI, "line"));
    // (one that points at the eye would be a dot)
    if (Math.hypot(x, y) < 0.15) return line.remove();
    const end = {x1: 42, y1: 42, x2: 42 + 27 * x, y2: 42 + 27 * y};
    for (const key in end) line.setAttribute(key, end[key].toFixed(1));
    const text = svg.appendChild(document.createElementNS(svg.namespaceURI, "text"));
    text.setAttribute("x", (42 + 36 * x).toFixed(1));
    text.setAttribute("y", (42 + 36 * y).toFixed(1));
    text.textContent = name;
  });
}

// The layers as tables, with thick lines between pieces.
function drawLayers() {
  const box = get("layers"), [wide, high, deep] = solid.size;
  const inRegion = new Set(solid.cells.map(cell => cell.join()));
  box.textContent = "";
  for (let z = 0; z < deep; z++) {
    const table = make(box, "table");
    if (deep > 1) table.createCaption().textContent = "layer z = " + z;
    for (let y = 0; y < high; y++) {
      const row = table.insertRow();
      for (let x = 0; x < wide; x++) {
        const cell = row.insertCell(), body = solid.at(x, y, z);
        if (!inRegion.has([x, y, z].join())) continue;
        if (body >= 0) cell.textContent = nameOf(body);
        cell.style.background = body < 0 || hidden.has(body) ? "#fff" : paints[body];
        if (body >= 0 && !hidden.has(body) && isDark(paints[body])) cell.style.color = "#fff";
        const line = (dx, dy) => inRegion.has([x + dx, y + dy, z].join()) && solid.at(x + dx, y + dy, z) === body ? "0.5px solid #0003" : "1.5px solid var(--line)";
        Object.assign(cell.style, {borderLeft: line(-1, 0), borderRight: line(1, 0), borderTop: line(0, -1), borderBottom: line(0, 1)});
      }
    }
  }
}

// The pieces of this packing, each with a box to tick that shows or hides it.
function drawPieces() {
  const box = get("pieces");
  box.textContent = "";
  marks.forEach((mark, body) => {
    if (!solid.boxes[body].cells) return;
    const label = make(box, "label"), tick = make(label, "input"), dot = make(label, "i");
    tick.type = "checkbox";
    tick.checked = !hidden.has(body);
    tick.dataset.piece = nameOf(body);
    dot.style.background = paints[body];
    label.append(nameOf(body));
    tick.onchange = () => { if (tick.checked) hidden.delete(body); else hidden.add(body); drawLayers(); soon(); };
  });
}

// What the packing is among those like it, in words.
function sayClass() {
  const alike = DATA.classes ? DATA.packings.map((_, k) => k).filter(k => DATA.classes[k] === DATA.classes[packing]) : [];
  get("alike").textContent = !DATA.classes ? DATA.note : "Class " + (1 + DATA.classes[packing]) + " of " + firstOf.length + ": number " + (1 + alike.indexOf(packing)) +
    " of the " + alike.length + " that symmetries of the region carry onto one another.";
  return alike;
}

// Which packings are listed: all, one of each class, or those like this one.
function chooseList(which) {
  const all = DATA.packings.map((_, k) => k);
  if (which === "classes") listed = [...firstOf];
  else if (which === "alike") listed = all.filter(k => DATA.classes[k] === DATA.classes[packing]);
  else listed = all;
  if (which === "classes" && !listed.includes(packing)) packing = firstOf[DATA.classes[packing]];
  thumbs.fresh();
  chosen();
}

// Shows another packing; where it isn't listed, all are.
function choose(next) {
  if (!(next >= 0 && next < DATA.packings.length) || next === packing) return;
  packing = next;
  if (!listed.includes(packing)) { get("through").value = "all"; chooseList("all"); }
  chosen();
}

// Goes so far in the list.
function stepBy(by) { const at = listed.indexOf(packing) + by; if (at >= 0 && at < listed.length) choose(listed[at]); }

// Shows the packing that is chosen, everywhere on the page.
function chosen() {
  solid = new Solid(DATA.cells, bodiesOf(packing), marks.length);
  paints = paintsOf(solid);
  get("number").value = packing + 1;
  const at = listed.indexOf(packing);
  get("back").disabled = at <= 0;
  get("next").disabled = at >= listed.length - 1;
  sayClass();
  drawPieces();
  drawLayers();
  thumbs.show();
  soon();
}

// The list of small pictures: those in sight are drawn, each once it comes there.
const thumbs = {
  wide: 104, high: 118, box: get("thumbs"), inner: null, picture: new Picture(),
  fresh() { this.box.textContent = ""; this.inner = make(this.box, "div"); this.box.scrollTop = 0; this.drawn = new Map(); },
  columns() { return Math.max(1, Math.floor(this.box.clientWidth / this.wide)); },
  show() {
    const at = Math.max(0, listed.indexOf(packing)), top = Math.floor(at / this.columns()) * this.high, box = this.box;
    if (top < box.scrollTop) box.scrollTop = top;
    // (the list has its height once it is filled, and can be scrolled down then)
    this.fill();
    if (top + this.high > box.scrollTop + box.clientHeight) box.scrollTop = top + this.high - box.clientHeight;
    this.fill();
  },
  fill() {
    const columns = this.columns(), rows = Math.ceil(listed.length / columns), first = Math.floor(this.box.scrollTop / this.high) * columns;
    const last = Math.min(listed.length, first + columns * (2 + Math.ceil(this.box.clientHeight / this.high)));
    this.inner.style.height = rows * this.high + "px";
    for (const [at, made] of this.drawn) if (at < first || at >= last) { made.remove(); this.drawn.delete(at); }
    for (let at = first; at < last; at++) {
      if (!this.drawn.has(at)) this.drawn.set(at, this.made(listed[at]));
      const made = this.drawn.get(at), now = listed[at] === packing;
      Object.assign(made.style, {left: at % columns * this.wide + "px", top: Math.floor(at / columns) * this.high + "px"});
      made.classList.toggle("now", now);
      made.setAttribute("aria-selected", now);
      if (now) this.box.setAttribute("aria-activedescendant", made.id);
    }
  },
  made(which) {
    const made = make(this.inner, "div", "", "thumb"), small = make(made, "canvas"), scale = Math.max(1, window.devicePixelRatio || 1);
    made.id = "packing-" + (which + 1);
    made.setAttribute("role", "option");
    made.append(which + 1);
    made.onclick = () => choose(which);
    small.width = 96 * scale;
    small.height = 90 * scale;
    const shape = new Solid(DATA.cells, bodiesOf(which), marks.length), faces = shape.faces(body => body >= 0);
    const how = {width: small.width, height: small.height, samples: 2, paints: paintsOf(shape).map(rgb), line: scale};
    small.getContext("2d").putImageData(this.picture.draw(shape, faces, shape.moves(0), START, how), 0, 0);
    return made;
  },
};

function listen() {
  const acts = turnable(view, looked, () => START, soon);
  for (const id in acts) get(id).onclick = () => { acts[id](); soon(); };
  get("number").onchange = event => { choose(Math.floor(+event.target.value) - 1); event.target.value = packing + 1; };
  get("back").onclick = () => stepBy(-1);
  get("next").onclick = () => stepBy(1);
  get("through").onchange = event => chooseList(event.target.value);
  get("apart").oninput = get("names").onchange = get("ghosts").onchange = () => soon(true);
  get("png").onclick = () => save("png", view.toDataURL("image/png"));
  get("svg").onclick = () => save("svg", "data:image/svg+xml," + encodeURIComponent(svgOf()));
  document.onkeydown = event => {
    if (event.ctrlKey || event.metaKey || event.altKey || /^(INPUT|SELECT)$/.test(event.target.tagName) && event.target.type !== "checkbox") return;
    if (event.key === "n") stepBy(1);
    if (event.key === "p") stepBy(-1);
  };
  get("upto").oninput = () => { sayLayers(); soon(true); };
  get("all").onclick = () => { hidden.clear(); chosen(); };
  get("none").onclick = () => { marks.forEach((_, body) => hidden.add(body)); chosen(); };
  thumbs.box.onscroll = () => thumbs.fill();
  thumbs.box.onkeydown = event => {
    const page = thumbs.columns() * 2, by = {ArrowLeft: -1, ArrowRight: 1, ArrowUp: -thumbs.columns(), ArrowDown: thumbs.columns(), PageUp: -page, PageDown: page,
      Home: -listed.indexOf(packing), End: listed.length - 1 - listed.indexOf(packing)}[event.key];
    if (by !== undefined) { event.preventDefault(); stepBy(by); }
  };
  new ResizeObserver(() => { soon(); thumbs.show(); }).observe(view);
}

// Which layers are shown, in words.
function sayLayers() {
  const upto = +get("upto").value;
  get("uptosaid").textContent = upto < solid.size[2] ? "up to z = " + (upto - 1) : "all";
}

// Shows what the page's address asks for.
function begin() {
  const deep = sizeOf(DATA.cells)[2], first = +asked.get("packing");
  get("upto").max = get("upto").value = deep;
  get("layerslider").hidden = deep === 1;
  // (a flat board is looked at from above)
  get("turns").hidden = deep === 1;
  get("number").max = DATA.packings.length;
  get("total").textContent = DATA.packings.length;
  get("through").parentElement.hidden = !DATA.classes;
  if (asked.has("apart")) get("apart").value = asked.get("apart");
  if (asked.has("upto")) get("upto").value = asked.get("upto");
  (asked.get("hide") || "").split("").forEach(name => marks.forEach((_, body) => { if (nameOf(body) === name) hidden.add(body); }));
  if (first >= 1 && first <= DATA.packings.length) packing = Math.floor(first) - 1;
  if (DATA.classes && ["classes", "alike"].includes(asked.get("through"))) get("through").value = asked.get("through");
  listen();
  chooseList(get("through").value);
  sayLayers();
  draw();
}
begin();
