"use strict";
// The solid beside the grid, which turns: the layer that is drawn has its colour, and the others are paler.

const FRONT = () => ({turn: START[0], tilt: START[1], zoom: 1}), looked = FRONT(), drawing = new Picture();
let settling = 0, waitsForFrame = false;

// Draws in the next frame, and more finely once nothing has moved for a while.
function soonSolid(isMoving = false) {
  clearTimeout(settling);
  if (isMoving) settling = setTimeout(() => soonSolid(false), 140);
  if (waitsForFrame) return;
  waitsForFrame = true;
  requestAnimationFrame(() => { waitsForFrame = false; drawSolid(isMoving); });
}

// A colour that is nearer to the ground.
function pale(colour, share) { return rgb(colour).map(it => it + share * (235 - it)); }

function drawSolid(isMoving) {
  const canvas = get("solid"), scale = window.devicePixelRatio || 1, [width, height] = [canvas.clientWidth, canvas.clientHeight].map(it => Math.round(it * scale));
  if (!width || !height) return;
  if (canvas.width !== width || canvas.height !== height) Object.assign(canvas, {width, height});
  const pen = canvas.getContext("2d"), all = [...cellsNow()].filter(([, how]) => how !== "cut").map(([key, how]) => ({cell: key.split(",").map(Number), how}));
  pen.clearRect(0, 0, width, height);
  document.body.dataset.solid = all.length;
  if (!all.length) return;
  const isFlat = Math.max(...all.map(it => it.cell[2])) === 0, colour = studio.chosen === "region" ? "#9fb2d0" : colourOf(studio.chosen.names);
  const cells = atCorner(all.map(it => it.cell)), bodies = all.map(it => (it.cell[2] === studio.layer || isFlat ? 0 : 1) + (it.how === "spare" ? 2 : 0));
  const shape = new Solid(cells, bodies, 4), faces = shape.faces(body => body >= 0);
  const samples = Math.max(1, Math.min(3, Math.floor(Math.sqrt((isMoving ? 1.5e6 : 5e6) / (width * height)))));
  const paints = [pale(colour, 0), pale(colour, 0.45), pale("#f0d78a", 0), pale("#f0d78a", 0.45)], moves = shape.moves(0);
  const line = Math.max(scale, Math.min(2.2 * scale, 0.03 * unitOf(shape, moves, looked, width, height)));
  pen.putImageData(drawing.draw(shape, faces, moves, looked, {width, height, samples, paints, line}), 0, 0);
}

// The grid, the solid, and what is said beside them.
function drawEditor() {
  drawControls();
  drawGrid();
  soonSolid();
}

function listenSolid() {
  const acts = turnable(get("solid"), looked, FRONT, soonSolid);
  for (const id in acts) get(id).onclick = () => { acts[id](); soonSolid(); };
  new ResizeObserver(() => soonSolid()).observe(get("solid"));
}
