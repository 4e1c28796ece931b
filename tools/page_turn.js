"use strict";
// A solid on a canvas is turned and made larger: by what buttons do, by keys, by the mouse, and by fingers.

const KEYS = {ArrowLeft: "left", ArrowRight: "right", ArrowUp: "up", ArrowDown: "down", "+": "larger", "=": "larger", "-": "smaller", "0": "first"};

// What can be done to how a solid is looked at, by name.
function actsOf(looked, start) {
  return {
    left: () => { looked.turn -= 0.1; }, right: () => { looked.turn += 0.1; }, up: () => tilted(looked, -0.1), down: () => tilted(looked, 0.1),
    larger: () => zoomed(looked, 1.1), smaller: () => zoomed(looked, 1 / 1.1), first: () => Object.assign(looked, start()),
  };
}

function tilted(looked, by) { looked.tilt = Math.max(-Math.PI / 2, Math.min(Math.PI / 2, looked.tilt + by)); }
function zoomed(looked, by) { looked.zoom = Math.max(0.2, Math.min(8, looked.zoom * by)); }

// How far two fingers are from each other.
function spread(held) { const [one, other] = [...held.values()]; return Math.hypot(one.x - other.x, one.y - other.y); }

// Lets a canvas be turned: one finger or the mouse turns, two fingers make it larger and smaller. `again(true)` draws it while it moves. The acts
// are for buttons.
function turnable(canvas, looked, start, again) {
  const acts = actsOf(looked, start), held = new Map();
  canvas.onkeydown = event => {
    if (!KEYS[event.key] || event.ctrlKey || event.metaKey || event.altKey) return;
    event.preventDefault();
    acts[KEYS[event.key]]();
    again(true);
  };
  canvas.onpointerdown = event => {
    held.set(event.pointerId, {x: event.clientX, y: event.clientY});
    try { canvas.setPointerCapture(event.pointerId); } catch { /* (a pointer that is gone) */ }
  };
  canvas.onpointermove = event => {
    const was = held.get(event.pointerId);
    if (!was) return;
    const before = held.size === 2 ? spread(held) : 0, now = {x: event.clientX, y: event.clientY};
    held.set(event.pointerId, now);
    if (held.size === 2 && before > 0) zoomed(looked, spread(held) / before);
    if (held.size === 1) { looked.turn += (now.x - was.x) / 150; tilted(looked, (now.y - was.y) / 150); }
    again(true);
  };
  canvas.onpointerup = canvas.onpointercancel = event => held.delete(event.pointerId);
  canvas.addEventListener("wheel", event => { event.preventDefault(); zoomed(looked, event.deltaY < 0 ? 1.1 : 1 / 1.1); again(true); }, {passive: false});
  return acts;
}
