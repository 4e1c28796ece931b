"use strict";
// What both pages share: elements of the page, and the colours of pieces.

const get = id => document.getElementById(id);

// Adds an element, with text and a class where they are given.
function make(parent, kind, text, name) {
  const made = parent.appendChild(document.createElement(kind));
  if (text) made.textContent = text;
  if (name) made.className = name;
  return made;
}

// How far cells reach along x, y and z, counted from 0.
const sizeOf = cells => [0, 1, 2].map(axis => 1 + Math.max(...cells.map(cell => cell[axis])));

// The page's address may say where to begin, as page.html#packing=240&apart=60.
const asked = new URLSearchParams(location.hash.slice(1));

// Up to OWN pieces each has a colour of its own. Of more, one takes its own unless a neighbour's is nearer than FAR to it for some eyes.
const OWN = 12, FAR = 0.1;

// For each body the number of its colour; `near` has for each body the set of those that touch it. Where the own one is too near to a
// neighbour's, it is the one used least of those that are far from its neighbours', or else the farthest.
function coloursOf(many, near) {
  const taken = [], colours = DATA.palette.map((_, colour) => colour), used = colours.map(() => 0);
  for (let body = 0; body < many; body++) {
    const apart = colour => Math.min(9, ...[...near[body]].filter(it => it < body).map(it => DATA.distances[taken[it]][colour]));
    let best = body % colours.length;
    if (many > OWN && apart(best) < FAR) {
      const far = colours.filter(colour => apart(colour) >= FAR);
      best = far.length ? far.reduce((one, other) => used[other] < used[one] || used[other] === used[one] && apart(other) > apart(one) ? other : one) :
        colours.reduce((one, other) => apart(other) > apart(one) ? other : one);
    }
    taken.push(best);
    used[best]++;
  }
  return taken;
}

// The bodies that touch each body; `at` tells the body at a cell, or -1.
function neighbours(many, cells, at) {
  const near = Array.from({length: many}, () => new Set());
  for (const [x, y, z] of cells) {
    const body = at(x, y, z);
    for (const other of [at(x + 1, y, z), at(x, y + 1, z), at(x, y, z + 1)])
      if (body >= 0 && other >= 0 && other !== body) { near[body].add(other); near[other].add(body); }
  }
  return near;
}

// Red, green and blue of a colour `#rrggbb`, each from 0 to 255.
function rgb(colour) { return [1, 3, 5].map(at => parseInt(colour.slice(at, at + 2), 16)); }

// Whether white is read better on a colour than black.
function isDark(colour) {
  const [red, green, blue] = rgb(colour).map(part => (part / 255) ** 2.2);
  return 0.2126 * red + 0.7152 * green + 0.0722 * blue < 0.18;
}
