"use strict";
// Cubes in three dimensions, drawn point by point: each point of the picture has several samples, and each sample is of the face nearest there.

// The cells of a packing in a grid that has a free border, with the body in each, or -1.
class Solid {
  constructor(cells, bodies, many) {
    this.cells = cells;
    this.bodies = bodies;
    this.size = sizeOf(cells);
    this.grid = new Int16Array(this.size.reduce((product, long) => product * (long + 2), 1)).fill(-1);
    this.boxes = Array.from({length: many}, () => ({low: [99, 99, 99], high: [0, 0, 0], sum: [0, 0, 0], cells: 0}));
    cells.forEach((cell, number) => {
      if (bodies[number] < 0) return;
      this.grid[this.place(...cell)] = bodies[number];
      const box = this.boxes[bodies[number]];
      box.cells++;
      cell.forEach((along, axis) => {
        box.low[axis] = Math.min(box.low[axis], along);
        box.high[axis] = Math.max(box.high[axis], along + 1);
        box.sum[axis] += along + 0.5;
      });
    });
    this.centre = this.size.map(long => long / 2);
  }

  place(x, y, z) { return x + 1 + (this.size[0] + 2) * (y + 1 + (this.size[1] + 2) * (z + 1)); }
  at(x, y, z) { return this.grid[this.place(x, y, z)]; }

  // How far each body moves where the solid is pulled apart.
  moves(apart) {
    return this.boxes.map(box => box.sum.map((sum, axis) => box.cells ? apart * (sum / box.cells - this.centre[axis]) : 0));
  }

  // The faces of the bodies that are shown: the cell, the way out, and for each of the four sides whether the face goes on beyond it.
  faces(isShown) {
    const found = [], body = cell => isShown(this.at(...cell), cell) ? this.at(...cell) : -1;
    for (const cell of this.cells) {
      const own = body(cell);
      if (own < 0) continue;
      for (const axis of [0, 1, 2]) for (const way of [1, -1]) {
        const out = beside(cell, axis, way);
        if (body(out) === own) continue;
        const sides = [0, 1, 2].filter(other => other !== axis).flatMap(other => [-1, 1].map(end =>
          body(beside(cell, other, end)) === own && body(beside(out, other, end)) !== own));
        found.push({body: own, cell, axis, way, sides});
      }
    }
    return found;
  }
}

// The next cell along an axis.
function beside(cell, axis, way) {
  const next = [...cell];
  next[axis] += way;
  return next;
}

// Where a unit along each axis goes on the page: to the right, down, and towards the eye. x, y and z are a right hand's; without a tilt z goes up.
function axesOf({turn, tilt}) {
  const c = Math.cos(turn), s = Math.sin(turn), ct = Math.cos(tilt), st = Math.sin(tilt);
  return [[c, -st * s, -ct * s], [-s, -st * c, -ct * c], [0, -ct, st]];
}

// Where a point goes, by where the units along each axis go.
function sent(axes, point) {
  return [0, 1, 2].map(k => point[0] * axes[0][k] + point[1] * axes[1][k] + point[2] * axes[2][k]);
}

// How a packing is looked at first: a flat one from above, as its layer is printed.
function firstView(size) {
  if (size[2] === 1) return {turn: 0, tilt: -Math.PI / 2, zoom: 1};
  if (size[1] === 1) return {turn: 0, tilt: 0, zoom: 1};
  if (size[0] === 1) return {turn: -Math.PI / 2, tilt: 0, zoom: 1};
  return {turn: -0.6, tilt: 0.5, zoom: 1};
}

// How many points a cube's edge has, so that all fits in whatever is hidden; and no more than 1.4 times what would fit however it is turned.
function unitOf(solid, moves, view, width, height) {
  const axes = axesOf(view);
  let wide = 0.5, high = 0.5, long = 0.5;
  solid.boxes.forEach((box, body) => {
    for (let corner = 0; box.cells && corner < 8; corner++) {
      const from = [0, 1, 2].map(k => (corner >> k & 1 ? box.high[k] : box.low[k]) + moves[body][k] - solid.centre[k]);
      const [x, y] = sent(axes, from);
      wide = Math.max(wide, Math.abs(x));
      high = Math.max(high, Math.abs(y));
      long = Math.max(long, Math.hypot(...from));
    }
  });
  const room = 0.92 / 2;
  return view.zoom * Math.min(room * width / wide, room * height / high, 1.4 * room * Math.min(width, height) / long);
}

// What is drawn of a packing: samples across a point, and for each sample twice the number of its face and, as the lowest bits, what it is of.
class Picture {
  constructor() { this.room = 0; }

  // Draws faces into a picture: how wide and high, by how many samples across a point, with which colours of bodies as [red, green, blue], and
  // how wide half a line is.
  draw(solid, faces, moves, view, {width, height, samples, paints, line}) {
    Object.assign(this, {width, height, samples, faces, moves, view, unit: unitOf(solid, moves, view, width, height)});
    this.line = Math.min(line, 0.1 * this.unit) * samples;
    const wide = width * samples, high = height * samples;
    if (this.room < wide * high) {
      this.room = wide * high;
      this.depths = new Float32Array(this.room);
      this.ids = new Int32Array(this.room);
    }
    this.depths.fill(-1e9, 0, wide * high);
    this.ids.fill(0, 0, wide * high);
    this.axes = axesOf(view);
    const edges = [[this.axes[1], this.axes[2]], [this.axes[0], this.axes[2]], [this.axes[0], this.axes[1]]]
      .map(pair => pair.map(axis => axis.map(it => it * this.unit * samples)));
    const colours = [0, 1, 2].map(() => new Float32Array(3 * faces.length + 3));
    faces.forEach((face, number) => {
      const towards = this.towards(face);
      const light = 0.66 + 0.34 * towards, paint = paints[face.body];
      for (let k = 0; k < 3; k++) colours[k].set([light * paint[k], 0.8 * light * paint[k], 26], 3 * number + 3);
      // (a face that looks away, or is seen from its side, shows nothing)
      if (towards > 1e-4) this.fill(this.corner(solid, face), edges[face.axis], face.sides, 3 * number + 3);
    });
    return this.gathered(colours);
  }

  // How much a face looks towards the eye, from -1 to 1.
  towards(face) { return face.way * this.axes[face.axis][2]; }

  // The corners of a face as points of the picture, in turn, and how near its middle is.
  square(solid, face) {
    const a = this.corner(solid, face), [u, v] = [0, 1, 2].filter(axis => axis !== face.axis).map(axis => this.axes[axis].map(it => it * this.unit * this.samples));
    const at = (p, q) => [0, 1].map(k => (a[k] + p * u[k] + q * v[k]) / this.samples);
    return {corners: [at(0, 0), at(1, 0), at(1, 1), at(0, 1)], depth: a[2] + (u[2] + v[2]) / 2};
  }

  // The sides of a face at which its piece ends, each as two points.
  borders(solid, face) {
    const [a, b, c, d] = this.square(solid, face).corners;
    return [[a, d], [b, c], [a, b], [d, c]].filter((_, side) => !face.sides[side]);
  }

  // The corner of a face with the least coordinates, in samples.
  corner(solid, face) {
    const from = face.cell.map((along, k) => along + this.moves[face.body][k] - solid.centre[k] + (k === face.axis && face.way > 0 ? 1 : 0));
    const [x, y, z] = sent(this.axes, from);
    return [this.samples * (this.width / 2 + this.unit * x), this.samples * (this.height / 2 + this.unit * y), this.samples * this.unit * z];
  }

  // A parallelogram, row by row, where nothing nearer was drawn: thick lines at its sides, thin ones where the face goes on.
  fill(a, [u, v], sides, id) {
    const area = u[0] * v[1] - u[1] * v[0], {line} = this, wide = this.width * this.samples, high = this.height * this.samples;
    if (Math.abs(area) < 1e-3) return;
    const across = line * Math.hypot(v[0], v[1]) / Math.abs(area), along = line * Math.hypot(u[0], u[1]) / Math.abs(area);
    const thick = sides.map((goesOn, k) => (goesOn ? 0 : 1) * (k < 2 ? across : along)), thin = sides.map((_, k) => 0.3 * (k < 2 ? across : along));
    const ys = [a[1], a[1] + u[1], a[1] + v[1], a[1] + u[1] + v[1]], du = v[1] / area, dv = -u[1] / area;
    for (let y = Math.max(0, Math.floor(Math.min(...ys))); y <= Math.min(high - 1, Math.ceil(Math.max(...ys))); y++) {
      const down = y + 0.5 - a[1], u0 = (0.5 - a[0]) * du - down * v[0] / area, v0 = u[0] * down / area + (0.5 - a[0]) * dv;
      const [from, to] = inside(u0, du, inside(v0, dv, [0, wide - 1]));
      for (let x = from, at = y * wide + from; x <= to; x++, at++) {
        const p = u0 + x * du, q = v0 + x * dv, near = a[2] + p * u[2] + q * v[2];
        if (near <= this.depths[at]) continue;
        this.depths[at] = near;
        this.ids[at] = id + (p < thick[0] || p > 1 - thick[1] || q < thick[2] || q > 1 - thick[3] ? 2 :
          p < thin[0] || p > 1 - thin[1] || q < thin[2] || q > 1 - thin[3] ? 1 : 0);
      }
    }
  }

  // The picture's points from their samples; and of each face how many samples are seen.
  gathered([reds, greens, blues]) {
    const {width, height, samples, ids} = this, wide = width * samples, image = new ImageData(width, height), out = image.data;
    const many = samples * samples, seen = this.seen = new Int32Array(this.faces.length + 1);
    for (let y = 0, to = 0; y < height; y++) for (let x = 0; x < width; x++, to += 4) {
      let red = 0, green = 0, blue = 0, covered = 0;
      for (let j = 0; j < samples; j++) for (let k = 0, at = (y * samples + j) * wide + x * samples; k < samples; k++, at++) {
        const id = ids[at];
        if (!id) continue;
        red += reds[id]; green += greens[id]; blue += blues[id];
        covered++;
        seen[id / 3 | 0]++;
      }
      if (!covered) continue;
      out[to] = red / covered; out[to + 1] = green / covered; out[to + 2] = blue / covered; out[to + 3] = 255 * covered / many;
    }
    return image;
  }

  // For each body that is seen, a spot well inside one of the faces that are seen most: the point and how far the face goes round it.
  spots(solid) {
    const best = new Map(), most = new Map();
    this.faces.forEach((face, number) => {
      const list = most.get(face.body) || most.set(face.body, []).get(face.body);
      if (this.seen[number + 1]) list.push(number);
    });
    for (const [body, list] of most) {
      list.sort((one, other) => this.seen[other + 1] - this.seen[one + 1]);
      for (const number of list.slice(0, 3)) {
        const spot = this.spot(solid, number);
        if (spot && !(best.get(body)?.round >= 0.9 * spot.round)) best.set(body, {...spot, number});
      }
    }
    return best;
  }

  // Of nine points of a face the one round which the face goes on farthest; nearer to its middle where others are hardly better.
  spot(solid, number) {
    const face = this.faces[number], a = this.corner(solid, face);
    const [u, v] = [0, 1, 2].filter(axis => axis !== face.axis).map(axis => this.axes[axis].map(it => it * this.unit * this.samples));
    let found = null;
    for (const p of [0.5, 0.3, 0.7]) for (const q of [0.5, 0.3, 0.7]) {
      const x = a[0] + p * u[0] + q * v[0], y = a[1] + p * u[1] + q * v[1];
      let round = 0;
      while (round < 40 * this.samples && this.isFace(number, x, y, round + this.samples)) round += this.samples;
      if (round && (!found || round / this.samples > 1.15 * found.round)) found = {x: x / this.samples, y: y / this.samples, round: round / this.samples};
    }
    return found;
  }

  // Whether the points so far round a point are of a face, and of no line at its sides.
  isFace(number, x, y, far) {
    for (let k = 0; k < 8; k++) {
      const px = Math.floor(x + far * Math.cos(k * Math.PI / 4)), py = Math.floor(y + far * Math.sin(k * Math.PI / 4));
      if (px < 0 || py < 0 || px >= this.width * this.samples || py >= this.height * this.samples) return false;
      const id = this.ids[py * this.width * this.samples + px];
      if ((id / 3 | 0) !== number + 1 || id % 3 === 2) return false;
    }
    return true;
  }
}

// The whole numbers x of a range at which at + x * step is from 0 to 1.
function inside(at, step, [from, to]) {
  if (Math.abs(step) < 1e-12) return at < 0 || at > 1 ? [1, 0] : [from, to];
  const ends = [-at / step, (1 - at) / step];
  return [Math.max(from, Math.ceil(Math.min(...ends))), Math.min(to, Math.floor(Math.max(...ends)))];
}

// Draws names on a canvas, each with a halo. `scale` is how many of its points one of the page's has.
function drawNames(pen, spots, nameOf, scale) {
  pen.textAlign = "center";
  pen.textBaseline = "middle";
  pen.lineJoin = "round";
  for (const [body, {x, y, round}] of spots) {
    const name = nameOf(body), high = Math.max(8 * scale, Math.min(22 * scale, 1.25 * round, 2.4 * round / name.length));
    if (Math.min(round, 2.4 * round / name.length) < 4 * scale) continue;
    pen.font = "bold " + high + "px system-ui, sans-serif";
    pen.lineWidth = 0.28 * high;
    pen.strokeStyle = "#ffffffd9";
    pen.strokeText(name, x, y);
    pen.fillStyle = "#111114";
    pen.fillText(name, x, y);
  }
}
