"use strict";
// The lines of a puzzle text, as drawing changes them. A line is read by the studio's server alone; here one is written anew, and the others stay as they
// are. An entry is what was read of a line: its number, kind, names or cells, and its comment.

const DIGITS = "0123456789abcdefghijklmnopqrstuv", LONGEST = 32, MOST_CELLS = 64, MOST_REGION = 4096;

const wordOf = cell => cell.map(along => DIGITS[along]).join("");
const keyOf = cell => cell.join();
const hasCell = (cells, cell) => cells.some(other => keyOf(other) === keyOf(cell));
const without = (cells, cell) => cells.filter(other => keyOf(other) !== keyOf(cell));

// The symbols of a line's names, and how many of them are laid for sure and at most.
const symbolsOf = names => [...names.replace("+", "")];
function numberOf(names) {
  const [sure, spare] = names.split("+");
  return {least: sure.length, most: sure.length + (spare || "").length};
}

// The words of an entry's line, with its comment.
function lineOf(entry) {
  const comment = entry.comment || "";
  if (entry.kind === "box") return "box " + entry.size.join(" ") + comment;
  if (entry.kind !== "piece") return [entry.kind === "maybe" ? "maybe cells" : entry.kind, ...entry.cells.map(wordOf)].join(" ") + comment;
  const kind = symbolsOf(entry.names).length > 1 && entry.need !== "any" ? "copies" : "piece";
  return [entry.need, entry.mirror ? "mirror" : "", kind, entry.names, ...entry.cells.map(wordOf)].filter(Boolean).join(" ") + comment;
}

// A text with what was read of it, that is changed line by line.
class Lines {
  constructor(text, entries) {
    this.rows = text.split("\n");
    this.entries = entries.map(entry => ({...entry}));
  }

  get text() { return this.rows.join("\n"); }
  of(kind) { return this.entries.filter(entry => entry.kind === kind); }
  get pieces() { return this.of("piece"); }
  get box() { return this.of("box")[0]; }

  // Writes an entry's line anew.
  write(entry) { this.rows[entry.line - 1] = lineOf(entry); }

  // A new line for an entry, after the last one of the same sort: pieces first, and then the region.
  add(entry) {
    const alike = this.entries.filter(other => (other.kind === "piece") === (entry.kind === "piece")), last = alike[alike.length - 1];
    let after = last ? last.line : entry.kind === "piece" ? this.firstOfRegion() : this.rows.length;
    // (the last row is what stands behind the last end of a line)
    if (after === this.rows.length && this.rows[after - 1] === "") after--;
    entry.line = after + 1;
    this.rows.splice(after, 0, lineOf(entry));
    this.entries.forEach(other => { if (other.line > after) other.line++; });
    if (this.rows[this.rows.length - 1] !== "") this.rows.push("");
    this.entries.push(entry);
    this.entries.sort((one, other) => one.line - other.line);
    return entry;
  }

  // Before which line the first piece stands: before the region, or at the end.
  firstOfRegion() { return this.entries.length ? this.entries[0].line - 1 : this.rows.length; }

  // Takes an entry's line away; its comment stays.
  remove(entry) {
    const comment = (entry.comment || "").trim();
    this.entries = this.entries.filter(other => other !== entry);
    if (comment && !/^#\s*colou?r\s/.test(comment)) { this.rows[entry.line - 1] = comment; return; }
    this.rows.splice(entry.line - 1, 1);
    this.entries.forEach(other => { if (other.line > entry.line) other.line--; });
  }

  // Writes an entry whose cells have changed; a line without cells isn't one.
  settle(entry) { if (entry.cells.length) this.write(entry); else this.remove(entry); }

  // Takes a cell out of all lines of some kinds.
  take(kinds, cell) {
    for (const entry of this.entries.filter(it => kinds.includes(it.kind) && hasCell(it.cells, cell))) {
      entry.cells = without(entry.cells, cell);
      this.settle(entry);
    }
  }

  // Puts a cell into the last line of a kind, or a new one.
  put(kind, cell) {
    const lines = this.of(kind), entry = lines[lines.length - 1];
    if (!entry) { this.add({kind, cells: [cell], comment: ""}); return; }
    entry.cells = [...entry.cells, cell];
    this.write(entry);
  }

  // The cells of the region, each with how it is: filled, or spare.
  region() {
    const cells = new Map(), [wide, high, deep] = this.box ? this.box.size : [0, 0, 0];
    for (let x = 0; x < wide; x++) for (let y = 0; y < high; y++) for (let z = 0; z < deep; z++) cells.set(x + "," + y + "," + z, "filled");
    for (const [kind, how] of [["cells", "filled"], ["maybe", "spare"]]) this.of(kind).forEach(entry => entry.cells.forEach(cell => cells.set(keyOf(cell), how)));
    this.of("cut").forEach(entry => entry.cells.forEach(cell => cells.delete(keyOf(cell))));
    return cells;
  }

  isInBox(cell) { return Boolean(this.box) && cell.every((along, axis) => along < this.box.size[axis]); }

  // A cell of the region is filled, may stay empty, or is none.
  setRegion(cell, how) {
    const isNamed = this.isInBox(cell) || this.of("cells").some(entry => hasCell(entry.cells, cell));
    this.take(["cut", "maybe"], cell);
    if (how === "filled" && !isNamed) this.put("cells", cell);
    if (how === "spare") { this.take(["cells"], cell); this.put("maybe", cell); }
    if (how === "none") {
      this.take(["cells"], cell);
      if (this.isInBox(cell)) this.put("cut", cell);
    }
  }

  // Another box; what was cut out of the one before and lies in no new one is no longer cut.
  setBox(size) {
    const {box} = this;
    if (size && box) { box.size = size; this.write(box); } else if (size) this.add({kind: "box", size, comment: ""}); else if (box) this.remove(box);
    for (const entry of this.of("cut")) {
      const cells = entry.cells.filter(cell => this.isInBox(cell) || this.of("cells").some(other => hasCell(other.cells, cell)));
      if (cells.length === entry.cells.length) continue;
      entry.cells = cells;
      this.settle(entry);
    }
  }

  // The names that no piece has.
  free(letters) {
    const taken = new Set(this.pieces.flatMap(entry => symbolsOf(entry.names)));
    return [...letters].filter(letter => !taken.has(letter));
  }
}

// Cells with their least corner at 0 0 0.
function atCorner(cells) {
  const low = [0, 1, 2].map(axis => Math.min(...cells.map(cell => cell[axis])));
  return cells.map(cell => cell.map((along, axis) => along - low[axis]));
}

// Cells turned by a quarter about an axis, or reflected; they go on from where they were.
function turnedBy(cells, axis) {
  const [one, other] = [0, 1, 2].filter(it => it !== axis);
  return atCorner(cells.map(cell => { const next = [...cell]; next[one] = cell[other]; next[other] = -cell[one]; return next; }));
}
function reflected(cells) { return atCorner(cells.map(([x, y, z]) => [-x, y, z])); }
