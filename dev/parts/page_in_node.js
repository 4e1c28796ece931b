"use strict";
// Runs the scripts of a page that tools/page made, over a stand-in for a browser's page, and prints what they note of what they drew. NOT PROVED.
//
//     node dev/parts/page_in_node.js PAGE.html [#WHERE [EXPRESSION ..]]
//
// With expressions `values` are what each is in a page of its own. What is drawn can't be seen so, but what is reckoned of it is the page's own, and a name that no script has ends the run with a status above
// 0. dev/do check_scripts calls this, which needs no browser; dev/do check_page looks at the pictures in one.

const fs = require("fs"), vm = require("vm");

// An element, or whatever a browser hands out: it keeps what is written to it, has no children, and can be called, which makes another one.
function standIn() {
  const kept = {value: "1", width: 0, height: 0, clientWidth: 400, clientHeight: 300, scrollTop: 0, offsetTop: 0, offsetHeight: 10,
    textContent: "", firstChild: null, style: {}, dataset: {}};
  const answers = {
    querySelectorAll: () => [],
    getBoundingClientRect: () => ({left: 0, top: 0, width: 10, height: 10}),
    [Symbol.toPrimitive]: () => 1,
    [Symbol.iterator]: () => [][Symbol.iterator](),
  };
  return new Proxy(function () {}, {
    get: (_, key) => key in answers ? answers[key] : key in kept ? kept[key] : kept[key] = standIn(),
    set: (_, key, value) => { kept[key] = value; return true; },
    apply: standIn,
    construct: standIn,
  });
}

// The points of a picture, as a browser keeps them.
class Points {
  constructor(width, height) { this.data = new Uint8ClampedArray(4 * width * height); }
}

class Observer {
  observe() {}
}

function run(text, hash, expression) {
  const script = text.split("<script>")[1].split("</script>")[0], hasBoard = /"board":\{/.test(text);
  const elements = new Map(), document = standIn();
  document.body = standIn();
  document.getElementById = id => {
    // (this one alone the scripts ask for where it may be missing)
    if (id === "board" && !hasBoard) return null;
    if (!elements.has(id)) elements.set(id, standIn());
    return elements.get(id);
  };
  document.getElementById("through").value = "all";
  const context = vm.createContext({document, window: {devicePixelRatio: 1}, location: {hash}, URLSearchParams, ImageData: Points, ResizeObserver: Observer,
    requestAnimationFrame: then => then(), setTimeout: () => 0, clearTimeout: () => {}});
  vm.runInContext(script, context, {filename: "page.js"});
  return expression ? vm.runInContext(expression, context, {filename: "expression"}) : document.body.dataset;
}

const [path, hash = "", ...expressions] = process.argv.slice(2), text = fs.readFileSync(path, "utf8"), noted = {...run(text, hash)};
if (expressions.length) noted.values = expressions.map(it => run(text, hash, it));
console.log(JSON.stringify(noted));
