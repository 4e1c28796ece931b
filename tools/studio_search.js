"use strict";
// The search: it is begun, watched, stopped, and goes on; what it found is shown as tools/page shows it, and kept.

const search = {now: {state: "idle"}, shown: "", events: null, of: ""};

// A time in words.
function span(seconds) {
  for (const [most, unit, size] of [[100, "s", 1], [6000, "min", 60], [48 * 3600, "hours", 3600], [1000 * 86400, "days", 86400]])
    if (seconds < most) return (seconds < 10 * size ? (seconds / size).toFixed(1) : Math.round(seconds / size)) + " " + unit;
  const years = seconds / 86400 / 365.25;
  return years < 10000 ? Math.round(years) + " years" : "10^" + Math.floor(Math.log10(years)) + " years";
}

// A share in percent.
function shareSaid(share) {
  return "about " + (share >= 1e-4 ? (100 * share).toFixed(share < 0.1 ? 2 : 0) + " %" : share.toExponential(0).replace("e", " × 10^"));
}

// How far the search is.
function farSaid({steps, share, left, seconds, found, kind}) {
  const parts = [counted(found, "packing"), many(steps) + " steps", span(seconds)];
  if (kind === "classes" && steps) parts[0] += " so far";
  if (share !== null) parts.push(shareSaid(share));
  if (left) parts.push(span(left[0]) + " to " + span(left[1]) + " left");
  return parts.join(" · ");
}

// What came out, in a sentence.
function outcomeSaid({state, kind, found, of, said, lines}) {
  if (state === "idle" || state === "running") return said || "";
  if (state !== "done") return said;
  if (!found) return "No packing: nothing fits. The whole search was made.";
  if (kind === "first") return "A packing was found.";
  if (kind === "classes" && of)
    return counted(found, "class", "classes") + " among " + counted(of, "packing") + ": what a turn or reflection of the region carries onto one another is one class.";
  return said || counted(found, "packing") + (lines.length ? ": these are all." : ".");
}

// Shows the state of the search.
function drawSearch() {
  const {now} = search, isRunning = now.state === "running", isPaused = now.state === "paused", hasSome = now.found > 0 && now.kind !== "count";
  get("stop").hidden = !isRunning;
  get("go").hidden = !isPaused;
  get("progress").hidden = !isRunning && !isPaused;
  if (now.share !== null && now.share !== undefined) get("bar").value = now.share; else get("bar").removeAttribute("value");
  get("far").textContent = isRunning || isPaused ? farSaid(now) : "";
  get("outcome").textContent = outcomeSaid(now);
  get("outcome").className = "outcome " + (now.state === "failed" ? "bad" : now.state === "done" ? now.found ? "good" : "bad" : "");
  get("figuresbox").hidden = !now.lines?.length;
  get("figures").textContent = (now.lines || []).join("\n");
  for (const id of ["show", "solved", "booklet"]) get(id).disabled = !hasSome;
  get("json").disabled = !hasSome && !(now.kind === "count" && now.lines?.length);
  drawKinds();
  document.body.dataset.search = now.state;
  document.body.dataset.found = now.found ?? "";
}

// A text with faults can't be searched.
function drawKinds() {
  const isReady = studio.told?.is_whole && !studio.told.numbers.large, isRunning = search.now.state === "running";
  document.querySelectorAll("#kinds [data-kind]").forEach(button => { button.disabled = !isReady || isRunning; });
  get("steps").disabled = !isReady;
  get("sheet").disabled = get("burrtools").disabled = !isReady;
  get("solids").disabled = !studio.lines.pieces.length;
}

// What the server tells of the search; what was found is shown once there is something, and again at the end.
function told(now) {
  const before = search.now;
  search.now = now;
  drawSearch();
  const isOver = now.state === "done" || now.state === "paused" || now.state === "failed", hasMore = now.found > 0 && now.kind && now.kind !== "count";
  if (hasMore && (isOver && before.state !== now.state || now.found > 0 && !search.shown)) trying(showFound);
}

// Whether the browser is still shown what an earlier search found.
async function begin(kind) {
  search.shown = "";
  search.of = studio.title;
  get("results").hidden = true;
  get("frame").removeAttribute("src");
  await ask("search", {kind, text: studio.text});
}

// Shows a page that was made, as high as it is.
function showFrame(address, title) {
  const frame = get("frame");
  get("results").hidden = false;
  get("resultshead").textContent = title;
  frame.onload = () => {
    const {body} = frame.contentDocument || {};
    if (!body) return;
    const fit = () => { frame.style.height = Math.max(420, Math.ceil(body.getBoundingClientRect().height) + 24) + "px"; };
    fit();
    new ResizeObserver(fit).observe(body);
    document.body.dataset.frame = address;
  };
  frame.src = address;
}

// (what is found while one page is made is shown by the next)
let isShowing = false, showsAgain = false;
async function showFound() {
  search.shown = "found";
  showsAgain = isShowing;
  if (isShowing) return;
  isShowing = true;
  try {
    const {address, shown, of} = await askedFor("show", {title: search.of || studio.title});
    const all = counted(of, "packing") + (search.now.of ? ", one of each class" : "");
    showFrame(address, shown < of ? "The first " + many(shown) + " of " + many(of) + " that were found" : all);
  } finally {
    isShowing = false;
    if (showsAgain) trying(showFound);
  }
}

async function showSteps() {
  const {address} = await askedFor("steps", {text: studio.text, many: Math.floor(+get("manysteps").value) || 200, title: studio.title + ", step by step"});
  showFrame(address, "The search, step by step");
  get("results").scrollIntoView({behavior: "smooth"});
}

function listenSearch() {
  document.querySelectorAll("#kinds [data-kind]").forEach(button => { button.onclick = () => trying(() => begin(button.dataset.kind)); });
  get("stop").onclick = () => trying(() => ask("stop"));
  get("go").onclick = () => trying(() => ask("go"));
  get("show").onclick = () => trying(async () => { await showFound(); get("results").scrollIntoView({behavior: "smooth"}); });
  get("steps").onclick = () => trying(showSteps);
  get("solved").onclick = () => trying(async () => saveFile(await (await ask("solved")).blob(), search.of + ".solved"));
  get("json").onclick = () => trying(async () => saveFile(await (await ask("json")).blob(), search.of + ".json"));
  get("booklet").onclick = () => trying(async () => openMade((await askedFor("booklet", {title: search.of || studio.title})).address));
  search.events = new EventSource("events");
  search.events.onerror = () => say(ENDED, true);
  search.events.onopen = () => { if (get("messagetext").textContent === ENDED) say(""); };
  search.events.onmessage = event => told(JSON.parse(event.data));
}
