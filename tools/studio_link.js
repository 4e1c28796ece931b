"use strict";
// The page that a link to a puzzle leads to. It doesn't know the studio's secret, and can't do anything but hand the puzzle to the studio that is open in
// this browser; whoever sits there says whether it is opened.

const shown = id => document.getElementById(id);

// The puzzle as it is, for whoever has no studio open in this browser.
function showText(text) {
  shown("text").hidden = false;
  shown("text").textContent = text;
}

async function handOver() {
  let found = null;
  try { found = await unpacked(location.hash); } catch { shown("more").textContent = "This link is spoilt: it may have been cut when it was copied."; return; }
  if (!found) {
    shown("said").textContent = "This is the studio's door";
    shown("more").textContent = "The studio itself has the address that was printed where it was started.";
    return;
  }
  shown("said").textContent = "A link to the puzzle “" + (found.name || "without a name") + "”";
  showText(found.text);
  if (!window.BroadcastChannel) { shown("more").textContent = "Copy this text into the studio."; return; }
  const channel = new BroadcastChannel("polylab studio");
  const late = setTimeout(() => {
    shown("more").textContent = "No studio is open in this browser: copy this text, or the address of this page, into the one that you have.";
  }, 2000);
  channel.onmessage = event => {
    if (event.data !== "here") return;
    clearTimeout(late);
    shown("more").textContent = "It waits in the studio, in the other tab of this browser. This tab can be closed.";
    document.body.dataset.handed = 1;
  };
  channel.postMessage({text: found.text, name: found.name});
}
handOver();
