"use strict";
// A puzzle text in an address, behind the #: packed where the browser can, else as it is. What is read from an address is bounded.

// So many characters has a puzzle of a link at most, and so many of an address.
const LINK_TEXT = 1 << 20, LINK_LONG = 1 << 16;

// Bytes as letters, digits, - and _, and back.
function lettersOf(bytes) { return btoa(Array.from(bytes, byte => String.fromCharCode(byte)).join("")).replace(/\+/g, "-").replace(/\//g, "_").replace(/=+$/, ""); }
function bytesOf(letters) { return Uint8Array.from(atob(letters.replace(/-/g, "+").replace(/_/g, "/")), letter => letter.charCodeAt(0)); }

// What a stream of bytes has; no more than so much is read.
async function collected(stream, most) {
  const parts = [], reader = stream.getReader();
  for (let many = 0;;) {
    const {done, value} = await reader.read();
    if (done) return new Uint8Array(await new Blob(parts).arrayBuffer());
    many += value.length;
    if (many > most) { await reader.cancel(); throw new Error("too long"); }
    parts.push(value);
  }
}

// A text, with its name, as what stands behind the # of an address.
async function packed(text, title) {
  const bytes = new TextEncoder().encode(text), name = title ? "&name=" + encodeURIComponent(title) : "";
  if (!window.CompressionStream) return "text=" + lettersOf(bytes) + name;
  return "puzzle=" + lettersOf(await collected(new Blob([bytes]).stream().pipeThrough(new CompressionStream("deflate-raw")), LINK_TEXT)) + name;
}

// The text and name that stand behind the # of an address, or null where it holds none. An address that is spoilt is an error.
async function unpacked(hash) {
  const given = new URLSearchParams(hash.replace(/^#/, "")), name = (given.get("name") || "").slice(0, 80);
  if (given.has("text")) return {text: new TextDecoder().decode(bytesOf(given.get("text"))).slice(0, LINK_TEXT), name};
  if (!given.has("puzzle")) return null;
  const stream = new Blob([bytesOf(given.get("puzzle"))]).stream().pipeThrough(new DecompressionStream("deflate-raw"));
  return {text: new TextDecoder().decode(await collected(stream, LINK_TEXT)), name};
}
