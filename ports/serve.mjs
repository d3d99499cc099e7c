// node serve.mjs NODE.wasm serve SITE ADDRESS [pace K] [tty]: what `uipd serve` does, by the library as WebAssembly. SLIP bytes come on
// standard input and go to standard output. With `pace K` each K-th byte is a tick.
import { readFileSync, readSync, writeSync } from "node:fs";

const [code, , site, address, ...words] = process.argv.slice(2);
const pace = words[0] === "pace" ? Number(words[1]) : Infinity;
const PIECE = 1024, SLOTS = 10, OK = 0;
const { exports: node } = new WebAssembly.Instance(new WebAssembly.Module(readFileSync(code)));
const at = name => node[name].value;
const memory = () => new Uint8Array(node.memory.buffer);
let untilTick = pace;

// The result of a call: status, whether output is pending, bytes consumed and bytes written.
function result(name, ...rest) {
  node[name](at("result"), at("device"), ...rest, at("out"), 3002);
  const [status, pending, consumed, written] = new Uint32Array(node.memory.buffer, at("result"), 4);
  if (status !== OK) throw new Error(`${name}: status ${status}`);
  if (pending) throw new Error(`${name}: output is pending, though the area is large enough for all of it`);
  for (let sent = 0; sent < written;) sent += writeSync(1, memory().subarray(at("out") + sent, at("out") + written));
  return consumed;
}

function feed(bytes) {
  memory().set(bytes, at("in"));
  for (let from = 0; from < bytes.length;) from += result("uip_feed", at("in") + from, bytes.length - from);
}

function open(image, own) {
  const place = node.image(image.length);
  memory().set(image, place);
  memory().set(own, at("own"));
  node.uip_open(at("result"), at("device"), place, image.length, at("own"));
  const [status] = new Uint32Array(node.memory.buffer, at("result"), 1);
  if (status !== OK) throw new Error(`uip_open: status ${status}`);
}

// Waits for bytes; an end of the input gives null.
function read(piece) {
  for (;;) {
    try { return piece.subarray(0, readSync(0, piece)); } catch (error) {
      if (error.code === "EOF" || error.code === "EIO") return null;
      if (error.code !== "EAGAIN") throw error;
    }
  }
}

function run() {
  const piece = new Uint8Array(PIECE), isTerminal = words.includes("tty");
  for (let bytes = read(piece); bytes; bytes = read(piece)) {
    if (bytes.length === 0 && !isTerminal) return;
    for (let from = 0; from < bytes.length;) {
      const end = Math.min(bytes.length, from + untilTick);
      feed(bytes.subarray(from, end));
      untilTick -= end - from;
      from = end;
      if (untilTick > 0) continue;
      for (let slot = 0; slot < SLOTS; slot++) result("uip_periodic", slot);
      untilTick = pace;
    }
  }
}

open(readFileSync(site), address.split(".").map(Number));
run();
