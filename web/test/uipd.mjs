#!/usr/bin/env node
// Replaces the program `uipd` in tests if it is not built: the library as WebAssembly at the same line.
//
//     uipd.mjs serve IMAGE ADDR [pace K] [tty]     as `uipd serve`
//     uipd.mjs pack NAME=FILE ..                   as `uipd pack`
//
// With PROTECTED=1 the device has a secret, which `uipd` never has.
// It is what is tested, never what a test takes for right.
import { readFileSync, readSync, writeSync } from "node:fs";
import { dirname, join } from "node:path";
import { fileURLToPath } from "node:url";
import { Device, Refused } from "../uip.js";
import { pack } from "../site.js";

const WASM = join(dirname(fileURLToPath(import.meta.url)), "../node.wasm");
const [BAD_WORDS, NO_FILE, BAD_IMAGE] = [1, 2, 6], IMAGE = 4;

function read(file) {
  try { return new Uint8Array(readFileSync(file)); } catch { process.exit(NO_FILE); }
}

function write(bytes) {
  for (let at = 0; at < bytes.length;) {
    try { at += writeSync(1, bytes, at); } catch (error) { if (error.code !== "EAGAIN") process.exit(4); }
  }
}

// Each `pace` bytes are a tick, and with tty each silence is one.
function serve(image, address, pace, isTty) {
  const device = new Device(new WebAssembly.Module(readFileSync(WASM))), buffer = new Uint8Array(65536);
  device.open(read(image), address.split(".").map(Number));
  if (process.env.PROTECTED) device.protect();
  for (let count = 0;;) {
    const length = readSync(0, buffer);
    if (!length && !isTty) return;
    if (!length) device.tick(write);
    for (let at = 0; at < length;) {
      const end = pace ? Math.min(length, at + pace - count) : length;
      device.feed(buffer.subarray(at, end), write);
      count += end - at;
      at = end;
      if (pace && count === pace) {
        device.tick(write);
        count = 0;
      }
    }
  }
}

function main([command, ...words]) {
  if (command === "pack" && words.length) return write(pack(words.map(word => ({ name: word.split("=")[0], bytes: read(word.slice(word.indexOf("=") + 1)) }))));
  const [image, address, ...rest] = words, pace = rest[0] === "pace" ? +rest.splice(0, 2)[1] : 0;
  if (command !== "serve" || !address || rest.length > 1 || rest.length && rest[0] !== "tty") process.exit(BAD_WORDS);
  try { serve(image, address, pace, rest.length > 0); } catch (error) {
    if (error instanceof Refused && error.status === IMAGE) process.exit(BAD_IMAGE);
    throw error;
  }
}

main(process.argv.slice(2));
