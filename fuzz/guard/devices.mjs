// Devices that take and give datagrams: web/node.wasm, or a program (device.c) over a library for C. And an honest client.
import { execFileSync, spawn } from "node:child_process";
import { closeSync, mkdtempSync, openSync, readFileSync, readSync, writeSync } from "node:fs";
import { tmpdir } from "node:os";
import { dirname, join } from "node:path";
import { fileURLToPath } from "node:url";
import { Device } from "../../web/uip.js";
import { ACK, PEER, PSH, SYN, add32, read, slip, tcp, unslip } from "./packets.mjs";

const top = join(dirname(fileURLToPath(import.meta.url)), "../..");
const code = new WebAssembly.Module(readFileSync(process.env.NODE_WASM ?? join(top, "web/node.wasm")));
const STATES = ["CLOSED", "SYN-RCVD", "ESTABLISHED", "CLOSE-WAIT", "FIN-WAIT-1", "FIN-WAIT-2", "CLOSING", "TIME-WAIT", "LAST-ACK"];
const SECRET = Uint8Array.from([7, 1, 250, 33, 98, 4, 71, 180, 26, 9, 222, 61, 140, 17, 88, 203]);
export const STATE = new Uint8Array(readFileSync(join(top, "examples/state.img")));
export const SITE = new Uint8Array(readFileSync(join(top, "examples/site.img")));

// web/node.wasm, which is fed frames of a serial line.
class WasmDevice {
  constructor(image, own, isProtected) {
    this.device = new Device(code);
    this.device.open(image, own);
    if (isProtected) this.device.protect(SECRET);
  }

  sent(call) {
    const bytes = [];
    call(text => bytes.push(...text));
    return unslip(bytes);
  }
  input(datagram) { return this.sent(send => this.device.feed(slip(datagram), send)); }
  tick() { return this.sent(send => this.device.tick(send)); }
  get rows() { return this.device.connections.map(({ state, port }) => ({ state, port })); }
  hits(name) { return this.device.hits(name); }
  close() {}
}

const hex = bytes => [...bytes].map(byte => byte.toString(16).padStart(2, "0")).join("");

// A program as device.c, which is told what to do by a pipe with a name, and answers by another.
class ProgramDevice {
  constructor(program, image, own, isProtected) {
    const folder = mkdtempSync(join(tmpdir(), "guard-")), [asked, told] = ["asked", "told"].map(name => join(folder, name));
    execFileSync("mkfifo", [asked, told]);
    const child = spawn("sh", ["-c", `exec ${program} <"${asked}" >"${told}"`], { stdio: ["ignore", "ignore", "inherit"] });
    Object.assign(this, { child, to: openSync(asked, "w"), from: openSync(told, "r"), folder });
    this.ask(`open ${hex(own)} ${hex(image)}`);
    if (isProtected) this.ask(`protect ${hex(SECRET)}`);
  }

  ask(command) {
    const line = Buffer.from(`${command}\n`), part = Buffer.alloc(65536);
    for (let at = 0; at < line.length;) at += writeSync(this.to, line, at);
    let text = "";
    while (!text.endsWith("\n")) {
      const count = readSync(this.from, part);
      if (!count) throw new Error(`the device ended at: ${command.slice(0, 40)}`);
      text += part.toString("latin1", 0, count);
    }
    if (text.startsWith("?")) throw new Error(`the device answers ${text.trim()}`);
    return text.trim();
  }
  sent(command) {
    const text = this.ask(command);
    return text === "-" ? [] : [Uint8Array.from(Buffer.from(text, "hex"))];
  }
  input(datagram) { return this.sent(`input ${hex(datagram)}`); }
  tick() { return Array.from({ length: 10 }, (_, slot) => this.sent(`tick ${slot}`)).flat(); }
  get rows() {
    return this.ask("rows").split(" ").map(row => row.split(",")).map(([state, , port]) => ({ state: STATES[state], port: +port }));
  }
  hits(name) { return +this.ask(`hits ${hex(Buffer.from(name))}`); }
  close() {
    closeSync(this.to);
    closeSync(this.from);
    this.child.kill("SIGKILL");    // a board under qemu does not end with its input
    execFileSync("rm", ["-r", this.folder]);
  }
}

// A node. `program` is the command of a program as device.c; without one it is web/node.wasm. `isProtected` gives the device a secret.
export class Node {
  constructor({ image = STATE, own = [10, 0, 0, 1], program, isProtected } = {}) {
    this.device = program ? new ProgramDevice(program, image, own, isProtected) : new WasmDevice(image, own, isProtected);
  }

  input(datagram) { return this.device.input(datagram); }
  tick(count = 1) { return Array.from({ length: count }, () => this.device.tick()).flat(); }
  get states() { return this.device.rows.map(row => row.state); }
  get live() { return this.device.rows.filter(row => row.state !== "CLOSED"); }
  hits(name) { return this.device.hits(name); }
  close() { this.device.close(); }
}

// An honest client of a connection, as far as the tests need one.
export class Client {
  constructor(node, { from = PEER, port = 4000, dport = 80, irs = 1000, window = 8192 } = {}) {
    Object.assign(this, { node, from, port, dport, snd: irs, rcv: 0, window, state: "CLOSED", text: "", isReset: false });
  }

  get fields() { return { from: this.from, port: this.port, dport: this.dport, seq: this.snd, ack: this.rcv, window: this.window }; }
  send(fields) { return this.take(this.node.input(tcp({ ...this.fields, ...fields }))); }

  // Takes what the node sent: acknowledges new text and FIN at once.
  take(sent) {
    for (const s of sent.map(read).filter(s => s.proto === 6 && s.dport === this.port && s.to.join() === this.from.join())) this.hear(s);
    return sent;
  }

  hear(s) {
    if (s.flags & 4) return Object.assign(this, { isReset: true, state: "CLOSED" });
    if (this.state === "SYN-SENT" && s.flags & SYN && s.ack === add32(this.snd, 1)) {
      Object.assign(this, { rcv: add32(s.seq, 1), iss: s.seq, snd: s.ack, state: "ESTABLISHED" });
      return this.send({ flags: ACK });
    }
    const space = s.text.length + (s.flags & 1);
    if (this.state !== "ESTABLISHED" || s.seq !== this.rcv || !space) return this;
    this.text += String.fromCharCode(...s.text);
    this.rcv = add32(this.rcv, space);
    if (s.flags & 1) this.isWhole = true;
    return this.isDeaf ? this : this.send({ flags: ACK });
  }

  open() {
    this.state = "SYN-SENT";
    return this.send({ flags: SYN, ack: 0 });
  }

  get(target) {
    const text = `GET ${target} HTTP/1.0\r\n\r\n`, seq = this.snd;
    this.snd = add32(this.snd, text.length);
    return this.send({ flags: ACK | PSH, seq, text });
  }
}
