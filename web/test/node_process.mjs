// A node at the other end of a line: the program `uipd serve` as a child process on a terminal, or the library inside this
// process (INSIDE=1). If `uipd` is not built, uipd.mjs replaces it. UIPD and SITE name another program and image. With PROTECTED=1
// the library has a secret.
import { execFileSync, spawn } from "node:child_process";
import { existsSync, readFileSync } from "node:fs";
import { dirname, extname, join } from "node:path";
import { Readable, Writable } from "node:stream";
import { fileURLToPath } from "node:url";
import { Clock } from "../clock.js";
import { Session } from "../session.js";
import { nodeInside } from "../inside.js";

export const here = dirname(fileURLToPath(import.meta.url));
export const top = join(here, "../..");
const BUILT = process.env.UIPD ?? join(top, "crates/uipd/out/uipd");
export const SITE = process.env.SITE ?? join(top, "examples/site.img");
export const FILES = ["/index.html", "/footer.html", "/style.css", "/logo.png", "/404.html"];
// Why a test that needs the program itself is skipped, or false.
export const noProgram = existsSync(BUILT) ? false : `no program at ${BUILT}: \`rt run\` in crates/uipd builds it`;
export const UIPD = noProgram ? join(here, "uipd.mjs") : BUILT;

// A program on a terminal whose reads end after half a second.
export function startProgram(command) {
  const child = spawn("python3", [join(here, "on_terminal.py"), ...command], { stdio: ["pipe", "pipe", "inherit"] });
  child.stdin.on("error", () => {});
  return child;
}

export function startNode({ site = SITE, words = ["pace", "10000", "tty"] } = {}) {
  return startProgram([UIPD, "serve", site, "10.0.0.1", ...words]);
}

export const lineOf = child => ({ readable: Readable.toWeb(child.stdout), writable: Writable.toWeb(child.stdin) });

const code = new WebAssembly.Module(readFileSync(join(here, "../node.wasm")));
export const secret = process.env.PROTECTED && crypto.getRandomValues(new Uint8Array(16));

function insideSession({ faults, speed, site = SITE, ...options }) {
  const clock = new Clock(speed), { line, stop } = nodeInside({ code, image: new Uint8Array(readFileSync(site)), clock, secret });
  const session = new Session(line, { clock, leave: stop, ...options });
  return Object.assign(session.faults, faults), session;
}

// A session with a node, with faults between the two. At a speed the clock of both runs that many times faster.
export function startSession({ child, faults = {}, speed = 1, rate = 20000, ...options } = {}) {
  if (!child && process.env.INSIDE) return insideSession({ faults, speed, ...options });
  child ??= startNode(options);
  const session = new Session(lineOf(child), { clock: new Clock(speed), leave: () => child.kill(), ...options });
  Object.assign(session.faults, faults);
  session.fill(rate);
  return session;
}

export async function withSession(options, what) {
  const session = startSession(options);
  try { return await what(session); } finally { await session.close(); }
}

const packed = new Map();   // by image: the files that it was packed from, by name

// An image of files; each is NAME=FILE.
export function pack(files, to) {
  packed.set(to, new Map(files.map(it => [it.slice(0, it.indexOf("=")), it.slice(it.indexOf("=") + 1)])));
  return execFileSync("sh", ["-c", `"$0" pack "$@" > "${to}"`, UIPD, ...files]);
}

// docs/FORMATS.md, Requests and replies
const HEAD = "HTTP/1.0 200 OK\r\nServer: uIP/1.0\r\nConnection: close\r\n";
const TYPES = { ".html": "text/html", ".css": "text/css", ".png": "image/png", ".txt": "text/plain", ".bin": "application/octet-stream" };

// The expected page of a file, with its header: what `uipd page` writes, or the file that was packed.
export function page(target, site = SITE) {
  if (!noProgram) return execFileSync(UIPD, ["page", site, target], { maxBuffer: 1 << 26 });
  const name = target === "/" ? "/index.html" : target.replace(/\?.*/, ""), file = packed.get(site)?.get(name) ?? join(top, "examples/site", name);
  return Buffer.concat([Buffer.from(`${HEAD}Content-type: ${TYPES[extname(name)]}\r\n\r\n`), readFileSync(file)]);
}

export const bodyOf = text => text.subarray(text.indexOf("\r\n\r\n") + 4);

export function dump(datagrams) {
  return execFileSync(UIPD, ["dump"], { input: datagrams }).toString();
}

export async function until(isSo, seconds = 10) {
  for (const end = Date.now() + seconds * 1000; !isSo() && Date.now() < end;)
    await new Promise(resolve => setTimeout(resolve, 5));
  if (!isSo()) throw new Error(`not in ${seconds} s: ${isSo}`);
}
