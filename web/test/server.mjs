// What the page is served by in tests: web/serve.py, or a server of our own that knows nothing of nodes, below any path, with
// the other end of a substitute for a serial port, whose bytes go by HTTP to a program.
import { spawn } from "node:child_process";
import { readFile } from "node:fs/promises";
import { createServer } from "node:http";
import { extname, join, normalize } from "node:path";
import { here, UIPD } from "./node_process.mjs";

const WEB = join(here, ".."), TYPES = { ".html": "text/html", ".js": "text/javascript", ".css": "text/css", ".wasm": "application/wasm" };

// A program that ends where this process does: its shell waits for the end of its input.
const TIED = `"$@" & cat >/dev/null; kill $! 2>/dev/null; wait $!`;

// web/serve.py at a free port, with further words.
export async function startServe(...words) {
  const command = ["python3", join(WEB, "serve.py"), "--port", "0", ...words];
  const child = spawn("sh", ["-c", TIED, "sh", ...command], { stdio: ["pipe", "pipe", "inherit"] });
  const url = await new Promise((resolve, reject) => {
    let output = "";
    child.stdout.on("data", text => {
      output += text;
      const url = /http:\S+\/(?= )/.exec(output)?.[0];
      if (url) resolve(url);
    });
    child.on("exit", () => reject(new Error("serve.py ended")));
  });
  return { url, stop: () => child.stdin.end(), ended: new Promise(resolve => child.on("exit", resolve)) };
}

export const startServeOfSite = (...words) => startServe(UIPD, ...words);

// `node` starts the program of a port and gives its child process. `asked` is what the server was asked for.
export async function serve({ base = "/", node = null } = {}) {
  const ports = new Map(), asked = [], url = path => new URL(path, "http://x").pathname;
  async function serial(request, response, number, action) {
    const child = ports.get(+number);
    if (action === "read") {
      response.writeHead(200, { "Content-Type": "application/octet-stream" }).flushHeaders();
      child.stdout.pipe(response);
      return;
    }
    if (action === "write") for await (const bytes of request) child.stdin.write(bytes);
    else if (action === "close") child.kill();
    else ports.set(ports.size + 1, node());
    response.end(String(ports.size));
  }
  async function file(response, path) {
    try {
      if (!path.startsWith(base)) throw new Error("outside");
      const name = join(WEB, normalize("/" + path.slice(base.length)), path.endsWith("/") ? "index.html" : "");
      const type = TYPES[extname(name)] ?? "application/octet-stream", bytes = await readFile(name);
      response.writeHead(200, { "Content-Type": type, "Cache-Control": "no-store" }).end(bytes);
    } catch { response.writeHead(404).end("not here\n"); }
  }
  const server = createServer((request, response) => {
    const path = url(request.url), [, word, number, action] = path.split("/");
    asked.push(`${request.method} ${path}`);
    response.setHeader("Access-Control-Allow-Origin", "*");   // a page that is a file reads it too
    if (word === "serial" && node) return serial(request, response, number, action);
    return file(response, path);
  });
  await new Promise(resolve => server.listen(0, "127.0.0.1", resolve));
  const origin = `http://localhost:${server.address().port}`;
  function stop() {
    for (const child of ports.values()) child.kill();
    server.closeAllConnections();
    server.close();
  }
  return { url: origin + base, origin, asked, stop };
}

// A substitute for a serial port, as the page sees it, whose bytes go to the program at /serial. It keeps the shape of Web
// Serial: `readable` and `writable` are null until it is open, are streams then, and null again once it is closed; an error
// that passes gives another stream; a locked stream refuses the close.
class SubstitutePort extends EventTarget {
  static origin;
  readable = null;
  writable = null;
  #number;
  #stop;
  #incoming;
  #pending = null;
  #out;

  #at(action) { return `${SubstitutePort.origin}/serial/${this.#number}/${action}`; }

  async open({ baudRate, bufferSize = 255 }) {
    if (self.refuseOpen) throw new DOMException("Failed to open serial port.", "NetworkError");
    if (this.readable) throw new DOMException("The port is already open.", "InvalidStateError");
    this.opened = { baudRate, bufferSize };
    this.#number = await (await fetch(`${SubstitutePort.origin}/serial`, { method: "POST" })).text();
    this.#stop = new AbortController();
    this.#incoming = (await fetch(this.#at("read"), { signal: this.#stop.signal })).body.getReader();
    this.#renew();
    const write = bytes => fetch(this.#at("write"), { method: "POST", body: bytes.slice() }).then(() => {});
    this.writable = new WritableStream({ write });
  }

  #renew() {
    this.readable = new ReadableStream({
      start: out => { this.#out = out; },
      pull: async out => {
        const { value, done } = await (this.#pending ??= this.#incoming.read());
        if (out !== this.#out) return;
        this.#pending = null;
        if (done) out.close(); else out.enqueue(value);
      },
    }, { highWaterMark: 0 });
  }

  fail(name) {
    const out = this.#out;
    if (name === "NetworkError") this.readable = null; else this.#renew();
    out.error(new DOMException("of the port", name));
  }

  async close() {
    if (this.readable?.locked || this.writable?.locked) throw new TypeError("Cannot cancel a locked stream");
    this.readable = this.writable = null;
    this.#stop.abort();
    await fetch(this.#at("close"), { method: "POST" });
  }
}

// Puts the substitute in the place of navigator.serial. A port is chosen by a click alone.
function putSerialInPlace(Port) {
  if (self !== top) return;
  const ports = [], serial = new EventTarget();
  Object.assign(serial, { ports, Port, getPorts: async () => [] });
  serial.requestPort = async () => {
    if (!navigator.userActivation.isActive) throw new DOMException("no gesture", "SecurityError");
    if (self.chooseNone) throw new DOMException("No port selected by the user.", "NotFoundError");
    return ports[ports.push(new Port()) - 1];
  };
  Object.defineProperty(Navigator.prototype, "serial", { configurable: true, value: serial });
}

export const serialAt = origin =>
  `{ ${SubstitutePort}; SubstitutePort.origin = ${JSON.stringify(origin)}; (${putSerialInPlace})(SubstitutePort); }`;
