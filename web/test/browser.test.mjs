// The page in Chromium with a node at its line: over a substitute for a serial port, over web/serve.py, and as one file. PICTURES
// names a folder for pictures of it. The device inside the page has tests of its own (page.test.mjs).
import test from "node:test";
import assert from "node:assert/strict";
import { execFileSync, spawn } from "node:child_process";
import { existsSync, mkdtempSync, readFileSync, rmSync, writeFileSync } from "node:fs";
import { tmpdir } from "node:os";
import { join } from "node:path";
import { PATIENCE, noChromium, startChromium } from "./chromium.mjs";
import { serialAt, serve, startServe, startServeOfSite } from "./server.mjs";
import { FILES, SITE, UIPD, bodyOf, dump, here, noProgram, page, startNode, startProgram, top } from "./node_process.mjs";
import { READY, click, ends, hasNotice, set, shows } from "./tabs.mjs";

const folder = mkdtempSync(join(tmpdir(), "browser-test-")), PICTURES = process.env.PICTURES ?? folder;
const skip = noChromium;
let browser;
test.before(async () => { if (!skip) browser = await startChromium(); });
test.after(async () => { await browser?.stop(); rmSync(folder, { recursive: true, force: true }); });

// What a page in the frame gets for a name.
async function fetched(tab, name) {
  const { text, ...rest } = await tab.run(`
    const reply = await frames[0].fetch(${JSON.stringify(name)}), bytes = new Uint8Array(await reply.arrayBuffer());
    return { status: reply.status, type: reply.headers.get("Content-Type"), text: btoa(String.fromCharCode(...bytes)) }`);
  return { ...rest, bytes: Buffer.from(text, "base64") };
}

// Every file in the frame, byte for byte.
async function seesFile(tab, name) {
  const { status, type, bytes } = await fetched(tab, name), expected = page(name);
  assert.equal(status, 200, name);
  assert.ok(expected.toString("latin1").includes(`Content-type: ${type}\r\n`), type);
  assert.ok(bodyOf(expected).equals(bytes), name);
}
async function seesFiles(tab) {
  const nothing = fetched(tab, "/no-such-file");
  await Promise.all(FILES.map(name => seesFile(tab, name)));
  assert.equal((await nothing).status, 404);
}

// The start page has its style and picture; a link leads to the script page, and back and reload lead as they should.
async function seesSite(tab) {
  await seesFiles(tab);
  await tab.until(`frames[0].document.images[0].complete`);
  const seen = await tab.run(`
    const { document } = frames[0], [image] = document.images, [sheet] = document.styleSheets;
    return [image.naturalWidth > 0, sheet.cssRules.length, frames[0].getComputedStyle(document.body).color]`);
  assert.deepEqual(seen, [true, 6, "rgb(20, 44, 36)"]);
  await tab.run(`frames[0].document.querySelector('a[href="/stats.shtml"]').click()`);
  await tab.until(shows("What it counts"));
  assert.match(await tab.run(`return frames[0].document.body.innerText`), /ESTABLISHED/);
  await tab.until(`document.getElementById("target").value === "/stats.shtml"`);
  await click(tab, "back");
  await tab.until(shows("Lowunbisa"));
  await tab.run(`frames[0].document.title = ""`);
  await click(tab, "reload");
  await tab.until(shows("Lowunbisa"));
}

// A tab with the page, whose node is at the substitute for a port.
async function withPort({ base = "/", node = () => startNode(), isOpened = true, first = "" }, what) {
  const server = await serve({ base, node }), tab = await browser.open(server.url, serialAt(server.origin) + first);
  try {
    await tab.until(READY);
    await tab.run(`document.getElementById("fill").click()`);
    if (isOpened) {
      await click(tab, "open-port");
      await tab.until(shows("Lowunbisa"));
    }
    await what(tab, server);
    assert.deepEqual(tab.messages.filter(it => !/\/(no-such-file|gone-away|never)$/.test(it)), []);
    assert.ok(!server.asked.some(it => FILES.some(name => it === `GET ${name}`)), "what the device has was asked of the server");
  } finally {
    await tab.call("Page.close").catch(() => {});
    server.stop();
  }
}

// A tab with the page, whose node is at the bridge.
async function withBridge(serving, what) {
  const server = await serving, tab = await browser.open(server.url);
  try {
    await tab.until(READY);
    await what(tab, server);
  } finally {
    await tab.call("Page.close").catch(() => {});
    server.stop();
    await server.ended;
  }
}

const inBrowser = (name, what, reason = false) => test(name, { skip: skip || reason, timeout: 120000 * PATIENCE }, what);

// Other browsers have no Navigation API: there a link to "/x" is led back by the worker, where the page lies at the root.
const WITHOUT_NAVIGATION = `;delete Window.prototype.navigation; Object.defineProperty(self, "navigation", { value: undefined });`;

for (const [name, options] of [["at /", { base: "/" }], ["at /some/where/", { base: "/some/where/" }],
  ["at / without the Navigation API", { base: "/", first: WITHOUT_NAVIGATION }]])
  inBrowser(`a serial port, the page ${name}: every file, links, back, reload`, () => withPort(options, async tab => {
    await seesSite(tab);
    assert.equal(await tab.run(`return !frames[0].navigation`), options.first !== undefined);
    assert.deepEqual(await tab.run(`return navigator.serial.ports[0].opened`), { baudRate: 115200, bufferSize: 65536 });
  }));

inBrowser("a serial port is pinged, captured, closed and opened again", () => withPort({}, async tab => {
  await click(tab, "ping");
  await tab.until(`document.getElementById("result").textContent.startsWith("echo reply after")`);
  const capture = await tab.run(`
    return btoa(String.fromCharCode(...new Uint8Array(await node.session.capture.plain().arrayBuffer())))`);
  if (!noProgram) {
    const line = execFileSync(UIPD, ["slip"], { input: Buffer.from(capture, "base64") });
    assert.match(dump(line), /icmp 10\.0\.0\.2 10\.0\.0\.1 8 0\n[^]* icmp 10\.0\.0\.1 10\.0\.0\.2 0 0\n/);
  }
  await click(tab, "close");
  await tab.until(`navigator.serial.ports[0].readable === null`);
  await tab.until(ends("not connected"));
  assert.deepEqual((await fetched(tab, "/gone-away")).bytes.toString(), "not connected\n");
  await tab.run(`frames[0].document.title = ""`);
  await click(tab, "open-port");
  await tab.until(shows("Lowunbisa"));
}));

inBrowser("each fault of a port has its message, and the page goes on", () => withPort({ isOpened: false }, async tab => {
  await tab.run(`self.chooseNone = true`);
  await click(tab, "open-port");
  await tab.until(hasNotice("no port was chosen"));
  await tab.run(`self.chooseNone = false; self.refuseOpen = true`);
  await click(tab, "open-port");
  await tab.until(hasNotice("another program has it"));
  await tab.until(ends("not connected"));
  await tab.run(`self.refuseOpen = false`);
  await click(tab, "open-port");
  await tab.until(shows("Lowunbisa"));
  for (const [name, words] of [["BufferOverrunError", "an overrun"], ["ParityError", "a parity error"],
    ["FramingError", "a framing error"], ["BreakError", "a break"]]) {
    await tab.run(`navigator.serial.ports.at(-1).fail(${JSON.stringify(name)})`);
    await tab.until(hasNotice(words));
    assert.equal((await fetched(tab, "/style.css")).status, 200);
  }
  await tab.run(`navigator.serial.ports.at(-1).fail("NetworkError")`);
  await tab.until(ends("the line ended: the port was pulled out"));
  assert.equal((await fetched(tab, "/gone-away")).status, 504);
  await tab.run(`frames[0].document.title = ""`);
  await click(tab, "open-port");
  await tab.until(shows("Lowunbisa"));
  assert.equal((await fetched(tab, "/style.css")).status, 200);
}));

// A board that resets when its port is opened: it prints a line, and reads nothing until it has started.
const STARTING = `printf 'boot: board 7\\r\\n'; timeout 4 cat >/dev/null; exec "$0" serve "$1" 10.0.0.1 pace 10000 tty`;

inBrowser("a board that opening the port resets: a message reports it, and its page comes", () =>
  withPort({ isOpened: false, node: () => startProgram(["sh", "-c", STARTING, UIPD, SITE]) }, async tab => {
    await click(tab, "open-port");
    await tab.until(hasNotice("a board that was reset by it answers once it has started"));
    await tab.until(hasNotice("is the device there, or still starting? sent again"));
    await tab.until(shows("Lowunbisa"));
    await tab.until(hasNotice("received bytes that are no datagram (ip short): a starting board"));
  }));

inBrowser("a message reports a page that never comes, and another comes", () => withPort({}, async tab => {
  await set(tab, { speed: 20 });
  await tab.run(`node.session.faults.loss = 1; node.visit("/never")`);
  await tab.until(hasNotice("sent again"));
  await tab.until(`frames[0].document.body?.innerText === "the node does not answer\\n"`);
  await set(tab, { speed: 1 });
  await tab.run(`node.visit("/stats.shtml")`);
  await tab.until(shows("What it counts"));
  assert.equal(await tab.run(`return node.session.sums.truncated`), 1);
}));

inBrowser("a message reports an eleventh connection, and the page continues", () => withPort({}, async tab => {
  await tab.run(`self.held = Array.from({ length: 10 }, () => node.session.host.connect())`);
  await tab.until(`self.held.every(it => it.state === "ESTABLISHED")`);
  await tab.run(`node.visit("/stats.shtml")`);
  await tab.until(hasNotice("the device may have no slot free (10 are open); sent again"));
  await tab.run(`self.held.forEach(it => it.abort())`);
  await tab.until(shows("What it counts"));
}));

inBrowser("one command to the site: by the bridge, with a fifth lost and a tenth of the other faults", () =>
  withBridge(startServeOfSite(), async tab => {
    await tab.until(shows("Lowunbisa"));
    await seesSite(tab);
    await tab.run(`node.visit("/stats.shtml")`);
    await tab.until(shows("What it counts"));
    await click(tab, "ping");
    await tab.until(`document.getElementById("result").textContent.startsWith("echo reply after")`);
    await set(tab, { loss: 20, duplication: 10, reordering: 10, corruption: 10, speed: 20 });
    await seesFiles(tab);
    const sums = await tab.run(`return node.session.sums`);
    assert.deepEqual([sums.wrong, sums.truncated, sums.different], [0, 0, 0]);
    assert.ok(sums.hit > 20 && sums.retransmissions > 0);
    await tab.until(`document.querySelectorAll("#rows .again").length > 0`);
    await tab.picture(join(PICTURES, "page.png"));
    await click(tab, "draw");
    await tab.until(`document.getElementById("picture").naturalWidth > 0`);
    await tab.picture(join(PICTURES, "drawing.png"));
  }));

inBrowser("very many pages in Chromium: none wrong, none cut, and no memory that grows with them", () =>
  withBridge(startServeOfSite(), async tab => {
    const heap = async () => {
      await tab.run(`node.rows.clear()`);
      await tab.call("HeapProfiler.collectGarbage");
      return (await tab.call("Runtime.getHeapUsage")).usedSize;
    };
    await tab.run(`node.session.capture.room = 1 << 16; document.getElementById("target").value = "/index.html"`);
    await set(tab, { count: 300 });
    const first = await tab.run(`return node.fetchMany()`), before = await heap();
    const next = await tab.run(`return node.fetchMany()`), more = await heap() - before;
    for (const { complete, wrong, truncated } of [first, next]) assert.deepEqual([complete, wrong, truncated], [300, 0, 0]);
    assert.ok(more < 5e5, `${more} bytes more after 300 pages`);
    await set(tab, { loss: 10, duplication: 10, reordering: 10, corruption: 10, delay: 10, speed: 20, count: 60 });
    const hit = await tab.run(`return node.fetchMany()`);
    assert.deepEqual([hit.complete, hit.wrong, hit.truncated], [60, 0, 0]);
  }));

inBrowser("the bridge tells why a node ended, and is for its own page alone", () =>
  withBridge(startServe("--", "sh", "-c", "sleep 1; exit 3"), async (tab, { url }) => {
    await tab.until(ends("the line ended: the program ended with status 3"));
    await click(tab, "open-bridge");
    await tab.until(`document.getElementById("state").textContent.startsWith("connected:")`);
    const key = "AAAAAAAAAAAAAAAAAAAAAA==";
    const upgrade = { Connection: "Upgrade", Upgrade: "websocket", "Sec-WebSocket-Version": "13", "Sec-WebSocket-Key": key };
    const asked = headers => JSON.parse(execFileSync("python3", ["-c", `
import http.client, json, sys
from urllib.parse import urlsplit
link = http.client.HTTPConnection(urlsplit(sys.argv[1]).netloc)
link.putrequest("GET", sys.argv[2], skip_host=True)
for name, value in json.loads(sys.argv[3]).items(): link.putheader(name, value)
link.endheaders()
print(link.getresponse().status)`, url, ...headers]).toString());
    const host = new URL(url).host;
    assert.equal(asked(["/line", JSON.stringify({ Host: host, Origin: "http://elsewhere.example", ...upgrade })]), 403);
    assert.equal(asked(["/line", JSON.stringify({ Host: host, ...upgrade })]), 403);
    assert.equal(asked(["/", JSON.stringify({ Host: "elsewhere.example" })]), 403);
    assert.equal(asked(["/serve.py", JSON.stringify({ Host: host })]), 404);
    assert.equal(asked(["/../README.md", JSON.stringify({ Host: host })]), 404);
    assert.equal(asked(["/line", JSON.stringify({ Host: host, Origin: `http://${host}`, ...upgrade })]), 101);
  }));

inBrowser("a node by uIP's own rules is found in the page", () =>
  withBridge(startServe("--", "python3", join(here, "by_uips_rules.py")), async tab => {
    await tab.until(`frames[0].document.body?.innerText.startsWith("This text was made 1 times.")`);
    await set(tab, { loss: 40, speed: 4 });
    for (let n = 0; n < 40 && !await tab.run(`return ${hasNotice("a retransmission with different bytes")}`); n++)
      await tab.run(`await node.session.whole("/").catch(() => {})`);
    await tab.until(`[...document.querySelectorAll("#rows .other")].some(it => it.innerText.includes("DIFFERENT at"))`);
    assert.ok(await tab.run(`return node.session.sums.different`) > 0);
    await tab.picture(join(PICTURES, "other.png"));
  }));

// As crates/link_replay/README.md has the form of a report.
const REPORT = "1 0 c0 S 0 0\n2 0 n0 SA 0 0\n3 0 c0 AP 1 9\n4 6 n0 SA 0 0 again\nticks 6 datagrams 4\n";

inBrowser("a report of a replay is drawn", () => withBridge(startServe("--page"), async tab => {
  const report = join(folder, "page.report"), { root } = await tab.call("DOM.getDocument");
  writeFileSync(report, noProgram ? REPORT : execFileSync(UIPD, ["replay", SITE, join(top, "examples/page.schedule"), "show"]));
  const { nodeId } = await tab.call("DOM.querySelector", { nodeId: root.nodeId, selector: "#report" });
  await tab.call("DOM.setFileInputFiles", { nodeId, files: [report] });
  await tab.until(`document.getElementById("drawing").open && document.getElementById("picture").naturalWidth > 0`);
  assert.equal(await tab.run(`return document.getElementById("picture").alt`), `page.report: ${noProgram ? 4 : 9} datagrams between this page and the device`);
  await tab.picture(join(PICTURES, "report.png"));
}));

inBrowser("the page is used by the keyboard, has labels, and fits 390 and 360 pixels", () => withBridge(startServeOfSite(), async tab => {
  await tab.until(shows("Lowunbisa"));
  await tab.run(`for (const it of document.querySelectorAll("details:not(.menu)")) it.open = true`);
  const { nodes } = await tab.call("Accessibility.getFullAXTree");
  const fields = nodes.filter(it => ["button", "textbox", "slider", "checkbox", "combobox", "spinbutton"].includes(it.role?.value));
  assert.ok(fields.length > 20);
  assert.deepEqual(fields.filter(it => !it.name?.value).map(it => it.role.value), []);
  await tab.run(`document.getElementById("target").focus(); document.getElementById("target").select()`);
  await tab.call("Input.insertText", { text: "/stats.shtml" });
  await tab.key("Enter", "Enter", "\r");
  await tab.until(shows("What it counts"));
  const reached = new Set();
  await tab.run(`document.querySelector(".menu").open = true; document.querySelector(".menu summary").focus()`);
  for (let n = 0; n < 50; n++) {
    reached.add(await tab.run(`return document.activeElement.id || document.activeElement.className`));
    await tab.key("Tab");
  }
  for (const id of ["help", "fill", "apart", "close", "back", "address", "target", "draw", "save-capture", "save-plain", "diagram", "loss", "fast", "speed",
    "seed", "copy-link", "no-faults", "count", "many", "ping"])
    assert.ok(reached.has(id), `${id} is not reached: ${[...reached]}`);
  for (const width of [390, 360]) {
    await tab.size(width, 740);
    await tab.until(`innerWidth === ${width}`);
    assert.ok(await tab.run(`return document.documentElement.scrollWidth <= innerWidth`), `${width}`);
  }
  await tab.picture(join(PICTURES, "narrow.png"));
}));

inBrowser("scripts are kept apart on request", () => withPort({}, async tab => {
  await tab.run(`document.getElementById("apart").click()`);
  await tab.until(`document.getElementById("frame").srcdoc.includes("data:image/png")`);
  assert.equal(await tab.run(`return document.getElementById("frame").getAttribute("sandbox")`), "allow-scripts allow-forms");
  await tab.until(`(() => { try { return frames[0].document.title && false; } catch (error) { return error.name === "SecurityError"; } })()`);
  await tab.run(`document.getElementById("apart").click()`);
  await tab.until(shows("Lowunbisa"));
}));

// Only a debugger reads a DOM of no origin, so the test looks at the frame's text, a click and a message of a script in it.
inBrowser("the page as one file: every file, what a page names, links, and a script's own requests", async () => {
  const file = join(folder, "node.html"), script = join(folder, "own.html"), site = join(folder, "own.img");
  execFileSync("python3", [join(here, "../one_file.py"), file]);
  writeFileSync(script, `<title>own</title><a id="link" style="position:fixed;inset:0" href="/style.css">x</a>
<script>fetch("/style.css").then(it => it.text()).then(text => parent.postMessage({ fetched: text }, "*"))</script>`);
  const names = [`/own.html=${script}`, ...FILES.map(name => `${name}=${join(top, "examples/site", name)}`)];
  writeFileSync(site, execFileSync(UIPD, ["pack", ...names]));
  const server = await serve({ node: () => startNode({ site }) }), tab = await browser.open(`file://${file}`, serialAt(server.origin));
  try {
    await tab.until(`${READY} === "plain"`);
    await click(tab, "open-port");
    await tab.until(`document.getElementById("frame").srcdoc.includes("data:image/png")`);
    const shown = await tab.run(`return document.getElementById("frame").srcdoc`);
    for (const [name, type] of [["logo.png", "image/png"], ["style.css", "text/css"]])
      assert.ok(shown.includes(`data:${type};base64,${readFileSync(join(top, "examples/site", name)).toString("base64")}`), name);
    for (const name of FILES) {
      const text = await tab.run(`return btoa(String.fromCharCode(...(await node.session.whole(${JSON.stringify(name)})).bytes))`);
      assert.ok(bodyOf(page(name)).equals(Buffer.from(text, "base64")), name);
    }
    await tab.picture(join(PICTURES, "one-file.png"));
    await tab.run(`addEventListener("message", ({ data }) => { if (data.fetched) self.fetched = data.fetched }); node.visit("/own.html")`);
    await tab.until(`self.fetched`);
    assert.equal(await tab.run(`return self.fetched`), readFileSync(join(top, "examples/site/style.css")).toString());
    await tab.run(`   // of another window than the frame: it means nothing
      postMessage({ visit: "/404.html" }, "*");
      for (let n = 0; n < 5; n++) await node.session.whole("/style.css");
      await new Promise(resolve => setTimeout(resolve, 500))`);
    const [x, y] = await tab.run(`const it = document.getElementById("frame").getBoundingClientRect(); return [it.x + 90, it.y + 90]`);
    assert.equal(await tab.run(`return document.getElementById("target").value`), "/own.html");
    for (const type of ["mousePressed", "mouseReleased"])
      await tab.call("Input.dispatchMouseEvent", { type, x, y, button: "left", clickCount: 1 });
    await tab.until(`document.getElementById("target").value === "/style.css"`, 10);
    assert.deepEqual(tab.messages, []);
  } finally {
    await tab.call("Page.close").catch(() => {});
    server.stop();
  }
});

inBrowser("a serial port at the bridge: one page has it at a time, and it is reported when it goes away", async () => {
  const words = [join(here, "on_terminal.py"), "--port", UIPD, "serve", SITE, "10.0.0.1", "pace", "5760", "tty"];
  const port = spawn("python3", words, { stdio: ["pipe", "pipe", "inherit"] });
  const name = await new Promise(resolve => port.stdout.once("data", text => resolve(`${text}`.trim())));
  await withBridge(startServe("--line", name, "115200"), async (tab, { url }) => {
    await tab.until(shows("Lowunbisa"));
    await seesFiles(tab);
    const other = await browser.open(url);
    await other.until(ends(`the line ended: serve.py: another page has the port ${name}`));
    await other.call("Page.close");
    port.kill();
    await tab.until(ends("the line ended: the port went away"));
  }).finally(() => port.kill());
});

inBrowser("two pages at once have each a node of its own", () => withBridge(startServeOfSite(), async (tab, { url }) => {
  await tab.until(shows("Lowunbisa"));
  const other = await browser.open(url);
  await other.until(shows("Lowunbisa"));
  for (const [one, whole] of [[tab, 1], [other, 0]]) {
    for (let n = 0; n < whole; n++) await fetched(one, "/stats.shtml");
    assert.match((await fetched(one, "/stats.shtml")).bytes.toString(), new RegExp(`this page +${whole + 1} times`));
  }
  await other.call("Page.close");
  await seesFiles(tab);
}));

// The site from a board under qemu and from a C program, where they are built.
const BOARD = process.env.BOARD ?? join(top, "examples/board/out/board.bin");
const SERVE_C = process.env.SERVE_C ?? join(top, "examples/linux-c/out/uip_serve");
const noBoard = (() => {
  if (!existsSync(BOARD)) return `no firmware at ${BOARD}: \`sh examples/board/run.sh build\` builds it`;
  const qemu = process.env.QEMU ?? "qemu-system-aarch64";
  try { execFileSync(qemu, ["--version"], { stdio: "ignore" }); return false; } catch { return `no ${qemu} here`; }
})();
const noServeC = existsSync(SERVE_C) ? false : `no C program at ${SERVE_C}: \`sh examples/linux-c/run.sh\` builds it`;

for (const [name, words, reason] of [["the board under qemu", ["--board", BOARD], noBoard], ["the C program", [SERVE_C], noServeC]])
  inBrowser(`${name}: its pages in the page`, () => withBridge(startServe(...words), async tab => {
    await tab.until(shows("Lowunbisa"));
    await seesSite(tab);
    await set(tab, { loss: 10, duplication: 10, reordering: 10, corruption: 10 });
    await seesFiles(tab);
  }), reason);
