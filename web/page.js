// The page: it opens a line to a node, shows the node's site in a frame, and beside it the verdict, the faults and the
// sequence diagram.
import { Clock } from "./clock.js";
import { Session } from "./session.js";
import { bridge } from "./line.js";
import { nodeInside } from "./inside.js";
import { serverByUipsRules } from "./uip_rules.js";
import { SMALL, faultOf, meterSite, runMeter } from "./meter.js";
import { imageOf, unpack, valuesOf, warningsOf } from "./site.js";
import { siteOfFolder, watchFolder } from "./folder.js";
import { idOf, lastPort, openPort, portFault, segmentAt } from "./port.js";
import { WorkerFrame } from "./frame.js";
import { PlainFrame } from "./plain.js";
import { Rows } from "./rows.js";
import { detailsOf } from "./details.js";
import { readReport } from "./sequence.js";
import { drawSequence } from "./picture.js";
import { DevicePanel } from "./panel.js";
import { VALUES, runFirmware } from "./sensor.js";
import { Tour } from "./tour.js";
import { stepsOf } from "./steps.js";
import { Notices } from "./notices.js";
import { Documents } from "./documents.js";
import { addressOf, readAddress } from "./address.js";
import { remember, remembered } from "./settings.js";
import { resultOf, verdictOf } from "./verdict.js";
import { after, startTimer } from "./timers.js";

const $ = id => document.getElementById(id);
const FAULTS = ["loss", "duplication", "reordering", "corruption", "delay"], KEPT = ["baud", "address", "fill", "apart"];
const DRAWN = 1000, FAST = 10, SETTLED = 300;   // datagrams of a picture; the clock's usual haste; milliseconds until the address follows
const CHANGED = "the site has changed";   // the word of web/serve.py, which has packed it again
const INSIDE = "the device inside this page";
const meta = name => JSON.parse(document.querySelector(`meta[name=${name}]`)?.content ?? "null");
const bridged = meta("bridge"), folder = meta("folder"), documents = meta("documents");
const clock = new Clock(), rows = new Rows($("rows"), $("diagram"), showDatagram);
const notices = new Notices($("messages"), $("notices"), $("all-notices")), notice = (words, kind) => notices.add(words, kind);

let session = null;   // while a line is open
let code = null;      // node.wasm, compiled
let stopBeside = () => {};   // what runs for the site: live reload, or a firmware
let target = "/";     // what the frame shows, or "" if that is not the device's
let device = "";      // which device is open, if everybody has it (address.js)
const verdicts = new Map();   // of the pages in the frame, by target: { kind, why }

function showResult(words, kind) {
  $("result").textContent = words;
  $("result").dataset.kind = kind;
}

// Runs what a click asks for; if it fails, the reason is a message.
async function guard(action) {
  try { return await action(); } catch (error) { notice(error.message); }
}

function show(words, kind) {
  $("state").textContent = words;
  $("state").dataset.kind = kind;
}

// The frame by the service worker, and the sandbox, for pages without one and for scripts that are not trusted.
const get = wanted => {
  if (!session) return Promise.reject(new Error("not connected"));
  verdicts.delete(wanted);
  return session.get(wanted, (kind, why) => verdicts.set(wanted, { kind, why }));
};
function shown(now) {
  if (target !== now) followAddress();
  target = now;
  if (document.activeElement !== $("target")) $("target").value = now;
}
// A link that leads away from the device opens in a tab of its own if it was clicked.
function left(url) {
  const isClicked = navigator.userActivation?.isActive ?? true;
  if (isClicked) open(url, "_blank", "noopener");
  notice(isClicked ? `${url} is not a page of the device: it opens in a tab of its own`
    : `the device's page leads away, to ${url}: it stays here`, "left");
}
const dragged = () => { $("drop").hidden = false; };
const plain = new PlainFrame($("frame"), { get, shown, left, dragged, failed: error => notice(error.message) });
const byWorker = new WorkerFrame($("frame"), { get, shown, left, dragged: event => { if (hasFiles(event)) dragged(); } });
let hasWorker = false;
const frame = () => hasWorker && !$("apart").checked ? byWorker : plain;

// The device's address, and ours beside it.
function addresses() {
  const node = $("address").value.trim().split(".").map(Number);
  if (node.length !== 4 || node.some(part => !(part >= 0 && part <= 255 && Number.isInteger(part))))
    throw new Error("the device's address is four numbers from 0 to 255 with dots between");
  return { node, own: [...node.slice(0, 3), node[3] === 2 ? 3 : 2] };
}

function setAddress(from, to) {
  $(to).value = $(from).value;
  $("address").style.width = `${$("address").value.length + 1}ch`;
  const both = addresses();
  remember("address", $(from).value);
  if (session) Object.assign(session.host, both);
}

// Makes a line the session's, and shows the workspace.
function begin(line, { rate = 0, fill = false, first = "/", kind = "good", plan, ...options }) {
  const over = why => { if (session === own) guard(() => lineEnded(why)); };
  const own = new Session(line, { ...addresses(), ...options, clock, seed: +$("seed").value, show: row => rows.add(row), notice, over });
  session = own;
  session.rate = rate;
  if (plan) session.faults.plan = plan;
  $("fill").checked = fill;
  apply();
  notices.forgetLine();
  showResult("", "");
  verdicts.clear();
  for (const it of [plain, byWorker]) it.renew();
  target = first;
  show(`connected: ${options.name}`, kind);
  for (const button of document.querySelectorAll("[data-needs-line]")) button.disabled = false;
  $("close").hidden = false;
  $("close").textContent = "Disconnect";
  if (!$("start").hidden) $("main").focus({ preventScroll: true });
  $("start").hidden = true;
  $("work").hidden = false;
  return frame().visit(first);
}

// The other end went away. If the site of web/serve.py has changed, the line is opened again.
async function lineEnded(why) {
  await close(why ? `the line ended: ${why}` : "the line ended", "bad");
  if (why === CHANGED) return openBridge(target || "/");
  notice(why ? `the line ended: ${why}` : "the line ended");
}

async function close(why = "not connected", kind = "idle") {
  const old = session;
  session = null;
  device = "";
  verdicts.clear();
  stopBeside();
  stopBeside = () => {};
  for (const button of document.querySelectorAll("[data-needs-line]")) button.disabled = true;
  $("close").textContent = "Back to the start";
  show(why, kind);
  panel.hide();
  await old?.close().catch(() => {});
}

async function disconnect() {
  await close();
  $("tour").hidden = $("work").hidden = $("close").hidden = true;
  $("start").hidden = false;
  $("open-inside").focus();
  followAddress();
}

// Opens a line by `open`; if that fails, the page is as if none had been open.
async function openBy(open, words) {
  await frame().blank();
  await close(words);
  try { return await open(); } catch (error) {
    await close();
    throw error;
  }
}

const openBridge = first => openBy(async () => {
  begin(await bridge(new URL("line", document.baseURI).href.replace(/^http/, "ws")), { ...bridged, first });
}, "connecting");

// A reply of this page's own server.
async function fetched(name) {
  const reply = await fetch(new URL(name, document.baseURI)).catch(() => {
    throw new Error("the server of this page does not answer: is web/serve.py still running?");
  });
  if (!reply.ok) throw new Error(`no ${name} beside this page`);
  return reply;
}

// A file beside this page, or one that the page holds if it is a single file (web/one_file.py).
async function beside(name) {
  const held = $(`held-${name}`);
  if (held) return Uint8Array.from(atob(held.textContent.trim()), sign => sign.charCodeAt(0));
  return new Uint8Array(await (await fetched(name)).arrayBuffer());
}

// A device inside the page. If its image is bad, the line that is open stays open. `run` starts a firmware, and returns how to stop it.
async function openInside(image, { name = INSIDE, kinds, run, id = "", ...options } = {}) {
  code ??= await WebAssembly.compile(await beside("node.wasm"));
  const inside = nodeInside({ code, image, own: addresses().node, clock }), files = unpack(image);
  await frame().blank();
  await close("starting the device");
  rows.clear();
  device = id;
  begin(inside.line, { name, leave: inside.stop, ...options });
  session.device = inside.device;
  panel.show(inside.device, files, valuesOf(files), kinds);
  for (const words of warningsOf(files)) notice(words);
  if (run) stopBeside = run(inside.device);
}

async function tryHere(step = 1) {
  await openSensor();
  tour.start(step);
}

// The device of the first screen, whose pages display values, with the firmware that sets them.
const openSensor = async options => openInside(await beside("state.img"), {
  name: `${INSIDE}, with a sensor and a lamp`, kinds: VALUES, id: "sensor", run: device => runFirmware(device, panel), ...options,
});

const openSite = async options => openInside(await beside("site.img"), { id: "site", ...options });

const openMeter = options => openInside(meterSite(), { name: `${INSIDE}, with a meter`, run: runMeter, mss: SMALL, faultOf, ...options });

async function openOwn(items) {
  const image = await imageOf(items);
  await openInside(image, { name: `${INSIDE}, with your own site` });
  $("tour").hidden = true;   // it ends here
  followAddress();
}

// The folder of web/serve.py, packed here, and again whenever a file of it changes, even if it could not be packed.
async function openFolder(first = "/") {
  const { image, stamp } = await siteOfFolder(fetched);
  try {
    await openInside(await image(), { name: `${INSIDE}, with ${folder.name}`, first });
  } finally {
    stopBeside();
    stopBeside = watchFolder(stamp, fetched, () => guard(() => openFolder(target || "/")));
  }
}

const openRules = options => openBy(() => {
  rows.clear();
  const { line, stop } = serverByUipsRules({ clock });
  device = "rules";
  const name = "a server by uIP's rules, not Lowunbisa";
  begin(line, { name, kind: "bad", leave: stop, mss: SMALL, faultOf, first: "/meter.shtml", ...options });
}, "starting a server by uIP's rules");

const openSerial = known => openBy(async () => {
  const rate = +$("baud").value, port = await openPort(rate, navigator.serial, known);
  remember("port", idOf(port));
  notice("the port is open; a board that was reset by it answers once it has started", "port");
  begin(port, {
    name: `a serial port at ${rate}`, rate: rate / 10, fill: $("fill").checked, mss: segmentAt(rate),
    words: portFault, leave: () => port.close(),
  });
}, "opening the port");

// Puts the sliders and options into force.
function apply() {
  for (const name of [...FAULTS, "speed"]) {
    const value = +$(name).value, words = name === "delay" ? `${value} ms` : name === "speed" ? `× ${value}` : `${value} %`;
    const output = $(name).nextElementSibling;
    output.textContent = words;
    output.dataset.kind = value > +$(name).min ? "on" : "";
    $(name).setAttribute("aria-valuetext", words);
    if (session && name !== "speed") session.faults[name] = name === "delay" ? value : value / 100;
  }
  clock.rate = +$("speed").value;
  $("fast").checked = clock.rate >= FAST;
  session?.fill($("fill").checked ? session.rate : 0);
  followAddress();
}

function setFaults(values) {
  for (const name of [...FAULTS, "speed"]) $(name).value = values[name] ?? (name === "speed" ? 1 : 0);
  if (session) session.faults.plan = () => false;
  apply();
}

// The address follows what the page does, a while later: a slider moves often.
let isFollowing = false;
function followAddress() {
  if (isFollowing) return;
  isFollowing = true;
  startTimer(SETTLED, () => { isFollowing = false; writeAddress(); });
}

function writeAddress() {
  const numbers = Object.fromEntries([...FAULTS, "speed", "seed"].map(name => [name, +$(name).value]));
  const hash = session ? addressOf({ device, numbers, path: target, tour: tour.step }) : "";
  if (hash === location.hash) return;
  try { history.replaceState(null, "", hash || location.pathname + location.search); } catch { /* too often */ }
}

async function copyLink() {
  writeAddress();
  await navigator.clipboard?.writeText(location.href).then(
    () => showResult(`The link is copied${device ? "" : ": it has the faults and the seed, and not the device"}.`, "good"),
    () => showResult(location.href, ""));
}

// Does what an address asks for. Returns whether it asks for a device.
async function openAddress() {
  const { device: asked, numbers, path, tour: step } = readAddress(location.hash);
  for (const [name, value] of Object.entries(numbers)) $(name).value = value;
  apply();
  if (!asked) return false;
  await guard(async () => {
    if (step) return tryHere(step);
    $("tour").hidden = true;
    return { sensor: openSensor, site: openSite, rules: openRules }[asked](asked === "rules" ? {} : { first: path });
  });
  return true;
}

const PAGE_VERDICTS = {
  complete: ["good", "This page is complete."], truncated: ["warn", "Truncated: the connection ended before the page did."],
};

// The verdict on the page in the frame: { kind, words }, and whether it is being loaded.
function pageVerdict() {
  if (!session) return { kind: "", words: "Not connected." };
  if (frame().isAway) return { kind: "warn", words: "This is another site: a link led away from the device. Back returns to its page." };
  const { kind, why } = verdicts.get(target) ?? {};
  if (kind === "wrong") return { kind: "bad", words: `Wrong page: ${why}.` };
  if (!kind || kind === "complete" && frame().isLoading) return { kind: "", words: "Loading ..", isLoading: true };
  return { kind: PAGE_VERDICTS[kind][0], words: PAGE_VERDICTS[kind][1] };
}

function showVerdicts() {
  const { kind, words, isLoading } = pageVerdict();
  if ($("page-verdict").textContent !== words) Object.assign($("page-verdict"), { textContent: words }).dataset.kind = kind;
  if (!session) return;
  const { sums } = session, verdict = verdictOf(sums, isLoading ? target : "");
  $("verdict").dataset.kind = verdict.kind;
  $("verdict-head").textContent = verdict.head;
  $("verdict-more").textContent = verdict.more;
  const counts = [["Datagrams", sums.datagrams], ["Hit", sums.hit], ["Device again", sums.retransmissions], ["Page again", sums.repeated],
    ["Different", sums.different, 1], ["Complete", sums.complete], ["Wrong", sums.wrong, 1], ["Truncated", sums.truncated],
    ["Retried", sums.retried]];
  $("counts").replaceChildren(...counts.map(([name, count, isBad]) => {
    const group = document.createElement("div");
    const value = Object.assign(document.createElement("dd"), { textContent: count.toLocaleString("en") });
    value.className = isBad && count ? "bad" : "";
    group.append(Object.assign(document.createElement("dt"), { textContent: name }), value);
    return group;
  }));
}

// Loads a page several times and shows the result. Returns it, or null if the line was closed meanwhile.
async function load(path, count) {
  const own = session, report = sums => { const { kind, words } = resultOf(sums); showResult(words, kind); };
  const done = await own.fetchMany(path, count, sums => { if (session === own) report(sums); });
  if (session !== own) return null;
  report(done);
  return done;
}

// The number in a field, which has to be one that it allows.
function numberIn(id, what) {
  const { value, min, max, validity } = $(id);
  if (!validity.valid || !Number.isInteger(+value)) throw new Error(`${what}: a whole number from ${min} to ${max}`);
  return +value;
}

async function fetchMany() {
  if (!session) throw new Error("not connected");
  const count = numberIn("count", "the requests of a load test");
  session.atOnce = numberIn("at-once", "the requests in parallel");
  return load(pathTyped($("target").value, $("address").value), count);
}

async function ping() {
  showResult("waiting for the echo reply", "");
  try {
    showResult(`echo reply after ${(await session.host.ping()).toFixed(1)} ms`, "good");
  } catch (error) {
    showResult(`ping: ${error.message}`, "bad");
  }
}

function save(blob, name) {
  const url = URL.createObjectURL(blob);
  Object.assign(document.createElement("a"), { href: url, download: name }).click();
  setTimeout(() => URL.revokeObjectURL(url), 1000);
}

const pictureFile = () => new Blob([$("picture").dataset.text], { type: "image/svg+xml" });

function draw(list, options) {
  const text = drawSequence(list, options), image = $("picture");
  URL.revokeObjectURL(image.src);
  image.dataset.text = text;
  image.src = URL.createObjectURL(pictureFile());
  image.alt = `${options.title}: ${list.length} datagrams between this page and the device`;
  $("drawing").showModal();
}

async function drawReport() {
  const [file] = $("report").files;
  if (!file) return;
  $("report").value = "";
  const { rows: list, unit } = readReport(await file.text()), some = list.slice(0, DRAWN);
  if (some.length < list.length) notice(`the picture has the first ${DRAWN} datagrams of ${list.length}`);
  draw(some, { title: file.name, unit });
}

// The fields and the bytes of a datagram.
function showDatagram(row) {
  const { title, fields, hex } = detailsOf(row), dialog = $("datagram");
  dialog.querySelector("h2").textContent = title;
  dialog.querySelector("dl").replaceChildren(...fields.flatMap(([name, value]) =>
    ["dt", "dd"].map((tag, n) => Object.assign(document.createElement(tag), { textContent: [name, value][n] }))));
  dialog.querySelector("pre").textContent = hex;
  dialog.showModal();
}

// A path as people type it: without its slash, or after the device's address.
export function pathTyped(text, node) {
  const [, scheme, host, rest] = /^(https?:\/\/)?([^/?#]*)(.*)$/is.exec(text.trim()), isAddress = /^(\d+\.){3}\d+(:\d+)?$/.test(host);
  if ((scheme || isAddress) && host.replace(/:\d+$/, "") !== node)
    throw new Error(`only pages of the device at ${node} are shown here, and ${text.trim()} is elsewhere`);
  const url = new URL((scheme || isAddress ? rest : host + rest) || "/", "http://node/");
  return url.pathname + url.search + url.hash;
}
const visitTyped = () => { $("target").blur(); return frame().visit(pathTyped($("target").value, $("address").value.trim())); };

async function until(isSo, milliseconds = 20000) {
  for (const end = performance.now() + milliseconds; performance.now() < end;) {
    if (isSo()) return true;
    await after(40);
  }
  return false;
}

const panel = new DevicePanel($("panel"), guard);
const tour = new Tour($("tour"), stepsOf({
  rows, panel, load, until, setFaults, showResult, openSensor, openMeter, openRules,
  session: () => session, device: () => device, target: () => target,
  visit: path => frame().visit(path), verdictAt: path => verdicts.get(path)?.kind,
  isComplete: path => target === path && verdicts.get(path)?.kind === "complete" && !frame().isLoading,
  endTour: () => { $("tour").hidden = true; followAddress(); },
}), followAddress);
const help = new Documents($("document"), async name => (await fetched(documentBase() + name)).text(), documentBase());

const ACTIONS = {
  "open-inside": () => tryHere(), "open-site": () => openSite(), "open-port": () => openSerial(null), "open-bridge": () => openBridge(),
  "open-own": () => $("own-site").click(), "open-image": () => $("own-image").click(),
  close: disconnect, reload: () => frame().reload(), back: () => frame().back(),
  ping, many: fetchMany, "no-faults": () => setFaults({}), "copy-link": copyLink, help: () => help.open("web/README.md", "what-you-can-do"),
  "save-capture": () => save(session.capture.file(), "line.pcapng"), "save-plain": () => save(session.capture.plain(), "line.pcap"),
  "save-text": () => save(new Blob([rows.text()], { type: "text/plain" }), "sequence.txt"), clear: () => rows.clear(),
  draw: () => draw(rows.kept.slice(-DRAWN), { title: `Sequence diagram: ${session?.name ?? "a line"}` }),
  "save-picture": () => save(pictureFile(), "sequence.svg"),
};

function hasFiles(event) { return !!event.dataTransfer?.types.includes("Files"); }

function takeDrops() {
  addEventListener("dragenter", event => { if (hasFiles(event)) dragged(); });
  $("drop").addEventListener("dragleave", () => { $("drop").hidden = true; });
  $("drop").addEventListener("pointermove", () => { $("drop").hidden = true; });   // the drag is over: it has no such events
  $("drop").addEventListener("dragover", event => event.preventDefault());
  $("drop").addEventListener("drop", event => {
    event.preventDefault();
    $("drop").hidden = true;
    const entries = [...event.dataTransfer.items].map(it => it.webkitGetAsEntry?.() ?? it.getAsFile()).filter(it => it);
    guard(() => openOwn(entries));
  });
}

// The menu closes by Escape, and if something else gets the pointer or the focus.
function takeMenu() {
  const menu = document.querySelector(".menu"), close = () => { menu.open = false; };
  menu.addEventListener("keydown", event => {
    if (event.key !== "Escape") return;
    close();
    menu.querySelector("summary").focus();
  });
  addEventListener("pointerdown", event => { if (!menu.contains(event.target)) close(); });
  addEventListener("focusin", event => { if (!menu.contains(event.target)) close(); });
}

function takeFields() {
  for (const id of ["own-site", "own-image"])
    $(id).addEventListener("change", () => guard(async () => {
      const files = [...$(id).files];
      $(id).value = "";
      if (files.length) await openOwn(files);
    }));
  $("address").addEventListener("change", () => guard(() => setAddress("address", "start-address")));
  $("start-address").addEventListener("change", () => guard(() => setAddress("start-address", "address")));
  $("baud").addEventListener("change", () => remember("baud", $("baud").value));
  $("apart").addEventListener("change", () => { remember("apart", $("apart").checked); if (session) guard(visitTyped); });
  $("fill").addEventListener("change", () => { remember("fill", $("fill").checked); apply(); });
  $("faults").addEventListener("input", event => {
    if (event.target === $("fast")) $("speed").value = $("fast").checked ? FAST : 1;
    if (event.target === $("seed")) return guard(() => { session?.faults.begin(numberIn("seed", "the seed")); followAddress(); });
    apply();
  });
}

function takeEvents() {
  for (const [id, action] of Object.entries(ACTIONS)) $(id).addEventListener("click", () => guard(action));
  $("go").addEventListener("submit", event => { event.preventDefault(); guard(visitTyped); });
  $("report").addEventListener("change", () => guard(drawReport));
  addEventListener("hashchange", () => openAddress());
  $("start").querySelectorAll("button").forEach(it => { it.type = "button"; });
  takeFields();
  takeDrops();
  takeMenu();
}

// Where the files of the repository are, if this page comes from it, or null. web/serve.py lists those that it has.
function documentBase() {
  return documents ? "" : /\/web\/(index\.html)?$/.test(location.pathname) && location.protocol !== "file:" ? "../" : null;
}

function linkDocuments() {
  const base = documentBase();
  for (const it of document.querySelectorAll("[data-file]")) {
    const { file } = it.dataset, isHere = base !== null && (!documents || documents.includes(file));
    (it.closest("li") ?? it).hidden = !isHere;
    if (it.tagName !== "A" || !isHere) continue;
    it.href = base + file;
    it.addEventListener("click", event => { event.preventDefault(); guard(() => help.open(file)); });
  }
  $("documents").hidden = base === null;
  $("no-documents").hidden = base !== null;
}

// Fills in what was remembered, and what this browser and this server have.
async function prepare() {
  for (const name of KEPT) {
    const value = remembered(name);
    if (typeof value === "boolean") $(name).checked = value;
    else if (value !== undefined) $(name).value = value;
  }
  $("seed").value = 1 + Math.floor(Math.random() * 9999);
  guard(() => setAddress("address", "start-address"));
  linkDocuments();
  $("open-bridge").disabled = !bridged;
  $("no-bridge").hidden = !!bridged;
  if (bridged) $("no-bridge").parentElement.querySelector("p").textContent = `This server connects the page to: ${bridged.name}.`;
  $("open-port").disabled = !navigator.serial;
  $("no-serial").hidden = !!navigator.serial;
  const port = await lastPort(remembered("port")).catch(() => null);
  if (!port) return;
  $("open-last").hidden = false;
  $("open-last").textContent = "Open the last port";
  $("open-last").addEventListener("click", () => guard(() => openSerial(port)));
}

async function start() {
  takeEvents();
  await prepare();
  setInterval(showVerdicts, 200);
  await byWorker.start().then(() => { hasWorker = true; }, () => { $("apart").checked = $("apart").disabled = true; });
  if (!await openAddress()) {
    if (folder) await guard(() => openFolder());
    else if (bridged?.now) await guard(() => openBridge());
  }
  document.documentElement.dataset.ready = hasWorker ? "by-worker" : "plain";
}

// For tests and the console.
window.node = { get session() { return session; }, openOwn, openSite, rows, fetchMany, visit: wanted => frame().visit(wanted) };
start();
