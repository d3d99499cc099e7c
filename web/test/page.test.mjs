// The page with the device inside it, in Chromium and in Firefox: nothing has to be built. Each control has a test here or in
// browser.test.mjs.
import test from "node:test";
import assert from "node:assert/strict";
import { execFileSync } from "node:child_process";
import { cpSync, mkdirSync, mkdtempSync, readFileSync, readdirSync, rmSync, statSync, writeFileSync } from "node:fs";
import { tmpdir } from "node:os";
import { join } from "node:path";
import { PATIENCE, noChromium, startChromium } from "./chromium.mjs";
import { noFirefox, startFirefox } from "./firefox.mjs";
import { serialAt, serve, startServe } from "./server.mjs";
import { SITE, UIPD, here, startNode, top } from "./node_process.mjs";
import { pack } from "../site.js";
import { READY, click, ends, go, hasText, hasNotice, set, shows, text } from "./tabs.mjs";

const folder = mkdtempSync(join(tmpdir(), "page-test-"));
// BROWSERS=Chromium tries that alone.
const only = name => process.env.BROWSERS && !process.env.BROWSERS.includes(name) && "BROWSERS names another";
const browsers = [["Chromium", noChromium, startChromium], ["Firefox", noFirefox, startFirefox]].map(([name, skip, start]) => ({ name, skip: skip || only(name), start }));
const chromium = browsers[0];
let server;
test.before(async () => {
  server = await serve({ node: () => startNode() });
  for (const it of browsers) if (!it.skip) it.running = await it.start();
});
test.after(async () => {
  for (const it of browsers) await it.running?.stop();
  server.stop();
  rmSync(folder, { recursive: true, force: true });
});

const COMPLETE = hasText("page-verdict", "This page is complete."), DEVICE = "the device inside this page", TANK = `${DEVICE}, with a sensor and a lamp`;
const SITE_HASH = "#device=site";   // the site of plain files
const STATE = readFileSync(join(top, "examples/state.img")).toString("base64");
const openState = tab => tab.run(`await node.openOwn([new File([Uint8Array.from(atob("${STATE}"), it => it.charCodeAt(0))], "state.img")])`);
const bodyHas = words => `frames[0].document.body?.innerText.includes(${JSON.stringify(words)})`;

async function inTab(browser, { hash = "", first = "", url = server.url + hash }, what) {
  const tab = await browser.running.open(url, first);
  await tab.until(READY);
  try { await what(tab); } finally {
    await tab.run(`localStorage.clear()`).catch(() => {});
    await tab.close();
  }
}

const inEach = (name, options, what) => {
  for (const browser of browsers) test(`${browser.name}: ${name}`, { skip: browser.skip, timeout: 240000 * PATIENCE }, () => inTab(browser, options, what));
};
const inChromium = (name, options, what) => test(`Chromium: ${name}`, { skip: chromium.skip, timeout: 120000 * PATIENCE }, () => inTab(chromium, options, what));

inEach("the first screen has three ways in, each with what it needs", {}, async tab => {
  const ways = await tab.run(`return [...document.querySelectorAll(".way")].map(it => [it.querySelector("h2").innerText, it.querySelector(".needs").innerText])`);
  assert.deepEqual(ways.map(([name]) => name), ["Try it here", "A serial device", "This computer's program"]);
  for (const [, needs] of ways) assert.match(needs, /^Needs \S/);
  assert.deepEqual(await tab.run(`return [node.session, document.getElementById("work").hidden, document.getElementById("open-bridge").disabled]`), [null, true, true]);
  assert.equal(await tab.run(`return document.getElementById("open-port").disabled`), await tab.run(`return !navigator.serial`));
  assert.equal(await text(tab, "state"), "not connected");
});

inEach("#try starts the device, and Disconnect leads back to the first screen", { hash: "#try" }, async tab => {
  await tab.until(shows("The device"), 10);
  await tab.until(COMPLETE);
  assert.equal(await text(tab, "state"), `connected: ${TANK}`);
  assert.equal(await tab.run(`return document.getElementById("tour").hidden`), false);
  await click(tab, "close");
  await tab.until(ends("not connected"));
  assert.deepEqual(await tab.run(`return ["start", "work", "tour"].map(id => document.getElementById(id).hidden)`), [false, true, true]);
  await tab.run(`location.hash = ""`);
  await tab.run(`location.hash = "#try"`);
  await tab.until(ends(`connected: ${TANK}`));
  await tab.until(COMPLETE);
});

const step = async tab => {
  await tab.run(`document.querySelector("[data-tour=go]").click()`);
  await tab.until(`!document.querySelector("[data-tour=go]").disabled`, 120);
  return tab.run(`const it = document.querySelector("[data-tour=result]"); return [it.dataset.kind, it.textContent]`);
};

inEach("the tour: a connection, a value and a button, 30 % loss, a capture, and the wrong page of uIP's own rules in red", { hash: "#try" }, async tab => {
  const next = async () => { await step(tab); return step(tab); };
  await tab.until(COMPLETE);
  const [first, words] = await step(tab);
  assert.equal(first, "good", words);
  assert.match(words, /^Datagrams 1 to 3 are the handshake\./);
  await tab.until(`document.querySelectorAll("#rows .marked").length === 3`);
  assert.deepEqual(await tab.run(`return [...document.querySelectorAll("#rows .marked b")].map(it => it.innerText)`), ["SYN", "SYN ACK", "GET /now.shtml"]);
  const [second, pressed] = await next();
  assert.deepEqual([second, pressed], ["good", "The device answers: the level is 73, the lamp is on."]);
  await tab.until(bodyHas("73 % full"));
  const [third, lossWords] = await next();
  assert.equal(third, "good", lossWords);
  const [, again] = /^20 pages complete, 0 wrong\. ([1-9]\d*) retransmissions by the device, 0 different\.$/.exec(lossWords) ?? [];
  assert.ok(again, lossWords);
  const { retransmissions, repeated } = await tab.run(`return node.session.sums`);
  assert.ok(+again <= retransmissions && repeated > 0);   // this page's own are counted apart
  const [fourth, captureWords] = await next(), [, lost, repeat] = /^Datagram (\d+) was lost\. [\d.]+ s later, number (\d+) has the same bytes: identical\.$/.exec(captureWords) ?? [];
  assert.equal(fourth, "good", captureWords);
  await tab.until(`document.querySelectorAll("#rows .marked").length === 2`);
  assert.deepEqual(await tab.run(`return [...document.querySelectorAll("#rows .marked")].map(it => [it.querySelector(".number").innerText, it.classList.contains("lost"), it.classList.contains("again")])`),
    [[lost, true, false], [repeat, false, true]]);
  const [fifth, rules] = await next();
  assert.deepEqual([fifth, rules], ["bad", "Pages with both numbers: here 0 of 5; by uIP's rules 5 of 5, as the one that you see."]);
  await tab.until(hasText("page-verdict", "Wrong page: it has 999 and 1000 in one text."));
  await tab.until(bodyHas("999 litres, and again: 1000 l"));
  await tab.until(`document.querySelectorAll("#rows .other").length > 0`);
  assert.equal(await tab.run(`return document.getElementById("verdict").dataset.kind`), "bad");
  const [red, ground] = await tab.run(`return [getComputedStyle(document.getElementById("page-verdict")).backgroundColor, getComputedStyle(document.body).backgroundColor]`);
  assert.notEqual(red, ground);
  await next();
  await tab.until(ends(`connected: ${TANK}`));
  await tab.until(shows("The device"));
  assert.deepEqual(await tab.run(`return [document.getElementById("loss").value, document.getElementById("tour").hidden]`), ["0", true]);
  // Nothing is left of the server by uIP's rules.
  assert.deepEqual(await tab.run(`return [document.getElementById("result").textContent, document.getElementById("messages").hidden]`), ["", true]);
});

inEach("the tour begins at its first step again, or at the step that the address names", { hash: "#try" }, async tab => {
  await tab.until(COMPLETE);
  await step(tab);
  await tab.run(`document.querySelector("[data-tour=close]").click()`);
  await click(tab, "close");
  await tab.until(ends("not connected"));
  await click(tab, "open-inside");
  await tab.until(ends(`connected: ${TANK}`));
  assert.equal((await step(tab))[0], "good");
  assert.equal(await tab.run(`return document.querySelector("[aria-current]").textContent`), "1");
  await tab.run(`location.hash = "#device=sensor&tour=4"`);
  await tab.until(`document.querySelector("[aria-current]").textContent === "4"`);
});

inEach("a step of the tour that Disconnect ends, and the tour again", { hash: "#device=sensor&tour=3" }, async tab => {
  await tab.until(COMPLETE);
  await tab.run(`document.querySelector("[data-tour=go]").click()`);
  await tab.until(`node.session.faults.loss === 0.3`);
  await click(tab, "close");
  await tab.until(ends("not connected"));
  await click(tab, "no-faults");
  await click(tab, "open-inside");
  await tab.until(ends(`connected: ${TANK}`));
  assert.deepEqual(await tab.run(`return ["go", "result"].map(it => document.querySelector("[data-tour=" + it + "]")).map(it => it.disabled || it.textContent)`),
    ["Load one page", ""]);
  await new Promise(resolve => setTimeout(resolve, 1000));   // and nothing comes of the old step
  assert.deepEqual(await tab.run(`return [document.querySelector("[data-tour=result]").textContent, document.getElementById("result").textContent]`), ["", ""]);
  assert.equal((await step(tab))[0], "good");
});

inEach("a device with a sensor and a lamp, and a firmware that sets its values", {}, async tab => {
  await click(tab, "open-inside");
  await tab.until(bodyHas("Water tank"));
  await tab.until(bodyHas("42 % full"));
  assert.deepEqual(await tab.run(`return [...document.querySelectorAll(".value span")].map(it => it.textContent)`), ["Sensor: level", "name", "seconds", "note", "lamp", "limit", "alarm"]);
  // A number has a slider, a text has none, and what the firmware sets is not for typing.
  assert.deepEqual(await tab.run(`return [...document.querySelectorAll(".value")].map(it => [!it.querySelector("[type=range]").hidden, it.querySelector("[type=text]").readOnly])`),
    [[true, false], [false, false], [false, true], [false, true], [false, true], [true, false], [false, true]]);
  assert.equal(await tab.run(`return document.querySelector(".sensors [type=range]").getAttribute("aria-valuetext")`), "42");
  await tab.run(`const it = document.querySelector(".sensors [type=range]"); it.value = 80; it.dispatchEvent(new Event("input"))`);
  await tab.until(bodyHas("80 % full"));
  const lamp = `frames[0].document.getElementById("lamp")?.className`;
  for (const state of ["on", "off"]) {
    await tab.until(`${lamp} !== "${state}" && ${lamp}`);
    await tab.run(`frames[0].document.querySelector('a[href="/lamp-${state}.html"]').click()`);
    await tab.until(`${lamp} === "${state}"`);
  }
  await tab.until(bodyHas("80 is not above 80"));
  await tab.run(`const document = frames[0].document; document.getElementById("limit").value = 79; document.querySelector("form button").click()`);
  await tab.until(bodyHas("The alarm level is 79"));
  await tab.until(bodyHas("80 is above 79"));
  assert.equal(await tab.run(`return document.querySelectorAll(".value [type=text]")[5].value`), "79");
  const seconds = `+document.querySelectorAll(".value [type=text]")[2].value`;
  await tab.until(`${seconds} > 2`);
  await click(tab, "close");
  await tab.until(ends("not connected"));
  await click(tab, "open-inside");   // another device: the first firmware has stopped
  await tab.until(`${seconds} < 2`);
  const seen = await tab.run(`
    const seen = [];
    for (let n = 0; n < 100; n++) { seen.push(${seconds}); await new Promise(resolve => setTimeout(resolve, 10)); }
    return seen`);
  assert.deepEqual(seen, seen.toSorted((a, b) => a - b));
  assert.equal(await tab.run(`return document.getElementById("messages").hidden`), true);
});

inEach("Back stays on the page at its first entry; typed paths of each form", { hash: SITE_HASH }, async tab => {
  await tab.until(shows("Lowunbisa"));
  await click(tab, "back");
  await new Promise(resolve => setTimeout(resolve, 500));
  assert.ok(await tab.run(`return !!node.session && ${shows("Lowunbisa")}`));
  for (const path of ["stats.shtml", "10.0.0.1/stats.shtml", "http://10.0.0.1/stats.shtml", "/stats.shtml?x#y"]) {
    await go(tab, path);
    await tab.until(shows("What it counts"));
    await go(tab, "");
    await tab.until(shows("Lowunbisa"));
  }
  await go(tab, "http://10.0.0.1");
  await tab.until(shows("Lowunbisa"));
  await go(tab, "/no such page");
  await tab.until(shows("No such page"));
  await click(tab, "back");
  await tab.until(shows("Lowunbisa"));
  await click(tab, "back");   // a second step goes further
  await tab.until(shows("What it counts"));
  // The page looks where the frame is 20 times a second. Back counts what the frame has reached since, so it leads to the page before.
  await tab.until(`document.getElementById("target").value.startsWith("/stats.shtml")`);
  await tab.run(`frames[0].history.pushState(null, "", "reached"); document.getElementById("back").click()`);
  await tab.until(`frames[0].location.pathname.endsWith("/stats.shtml")`);
  await tab.until(shows("What it counts"));
});

inEach("the device's address", {}, async tab => {
  await set(tab, { "start-address": "192.168.7.7" });
  await click(tab, "open-site");
  await tab.until(shows("Lowunbisa"));
  assert.equal(await tab.run(`return document.getElementById("address").value`), "192.168.7.7");
  assert.deepEqual(await tab.run(`return [node.session.host.node, node.session.host.own].map(it => it.join("."))`), ["192.168.7.7", "192.168.7.2"]);
  await set(tab, { address: "10.0.0.300" });
  await tab.until(hasNotice("the device's address is four numbers from 0 to 255"));
  await set(tab, { address: "10.0.0.1" });
  await tab.run(`node.session.host.ping(0, 300).catch(() => { self.isSilent = true; })`);
  await tab.until(`self.isSilent`);   // the device is still at the other address
});

inEach("values are sliders and fields, hits are lamps, the last query and the slots are shown", {}, async tab => {
  await openState(tab);
  await tab.until(shows("The device"));
  await tab.run(`document.querySelector("#panel details").open = true`);   // it is closed if the window is low
  assert.deepEqual(await tab.run(`return [...document.querySelectorAll(".value span")].map(it => it.innerText)`), [0, 1, 2, 3, 4, 5, 6].map(n => `value ${n}`));
  await tab.run(`
    const set = (n, type, value) => { const it = document.querySelectorAll(".value")[n].querySelector("[type=" + type + "]"); if (it.hidden) throw new Error("hidden"); it.value = value; it.dispatchEvent(new Event("input")); };
    set(0, "text", "A pump"); set(1, "range", 61); set(2, "range", 73); set(3, "text", "73 of 100"); set(4, "text", "on"); set(5, "range", 70); set(6, "text", "73 is above 70")`);
  await tab.until(bodyHas("A pump"));
  const seen = JSON.parse(await tab.run(`return new TextDecoder().decode((await node.session.whole("/state.shtml")).bytes)`));
  assert.deepEqual(seen, { name: "A pump", seconds: 61, level: 73, note: "73 of 100", lamp: "on", limit: 70, alarm: "73 is above 70" });
  const lamp = `[...document.querySelectorAll(".lamp")].find(it => it.innerText.includes("/lamp-on.html"))`;
  assert.equal(await tab.run(`return ${lamp}.querySelector("b").innerText`), "0");
  const query = `document.querySelector("[data-panel=query]").innerText`;
  assert.equal(await tab.run(`return ${query}`), "");
  await tab.run(`frames[0].document.querySelector('a[href="/lamp-on.html"]').click()`);
  await tab.until(`${lamp}.querySelector("b").innerText === "1"`);
  await tab.until(`/^last query: \\/lamp-on\\.html\\?\\d{13}$/.test(${query})`);
  await tab.run(`await node.session.whole("/lamp-off.html?by=7")`);
  await tab.until(`${query} === "last query: /lamp-off.html?by=7"`);
  await tab.run(`self.held = node.session.host.connect()`);
  await tab.until(`document.querySelector(".slot[data-state=ESTABLISHED]")?.title.includes("10.0.0.2:" + self.held.port)`);
  assert.equal(await tab.run(`return document.querySelectorAll(".slot").length`), 10);
  await tab.until(`/^\\d+ ticks?, \\d+ KiB of WebAssembly memory$/.test(document.querySelector("[data-panel=facts]").innerText)`);
});

inEach("one's own site: files, an image, and a bad one", {}, async tab => {
  await tab.run(`await node.openOwn([new File(["<title>mine</title><h1>Mine</h1>"], "index.html"), new File(["{}"], "a.json"), new File(["x"], ".hidden")])`);
  await tab.until(shows("mine"));
  const types = await tab.run(`return [await node.session.whole("/a.json"), await node.session.whole("/.hidden")].map(it => it.status + JSON.stringify(it.headers))`);
  assert.match(types[0], /^200.*application\/json/);
  assert.match(types[1], /^404/);
  assert.equal(await tab.run(`return document.getElementById("tour").hidden`), true);
  await tab.run(`await node.openOwn([new File(["%! valeu 0"], "index.shtml"), new File(["<title>yours</title>"], "index.html")])`);
  await tab.until(hasNotice('/index.shtml: there is no function "valeu"'));
  // A bad one leaves the device that runs as it is.
  await tab.until(COMPLETE);
  const bad = [[`new File(["UIPSITE9"], "bad.img")`, "bad image: it is no image of a site (magic 0)"],
    [`new File([new Uint8Array(20e6)], "big.bin"), new File([""], "index.html")`, "a site has 16 MiB at most, and this one has 19.1 MiB"],
    [`new File(["UIPSITE1\\0\\1\\0"], "name.img")`, "bad image: a name of a file is not allowed (name 1)"]];
  for (const [files, words] of bad) assert.equal(await tab.run(`return node.openOwn([${files}]).catch(error => error.message)`), words);
  assert.equal(await text(tab, "state"), `connected: ${DEVICE}, with your own site`);
  assert.ok(await tab.run(`return ${COMPLETE} && ${shows("yours")} && (await node.session.whole("/")).status === 200`));
});

inEach("a number that a field does not allow is refused, and the page goes on", { hash: SITE_HASH }, async tab => {
  await tab.until(COMPLETE);
  for (const [id, value, words] of [["at-once", "0", "the requests in parallel: a whole number from 1 to 16"], ["at-once", "17", "the requests in parallel"], ["count", "-3", "the requests of a load test: a whole number from 1 to 1000"],
    ["count", "5000", "the requests of a load test"], ["count", "", "the requests of a load test"], ["count", "1.5", "the requests of a load test"], ["seed", "0", "the seed: a whole number from 1 to 999999"]]) {
    await set(tab, { count: 20, "at-once": 8, [id]: value });
    if (id !== "seed") await click(tab, "many");
    await tab.until(hasNotice(words));
    await tab.run(`for (const it of document.querySelectorAll("#notices button")) it.click()`);
  }
  await set(tab, { count: 2, "at-once": 1, seed: 5 });
  await click(tab, "many");
  await tab.until(hasText("result", "2 complete, 0 wrong, 0 truncated. "));
});

inEach("the state is in the address: faults, seed, device and path; a link opens it", { hash: "#device=site&loss=10&speed=20&seed=77&path=/stats.shtml" }, async tab => {
  await tab.until(shows("What it counts"));
  assert.deepEqual(await tab.run(`return ["loss", "speed", "seed"].map(id => document.getElementById(id).value)`), ["10", "20", "77"]);
  assert.equal(await tab.run(`return node.session.faults.loss`), 0.1);
  await set(tab, { loss: 0, corruption: 7 });
  await tab.until(`location.hash === "#device=site&corruption=7&speed=20&seed=77&path=/stats.shtml"`);
  await set(tab, { corruption: 0, speed: 1 });
  await go(tab, "/");
  await tab.until(`location.hash === "#device=site&seed=77"`);
  await tab.run(`await node.openOwn([new File(["<title>mine</title>"], "index.html")])`);
  await tab.until(`location.hash === "#seed=77"`);   // nobody else has it
  await click(tab, "close");
  await tab.until(`location.hash === ""`);
});

inEach("faults, their reset, the load test and the counts", { hash: SITE_HASH }, async tab => {
  await tab.until(COMPLETE);
  await set(tab, { loss: 20, duplication: 10, reordering: 10, corruption: 10, delay: 20, speed: 20, count: 20, "at-once": 4 });
  const shown = await tab.run(`return [...document.querySelectorAll("#faults output")].map(it => it.textContent)`);
  assert.deepEqual(shown, ["20 %", "10 %", "10 %", "10 %", "20 ms", "× 20"]);
  assert.deepEqual(await tab.run(`return [...document.querySelectorAll("#faults [type=range]")].map(it => it.getAttribute("aria-valuetext"))`), shown);
  assert.deepEqual(await tab.run(`const { loss, duplication, reordering, corruption, delay } = node.session.faults; return [loss, duplication, reordering, corruption, delay]`), [0.2, 0.1, 0.1, 0.1, 20]);
  await click(tab, "many");
  await tab.until(`/^20 complete, 0 wrong, 0 truncated\\. [\\d.]+ pages\\/s, [\\d.]+ KiB\\/s\\.$/.test(document.getElementById("result").innerText)`, 120);
  assert.equal(await tab.run(`return node.session.atOnce`), 4);
  await click(tab, "no-faults");
  // A connection that is still closing may retransmit, so what is shown and what is counted are read at one time.
  await tab.until(`document.getElementById("verdict-more").innerText === node.session.sums.retransmissions.toLocaleString("en") + " retransmissions by the device, all identical."`);
  const COUNTED = ["datagrams", "hit", "retransmissions", "repeated", "different", "complete", "wrong", "truncated", "retried"];
  await tab.until(`[...document.querySelectorAll("#counts dd")].map(it => it.innerText).join(" ") ===
    ${JSON.stringify(COUNTED)}.map(it => node.session.sums[it].toLocaleString("en")).join(" ")`);
  assert.deepEqual(await tab.run(`return [...document.querySelectorAll("#counts dt")].map(it => it.innerText)`),
    ["Datagrams", "Hit", "Device again", "Page again", "Different", "Complete", "Wrong", "Truncated", "Retried"]);
  assert.deepEqual(await tab.run(`return [...document.querySelectorAll("#faults [type=range]")].map(it => it.value)`), ["0", "0", "0", "0", "0", "1"]);
  await click(tab, "fast");   // beside the loss
  assert.deepEqual(await tab.run(`return [document.getElementById("speed").value, document.getElementById("fast").checked]`), ["10", true]);
  await set(tab, { speed: 2 });
  assert.equal(await tab.run(`return document.getElementById("fast").checked`), false);
  assert.equal(await tab.run(`return node.session.faults.loss`), 0);
  await click(tab, "ping");
  await tab.until(hasText("result", "echo reply after"));
});

inEach("messages: one is shown, all on request, each can be dismissed", {}, async tab => {
  for (const address of ["1", "2"]) await set(tab, { address });
  await tab.run(`await node.openOwn([new File(["x"], "bad.img")]).catch(() => {}); document.getElementById("close").click()`);
  assert.equal(await tab.run(`return document.querySelectorAll("#notices li").length`), 1);   // of one kind
  assert.match(await text(tab, "notices"), /\(2 times\)|\(\d+ times\)/);
  assert.equal(await tab.run(`return document.getElementById("all-notices").hidden`), true);
  await tab.run(`document.getElementById("address").value = "10.0.0.1"`);
  await tab.run(`
    const files = new DataTransfer();
    files.items.add(new File(["UIPSITE9"], "bad.img"));
    const input = document.getElementById("own-image");
    input.files = files.files;
    input.dispatchEvent(new Event("change"))`);
  await tab.until(hasNotice("bad image: it is no image of a site (magic 0)"));
  const visible = `[...document.querySelectorAll("#notices li")].filter(it => it.offsetHeight).length`;
  assert.deepEqual([await tab.run(`return ${visible}`), await text(tab, "all-notices")], [1, "Show all 2"]);
  await click(tab, "all-notices");
  assert.equal(await tab.run(`return ${visible}`), 2);
  for (let n = 0; n < 2; n++) await tab.run(`document.querySelector("#notices button").click()`);
  assert.equal(await tab.run(`return document.getElementById("messages").hidden`), true);
});

inEach("the diagram: its rows, the fields of one, its text, its picture, and Clear", { hash: SITE_HASH }, async tab => {
  await tab.until(`document.querySelectorAll("#rows tr").length > 8`);
  assert.deepEqual(await tab.run(`return [...document.querySelectorAll("#rows tr")].slice(0, 3).map(it => it.className + " " + it.querySelector(".arrow").innerText.trim().replace(/\\s+/g, " "))`),
    ["to SYN", "from SYN ACK ack 1", "to GET / bytes 1 to 34, ack 1"]);
  assert.match(await tab.run(`return document.querySelectorAll("#rows tr")[3].innerText`), /200 OK/);
  assert.match(await tab.run(`return node.rows.text()`), /^1 [\d.]+ c1 S 0 0\n2 [\d.]+ n1 SA 0 0\n3 [\d.]+ c1 AP 1 34\n/);
  await tab.run(`document.querySelectorAll("#rows tr")[2].click()`);
  const fields = await tab.run(`const it = document.getElementById("datagram"); return [it.open, it.querySelector("h2").innerText, [...it.querySelectorAll("dd")].map(it => it.innerText), it.querySelector("pre").innerText]`);
  assert.deepEqual(fields.slice(0, 2), [true, "Datagram 3: GET /, bytes 1 to 34, ack 1"]);
  for (const words of ["this page, to the device", "sent for the first time; delivered", "10.0.0.2 to 10.0.0.1", "74 bytes, of which 34 are text", "right", "ACK PSH"])
    assert.ok(fields[2].includes(words), `${words}: ${fields[2]}`);
  assert.match(fields[3], /^0000 {2}45 00 00 4a .*\n[^]*GET \/ H/);
  await tab.run(`document.getElementById("datagram").close()`);
  await click(tab, "draw");
  await tab.until(`document.getElementById("picture").naturalWidth > 0`);
  await tab.run(`document.getElementById("drawing").close()`);
  await click(tab, "clear");
  assert.equal(await tab.run(`return document.querySelectorAll("#rows tr").length`), 0);
});

inEach("1,000 pages with 20 % loss and 10 % of each other fault: none wrong", { hash: SITE_HASH }, async tab => {
  await tab.until(COMPLETE);
  await set(tab, { loss: 20, duplication: 10, reordering: 10, corruption: 10, speed: 20 });
  const many = await tab.run(`return { ...await node.session.fetchMany("/", 1000), sums: node.session.sums }`);
  console.log(`  ${many.complete} complete, ${many.wrong} wrong, ${many.truncated} truncated in ${many.seconds.toFixed(1)} s; ${JSON.stringify(many.sums)}`);
  // uIP gives a connection up after eight retransmissions, which these rates can reach.
  assert.deepEqual([many.complete + many.truncated, many.wrong, many.sums.different], [1000, 0, 0]);
  assert.ok(many.truncated < 10 && many.sums.retransmissions > 1000);
});

test("the page and the one file have less than 250 kB", () => {
  const web = join(here, ".."), parts = readdirSync(web).filter(it => /\.(js|css|html|wasm|img)$/.test(it));
  const sum = parts.reduce((all, it) => all + statSync(join(web, it)).size, 0);
  assert.ok(sum < 250000, `${sum}`);
  const file = join(folder, "demo.html");
  execFileSync("python3", [join(web, "one_file.py"), file]);
  assert.ok(statSync(file).size < 250000, `${statSync(file).size}`);
  const size = statSync(join(web, "node.wasm")).size / 1000;
  const most = Number(/as less than (\d+)&nbsp;kB of WebAssembly/.exec(readFileSync(join(web, "index.html"), "utf8"))?.[1]);
  assert.ok(size < most && size > most - 5, `${size} kB, and less than ${most} by the page`);
});

for (const browser of browsers)
  test(`${browser.name}: one file from a folder: the device, the tour's wrong page, no request elsewhere`, { skip: browser.skip, timeout: 120000 * PATIENCE }, async () => {
    const file = join(folder, `${browser.name}.html`);
    execFileSync("python3", [join(here, "../one_file.py"), file]);
    await inTab(browser, { url: `file://${file}#try` }, async tab => {
      assert.equal(await tab.run(`return ${READY}`), "plain");
      await tab.until(`document.getElementById("frame").srcdoc.includes("data:text/css")`);
      await tab.until(COMPLETE);
      assert.deepEqual(await tab.run(`return [document.getElementById("documents").hidden, document.getElementById("help").hidden]`), [true, true]);
      for (let n = 0; n < 9; n++) await step(tab);
      await tab.until(hasText("page-verdict", "Wrong page"));
      assert.ok(await tab.run(`return document.getElementById("frame").srcdoc.includes("999 litres, and  again: 1000 l")`));
      await step(tab);
      await step(tab);
      await tab.until(ends(`connected: ${TANK}`));
      await tab.until(`document.getElementById("frame").srcdoc.includes("Lamp on")`);
      await tab.run(`node.visit("/lamp-on.html")`);
      await tab.until(`document.getElementById("target").value === "/lamp-on.html"`);
      await tab.until(`document.getElementById("target").value === "/"`);   // as its page asks for, after a second
      await tab.until(`document.querySelector('.value [type=text][aria-label^="lamp"]').value === "on"`);
      assert.deepEqual(await tab.run(`return performance.getEntriesByType("resource").map(it => it.name).filter(it => /^(http|ftp)/.test(it))`), []);
    });
  });

// Each page presses its own button or link, since no test reaches into a frame of no origin.
const FORM = `<title>a form</title><form action="/set.html?c=9" onsubmit="this.n.value = 7"><input name="a" value="1 &amp;">
<button name="b" value="x">Set</button><input type="hidden" name="n"></form>
<script>addEventListener("load", () => document.querySelector("button").click())</script>`;
const LINK = `<title>a link</title><a href="/set.html" onclick="this.search = 7">Set</a>
<script>addEventListener("load", () => document.querySelector("a").click())</script>`;
const QUERIES = [["a form sends its query", FORM, "a=1+%26&b=x&n=7"], ["a link sends the query that its handler makes", LINK, "7"]];
for (const [what, page, query, isApart] of QUERIES.flatMap(it => [[...it, false], [...it, true]]))
  inEach(`${what}${isApart ? " from the sandbox" : ""}`, {}, async tab => {
    const files = [["/index.html", page], ["/set.html", "<title>it is set</title>"]].map(([name, bytes]) => ({ name, bytes: Buffer.from(bytes) }));
    const image = Buffer.from(pack(files)).toString("base64");
    if (isApart) await tab.run(`document.getElementById("apart").click()`);
    await tab.run(`await node.openOwn([new File([Uint8Array.from(atob("${image}"), it => it.charCodeAt(0))], "form.img")])`);
    await tab.until(`document.getElementById("target").value === "/set.html?${query}"`);
    assert.deepEqual(await tab.run(`return node.session.device.query("/set.html")`), { text: query, hit: 1 });
    await tab.until(isApart ? `document.getElementById("frame").srcdoc.includes("it is set")` : shows("it is set"));
  });

inChromium("a folder and an image are dropped onto the page", {}, async tab => {
  const site = join(folder, "dropped");
  mkdirSync(join(site, "sub"), { recursive: true });
  writeFileSync(join(site, "index.html"), `<title>dropped</title><a href="/sub/a.txt">a</a>`);
  writeFileSync(join(site, "sub/a.txt"), "deep");
  for (const [path, title] of [[site, "dropped"], [join(top, "examples/state.img"), "The device"]]) {
    const data = { items: [], files: [path], dragOperationsMask: 1 };
    for (const type of ["dragEnter", "dragOver", "drop"]) {
      await tab.call("Input.dispatchDragEvent", { type, x: 300, y: 300, data });   // the second one enters over the frame
      if (type === "dragOver") await tab.until(`!document.getElementById("drop").hidden`);
    }
    await tab.until(shows(title));
    assert.equal(await tab.run(`return document.getElementById("drop").hidden`), true);
    if (title === "dropped") assert.equal(await tab.run(`return new TextDecoder().decode((await node.session.whole("/sub/a.txt")).bytes)`), "deep");
  }
});

// A link to another origin: in a browser with the Navigation API it opens in a tab of its own, and else the frame shows another site.
const ELSEWHERE = `<title>a link</title><p><a href="http://127.0.0.1:1/elsewhere">elsewhere</a>`;
for (const hasNavigation of [true, false])
  inChromium(`a link that leads away from the device, ${hasNavigation ? "with" : "without"} the Navigation API`,
    { first: hasNavigation ? "" : `;delete Window.prototype.navigation; Object.defineProperty(self, "navigation", { value: undefined });` }, async tab => {
      await tab.run(`await node.openOwn([new File([\`${ELSEWHERE}\`], "index.html"), new File(["<title>two</title>"], "two.html")])`);
      await tab.until(shows("a link"));
      await go(tab, "/two.html");
      await tab.until(shows("two"));
      await go(tab, "/");
      await tab.until(`${shows("a link")} && ${COMPLETE} && document.getElementById("target").value === "/"`);
      await tab.run(`frames[0].document.querySelector("a").click()`);
      if (hasNavigation) {
        await tab.until(hasNotice("http://127.0.0.1:1/elsewhere is not a page of the device"));
        assert.deepEqual(await tab.run(`return [${shows("a link")}, document.getElementById("target").value, ${COMPLETE}]`), [true, "/", true]);
      } else {
        await tab.until(hasText("page-verdict", "This is another site"));
        assert.equal(await tab.run(`return document.getElementById("target").value`), "");
        await click(tab, "back");   // to the page with the link
        await tab.until(`${shows("a link")} && document.getElementById("target").value === "/"`);
      }
      await click(tab, "back");
      await tab.until(shows("two"));
    });

inEach("an address that is not the device's is refused", { hash: SITE_HASH }, async tab => {
  await tab.until(COMPLETE);
  for (const typed of ["https://example.org/", "http://10.0.0.9/stats.shtml", "10.0.0.9"]) {
    await go(tab, typed);
    await tab.until(hasNotice(`only pages of the device at 10.0.0.1 are shown here, and ${typed} is elsewhere`));
  }
  assert.ok(await tab.run(shows("Lowunbisa").replace(/^/, "return ")));
});

inEach("while a page is being loaded, nothing calls it complete", {}, async tab => {
  // The style of the page waits: all connections but the first lose each datagram.
  await tab.run(`
    await node.openOwn([new File(['<title>slow</title><link rel="stylesheet" href="/a.css"><p>slow'], "index.html"), new File(["p { margin: 1em; }"], "a.css")]);
    const ports = new Set();
    node.session.faults.plan = (datagram, isToNode) => {
      const at = isToNode ? 20 : 22;
      ports.add(datagram[at] * 256 + datagram[at + 1]);
      return [...ports].indexOf(datagram[at] * 256 + datagram[at + 1]) > 0;
    };
    self.seen = new Set();
    self.watch = setInterval(() => self.seen.add(document.getElementById("verdict").dataset.kind + ": " + document.getElementById("page-verdict").textContent), 20)`);
  await tab.until(`node.session.sums.complete === 1 && node.session.sums.hit > 0`);
  await new Promise(resolve => setTimeout(resolve, 1000));
  assert.deepEqual(await tab.run(`return ["page-verdict", "verdict-head"].map(id => document.getElementById(id).textContent)`), ["Loading ..", "Loading /"]);
  await click(tab, "no-faults");
  await tab.until(COMPLETE);
  await tab.until(hasText("verdict-head", "All 2 replies complete"));
  assert.ok(!(await tab.run(`clearInterval(self.watch); return [...self.seen]`)).includes("good: Loading .."));
});

inChromium("a server that is gone has words", { hash: "" }, async tab => {
  await tab.run(`self.fetch = () => Promise.reject(new TypeError("Failed to fetch"))`);
  await click(tab, "open-inside");
  await tab.until(hasNotice("the server of this page does not answer: is web/serve.py still running?"));
});

// A browser wakes a tab that nobody sees once a second.
const THROTTLED = `{ const usual = setTimeout; self.setTimeout = (what, wait, ...rest) => usual(what, Math.max(1000, wait ?? 0), ...rest); }`;
inChromium("in the background: 20 pages with 30 % loss at ten times the clock do not wait for the tab's timers", { hash: SITE_HASH, first: THROTTLED }, async tab => {
  await tab.until(COMPLETE);
  await set(tab, { loss: 30, speed: 10 });
  const { complete, seconds } = await tab.run(`return node.session.fetchMany("/index.html", 20)`);
  assert.equal(complete, 20);
  assert.ok(seconds < 15 * PATIENCE, `${seconds} s`);
});

inChromium("on a laptop the device is the largest, and its buttons are in sight", { hash: "#try" }, async tab => {
  await tab.until(bodyHas("Water tank"));
  for (const [width, height] of [[1366, 650], [1280, 900]]) {
    await tab.size(width, height);
    await tab.until(`innerWidth === ${width} && innerHeight === ${height}`);
    const [frame, others, button, shown] = await tab.run(`
      const area = it => { const { width, height } = it.getBoundingClientRect(); return width * height; }, frame = document.getElementById("frame");
      return [area(frame), Math.max(...[...document.querySelectorAll(".card:not(.browser)")].map(area)), frames[0].document.querySelector("form ~ p .button").getBoundingClientRect().bottom, frame.offsetHeight]`);
    assert.ok(frame > others, `${width}: ${frame} ${others}`);
    assert.ok(button < shown, `${width}: ${button} ${shown}`);
    assert.ok(await tab.run(`return document.documentElement.scrollHeight <= innerHeight`));
  }
});

inChromium("names and sizes for everybody: each field has a name of its own, and what is pressed has 24 pixels", { hash: "#try" }, async tab => {
  await tab.until(COMPLETE);
  await tab.run(`for (const it of document.querySelectorAll("details:not(.menu)")) it.open = true`);
  const { nodes } = await tab.call("Accessibility.getFullAXTree"), named = role => nodes.filter(it => it.role?.value === role && !it.ignored).map(it => it.name?.value);
  assert.ok(named("spinbutton").includes("Load test: requests") && named("spinbutton").includes("in parallel"), named("spinbutton").join("; "));
  assert.ok(!named("heading").some(it => /Reset|Picture|Clear/.test(it)), named("heading").join("; "));
  assert.deepEqual(nodes.filter(it => ["button", "textbox", "slider", "checkbox", "spinbutton"].includes(it.role?.value) && !it.ignored && !it.name?.value).map(it => it.role.value), []);
  const low = await tab.run(`return [...document.querySelectorAll("button, summary, a[data-file]")].filter(it => it.offsetHeight && it.offsetHeight < 24).map(it => it.innerText || it.id)`);
  assert.deepEqual(low, []);
});

inChromium("rate, address, options and the last port are remembered", { first: serialAt("http://unused") }, async tab => {
  await set(tab, { baud: "9600", "start-address": "10.0.0.9" });
  await click(tab, "apart");
  await tab.run(`localStorage.setItem("lowunbisa", JSON.stringify({ ...JSON.parse(localStorage.getItem("lowunbisa")), port: { usbVendorId: 0, usbProductId: 0 } }))`);
  assert.equal(await tab.run(`return document.getElementById("open-last").hidden`), true);
  await tab.call("Page.reload");
  await tab.until(`${READY} && document.getElementById("baud").value === "9600"`);
  assert.deepEqual(await tab.run(`return [document.getElementById("address").value, document.getElementById("apart").checked]`), ["10.0.0.9", true]);
});

test("Chromium: the last port is opened again without a choice", { skip: chromium.skip, timeout: 60000 * PATIENCE }, () =>
  inTab(chromium, { first: `${serialAt(server.origin)}; navigator.serial.getPorts = async () => [new navigator.serial.Port()];` }, async tab => {
    await click(tab, "fill");
    await click(tab, "open-port");
    await tab.until(shows("Lowunbisa"));
    assert.deepEqual(await tab.run(`return JSON.parse(localStorage.getItem("lowunbisa")).port`), { usbVendorId: 0, usbProductId: 0 });
    await tab.call("Page.reload");
    await tab.until(`${READY} && !document.getElementById("open-last").hidden`);
    await click(tab, "fill");
    await click(tab, "open-last");
    await tab.until(shows("Lowunbisa"));
    await tab.until(ends("connected: a serial port at 115200"));
  }));

// Relative luminance and contrast (WCAG 2.1).
const CONTRAST = `
  const parts = colour => colour.match(/[\\d.]+/g).slice(0, 3).map(Number);
  const light = colour => { const [r, g, b] = parts(colour).map(it => it / 255).map(it => it <= 0.03928 ? it / 12.92 : ((it + 0.055) / 1.055) ** 2.4); return 0.2126 * r + 0.7152 * g + 0.0722 * b; };
  const contrast = (a, b) => { const [high, low] = [light(a), light(b)].sort((x, y) => y - x); return (high + 0.05) / (low + 0.05); };
  const ground = it => { for (; it; it = it.parentElement) { const colour = getComputedStyle(it).backgroundColor; if (!/, 0\\)$|transparent/.test(colour)) return colour; } return "rgb(255,255,255)"; };
  return [...document.querySelectorAll("h1, h2, h3, p, button:enabled, label, dt, dd, td, th, summary, output, li")].filter(it => it.offsetHeight && it.innerText)
    .map(it => [contrast(getComputedStyle(it).color, ground(it)), it.tagName + " " + it.innerText.slice(0, 30)]).filter(([value]) => value < 4.5)`;

for (const scheme of ["light", "dark"])
  inChromium(`${scheme}: each text has a contrast of 4.5 or more, and the page fits 390 pixels`, {}, async tab => {
    await tab.call("Emulation.setEmulatedMedia", { features: [{ name: "prefers-color-scheme", value: scheme }] });
    const ground = await tab.run(`return getComputedStyle(document.body).backgroundColor`);
    assert.equal(/^rgb\(1\d, /.test(ground), scheme === "dark", ground);
    for (const [width, isOpen] of [[1400, false], [390, false], [1400, true], [390, true]]) {
      if (isOpen && !await tab.run(`return !!node.session`)) {
        await click(tab, "open-inside");
        await tab.until(COMPLETE);
        await tab.run(`for (const it of document.querySelectorAll("details")) it.open = !it.classList.contains("menu")`);
      }
      await tab.size(width, 844);
      await tab.until(`innerWidth === ${width}`);
      assert.deepEqual(await tab.run(CONTRAST), []);
      assert.ok(await tab.run(`return document.documentElement.scrollWidth <= innerWidth`), `${width}`);
      const [left, right] = await tab.run(`
        const menu = document.querySelector(".menu");
        menu.open = true;
        const { left, right } = menu.querySelector("div").getBoundingClientRect();
        menu.open = false;
        return [left, right]`);
      assert.ok(left >= 0 && right <= width, `the options at ${width}: ${left} to ${right}`);
    }
    await tab.run(`await node.fetchMany()`);
    await tab.until(`document.querySelectorAll("#rows tr").length > 80`);
    assert.ok(await tab.run(`return document.querySelector(".diagram").offsetHeight < 600`));
  });

inChromium("the first screen by keyboard: each way is reached, and Enter starts the device", {}, async tab => {
  await tab.run(`document.querySelector(".skip").focus()`);
  const reached = [];
  for (let n = 0; n < 14; n++) {
    await tab.key("Tab");
    reached.push(await tab.run(`return document.activeElement.id`));
  }
  for (const id of ["help", "open-inside", "open-site", "open-own", "open-image", "baud", "start-address", "open-port"].slice(1)) assert.ok(reached.includes(id), `${id}: ${reached}`);
  await tab.run(`document.getElementById("open-inside").focus()`);
  await tab.key("Enter", "Enter", "\r");
  await tab.until(COMPLETE);
  assert.equal(await tab.run(`return document.activeElement.id`), "main");
});

inChromium("the options by keyboard: Escape closes them, and so does the focus of something else", {}, async tab => {
  const isOpen = () => tab.run(`return document.querySelector(".menu").open`);
  for (const close of [() => tab.key("Escape"), () => tab.run(`document.getElementById("open-inside").focus()`),
    () => tab.run(`document.body.dispatchEvent(new Event("pointerdown", { bubbles: true }))`)]) {
    await tab.run(`document.querySelector(".menu summary").focus()`);
    await tab.key("Enter", "Enter", "\r");
    assert.equal(await isOpen(), true);
    await tab.key("Tab");
    assert.equal(await tab.run(`return document.activeElement.id`), "fill");
    await close();
    assert.equal(await isOpen(), false);
  }
});

// web/serve.py, in a tab of its own.
async function served(words, what) {
  const serving = await startServe(...words);
  try { await inTab(chromium, { url: serving.url }, what); } finally {
    serving.stop();
    await serving.ended;
  }
}
const withServe = (name, what) => test(`Chromium, web/serve.py: ${name}`, { skip: chromium.skip, timeout: 90000 * PATIENCE }, what);

for (const [name, words] of [["the device inside", site => [site]], ["UIPD", site => [UIPD, site]]])
  withServe(`live reload of a folder, ${name}`, async () => {
    const site = join(folder, `live ${name}`), write = title => writeFileSync(join(site, "index.html"), `<title>${title}</title><p>${title}`);
    mkdirSync(join(site, "sub"), { recursive: true });
    write("one");
    await served(words(site), async tab => {
      await tab.until(shows("one"));
      assert.deepEqual(await tab.run(`return Promise.all(["folder/nothing", "folder/..%2fbad.img", "folder/%2fetc%2fpasswd"].map(async it => (await fetch(it)).status))`), [404, 404, 404]);
      writeFileSync(join(site, "sub/two.html"), "<title>two</title>");
      await tab.until(`node.session && (await node.session.whole("/sub/two.html")).status === 200`);
      await tab.run(`node.visit("/sub/two.html")`);
      await tab.until(shows("two"));
      writeFileSync(join(site, "sub/two.html"), "<title>three</title>");
      await tab.until(shows("three"));   // the same path
      writeFileSync(join(site, "app.js"), `export const title = "by a module";`);   // which a browser loads by its type alone
      writeFileSync(join(site, "sub/two.html"), `<script type="module">import { title } from "../app.js"; document.title = title;</script>`);
      await tab.until(shows("by a module"));
      writeFileSync(join(site, "a b.txt"), "");
      await tab.until(name === "UIPD" ? ends(`the line ended: serve.py: cannot pack ${site}: bad site name 1`) : hasNotice('"/a b.txt" is no name'));
    });
  });

withServe("a folder that cannot be packed is reported, and opened once it is mended", async () => {
  const site = join(folder, "mended");
  mkdirSync(site);
  writeFileSync(join(site, "index.html"), "<title>mended</title>");
  writeFileSync(join(site, "a b.txt"), "");
  await served([site], async tab => {
    await tab.until(hasNotice('"/a b.txt" is no name for a file of a site'));
    rmSync(join(site, "a b.txt"));
    await tab.until(shows("mended"));
    writeFileSync(join(site, "a b.txt"), "");
    await tab.until(hasNotice("(2 times)"));
    assert.ok(await tab.run(`return !!node.session`));   // the site as it was
    rmSync(join(site, "a b.txt"));
    writeFileSync(join(site, "index.html"), "<title>again</title>");
    await tab.until(shows("again"));
  });
});

withServe("an image for the device inside, which changes", async () => {
  const image = join(folder, "own.img");
  cpSync(SITE, image);
  await served([image], async tab => {
    await tab.until(shows("Lowunbisa"));
    await tab.until(ends(`connected: ${DEVICE}, with own.img`));
    cpSync(join(top, "examples/state.img"), image);
    await tab.until(shows("The device"));
  });
});

withServe("the page alone, and statuses in words", async () => {
  await served(["--page"], async tab => {
    assert.equal(await tab.run(`return document.getElementById("open-bridge").disabled`), true);
    const links = await tab.run(`return Promise.all([...document.querySelectorAll("a[data-file]")].filter(it => it.offsetHeight).map(async it => [it.dataset.file, await (await fetch(it.href)).text()]))`);
    assert.ok(links.length > 3);
    for (const [name, text] of links) assert.deepEqual(text, readFileSync(join(top, name), "utf8"));
    // "?" and each link show their document as elements.
    await click(tab, "help");
    await tab.until(`document.getElementById("document").open`);
    const parts = await tab.run(`return ["h1", "h2", "p", "li", "td", "pre", "code", "strong", "img"].map(it => document.querySelectorAll("#document article " + it).length)`);
    assert.ok(parts.every(it => it > 0), `${parts}`);
    assert.doesNotMatch(await tab.run(`return [...document.querySelectorAll("#document article :is(p, li, td, h2)")].map(it => it.innerText).join("\\n")`), /\*\*|\]\(|^#|\|---/m);
    await tab.run(`[...document.querySelectorAll("#document article a")].find(it => it.getAttribute("href").startsWith("docs/FORMATS.md")).click()`);
    await tab.until(`document.getElementById("document-title").innerText === "docs/FORMATS.md"`);
    await tab.run(`document.getElementById("document").close(); document.querySelector('a[data-file="include/uip.h"]').click()`);
    await tab.until(`document.querySelector("#document pre").innerText.includes("uip_open")`);
  });
  const bad = join(folder, "bad.img");
  writeFileSync(bad, "no image");
  await served([UIPD, bad], tab => tab.until(ends("the line ended: the program ended with status 6: the image of the site is bad")));
});
