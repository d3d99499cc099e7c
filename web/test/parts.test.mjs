// Parts of the page that need no browser: its verdicts, the server by uIP's rules, and images of sites.
import test from "node:test";
import assert from "node:assert/strict";
import { execFileSync, spawnSync } from "node:child_process";
import { existsSync, mkdirSync, mkdtempSync, readFileSync, readdirSync, rmSync, writeFileSync } from "node:fs";
import { tmpdir } from "node:os";
import { join } from "node:path";
import { addressOf, readAddress } from "../address.js";
import { Clock } from "../clock.js";
import { nodeInside } from "../inside.js";
import { PATH, SMALL, faultOf, losesSecondHalf, meterSite, runMeter } from "../meter.js";
import { Session } from "../session.js";
import { Device } from "../uip.js";
import { pack, unpack, valuesOf, warningsOf } from "../site.js";
import { serverByUipsRules } from "../uip_rules.js";
import { resultOf, verdictOf } from "../verdict.js";
import { ACK, RST, SlipReader, echoDatagram, read, slipText, tcpDatagram } from "../wire.js";
import { startServe } from "./server.mjs";
import { here, secret, top, until } from "./node_process.mjs";

const NONE = { complete: 0, wrong: 0, truncated: 0, retransmissions: 0, different: 0 };

test("each verdict has its kind and words", () => {
  for (const [sums, kind, head, more, loading] of [
    [{}, "idle", "No reply yet", /first copy/],
    [{ complete: 1 }, "good", "The reply is complete", /^The device sent nothing twice\.$/],
    [{ complete: 1200, retransmissions: 1 }, "good", "All 1,200 replies complete", /^One retransmission by the device, identical\.$/],
    [{ complete: 2, retransmissions: 37 }, "good", "All 2 replies complete", /^37 retransmissions by the device, all identical\.$/],
    [{ complete: 2, wrong: 1, truncated: 1, retransmissions: 9, different: 1 }, "bad", "1 of 4 replies wrong", /^1 retransmission of 9 with different bytes\.$/],
    [{ complete: 2, retransmissions: 9, different: 2 }, "bad", "One sequence number had two bytes", /^2 retransmissions of 9/],
    [{ complete: 9, truncated: 1 }, "warn", "9 replies complete, 1 truncated", /No reply is wrong/],
    // While the page in the frame is being loaded, nothing is good; what is wrong stays wrong.
    [{ complete: 1 }, "idle", "Loading /a", /^So far 1 reply complete\./, "/a"],
    [{}, "idle", "Loading /a", /^$/, "/a"],
    [{ complete: 9, truncated: 1 }, "idle", "Loading /a", /^So far 9 replies complete\./, "/a"],
    [{ wrong: 1 }, "bad", "1 of 1 reply wrong", /./, "/a"],
  ]) {
    const verdict = verdictOf({ ...NONE, ...sums }, loading);
    assert.deepEqual([verdict.kind, verdict.head], [kind, head]);
    assert.match(verdict.more, more);
  }
  assert.deepEqual(resultOf({ complete: 2, wrong: 0, truncated: 0 }), { kind: "good", words: "2 complete, 0 wrong, 0 truncated .." });
  assert.deepEqual(resultOf({ complete: 8, wrong: 1, truncated: 1, seconds: 2, bytes: 4096 }), { kind: "bad", words: "8 complete, 1 wrong, 1 truncated. 4.0 pages/s, 2.0 KiB/s." });
  assert.equal(resultOf({ complete: 8, wrong: 0, truncated: 1 }).kind, "warn");
  assert.deepEqual(resultOf({ complete: 0, wrong: 0, truncated: 0, seconds: 0, bytes: 0 }).words, "0 complete, 0 wrong, 0 truncated ..");   // no "NaN pages/s"
});

// A session with the server by uIP's rules, or with the device and the same meter.
async function withMeter({ isDevice = false, faults, speed = 1 }, what) {
  const clock = new Clock(speed), code = isDevice && new WebAssembly.Module(readFileSync(join(here, "../node.wasm")));
  const { device, line, stop } = isDevice ? nodeInside({ code, image: meterSite(), own: [10, 0, 0, 1], clock, secret }) : serverByUipsRules({ clock });
  const stopMeter = isDevice ? runMeter(device) : () => {}, leave = () => { stopMeter(); stop(); };
  const session = new Session(line, { clock, seed: 3, leave, mss: SMALL, faultOf });
  Object.assign(session.faults, faults);
  try { await what(session); } finally { await session.close(); }
}
const reading = ({ bytes }) => /id="reading">(.*?)</.exec(Buffer.from(bytes).toString())[1];

test("the meter by uIP's rules: right without loss, and both numbers in one text if half of it is sent twice", () => withMeter({ speed: 20 }, async session => {
  for (let n = 0; n < 3; n++) assert.equal(reading(await session.whole(PATH)), "999 litres, and again: 999 l");
  assert.deepEqual([session.sums.complete, session.sums.wrong, session.sums.different], [3, 0, 0]);
  session.faults.plan = losesSecondHalf();
  assert.equal(reading(await session.whole(PATH)), "999 litres, and  again: 1000 l");
  assert.deepEqual([session.sums.complete, session.sums.wrong, session.sums.different, session.sums.truncated], [3, 1, 1, 0]);
}));

test("the meter by the device: one number, with the same loss, and with any", { timeout: 240000 }, () => withMeter({ isDevice: true, speed: 20 }, async session => {
  session.atOnce = 1;
  session.faults.plan = losesSecondHalf();
  const planned = await session.fetchMany(PATH, 5), { retransmissions } = session.sums;
  assert.deepEqual([planned.complete, planned.wrong, retransmissions >= 5], [5, 0, true]);
  session.faults.loss = 0.2;
  const { complete, wrong, truncated } = await session.fetchMany(PATH, 20);
  assert.deepEqual([complete + truncated, wrong, session.sums.different], [20, 0, 0]);
  assert.ok(complete > 17);
}));

test("a page of the meter is wrong if its two readings differ", () => {
  assert.equal(faultOf(PATH, "<p>999 litres, and again: 999 l</p>"), null);
  assert.equal(faultOf(`${PATH}?7`, "<p>999 litres, and  again: 1000 l</p>"), "it has 999 and 1000 in one text");
  assert.equal(faultOf("/index.html", "<p>999 litres, and again: 1000 l</p>"), null);
});

test("by uIP's rules a segment to no connection is answered by a reset", async () => {
  const { line, stop } = serverByUipsRules({ clock: new Clock() }), replies = [];
  const segment = { fromPort: 5000, toPort: 80, flags: ACK, seq: 7, ack: 9, text: [], mss: 0, window: 100 };
  await line.writable.getWriter().write(slipText(tcpDatagram([10, 0, 0, 2], [10, 0, 0, 1], 1, segment)));
  stop();
  const { value } = await Promise.race([line.readable.getReader().read(), new Promise(resolve => setTimeout(resolve, 1000, {}))]);
  new SlipReader().feed(value ?? [], it => replies.push(read(it).segment));
  assert.deepEqual(replies.map(it => [it.flags, it.seq, it.fromPort, it.toPort]), [[RST, 9, 80, 5000]]);
});

test("by uIP's rules 100 pages under faults end, some of them wrong", { timeout: 240000 }, () =>
  withMeter({ speed: 50, faults: { loss: 0.1, duplication: 0.1, reordering: 0.1, corruption: 0.05 } }, async session => {
    const { complete, wrong, truncated } = await session.fetchMany(PATH, 100);
    assert.ok(wrong > 10 && truncated < 5 && complete + wrong + truncated === 100, `${complete} ${wrong} ${truncated}`);
  }));

test("of the retransmissions the device's are counted, and this page's apart", () => withMeter({ isDevice: true, speed: 20 }, async session => {
  let left = 2;
  session.faults.plan = (datagram, isToNode) => isToNode && left-- > 0;   // two SYNs of this page are lost
  await session.whole("/index.html");
  assert.deepEqual([session.sums.retransmissions, session.sums.repeated], [0, 2]);
  left = 1;
  session.faults.plan = (datagram, isToNode) => !isToNode && left-- > 0;   // and a SYN ACK of the device
  await session.whole("/index.html");
  assert.ok(session.sums.retransmissions >= 1);
}));

test("a load test needs at least one page, and one request at a time", () => withMeter({ isDevice: true }, async session => {
  for (const count of [0, -3, 1.5, NaN]) {
    assert.throws(() => { session.atOnce = count; }, /at least one request/);
    await assert.rejects(session.fetchMany("/", count), /at least one page/);
  }
  assert.equal((await session.fetchMany("/index.html", 2)).complete, 2);   // and the next one ends
}));

test("an image is read and written as the program does", () => {
  const names = readdirSync(join(top, "examples/state")).map(name => `/${name}`), image = new Uint8Array(readFileSync(join(top, "examples/state.img")));
  const files = unpack(image), disk = name => readFileSync(join(top, "examples/state", name));
  assert.deepEqual(files.map(it => it.name).sort(), names.sort());
  for (const { name, bytes } of files) assert.ok(Buffer.from(bytes).equals(disk(name)), name);
  assert.deepEqual(valuesOf(files).map(it => it.number), [0, 1, 2, 3, 4, 5, 6]);
  assert.deepEqual(valuesOf(files).filter(it => !it.isText).map(it => it.number), [1, 2, 5]);   // those that JSON has without quotes
  const own = names.map(name => ({ name, bytes: disk(name) }));
  assert.deepEqual(unpack(pack(own)).map(({ name, bytes }) => [name, Buffer.from(bytes).toString()]), own.map(({ name, bytes }) => [name, bytes.toString()]));
  assert.throws(() => pack([{ name: "/a b", bytes: disk("/index.html") }]), /"\/a b" is no name for a file/);
  assert.throws(() => pack(Array.from({ length: 1025 }, (_, n) => ({ name: `/${n}`, bytes: [] }))), /1024 files at most/);
  assert.throws(() => pack([{ name: "/big", bytes: { length: 20e6 } }]), /a site has 16 MiB at most, and this one has 19\.1 MiB/);
});

test("a folder is packed as tools/pack.py does", () => {
  const folder = mkdtempSync(join(tmpdir(), "packed-")), site = join(folder, "site"), out = join(folder, "out.img");
  const names = ["LOGO.PNG", "PAGE.HTML", "SCRIPT.SHTML", "a.constructor", "a.d/b", "a.min.js", "app.mjs", "x.bin", "index.html", "logo.png", "now.shtml", "README", "shape.SVG",
    "{.shtml", "[.shtml", "{.txt", "empty.shtml"];
  const start = name => name === "empty.shtml" ? "" : `${"{[".includes(name[0]) ? " \t\r\n" : ""}${name}`;
  const files = names.sort().map(name => ({ name: `/${name}`, bytes: Buffer.from(start(name)) }));
  mkdirSync(join(site, "a.d"), { recursive: true });
  for (const { name, bytes } of files) writeFileSync(join(site, name), bytes);
  execFileSync("python3", [join(top, "tools/pack.py"), site, out], { stdio: "pipe" });
  assert.ok(readFileSync(out).equals(Buffer.from(pack(files))));
  rmSync(folder, { recursive: true });
});

test("the ping that the program's own page has, and two in one feed", () => {
  const [ping, pong] = ["stdin", "stdout"].map(name => readFileSync(join(top, "crates/uipd", name))), out = [];
  const device = new Device(new WebAssembly.Module(readFileSync(join(here, "../node.wasm"))));
  device.open(pack([]));
  device.feed(ping, text => out.push(text));
  assert.ok(Buffer.concat(out).equals(pong));
  device.feed(Buffer.concat([ping, ping, ping]), text => out.push(text));
  assert.ok(Buffer.concat(out).equals(Buffer.concat([pong, pong, pong, pong])));
  const numbers = [], replies = [];
  const pings = [1, 2].map(number => slipText(echoDatagram([10, 0, 0, 2], [10, 0, 0, 1], number, number, new Uint8Array(8).fill(number))));
  device.feed(Buffer.concat(pings), text => replies.push(text));   // what was passed on stays as it is
  new SlipReader().feed(Buffer.concat(replies), it => numbers.push(read(it).echo.number));
  assert.deepEqual(numbers, [1, 2]);
  for (let n = 0; n < 2000; n++) device.feed(ping, text => out.push(text));   // more than the area for input, in all
  device.feed(Buffer.concat(Array.from({ length: 2000 }, () => ping)), text => out.push(text));
  assert.ok(Buffer.concat(out).equals(Buffer.concat(Array.from({ length: 4004 }, () => pong))));
});

test("the images beside the page are those of examples/", () => {
  for (const name of ["site.img", "state.img"])
    assert.ok(readFileSync(join(top, "web", name)).equals(readFileSync(join(top, "examples", name))), name);
});

const INDEX = { name: "/index.html", bytes: new Uint8Array() };

test("paths that lead to no page are reported", () => {
  assert.deepEqual(warningsOf([{ ...INDEX, name: "/a.html" }]), ["there is no /index.html, so the path / has no page"]);
  assert.deepEqual(warningsOf([INDEX, { ...INDEX, name: "/a/index.html" }, { ...INDEX, name: "/b/index.html" }]),
    ["/a/index.html: the path /a/ does not lead to it, so a link has to name the file"]);
});

test("what has no effect in a script is reported; the example sites have none", () => {
  for (const name of ["site.img", "state.img"]) assert.deepEqual(warningsOf(unpack(new Uint8Array(readFileSync(join(top, "web", name))))), []);
  const warnings = text => warningsOf([INDEX, { name: "/a.shtml", bytes: Buffer.from(text) }]);
  for (const good of ["", "%", "%! ticks", "%!ticks\n", "%! value 0\r\n", "%%!  file-stats  /a \n%", "%!: /x\n", "%!:/x"]) assert.deepEqual(warnings(good), [], good);
  for (const name of ["valeu", "constructor", "value\t0", "TICKS"])
    assert.deepEqual(warnings(`x %! ${name} 1\nx`), [`/a.shtml: there is no function "${name}", so its directive displays nothing`]);
  assert.match(warnings("%!")[0], /no function ""/);
  for (const [line, rest] of [["value 0 </p>", "</p>"], ["ticks seconds", "seconds"], [": /x y", "y"], [":/x\u00a0 y z\r", "y z"]])
    assert.deepEqual(warnings(`%!${line}\n%! ticks`), [`/a.shtml: "${rest}" follows a directive in its line, so it is not sent`]);
  for (const [number, isGood] of [["0", 1], ["15", 1], ["16", 0], ["00", 0], ["0</p>", 0], ["", 0]])
    assert.deepEqual(warnings(`%! value ${number}\n`), isGood ? [] : [`/a.shtml: "${number}" is no number from 0 to 15, so its directive displays nothing`]);
  assert.deepEqual(warningsOf([INDEX, { name: "/a.html", bytes: Buffer.from("%! ticks") }, { name: "/a.css", bytes: Buffer.from("a: 5%!important") }]),
    ["/a.html: only in a file whose name ends in .shtml is %! a directive"]);
});

test("web/serve.py --open: the page is served while the browser runs", { timeout: 60000 }, async () => {
  const folder = mkdtempSync(join(tmpdir(), "open-test-")), program = join(folder, "browser.py"), page = join(folder, "page");
  writeFileSync(program, "import sys, urllib.request\nopen(sys.argv[2], 'wb').write(urllib.request.urlopen(sys.argv[1], timeout=9).read())\n");
  process.env.BROWSER = `python3 ${program} %s ${page}`;
  const serving = await startServe("--open");
  try {
    await until(() => existsSync(page) && readFileSync(page, "utf8").endsWith("</html>\n"));
  } finally {
    delete process.env.BROWSER;
    serving.stop();
    await serving.ended;
    rmSync(folder, { recursive: true });
  }
});

test("web/serve.py: a bad command line has a reason and status 2, and no traceback", { timeout: 60000 }, () => {
  for (const [words, reason] of [
    ["--port 99999", /99999 is no port: a number from 0 to 65535/], ["--port x", /x is no port/], ["--bogus", /--bogus/], ["a b c", /unknown word c/],
    ["--line /dev/x y", /y is no rate/], ["--", /-- is followed by the command/], ["--board x -- cat", /two devices/], ["examples/site -- cat", /two devices/],
  ]) {
    const { status, stderr } = spawnSync("python3", [join(top, "web/serve.py"), ...words.split(" ")], { encoding: "utf8" });
    assert.equal(status, 2, words);
    assert.match(stderr, reason);
    assert.doesNotMatch(stderr, /Traceback/);
  }
  const { status, stderr } = spawnSync("python3", [join(top, "web/serve.py"), "--", "no-such-command"], { encoding: "utf8" });
  assert.deepEqual([status, stderr], [1, "serve.py: no command no-such-command here\n"]);
});

test("web/serve.py: HEAD has the head of GET, and the documents are texts", { timeout: 60000 }, async () => {
  const serving = await startServe("--page");
  try {
    for (const name of ["", "page.js", "README.md", "docs/page.png", "no-such-file", "line"]) {
      const [head, body] = await Promise.all(["HEAD", "GET"].map(method => fetch(serving.url + name, { method })));
      assert.deepEqual([head.status, head.headers.get("content-length")], [body.status, body.headers.get("content-length")], name);
      assert.equal((await head.text()).length, 0);
    }
    assert.equal(await (await fetch(`${serving.url}include/uip.h`)).text(), readFileSync(join(top, "include/uip.h"), "utf8"));
    for (const name of ["web/serve.py", ".git/config", "include/../dev.py"]) assert.equal((await fetch(serving.url + name)).status, 404, name);
  } finally {
    serving.stop();
    await serving.ended;
  }
});

test("the state of the page is in its address, and comes back", () => {
  assert.deepEqual(readAddress("#try"), { device: "sensor", numbers: {}, path: "/", tour: 1 });
  assert.deepEqual(readAddress(""), { device: "", numbers: {}, path: "/", tour: 0 });
  const state = { device: "site", numbers: { loss: 30, delay: 20, speed: 10, seed: 7 }, path: "/stats.shtml?a=1&b", tour: 0 };
  assert.equal(addressOf(state), "#device=site&loss=30&delay=20&speed=10&seed=7&path=/stats.shtml%3Fa%3D1%26b");
  assert.deepEqual(readAddress(addressOf(state)), state);
  assert.equal(addressOf({ numbers: { loss: 0, speed: 1 } }), "");
  assert.equal(addressOf({ device: "sensor", numbers: { speed: 1, seed: 3 }, tour: 2 }), "#device=sensor&seed=3&tour=2");
  // What is no state is left out, and numbers stay in the range of their sliders.
  assert.deepEqual(readAddress("#device=elsewhere&loss=900&speed=0&seed=x&delay=-5&path=//evil&tour=9"), { device: "", numbers: { loss: 50, speed: 1 }, path: "//evil", tour: 0 });
  assert.equal(readAddress("#device=site&path=evil").path, "/");
});
