// The device inside the page (node.wasm, web/uip.js, web/inside.js) under node, without a browser and without the program: every file of
// the site, pings, values, hits, queries, a form, several devices, bad images; and what it sends for recorded lines, compared with the program's own bytes.
import test from "node:test";
import assert from "node:assert/strict";
import { execFileSync } from "node:child_process";
import { existsSync, mkdtempSync, readFileSync, readdirSync, rmSync, writeFileSync } from "node:fs";
import { tmpdir } from "node:os";
import { join } from "node:path";
import { Clock } from "../clock.js";
import { runFirmware } from "../sensor.js";
import { Session } from "../session.js";
import { nodeInside } from "../inside.js";
import { Device } from "../uip.js";
import { pack, unpack, valuesOf } from "../site.js";
import { UIPD, noProgram, secret, top } from "./node_process.mjs";

const WASM = join(top, "web/node.wasm"), skip = existsSync(WASM) ? false : `no module at ${WASM}: \`sh ports/run.sh wasm build\` builds it`;
const code = skip || new WebAssembly.Module(readFileSync(WASM));
const image = name => new Uint8Array(readFileSync(join(top, `examples/${name}.img`)));
const SITE = image("site"), STATE = image("state");

async function withNode({ site = SITE, faults = {}, speed = 1, own = [10, 0, 0, 1], seed = 1 }, what) {
  const clock = new Clock(speed), { device, line, stop } = nodeInside({ code, image: site, own, clock, secret });
  const session = new Session(line, { clock, seed, node: own, leave: stop });
  Object.assign(session.faults, faults);
  try { return await what(session, device); } finally { await session.close(); }
}
const text = bytes => Buffer.from(bytes).toString();

test("every file of the site, and pings", { skip }, () => withNode({}, async session => {
  for (const { name, bytes } of unpack(SITE).filter(it => !it.name.endsWith(".shtml")))
    assert.ok(Buffer.from((await session.whole(name)).bytes).equals(Buffer.from(bytes)), name);
  assert.equal((await session.whole("/nothing")).status, 404);
  assert.match(text((await session.whole("/stats.shtml")).bytes), /ESTABLISHED/);
  for (const length of [0, 56, 1472]) assert.ok(await session.host.ping(length) >= 0);
}));

test("values, hits, counters and connections", { skip }, () => withNode({ site: STATE }, async (session, device) => {
  assert.deepEqual(valuesOf(unpack(STATE)).map(it => it.number), [0, 1, 2, 3, 4, 5, 6]);
  device.setValue(0, 'a "name"');
  device.setValue(1, "7");
  device.setValue(2, "50");
  device.setValue(5, "49");
  const now = JSON.parse(text((await session.whole("/state.shtml")).bytes));
  assert.deepEqual(now, { name: 'a "name"', seconds: 7, level: 50, note: "", lamp: "", limit: 49, alarm: "" });
  assert.throws(() => device.setValue(16, ""), { status: 2 });
  assert.throws(() => device.setValue(0, "x".repeat(33)), { status: 2 });
  const before = device.hits("/lamp-on.html");
  await session.whole("/lamp-on.html");
  assert.equal(device.hits("/lamp-on.html"), before + 1);
  assert.equal(device.hits("/x".repeat(1e6)), 0);
  assert.ok(device.counter(1) > 10);
  assert.throws(() => device.counter(21), { status: 2 });
  const open = session.host.connect();
  while (open.state !== "ESTABLISHED") await new Promise(setImmediate);
  const rows = Array.from({ length: 10 }, (_, slot) => device.connection(slot)).filter(it => it.state !== "CLOSED");
  assert.ok(rows.some(it => it.state === "ESTABLISHED" && it.port === open.port && it.peer.join(".") === "10.0.0.2"));
  assert.equal(device.isIdle, false);
}));

test("queries: the last one, of whatever file, with the hits of its request", { skip }, () => withNode({ site: STATE }, async (session, device) => {
  const names = unpack(STATE).map(it => it.name), hits = {}, signs = "azAZ09-_.~%&=+";
  let kept = null;
  const expectKept = () => {
    for (const name of [...names, "/nothing"])
      assert.deepEqual(device.query(name), kept?.name === name ? { text: kept.text, hit: kept.hit } : { text: "", hit: 0 }, name);
  };
  async function request(name, text) {
    await session.whole(text === undefined ? name : `${name}?${text}`);
    hits[name] = (hits[name] ?? 0) + 1;
    if (/^[-\w.~%&=+]{0,64}$/.test(text ?? " ")) kept = { name, text, hit: hits[name] };
    expectKept();
  }
  expectKept();
  await request("/lamp-on.html");
  await request("/lamp-on.html", "a=0&z=%25");
  assert.deepEqual(device.query("/lamp-on.html"), { text: "a=0&z=%25", hit: 2 });
  for (const text of ["a".repeat(65), "a*9", "a\u00e4"]) await request("/lamp-on.html", text);   // these are not kept
  assert.deepEqual(device.query("/lamp-on.html"), { text: "a=0&z=%25", hit: 2 });
  await request("/lamp-off.html", "z".repeat(64));
  await request("/lamp-off.html", "");
  await session.whole("/nothing?a=9");
  expectKept();
  for (let n = 0; n < 200; n++)
    await request(names[n * 5 % names.length], Array.from({ length: n * 11 % 68 }, (_, at) => signs[(n + at * 7) % signs.length]).join(""));
  assert.deepEqual(device.query("/x".repeat(1e6)), { text: "", hit: 0 });
  device.close();
  assert.throws(() => device.query("/lamp-on.html"), { status: 1 });
}));

test("a form sets the alarm level, and the page that answers shows it; other texts set nothing", { skip }, () => withNode({ site: STATE }, async (session, device) => {
  const values = [], put = (number, value) => { values[number] = value; device.setValue(number, value); };
  const stop = runFirmware(device, { put, value: number => values[number] });
  const shown = async query => {
    const page = text((await session.whole(`/alarm.shtml${query}`)).bytes);
    return [...page.matchAll(/<h1>The alarm level is (.*)<\/h1>|<p>Now: (.*)\.<\/p>/g)].map(it => it[1] ?? it[2]);
  };
  try {
    assert.deepEqual(await shown(""), ["80", "42 is not above 80"]);
    for (const [limit, words] of [["41", "42 is above 41"], ["42", "42 is not above 42"], ["100", "42 is not above 100"], ["0", "42 is above 0"]]) {
      assert.deepEqual(await shown(`?limit=${limit}&n=1764547200000`), [limit, words]);
      for (const query of ["", "?", ...["limit=", "limit=abc", "limit=101", "limit=0005", "limit=-5", "limit=%35", "limit=&n=6", "limit=5x&n=6", "n=6&limit=5", "Limit=5", "5"].map(it => `?${it}`),
        `?limit=${"5".repeat(58)}`, `?limit=${"5".repeat(59)}`])
        assert.deepEqual(await shown(query), [limit, words], query);
    }
    await session.whole("/now.shtml?limit=5");
    assert.deepEqual(await shown(""), ["0", "42 is above 0"]);
    assert.deepEqual(await shown("?limit=0"), ["0", "42 is above 0"]);
    put(2, "words of any length that are no number".slice(0, 32));   // the level is a field of the page
    put(5, "1");
    await shown("?limit=7");
    assert.deepEqual(values.slice(5), ["7", "NaN is not above 7"]);
  } finally { stop(); }
}));

test("three nodes at once, each with its site and address", { skip }, async () => {
  const sites = [1, 2, 3].map(n => pack([{ name: "/index.html", bytes: Buffer.from(`node ${n}`) }]));
  await Promise.all(sites.map((site, n) => withNode({ site, own: [192, 168, 7, n + 5] }, async session => {
    assert.equal(text((await session.whole("/")).bytes), `node ${n + 1}`);
  })));
});

test("bad images, and a device that is closed and opened anew", { skip }, () => {
  const device = new Device(code);
  for (const [bytes, words] of [["UIPSITE9", /magic 0/], ["UIPSITE1\x00\x01\x02/", /cut 1/]])
    assert.throws(() => device.open(Buffer.from(bytes, "latin1")), words);
  const twice = pack(["/a", "/a"].map(name => ({ name, bytes: Buffer.from("x") })));
  assert.throws(() => device.open(twice), /twice 2/);
  for (let n = 0; n < 1000; n++) {
    device.open(n % 2 ? SITE : STATE);
    device.close();
  }
  assert.throws(() => device.ticks, { status: 1 });
  device.open(SITE);
  assert.throws(() => device.open(SITE), { status: 3 });
});

test("a site of 16 MB, whole", { skip, timeout: 120000 }, () => {
  const big = new Uint8Array(16e6).map((_, n) => n * 31 >> 3), site = pack([{ name: "/big", bytes: big }]);
  return withNode({ site }, async session => assert.ok(Buffer.from((await session.whole("/big")).bytes).equals(Buffer.from(big))));
});

test("pages at once, more than there are slots", { skip }, () => withNode({}, async session => {
  session.atOnce = 16;
  const { complete, wrong, truncated } = await session.fetchMany("/", 200);
  assert.deepEqual([complete, wrong, truncated], [200, 0, 0]);
}));

test("1,000 pages, a fifth lost, a tenth repeated, reordered and damaged", { skip, timeout: 300000 }, t =>
  withNode({ faults: { loss: 0.2, duplication: 0.1, reordering: 0.1, corruption: 0.1 }, speed: 50 }, async session => {
    const { complete, wrong, truncated, seconds } = await session.fetchMany("/", 1000);
    t.diagnostic(`${seconds.toFixed(1)} s, ${JSON.stringify(session.sums)}`);
    // A node resets a connection at uIP's limits, which this number of faults can reach.
    assert.deepEqual([complete + truncated, wrong, session.sums.different], [1000, 0, 0]);
    assert.ok(truncated < 10);
  }));

// What a node sends for a line that it gets in pieces of n bytes, without ticks.
function output(site, line, pace) {
  const device = new Device(code), out = [], send = text => out.push(text);
  device.open(site);
  for (let at = 0; at < line.length; at += pace) device.feed(line.subarray(at, at + pace), send);
  return Buffer.concat(out);
}
const LINES = join(top, "bench/lines"), xz = name => execFileSync("xz", ["-dc", join(LINES, name)], { maxBuffer: 1 << 28 });

test("for every recorded line of bench/lines the bytes of the program", { skip: skip || noProgram, timeout: 120000 }, t => {
  const folder = mkdtempSync(join(tmpdir(), "inside-test-")), file = join(folder, "site.img"), site = xz("site.img.xz");
  writeFileSync(file, site);
  let lines = 0, bytes = 0;
  for (const name of readdirSync(LINES).filter(it => it.endsWith(".slip.xz"))) {
    const line = xz(name);
    // Without ticks: they change the initial sequence numbers, so that a recorded line acknowledges others. Then the guard acts, and uipd has none.
    const expected = execFileSync(UIPD, ["serve", file, "10.0.0.1"], { input: line, maxBuffer: 1 << 28 });
    for (const pace of [1, 7, 50, 400, 1000, 1 << 30]) {
      assert.ok(output(site, line, pace).equals(expected), `${name} in pieces of ${pace}`);
      lines++;
      bytes += expected.length;
    }
  }
  rmSync(folder, { recursive: true });
  t.diagnostic(`${lines} lines, ${bytes} bytes`);
});
