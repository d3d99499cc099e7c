// The host against the real program: pages, pings, ports, and both under faults.
import test from "node:test";
import assert from "node:assert/strict";
import { execFileSync } from "node:child_process";
import { mkdtempSync, rmSync, writeFileSync } from "node:fs";
import { tmpdir } from "node:os";
import { join } from "node:path";
import { ACK, FIN, RST, SYN, read, slipText, tcpDatagram } from "../wire.js";
import { Connection } from "../connection.js";
import { all, get, headerOf } from "../http.js";
import { Sequence } from "../sequence.js";
import { numbers } from "../faults.js";
import { FILES, UIPD, bodyOf, dump, noProgram, pack, page, until, withSession } from "./node_process.mjs";

const folder = mkdtempSync(join(tmpdir(), "transfer-test-")), BIG = join(folder, "big.img"), next = numbers(7);
test.before(() => {
  writeFileSync(join(folder, "big"), Uint8Array.from({ length: 200000 }, () => next() & 0xff));
  writeFileSync(join(folder, "ends"), Uint8Array.from({ length: 30000 }, () => [0xc0, 0xdb, 0xdc, 0xdd, 1][next() % 5]));
  pack([`/big.bin=${join(folder, "big")}`, `/ends.bin=${join(folder, "ends")}`], BIG);
});
test.after(() => rmSync(folder, { recursive: true }));

const transfer = (name, { skip = false, ...options }, what) => test(name, { skip, timeout: 120000 }, () => withSession(options, what));
const isSame = ({ bytes }, target, site) => assert.ok(bodyOf(page(target, site)).equals(Buffer.from(bytes)), target);

transfer("every file of the site, byte for byte", {}, async session => {
  await session.host.ping();   // it has started
  for (const name of [...FILES, "/"]) {
    const reply = await session.whole(name), type = headerOf(reply.headers, "content-type");
    assert.equal(reply.status, 200);
    assert.ok(page(name).toString("latin1").includes(`Content-type: ${type}\r\n`));
    isSame(reply, name);
  }
  assert.equal((await session.whole("/nothing")).status, 404);
  assert.match(Buffer.from((await session.whole("/stats.shtml")).bytes).toString(), /ESTABLISHED[\s\S]*<\/html>\n$/);
  assert.equal(session.sums.retransmissions, 0);
});

transfer("pings of all sizes come back", {}, async ({ host }) => {
  for (const length of [0, 1, 56, 1000, 1472]) assert.ok(await host.ping(length) >= 0);
});

transfer("eight connections at once, each with its page", { site: BIG }, async session => {
  const names = Array.from({ length: 12 }, (_, n) => n % 2 ? "/ends.bin" : "/big.bin");
  let most = 0;
  session.show = () => { most = Math.max(most, [...session.host.connections.values()].filter(it => it.state === "ESTABLISHED").length); };
  const got = await Promise.all(names.map(name => session.whole(name)));
  got.forEach((reply, n) => isSame(reply, names[n], BIG));
  await until(() => session.host.connections.size === 0);
  assert.equal(most, 8);                                 // the others waited
  isSame(await session.whole("/ends.bin"), "/ends.bin", BIG);
});

for (const mss of [100, 536])
  transfer(`segments of ${mss}`, { site: BIG, mss }, async session => {
    const sizes = [];
    session.show = ({ isToNode, len }) => { if (!isToNode) sizes.push(len); };
    isSame(await session.whole("/ends.bin"), "/ends.bin", BIG);
    assert.equal(Math.max(...sizes), mss);
  });

transfer("ports are taken in turn and none again soon", {}, async ({ host }) => {
  const ports = new Set();
  for (let n = 0; n < 60; n++) {
    const connection = host.connect();
    ports.add(connection.port);
    connection.write(Buffer.from("GET /style.css HTTP/1.0\r\n\r\n"));
    await all(connection.readable);
  }
  assert.equal(ports.size, 60);
});

transfer("a port that the node does not serve is refused", {}, async ({ host }) => {
  await assert.rejects(all(host.connect(81).readable), /refused/);
});

transfer("a connection that is given up is reset, and the next one is served", { site: BIG }, async session => {
  const { body } = await get(session.host, "/big.bin");
  await body.cancel();
  assert.equal(session.host.connections.size, 0);
  isSame(await session.whole("/ends.bin"), "/ends.bin", BIG);
});

transfer("an end before the node's: the node's text still comes", {}, async ({ host }) => {
  const connection = host.connect();
  connection.write(Buffer.from("GET /style.css HTTP/1.0\r\n\r\n"));
  connection.end();
  assert.ok(page("/style.css").equals(Buffer.from(await all(connection.readable))));
});

transfer("a request in many segments", {}, async session => {
  isSame(await session.whole(`/style.css?${"x".repeat(5000)}`), "/style.css");
});

transfer("a port on which the node still has an older connection", {}, async ({ host }) => {
  const old = host.connect();
  old.write(Buffer.from("GET /sty"));                    // it stays open at the node
  await until(() => old.state === "ESTABLISHED");
  await host.ping();
  old.fail("forgotten");                                 // as by a page that was loaded anew
  const again = new Connection(host, old.port, 80);
  host.connections.set(again.port, again);
  again.transmit();
  again.write(Buffer.from("GET /style.css HTTP/1.0\r\n\r\n"));
  assert.ok(page("/style.css").equals(Buffer.from(await all(again.readable))));
});

transfer("eleven connections: the eleventh is reported, and comes when there is room", { speed: 4 }, async session => {
  const notices = [], hosts = Array.from({ length: 10 }, () => session.host.connect());
  session.notice = words => notices.push(words);
  await until(() => hosts.every(it => it.state === "ESTABLISHED"));
  session.atOnce = 11;
  const page = session.whole("/style.css");
  await until(() => notices.some(it => /may have no slot free \(10 are open\); sent again/.test(it)));
  hosts.forEach(it => it.abort());
  isSame(await page, "/style.css");
});

// Puts another datagram in the place of the first of the node for which `isIt`.
function putInPlace(session, isIt, other) {
  const { host } = session, receive = host.receive;
  host.receive = datagram => {
    const { segment } = read(datagram);
    if (!segment || !isIt(segment)) return receive.call(host, datagram);
    host.receive = receive;
    host.receive(tcpDatagram(host.node, host.own, 1, { ...segment, mss: 0, text: [], ...other }));
  };
}

transfer("a page whose connection is reset is asked for anew, before its head is there alone", { site: BIG }, async session => {
  putInPlace(session, ({ flags }) => flags & SYN, { flags: RST | ACK });
  isSame(await session.whole("/ends.bin"), "/ends.bin", BIG);
  assert.deepEqual([session.sums.retried, session.sums.complete, session.sums.truncated], [1, 1, 0]);
  const { body } = await session.get("/ends.bin");
  putInPlace(session, ({ text }) => text.length, { flags: RST | ACK });
  await assert.rejects(all(body), /reset the connection/);
  assert.deepEqual([session.sums.retried, session.sums.complete, session.sums.truncated], [1, 1, 1]);
});

transfer("a node that is gone: it is reported, and the page is truncated", { speed: 50 }, async session => {
  const notices = [];
  session.notice = words => notices.push(words);
  isSame(await session.whole("/style.css"), "/style.css");
  session.faults.loss = 1;
  await assert.rejects(session.whole("/style.css"), /the node does not answer/);
  assert.ok(notices.some(it => /no answer for \d+ s to a SYN: is the device there/.test(it)), notices.join("\n"));
  session.faults.loss = 0;
  isSame(await session.whole("/style.css"), "/style.css");
  assert.deepEqual([session.sums.complete, session.sums.wrong, session.sums.truncated], [2, 0, 1]);
});

for (const [name, faults] of Object.entries({
  loss: { loss: 0.2 }, duplication: { duplication: 0.5 }, reordering: { reordering: 0.3 }, corruption: { corruption: 0.2 },
  all: { loss: 0.1, duplication: 0.1, reordering: 0.1, corruption: 0.1, delay: 20 },
}))
  transfer(`pages are complete under faults: ${name}`, { site: BIG, faults, seed: 11, speed: 50 }, async session => {
    const got = await Promise.all(Array.from({ length: 5 }, () => session.whole("/ends.bin")));
    for (const reply of got) isSame(reply, "/ends.bin", BIG);
    assert.ok(session.sums.hit > 0);
    assert.equal(session.sums.different, 0);
  });

transfer("a capture is what uipd reads as one", { skip: noProgram }, async session => {
  const seen = [], { host, faults } = session, pass = faults.pass.bind(faults);
  faults.pass = (datagram, ...rest) => { seen.push(datagram); return pass(datagram, ...rest); };
  await session.whole("/");
  await host.ping();
  const file = Buffer.from(await session.capture.plain().arrayBuffer());
  assert.ok(execFileSync(UIPD, ["slip"], { input: file }).equals(Buffer.concat(seen.map(slipText))));
});

transfer("every datagram that the host sends passes uipd's own checks", { skip: noProgram }, async session => {
  const sent = [], { host } = session, send = host.send;
  host.send = datagram => { sent.push(datagram); send(datagram); };
  await session.whole("/");
  await host.ping(1472);
  const lines = dump(Buffer.concat(sent.map(slipText)));
  for (const line of lines.trim().split("\n"))
    assert.match(line, /^\d+ \d+ (tcp 10\.0\.0\.2:\d+ 10\.0\.0\.1:80 \S+ \d+ \d+ \d+|icmp 10\.0\.0\.2 10\.0\.0\.1 8 0)$/);
  const sequence = new Sequence(), rows = sent.map(it => sequence.add(it, true)).filter(it => it.flags !== "echo");
  const dumped = [...lines.matchAll(/:80 (\S+) \d+ \d+ (\d+)$/gm)];
  assert.deepEqual(rows.map(it => `${it.flags} ${it.len}`), dumped.map(([, flags, len]) => `${flags} ${len}`));
  const flags = sent.map(read).filter(it => it.segment).map(it => it.segment.flags);
  assert.ok(flags[0] === SYN && flags.some(it => it & FIN) && !flags.some(it => it & RST));
});
