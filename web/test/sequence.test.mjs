// The sequence diagram: its words against the program's, whether retransmissions are identical, and its picture.
import test from "node:test";
import assert from "node:assert/strict";
import { execFileSync, spawn } from "node:child_process";
import { join } from "node:path";
import { setFlagsFromString } from "node:v8";
import { runInNewContext } from "node:vm";
import { ACK, FIN, PSH, SYN, tcpDatagram } from "../wire.js";
import { Sequence, flagsOf, labelOf, readReport, rowText, verdictOf, wordsOf } from "../sequence.js";
import { drawSequence } from "../picture.js";
import { SITE, UIPD, here, noProgram, startSession, top } from "./node_process.mjs";

const NODE = [10, 0, 0, 1], OWN = [10, 0, 0, 2];
setFlagsFromString("--expose-gc");
const collect = runInNewContext("gc");
async function used() {
  for (let n = 0; n < 3; n++) {
    collect();
    await new Promise(resolve => setTimeout(resolve, 20));
  }
  return process.memoryUsage().arrayBuffers;
}

// Passes segments of a node to the diagram; returns of each whether it is a retransmission, and where it differs.
function compared(...segments) {
  const sequence = new Sequence();
  return segments.map(([seq, text, flags = ACK, toPort = 5]) => {
    const segment = { fromPort: 80, toPort, seq: seq >>> 0, ack: 1, flags, window: 1, mss: 0, text: Buffer.from(text) };
    const { isAgain, otherAt } = sequence.add(tcpDatagram(NODE, OWN, 1, segment), false);
    return isAgain ? otherAt ?? "same" : "new";
  });
}

test("of each retransmission: whether it is the same", () => {
  assert.deepEqual(compared([9, "", SYN | ACK], [9, "", SYN | ACK], [10, "abcd"], [10, "abcd"], [10, "abxd"], [10, "abcd"], [14, "e"]),
    ["new", "same", "new", "same", 3, "same", "new"]);
  // cut otherwise, longer and shorter; a bare acknowledgement never came before
  assert.deepEqual(compared([0, "abcd"], [2, "cdef"], [1, "bc"], [3, "def"], [2, "ceef"], [6, ""]),
    ["new", "same", "same", "same", 3, "new"]);
  // a FIN has a number too
  assert.deepEqual(compared([0, "ab", ACK | FIN], [0, "ab", ACK | FIN], [0, "abc"], [0, "a", ACK | FIN]), ["new", "same", 2, 1]);
  // a hole, its filling, and what is ahead of all that is kept
  assert.deepEqual(compared([0, "a"], [3, "d"], [1, "bc"], [0, "abcd"], [200000, "x"], [200000, "y"], [0, "a"], [3 * 65536, "z"]),
    ["new", "new", "new", "same", "new", 200000, "new", "new"]);
  // what was kept before there was more to keep
  assert.deepEqual(compared([0, "abcd"], [4, "x".repeat(1400)], [1404, "x".repeat(1400)], [0, "abcd"], [1, "xc"]),
    ["new", "new", "new", "same", 1]);
});

test("numbers may wrap, and a long flow is compared as far back as a window", () => {
  const first = 2 ** 32 - 70000, parts = [];
  for (let n = 0; n < 140; n++) parts.push([first + n * 1000, String.fromCharCode(65 + n % 26).repeat(1000)]);
  const back = [first + 80 * 1000, parts[80][1]], other = [first + 139 * 1000, "?"], old = [first + 999, "?"];
  assert.deepEqual(compared(...parts, back, other, old).slice(-3), ["same", 139000, "new"]);
});

test("each connection has its own numbers, and a SYN of ours with another begins a new one", () => {
  const sequence = new Sequence();
  const row = (isToNode, port, seq, flags, text = "") => {
    const ports = isToNode ? { fromPort: port, toPort: 80 } : { fromPort: 80, toPort: port };
    const segment = { ...ports, seq, ack: 1, flags, window: 1, mss: 0, text: Buffer.from(text) };
    return rowText({ ...sequence.add(tcpDatagram(isToNode ? OWN : NODE, isToNode ? NODE : OWN, 1, segment), isToNode), time: "0.1" });
  };
  assert.deepEqual([row(true, 7, 100, SYN), row(false, 7, 900, SYN | ACK), row(true, 8, 40, SYN), row(true, 7, 101, ACK | PSH, "hi")],
    ["1 0.1 c1 S 0 0", "2 0.1 n1 SA 0 0", "3 0.1 c2 S 0 0", "4 0.1 c1 AP 1 2"]);
  const later = [row(true, 7, 101, ACK | PSH, "hi"), row(true, 7, 500, SYN), row(false, 7, 950, SYN | ACK), row(true, 7, 501, ACK, "ho")];
  assert.deepEqual(later,
    ["5 0.1 c1 AP 1 2 again, the same bytes", "6 0.1 c3 S 0 0", "7 0.1 n3 SA 0 0", "8 0.1 c3 A 1 2"]);
  assert.deepEqual([row(false, 8, 70, SYN | ACK), row(false, 8, 90, SYN | ACK)], ["9 0.1 n2 SA 0 0", "10 0.1 n2 SA 0 0"]);
});

test("what it keeps does not grow with the connections", { timeout: 240000 }, async () => {
  const sequence = new Sequence(), text = new Uint8Array(1400), before = await used();
  const segment = { fromPort: 80, ack: 1, flags: ACK, window: 1, mss: 0, text };
  for (let toPort = 1; toPort <= 2000; toPort++)
    for (const seq of [1, 1401]) sequence.add(tcpDatagram(NODE, OWN, 1, { ...segment, toPort, seq }), false);
  assert.ok(await used() - before < 5e6);
  assert.equal(sequence.add(new Uint8Array(1), true).number, 4001);
});

test("a report of uipd is read, written back to the very line, and drawn", { skip: noProgram }, () => {
  const report = execFileSync(UIPD, ["replay", SITE, join(top, "examples/page.schedule"), "show"]).toString();
  const { rows, unit } = readReport(report);
  assert.equal(unit, "ticks");
  assert.equal(rows.map(rowText).join("\n"), report.split("\nclient")[0]);
  const picture = drawSequence(rows, { title: "a <page>", unit });
  assert.equal(picture.match(/<path class="wire"/g).length, rows.length);
  assert.match(picture, /<text [^>]*>bytes 1 to 376 {2}retransmission<\/text>/);
  assert.match(picture, /4 ticks later/);
  assert.match(picture, /a &#60;page&#62;/);
  assert.throws(() => readReport("ticks 4 datagrams 9\n"), /no row of a sequence diagram/);
});

test("a diagram of the page is read back too", () => {
  const fresh = { seq: 0, len: 0, isToNode: true, isAgain: false, otherAt: null, hasBytes: false, fate: [] };
  const again = { seq: 1, len: 9, isToNode: false, isAgain: true, otherAt: null, hasBytes: true, fate: [] };
  const rows = [
    { ...fresh, number: 1, time: "0.001", who: "c1", flags: "S" },
    { ...again, number: 2, time: "0.002", who: "n1", flags: "AP", otherAt: 4, fate: ["lost"] },
    { ...fresh, number: 3, time: "0.900", who: "p", flags: "echo", fate: ["corrupted", "reordered"] },
    { ...again, number: 4, time: "0.901", who: "n1", flags: "AP" },
  ];
  assert.deepEqual(readReport(rows.map(rowText).join("\n")), { rows, unit: "s" });
  assert.equal(verdictOf(rows[1]), "again, OTHER BYTES at 4; lost");
  assert.equal(wordsOf(rows[1]), "retransmission, DIFFERENT at 4; lost");
  assert.equal(wordsOf(rows[3]), "retransmission, identical");
  assert.deepEqual(rows.map(flagsOf), ["SYN", "ACK PSH", "echo", "ACK PSH"]);
  assert.match(drawSequence(rows), /class="from again other lost"/);
});

test("a row has words: the request, the status, the bytes, and what it acknowledges", () => {
  const sequence = new Sequence(), labels = [];
  const add = (isToNode, seq, ack, flags, text = "") => {
    const ports = isToNode ? { fromPort: 7, toPort: 80 } : { fromPort: 80, toPort: 7 };
    const segment = { ...ports, seq, ack, flags, window: 1, mss: 0, text: Buffer.from(text) };
    const { what, numbers } = labelOf(sequence.add(tcpDatagram(isToNode ? OWN : NODE, isToNode ? NODE : OWN, 1, segment), isToNode));
    labels.push([what, numbers].filter(Boolean).join("; "));
  };
  add(true, 100, 0, SYN);
  add(false, 900, 101, SYN | ACK);
  add(true, 101, 901, ACK | PSH, "GET /a?b HTTP/1.0\r\n\r\n");
  add(false, 901, 122, ACK | PSH, "HTTP/1.0 200 OK\r\n\r\n");
  add(true, 122, 920, ACK);
  add(false, 920, 122, ACK | PSH | FIN, "end");
  add(true, 122, 924, ACK | FIN);
  add(false, 924, 123, ACK);
  add(false, 924, 123, ACK | PSH, "HTTP/1.0 404 Not found\r\n");
  assert.deepEqual(labels, ["SYN", "SYN ACK; ack 1", "GET /a?b; bytes 1 to 21, ack 1", "200 OK; bytes 1 to 19, ack 22", "ACK 20", "bytes 20 to 22 + FIN; ack 22",
    "FIN; seq 22, ack 24", "ACK 23", "404 Not found; bytes 24 to 47, ack 23"]);
  const row = { number: 1, time: "0", seq: 1, len: 9, isAgain: false, otherAt: null, fate: [] };   // of a report, which has no texts
  assert.deepEqual(labelOf({ ...row, who: "n0", flags: "AP" }), { what: "bytes 1 to 9", numbers: "" });
  assert.deepEqual(labelOf({ ...row, who: "c1", flags: "A", len: 0 }), { what: "ACK", numbers: "" });
  assert.deepEqual(["echo", "reply"].map(flags => labelOf({ ...row, who: "p", flags }).what), ["ping", "reply to the ping"]);
});

test("a node by uIP's own rules is found: other bytes at one number", { timeout: 240000 }, async () => {
  const rows = [], notices = [], words = [join(here, "by_uips_rules.py"), "3"];
  const child = spawn("python3", words, { stdio: ["pipe", "pipe", "inherit"] });
  const session = startSession({ child, rate: 0, show: row => rows.push(row), notice: words => notices.push(words) });
  assert.match(Buffer.from((await session.whole("/")).bytes).toString(), /^This text was made 1 times\.\n$/);
  assert.equal(session.sums.different, 0);   // a slow machine may retransmit already
  const pass = session.faults.pass;
  session.faults.pass = function (datagram, isToNode, deliver) {   // the page is lost once
    if (isToNode || datagram.length < 60) return pass.call(this, datagram, isToNode, deliver);
    this.pass = pass;
    return { words: ["lost"], go() {} };
  };
  assert.match(Buffer.from((await session.whole("/")).bytes).toString(), /^This text was made 2 times\.\n$/);
  await session.close();
  assert.deepEqual([session.sums.complete, session.sums.wrong], [1, 1]);
  assert.ok(session.sums.different >= 1);
  const at = "HTTP/1.0 200 OK\r\nContent-Type: text/plain\r\n\r\nThis text was made ".length + 1;
  assert.ok(rows.some(row => rowText(row).endsWith(`again, OTHER BYTES at ${at}`)), rows.map(rowText).join("\n"));
  assert.ok(notices.some(it => it.includes("a retransmission with different bytes")));
});
