// Lines and their errors, the silence that is filled, faults by a seed, and the capture's room.
import test from "node:test";
import assert from "node:assert/strict";
import { Clock } from "../clock.js";
import { slipText } from "../wire.js";
import { attach, fillSilence } from "../line.js";
import { openPort, portFault, segmentAt } from "../port.js";
import { Faults } from "../faults.js";
import { Capture } from "../capture.js";
import { withSession } from "./node_process.mjs";

// A port as Web Serial has it: an error ends `readable`, and another stream takes its place, or none after the last. Each
// turn is what comes and the name of the error after it.
function faultyPort(turns) {
  const port = { readable: null, writable: new WritableStream() };
  const next = () => {
    const [text, name] = turns.shift() ?? [];
    let isSaid = false;
    port.readable = text ? new ReadableStream({
      pull(out) {
        if (!isSaid) out.enqueue(text);
        else { next(); out.error(new DOMException("of the port", name)); }
        isSaid = true;
      },
    }, { highWaterMark: 0 }) : null;
  };
  next();
  return port;
}

test("errors of a port that pass end no line and are reported; one that stays ends it", async () => {
  const got = [], passed = [], names = ["FramingError", "ParityError", "BufferOverrunError", "BreakError", "NetworkError"];
  const port = faultyPort(names.map((name, n) => [slipText(Uint8Array.of(n)), name]));
  const why = await new Promise(ended =>
    attach(port, { received: it => got.push(it[0]), passing: it => passed.push(it.name), ended }));
  assert.deepEqual(got, [0, 1, 2, 3, 4]);
  assert.deepEqual(passed, names.slice(0, 4));
  assert.equal(why.name, "NetworkError");
});

test("a stream that fails ends the line, once", async () => {
  const failing = () => new ReadableStream({ start(out) { out.error(new Error("it failed")); } });
  const why = await new Promise(ended => attach({ readable: failing(), writable: new WritableStream() }, { received() {}, ended }));
  assert.equal(why.message, "it failed");
});

test("each error of a port has its words", async () => {
  for (const [name, words] of Object.entries({ BreakError: "break", BufferOverrunError: "overrun", FramingError: "framing",
    ParityError: "parity", NetworkError: "pulled out", OtherError: "OtherError: why" }))
    assert.match(portFault(new DOMException("why", name)), new RegExp(words));
  const failing = (choose, open) => openPort(9600, { requestPort: async () => { choose?.(); return { open: async () => open?.() }; } });
  const raise = name => () => { throw new DOMException("why", name); };
  await assert.rejects(openPort(9600, null), /no Web Serial/);
  await assert.rejects(failing(raise("NotFoundError")), /no port was chosen/);
  await assert.rejects(failing(raise("SecurityError")), /needs a click/);
  await assert.rejects(failing(null, raise("NetworkError")), /another program has it/);
  await assert.rejects(failing(null, raise("InvalidStateError")), /open already/);
  assert.ok(await failing());
  assert.deepEqual([1200, 9600, 115200].map(segmentAt), [100, 200, 1460]);
});

test("a line that is closed is free: its streams are unlocked", async () => {
  const written = [], line = { readable: new ReadableStream(), writable: new WritableStream({ write: it => { written.push(...it); } }) };
  const wire = attach(line, { received() {} });
  wire.send(Uint8Array.of(1, 0xc0));
  await new Promise(setImmediate);
  await wire.close();
  assert.deepEqual([line.readable.locked, line.writable.locked, written], [false, false, [0xc0, 1, 0xdb, 0xdc, 0xc0]]);
});

test("silence is filled at the rate, at no time much at once, and not while the line is late", async () => {
  const fills = [], wire = { counts: { written: 0, waiting: 0 }, fill: n => { fills.push(n); wire.counts.written += n; } };
  const clock = { rate: 1 }, stop = fillSilence(wire, 10000, clock), start = performance.now();
  await new Promise(resolve => setTimeout(resolve, 400));
  const due = (performance.now() - start) * 10;
  assert.ok(Math.abs(wire.counts.written - due) < 1500, `${wire.counts.written} of ${due}`);
  wire.counts.written += 1e6;                              // others wrote
  const before = fills.length;
  await new Promise(resolve => setTimeout(resolve, 120));
  assert.ok(fills.length - before <= 2);
  clock.rate = 1000;
  await new Promise(resolve => setTimeout(resolve, 120));
  assert.equal(Math.max(...fills), 2500);
  wire.counts.waiting = 2500;
  const held = fills.length;
  await new Promise(resolve => setTimeout(resolve, 60));
  assert.equal(fills.length, held);
  stop();
});

test("a clock may change its pace while something is under way", () => {
  const clock = new Clock(), start = clock.now(), wait = time => { for (const end = performance.now() + time; performance.now() < end;); };
  wait(30);
  clock.rate = 1000;
  const then = clock.now();
  assert.ok(then - start >= 30 && then - start < 10000, `${then - start}`);
  wait(10);
  clock.rate = 1;
  assert.ok(clock.now() - then >= 10000);
});

test("faults come as often as they should, and as they are reported", () => {
  const faults = Object.assign(new Faults(5), { loss: 0.1, duplication: 0.2, reordering: 0.3, corruption: 0.4 }), counts = {};
  const datagram = Uint8Array.from({ length: 50 }, (_, n) => n);
  const delivered = { good: 0, corrupted: 0 }, expected = { good: 0, corrupted: 0 };
  for (let n = 0; n < 20000; n++) {
    const deliver = it => { delivered[it.every((byte, at) => byte === at) ? "good" : "corrupted"]++; };
    const { words, go } = faults.pass(datagram, true, deliver);
    for (const word of words) counts[word] = (counts[word] ?? 0) + 1;
    if (!words.includes("lost")) expected[words.includes("corrupted") ? "corrupted" : "good"] += words.includes("duplicated") ? 2 : 1;
    go();
  }
  faults.reordering = faults.loss = 0;
  faults.pass(datagram, true, () => {}).go();   // what was held back follows it
  for (const [word, count] of [["lost", 2000], ["duplicated", 3600], ["corrupted", 7200]])
    assert.ok(Math.abs(counts[word] / count - 1) < 0.1, `${counts[word]} were ${word}`);
  assert.ok(counts.reordered > 2000);
  assert.deepEqual(delivered, expected);
});

test("a datagram that is late comes after the next one, or in a while", async () => {
  const faults = Object.assign(new Faults(1), { reordering: 1 }), got = [];
  faults.pass(Uint8Array.of(1), true, it => got.push(it[0])).go();
  assert.deepEqual(got, []);
  faults.pass(Uint8Array.of(3), false, it => got.push(it[0])).go();
  faults.pass(Uint8Array.of(2), true, it => got.push(it[0])).go();
  assert.deepEqual(got, [2, 1]);
  await new Promise(resolve => setTimeout(resolve, 400));
  assert.deepEqual(got, [2, 1, 3]);
  faults.pass(Uint8Array.of(4), true, it => got.push(it[0])).go();
  faults.close();
  assert.deepEqual(got, [2, 1, 3]);
});

test("a capture keeps to its room: the oldest records go", async () => {
  const capture = new Capture(10000);
  for (let n = 0; n < 1000; n++) capture.add(new Uint8Array(84).fill(n), 1234567890123);
  const bytes = Buffer.from(await capture.plain().arrayBuffer());
  assert.ok(bytes.length <= 10024 && bytes.length > 5000);
  assert.equal((bytes.length - 24) / 100 + capture.dropped, 1000);
  assert.equal(bytes[bytes.length - 1], 999 & 0xff);
  assert.deepEqual([bytes.readUInt32BE(24), bytes.readUInt32BE(28)], [1234567890, 123000]);
});

// The blocks of a capture file (draft-ietf-opsawg-pcapng sections 3.1, 4.1 to 4.3): of each packet its bytes, time, direction and comment.
function packetsOf(file) {
  const packets = [];
  assert.deepEqual([file.readUInt32BE(0), file.readUInt32BE(8), file.readUInt16BE(12)], [0x0a0d0d0a, 0x1a2b3c4d, 1]);
  for (let at = 0; at < file.length;) {
    const type = file.readUInt32BE(at), length = file.readUInt32BE(at + 4);
    assert.equal(length % 4, 0);
    assert.equal(file.readUInt32BE(at + length - 4), length);
    if (type === 1) assert.equal(file.readUInt16BE(at + 8), 101);   // raw IP
    if (type === 6) packets.push(packetOf(file.subarray(at + 8, at + length - 4)));
    at += length;
  }
  return packets;
}
function packetOf(body) {
  const size = body.readUInt32BE(12), options = {};
  assert.deepEqual([body.readUInt32BE(0), body.readUInt32BE(16)], [0, size]);
  for (let at = 20 + size + (-size & 3); body.readUInt16BE(at) !== 0;) {
    const code = body.readUInt16BE(at), length = body.readUInt16BE(at + 2);
    options[code] = body.subarray(at + 4, at + 4 + length);
    at += 4 + length + (-length & 3);
  }
  const time = (body.readUInt32BE(4) * 2 ** 32 + body.readUInt32BE(8)) / 1000;
  return { bytes: [...body.subarray(20, 20 + size)], time, isInbound: (options[2].readUInt32BE(0) & 3) === 1, comment: options[1]?.toString() ?? "" };
}

test("a capture for Wireshark has a comment for each datagram that a fault hit", async () => {
  const capture = new Capture(), added = [[[1, 2, 3], 1764547200123.456, true, ""], [[4, 5, 6, 7], 1764547200124, false, "lost"], [[], 1764547200125, false, "corrupted, duplicated"]];
  for (const [bytes, ...rest] of added) capture.add(Uint8Array.from(bytes), ...rest);
  const packets = packetsOf(Buffer.from(await capture.file().arrayBuffer()));
  assert.deepEqual(packets.map(it => [it.bytes, it.time.toFixed(3), it.isInbound, it.comment]), added.map(([bytes, time, isToNode, comment]) => [bytes, time.toFixed(3), !isToNode, comment]));
});

test("the capture of a line has each loss", () => withSession({ faults: { loss: 0.3 }, seed: 9, speed: 20 }, async session => {
  await session.whole("/");
  const packets = packetsOf(Buffer.from(await session.capture.file().arrayBuffer())), { datagrams, hit } = session.sums;
  assert.deepEqual([packets.length, packets.filter(it => it.comment === "lost").length], [datagrams, hit]);
  assert.ok(hit > 0);
}));
