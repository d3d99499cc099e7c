// Datagrams and frames: made, read, damaged, and compared with what the program's own reader prints of them.
import test from "node:test";
import assert from "node:assert/strict";
import { ACK, SlipReader, echoDatagram, read, silence, slipText, tcpDatagram } from "../wire.js";
import { numbers } from "../faults.js";
import { dump, noProgram } from "./node_process.mjs";

const OWN = [10, 0, 0, 2], NODE = [10, 0, 0, 1], next = numbers(7);
const SEGMENT = { fromPort: 50000, toPort: 80, seq: 1, ack: 2, flags: 24, window: 9, mss: 536, text: Uint8Array.of(1, 2, 3) };
const DATAGRAMS = [tcpDatagram(OWN, NODE, 7, SEGMENT), echoDatagram(OWN, NODE, 8, 9, Uint8Array.of(5))];

test("SLIP frames come back, however they are cut", () => {
  const any = n => Uint8Array.from({ length: n * 7 + 1 }, () => [0xc0, 0xdb, 0xdc, 0xdd, next() & 0xff][next() % 5]);
  const datagrams = Array.from({ length: 200 }, (_, n) => any(n)), reader = new SlipReader(), got = [];
  const text = Buffer.concat(datagrams.flatMap(it => [silence(next() % 3), slipText(it)]));
  for (let at = 0, len; at < text.length; at += len) {
    len = 1 + next() % 50;
    reader.feed(text.subarray(at, at + len), it => got.push(it));
  }
  assert.deepEqual(got, datagrams);
});

test("a frame of more than 1500 bytes is dropped, and the next one is taken", () => {
  const reader = new SlipReader(), got = [];
  for (const datagram of [new Uint8Array(1500), new Uint8Array(1501), Uint8Array.of(1, 2, 3)])
    reader.feed(slipText(datagram), it => got.push(it.length), () => got.push("overlong"));
  assert.deepEqual(got, [1500, "overlong", 3]);
});

test("an escape before another byte gives that byte, and none outlives its frame", () => {
  const reader = new SlipReader(), got = [];
  reader.feed(Uint8Array.of(0xc0, 1, 0xdb, 7, 0xdb, 0xc0, 0xdc, 0xc0), it => got.push([...it]));
  assert.deepEqual(got, [[1, 7], [0xdc]]);
});

test("a datagram of which one byte was changed is refused", () => {
  for (const datagram of DATAGRAMS) {
    assert.equal(read(datagram).bad, undefined);
    for (let at = 0; at < datagram.length; at++)
      for (let by = 1; by < 256; by++) {
        const other = datagram.slice();
        other[at] ^= by;
        assert.ok(read(other).bad, `byte ${at} by ${by}`);
      }
  }
});

test("what is refused is refused in the words of uipd dump", { skip: noProgram }, () => {
  const others = [];
  for (let n = 0; n < 4000; n++) {
    const other = DATAGRAMS[n & 1].slice();
    for (let times = 1 + next() % 2; times > 0; times--) other[next() % other.length] ^= 1 << next() % 8;
    others.push(next() % 8 ? other : other.slice(0, 1 + next() % other.length));
  }
  const lines = dump(Buffer.concat(others.map(slipText))).trim().split("\n");
  assert.equal(lines.length, others.length);
  lines.forEach((line, n) => {
    const word = /^\d+ \d+ ((?:ip|icmp|tcp) [a-z]+)$/.exec(line)?.[1];
    assert.equal(read(others[n]).bad, word, line);
  });
});

test("a sum that carries twice is the program's too", { skip: noProgram }, () => {
  const payload = new Uint8Array(1000).fill(0xff), words = 0x0800 + 9 + 499 * 0xffff;   // of the message but its last word
  const last = 0xffff - (words & 0xffff);
  payload.set([last >> 8, last & 0xff], 998);
  assert.match(dump(slipText(echoDatagram(OWN, NODE, 1, 9, payload))), /^1 1028 icmp 10\.0\.0\.2 10\.0\.0\.1 8 0\n$/);
});

test("the segment size is that of the option, else 536", () => {
  const withOptions = (...options) => {
    const datagram = tcpDatagram(OWN, NODE, 1, { ...SEGMENT, mss: 1, text: Uint8Array.from([...options, 0, 0, 0, 0].slice(4)) });
    datagram.set(options.slice(0, 4), 40);
    datagram[32] = 20 + options.length << 2;
    return read(resummed(datagram)).segment.mss;
  };
  assert.equal(withOptions(2, 4, 3, 232), 1000);
  assert.equal(withOptions(1, 1, 1, 2, 4, 3, 232, 0), 1000);
  assert.equal(withOptions(8, 6, 2, 4, 9, 9, 2, 4, 3, 232, 0, 0), 1000);
  assert.equal(withOptions(0, 2, 4, 9), 536);
  assert.equal(withOptions(2, 4, 0, 0), 536);
  assert.equal(withOptions(2, 0, 2, 4), 536);
  assert.equal(read(tcpDatagram(OWN, NODE, 1, { ...SEGMENT, mss: 0, flags: ACK })).segment.mss, 536);
});

// A datagram with the checksum of its segment made anew: the sum of a segment with its own checksum is 0xffff.
function resummed(datagram) {
  const sum = at => datagram[at] << 8 | datagram[at + 1] || 0;
  datagram.set([0, 0], 36);
  let total = 6 + datagram.length - 20;
  for (let at = 12; at < datagram.length; at += 2) total += at + 1 < datagram.length ? sum(at) : datagram[at] << 8;
  while (total > 0xffff) total = (total & 0xffff) + (total >>> 16);
  datagram.set([~total >> 8 & 0xff, ~total & 0xff], 36);
  return datagram;
}
