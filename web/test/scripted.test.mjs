// The host and a node that we play, segment by segment: what the program's own node never sends.
import test from "node:test";
import assert from "node:assert/strict";
import { ACK, FIN, RST, SYN, read, tcpDatagram } from "../wire.js";
import { Host } from "../host.js";
import { get, all } from "../http.js";

// `arrive` delivers a segment of the node, and `sent` takes what the host sent since. Timers go off by hand.
function played({ mss = 536, isOpened = true, connect = host => host.connect() } = {}) {
  const out = [], waits = [], timers = new Map();
  let time = 0, id = 0;
  const clock = { now: () => time, later(wait, what) { timers.set(++id, { at: time + wait, what }); return id; }, cancel(timer) { timers.delete(timer); } };
  const host = new Host(it => out.push(read(it).segment), { clock, waits: (_, waited) => waits.push(waited) });
  const connection = connect(host), first = out[0].seq;
  const sent = () => out.splice(0).map(it =>
    ({ flags: it.flags, seq: it.seq - first >>> 0, ack: it.ack - 5000 >>> 0, len: it.text.length, window: it.window }));
  const arrive = (flags, seq, ack, text = "", window = 1460) => host.receive(tcpDatagram([10, 0, 0, 1], [10, 0, 0, 2], 1, {
    fromPort: 80, toPort: out.port, seq: 5000 + seq >>> 0, ack: first + ack >>> 0, flags, window,
    mss: flags & SYN ? mss : 0, text: Buffer.from(text) }));
  out.port = out[0].fromPort;
  const goOff = () => {
    const [[next, { at, what }]] = [...timers].sort(([, a], [, b]) => a.at - b.at), wait = at - time;
    timers.delete(next);
    time = at;
    what();
    return wait;
  };
  sent();
  if (isOpened) { arrive(SYN | ACK, 0, 1); sent(); }
  return { host, connection, arrive, sent, waits, goOff, timers, pass: wait => { time += wait; } };
}

// What a connection's reader got, and how it ended.
function readerOf(connection) {
  const got = [];
  let isEnded = null;
  (async () => { for await (const piece of connection.readable) got.push(...piece); })()
    .then(() => { isEnded = "end"; }, error => { isEnded = error.message; });
  return async () => { await new Promise(setImmediate); return [Buffer.from(got).toString(), isEnded]; };
}

const acks = (list, ack) => assert.deepEqual(list.map(it => [it.flags, it.ack, it.len]), [[ACK, ack, 0]]);
const sizes = list => list.map(it => [it.seq, it.len]);

test("text is taken in order and once, and acknowledged always", async () => {
  const { arrive, sent, connection } = played(), text = readerOf(connection);
  arrive(SYN | ACK, 0, 1);
  acks(sent(), 1);                       // the SYN-ACK again
  arrive(ACK, 1, 1, "abc");
  acks(sent(), 4);
  arrive(ACK, 6, 1, "fgh");              // ahead
  acks(sent(), 4);
  arrive(ACK, 1, 1, "abc");              // again
  acks(sent(), 4);
  arrive(ACK, 2, 1, "bcde");             // partly new
  acks(sent(), 6);
  arrive(ACK, 6, 9, "xyz");              // acknowledges what was never sent
  acks(sent(), 6);
  arrive(0, 6, 0, "xyz");                // acknowledges nothing
  acks(sent(), 6);
  arrive(RST, 4, 1);                     // a reset of an older number
  assert.equal(connection.state, "ESTABLISHED");
  arrive(ACK | FIN, 6, 1, "f");
  assert.deepEqual(sent().map(it => [it.flags, it.seq, it.ack, it.len]), [[ACK | FIN, 1, 8, 0]]);
  assert.equal(connection.state, "LAST-ACK");
  arrive(ACK | FIN, 6, 1, "f");
  acks(sent(), 8);
  arrive(ACK, 8, 1, "after its end");
  acks(sent(), 8);
  arrive(ACK, 8, 2);
  assert.deepEqual([connection.state, sent()], ["CLOSED", []]);
  assert.deepEqual(await text(), ["abcdef", "end"]);
});

test("what is written before the connection is open goes after its SYN", () => {
  const { arrive, sent, connection } = played({ isOpened: false });
  connection.write(Buffer.from("ab"));
  connection.end();
  assert.deepEqual(sent(), []);
  arrive(SYN | ACK, 0, 1);
  assert.deepEqual(sent().map(it => [it.flags, it.seq, it.ack, it.len]), [[ACK | FIN | 8, 1, 1, 2]]);
});

test("a request is cut to the node's segments and its window", () => {
  const { arrive, sent, connection } = played({ mss: 4 });
  connection.write(Buffer.from("abcdefgh"));
  assert.deepEqual(sizes(sent()), [[1, 4], [5, 4]]);
  arrive(ACK, 1, 9, "", 3);
  connection.write(Buffer.from("ijklm"));
  assert.deepEqual(sizes(sent()), [[9, 3]]);
  arrive(ACK, 1, 12, "", 0);
  assert.deepEqual(sizes(sent()), [[12, 1]]);
});

test("what is not acknowledged goes again, and less where the window shrank", () => {
  const { arrive, sent, connection, goOff, waits } = played({ mss: 4 });
  connection.write(Buffer.from("abcdefgh"));
  sent();
  assert.equal(goOff(), 1000);
  assert.deepEqual(sizes(sent()), [[1, 4], [5, 4]]);
  assert.equal(goOff(), 2000);
  assert.equal(goOff(), 2000);
  sent();
  assert.deepEqual(waits, [1000, 3000, 5000]);
  arrive(ACK, 1, 5);                     // the first of them came: the wait is short again, and the other goes
  assert.equal(goOff(), 1000);
  assert.deepEqual(sizes(sent()), [[5, 4]]);
  arrive(ACK, 1, 5, "", 2);
  goOff();
  assert.deepEqual(sizes(sent()), [[5, 2]]);
  arrive(ACK, 1, 9);                     // all came after all
  connection.write(Buffer.from("i"));
  assert.deepEqual(sizes(sent()), [[9, 1]]);
  for (let n = 0; connection.state !== "CLOSED"; n++) { assert.ok(n < 70); goOff(); }
  assert.ok(waits.at(-1) < 120000);
});

test("the wait follows the round trips, and not those of what went again", () => {
  const { arrive, connection, goOff, pass, sent } = played();
  connection.write(Buffer.from("a"));
  pass(2000);
  arrive(ACK, 1, 2);
  connection.write(Buffer.from("b"));
  assert.equal(goOff(), 2250);           // by RFC 6298 section 2: the round trips were 0 and 2000
  assert.deepEqual(sizes(sent()).at(-1), [2, 1]);
  pass(50000);
  arrive(ACK, 1, 3);                     // of which sending?
  connection.write(Buffer.from("c"));
  assert.equal(goOff(), 2250);
});

test("the wait is bounded, however long the round trips were", () => {
  const { arrive, connection, goOff, pass } = played();
  connection.write(Buffer.from("a"));
  pass(60000);
  arrive(ACK, 1, 2);
  connection.write(Buffer.from("b"));
  assert.deepEqual([goOff(), goOff()], [3000, 3000]);
});

test("while text is awaited the acknowledgement goes again, and a silent node is given up", async () => {
  const { arrive, sent, connection, goOff, waits, timers } = played(), text = readerOf(connection);
  connection.write(Buffer.from("a"));
  sent();
  arrive(ACK, 1, 2, "x");
  sent();
  assert.deepEqual([goOff(), goOff(), goOff()], [1000, 2000, 2000]);
  assert.deepEqual(sent().map(it => [it.flags, it.seq, it.ack, it.len]), Array(3).fill([ACK, 2, 2, 0]));
  arrive(ACK, 2, 2, "y");                // it continues: the wait is short again
  sent();
  assert.deepEqual(await text(), ["xy", null]);
  assert.equal(goOff(), 1000);
  assert.deepEqual(waits, [1000, 3000, 5000, 1000]);
  for (let n = 0; connection.state !== "CLOSED"; n++) { assert.ok(n < 70); goOff(); }
  assert.deepEqual(await text(), ["xy", "the node does not answer"]);
  assert.equal(waits.at(-1) >= 100000, true);
  assert.equal(timers.size, 0);
});

test("the window shows a reader that is slow, and that it reads again", async () => {
  const { arrive, sent, connection } = played(), reader = connection.readable.getReader();
  for (let n = 0; n < 45; n++) arrive(ACK, 1 + n * 1460, 1, "x".repeat(1460));
  const windows = sent().map(it => it.window);
  assert.deepEqual([windows[0], windows[43], windows[44]], [65535 - 1460, 65535 - 44 * 1460, 0]);
  await reader.read();
  await new Promise(setImmediate);
  assert.deepEqual(sent(), []);          // less than a segment has room
  await reader.read();
  await new Promise(setImmediate);
  assert.deepEqual(sent().map(it => [it.flags, it.ack, it.window > 1460]), [[ACK, 45 * 1460 + 1, true]]);
});

test("who gives a connection up resets it, if it is open", () => {
  const open = played(), opening = played({ isOpened: false });
  open.connection.abort();
  opening.connection.abort();
  assert.deepEqual(open.sent().map(it => [it.flags, it.seq, it.ack]), [[RST | ACK, 1, 1]]);
  assert.deepEqual(opening.sent(), []);
  assert.deepEqual([open.timers.size, opening.timers.size], [0, 0]);
});

test("a node that has an older connection gets a reset, and a SYN again", () => {
  const { arrive, sent, connection } = played({ isOpened: false });
  arrive(ACK, 3, 77);
  assert.deepEqual(sent().map(it => [it.flags, it.seq]), [[RST, 77], [SYN, 0]]);
  arrive(SYN | ACK, 0, 1);
  assert.equal(connection.state, "ESTABLISHED");
});

for (const order of ["both at once", "ours first"])
  test(`both ends close: ${order}`, async () => {
    const { arrive, sent, connection, goOff, host } = played(), text = readerOf(connection);
    connection.end();
    assert.deepEqual(sent().map(it => [it.flags, it.seq, it.ack]), [[ACK | FIN, 1, 1]]);
    if (order === "both at once") {
      arrive(ACK | FIN, 1, 1);
      assert.equal(connection.state, "CLOSING");
      acks(sent(), 2);
      arrive(ACK, 2, 2);
    } else {
      arrive(ACK, 1, 2, "x");
      assert.equal(connection.state, "FIN-WAIT-2");
      acks(sent(), 2);
      arrive(ACK | FIN, 2, 2);
      acks(sent(), 3);
    }
    assert.equal(connection.state, "TIME-WAIT");
    assert.deepEqual(await text(), [order === "ours first" ? "x" : "", "end"]);
    arrive(ACK | FIN, order === "ours first" ? 2 : 1, 2);
    acks(sent(), order === "ours first" ? 3 : 2);
    assert.equal(goOff(), 60000);
    assert.deepEqual([connection.state, host.connections.size, sent()], ["CLOSED", 0, []]);
  });

test("our end goes again until it is acknowledged", () => {
  const { arrive, sent, connection, goOff } = played();
  arrive(ACK | FIN, 1, 1);
  assert.deepEqual(sent().map(it => [it.flags, it.seq]), [[ACK | FIN, 1]]);
  goOff();
  assert.deepEqual(sent().map(it => [it.flags, it.seq]), [[ACK | FIN, 1]]);
  arrive(ACK, 2, 2);
  assert.equal(connection.state, "CLOSED");
});

test("a segment to no connection is reset, and a reset is not", () => {
  const sent = [], host = new Host(it => sent.push(read(it).segment));
  const arrive = flags => host.receive(tcpDatagram([10, 0, 0, 1], [10, 0, 0, 2], 1,
    { fromPort: 80, toPort: 9, seq: 7, ack: 8, flags, window: 1, mss: 0, text: Buffer.from("abc") }));
  arrive(ACK);
  arrive(SYN);
  arrive(RST | ACK);
  assert.deepEqual(sent.map(it => [it.flags, it.seq, it.ack]), [[RST, 8, 0], [RST | ACK, 0, 11]]);
});

test("a datagram of another host, or to another, changes nothing", () => {
  const { host, sent, connection } = played();
  const segment = { fromPort: 80, toPort: connection.port, seq: 5001, ack: 0, flags: RST, window: 1, mss: 0, text: [] };
  host.receive(tcpDatagram([10, 0, 0, 3], [10, 0, 0, 2], 1, segment));
  host.receive(tcpDatagram([10, 0, 0, 1], [10, 0, 0, 4], 1, segment));
  assert.deepEqual([sent(), connection.state], [[], "ESTABLISHED"]);
  host.receive(tcpDatagram([10, 0, 0, 1], [10, 0, 0, 2], 1, segment));
  assert.equal(connection.state, "CLOSED");
});

test("a segment of another port of the node is to no connection", () => {
  const { host, connection, timers } = played(), sent = [];
  host.send = it => sent.push(read(it).segment);
  host.receive(tcpDatagram([10, 0, 0, 1], [10, 0, 0, 2], 1,
    { fromPort: 81, toPort: connection.port, seq: 5001, ack: 7, flags: ACK | FIN, window: 1, mss: 0, text: [] }));
  assert.deepEqual(sent.map(it => [it.flags, it.toPort, it.seq]), [[RST, 81, 7]]);
  assert.deepEqual([connection.state, timers.size], ["ESTABLISHED", 1]);
});

test("a SYN that is reset for an older number is not given up", () => {
  const { arrive, sent, connection } = played({ isOpened: false });
  arrive(RST | ACK, 0, 2);
  arrive(RST, 0, 1);
  assert.deepEqual([connection.state, sent()], ["SYN-SENT", []]);
  arrive(RST | ACK, 0, 1);
  assert.equal(connection.state, "CLOSED");
});

test("an echo reply with another payload, or of another number, is none", async () => {
  const sent = [], host = new Host(it => sent.push(it)), ping = host.ping(4, 200);
  const reply = change => {
    const it = sent[0].slice();
    [it[12], it[13], it[14], it[15], it[16], it[17], it[18], it[19]] = [10, 0, 0, 1, 10, 0, 0, 2];
    it[20] = 0;
    change(it);
    it.set([0, 0], 22);
    let sum = 0;
    for (let at = 20; at < it.length; at += 2) sum += it[at] << 8 | it[at + 1];
    while (sum > 0xffff) sum = (sum & 0xffff) + (sum >>> 16);
    it.set([~sum >> 8 & 0xff, ~sum & 0xff], 22);
    host.receive(it);
  };
  reply(it => { it[30] ^= 1; });
  reply(it => { it[25] ^= 1; });
  await assert.rejects(ping, /no reply/);
  const other = host.ping(4);
  sent.shift();
  reply(() => {});
  assert.ok(await other >= 0);
});

// A request whose reply is written by hand.
async function asked(...pieces) {
  let connection;
  const it = played({ connect: host => {
    const reply = get(host, "/x");
    connection = [...host.connections.values()][0];
    return { reply };
  } });
  let seq = 1;
  for (const piece of pieces) {
    if (piece === null) it.arrive(ACK | FIN, seq, 1);
    else it.arrive(ACK, seq, 1, piece);
    seq += piece?.length ?? 1;
  }
  it.connection.reply.catch(() => {});
  await new Promise(resolve => setTimeout(resolve, 10));
  return { reply: it.connection.reply, connection };
}

test("a reply's head is read, however it is cut", async () => {
  const reply = await (await asked("HTTP/1.0 20", "0 OK\r\nServer: x\r\nContent-Length:  3 \r", "\n\r", "\nab", "c", null)).reply;
  assert.deepEqual([reply.status, reply.reason, reply.headers], [200, "OK", [["Server", "x"], ["Content-Length", "3"]]]);
  assert.equal(Buffer.from(await all(reply.body)).toString(), "abc");
});

test("a reply that is shorter than its length is cut, and one without a head is none", async () => {
  const short = await asked("HTTP/1.0 200 OK\r\nContent-Length: 4\r\n\r\nabc", null);
  await assert.rejects(all((await short.reply).body), /after 3 bytes of 4/);
  const others = [[/no head/, "hello\r\n\r\n"], [/no head/, "x".repeat(9000)], [/before a head/, "HTTP/1.0 200 OK\r\n", null]];
  for (const [why, ...pieces] of others) {
    const { reply, connection } = await asked(...pieces);
    await assert.rejects(reply, why);
    assert.ok(["CLOSED", "LAST-ACK"].includes(connection.state));
  }
});
