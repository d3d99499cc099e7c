// Attacks of a host that is not on the path: it sends datagrams with any source, and sees only what is sent to itself.
//
//     node attacks.mjs bare|guarded|quiet [PROGRAM]
//
// bare: a device without a secret: those of WITHOUT_SECRET must work, and no other; guarded: none may work against a device with a secret;
// quiet: as guarded, and prints only those that work. The status is 1 if another one works. PROGRAM is the command of a program as device.c
// over a library for C; without it the device is web/node.wasm.
import { Client, Node } from "./devices.mjs";
import { ACK, FIN, PSH, RST, SYN, add32, read, show, tcp } from "./packets.mjs";

const EVIL = [10, 0, 0, 66], VICTIM = [10, 0, 0, 2], PRESS = "GET /lamp-on.html HTTP/1.0\r\n\r\n";
const presses = node => node.hits("/lamp-on.html");
const opened = (node, options = {}) => {
  const client = new Client(node, { irs: 100, ...options });
  client.open();
  return client;
};
// Segments that pretend to come from the client of `opened`.
const forged = fields => tcp({ from: VICTIM, port: 4000, ...fields });

// A blind RST: addresses and ports are known, the number is a guess, which here is 100 after RCV.NXT, or anywhere.
function blindReset(node, seq) {
  opened(node);
  node.input(forged({ flags: RST, seq }));
  return [node.live.length === 0, `${node.live.length} connections left`];
}

function resetHalfOpen(node) {
  node.input(forged({ flags: SYN, seq: 77 }));
  node.input(forged({ flags: RST, seq: 0xDEADBEEF }));
  return [node.live.length === 0, `${node.live.length} connections left`];
}

// The attacker opens a connection of its own to learn the ISS. The SYN-ACK of the second goes to the victim, who is silent.
function predictedNumber(node) {
  node.tick(3);
  const iss = read(node.input(tcp({ from: EVIL, port: 5000, flags: SYN, seq: 1 }))[0]).seq;
  node.input(tcp({ from: VICTIM, port: 6000, flags: SYN, seq: 500 }));
  node.input(tcp({ from: VICTIM, port: 6000, flags: ACK | PSH, seq: 501, ack: add32(iss, 1), text: PRESS }));
  return [presses(node) > 0, `${presses(node)} presses`];
}

// The client tries as Linux does: after 0, 1, 3, 7, 15 and 31 s.
function tenHalfOpen(node) {
  for (let i = 0; i < 10; i++) node.input(tcp({ from: [10, 0, 1, i + 1], port: 1000 + i, flags: SYN, seq: 9 }));
  const client = new Client(node, { irs: 5 });
  let ticks = 0, tries = 0;
  for (const at of [0, 2, 6, 14, 30, 62]) {
    node.tick(at - ticks);
    ticks = at, tries++;
    client.open();
    if (client.state === "ESTABLISHED") break;
  }
  if (client.state === "ESTABLISHED") client.get("/state.shtml");
  return [!(client.isWhole && tries === 1), client.isWhole ? `a page after ${tries} SYNs` : `no page after ${tries} SYNs`];
}

// A flood before each SYN of the client, and between its SYN and its ACK. The guard must let `least` of 20 clients through.
function flood(node, rate, least) {
  let sent = 0, pages = 0;
  const some = count => {
    for (let i = 0; i < count; i++, sent++)
      node.input(tcp({ from: [10, 1, sent >> 8 & 255, sent & 255], port: 2000 + sent % 50000, flags: SYN, seq: sent }));
  };
  some(10);
  for (let trial = 0; trial < 20; trial++) {
    const client = new Client(node, { port: 30000 + trial, irs: 100 });
    const first = node.input(tcp({ port: client.port, flags: SYN, seq: 100 }));
    some(rate);
    const answer = first.map(read).find(s => s.dport === client.port && s.flags === (SYN | ACK));
    if (answer) {
      Object.assign(client, { state: "ESTABLISHED", snd: 101, rcv: add32(answer.seq, 1) });
      client.send({ flags: ACK });
      client.get("/state.shtml");
    }
    if (client.isWhole) pages++, client.send({ flags: FIN | ACK });
    node.tick(1);
  }
  return [pages < least, `${pages} of 20 pages`];
}

// No number is known, and a window of 1 makes each later segment one byte.
function blindWindow(node) {
  const client = opened(node, { irs: 0xABCDEF00 });
  node.input(forged({ flags: ACK, seq: 0x11111111, ack: 0x22222222, window: 1 }));
  client.isDeaf = true;
  const [text] = client.get("/index.html").map(read).filter(s => s.text.length);
  return [text?.text.length === 1, `the next segment has ${text?.text.length} bytes`];
}

// RCV.NXT is guessed, and the rest is not.
function injected(node, fields) {
  opened(node);
  node.input(forged({ seq: 101, text: PRESS, ...fields }));
  return [presses(node) > 0, `${presses(node)} presses`];
}

// An ACK with the right acknowledgement number and any sequence number.
function foreignSequence(node) {
  const client = opened(node);
  client.isDeaf = true;
  const [text] = client.get("/index.html").map(read).filter(s => s.text.length);
  const sent = node.input(forged({ flags: ACK, seq: 0x77777777, ack: add32(text.seq, text.text.length) }));
  return [sent.length > 0, sent.map(show).join("; ") || "nothing sent"];
}

function foreignSource(node, from) {
  const sent = node.input(tcp({ from, port: 80, flags: SYN, seq: 1 }));
  return [sent.length > 0, sent.map(show).join("; ") || "no answer"];
}

// LAND: the own address and port, on a link that returns what the node sends.
function land(node) {
  let sent = node.input(tcp({ from: [10, 0, 0, 1], port: 80, flags: SYN, seq: 1 })), count = 0;
  for (; sent.length && count < 1000; sent = sent.flatMap(d => node.input(d))) count += sent.length;
  return [count > 10, `${count} datagrams`];
}

// Two nodes would answer each other without end.
function waitingAnswers(node) {
  const client = opened(node);
  client.get("/state.shtml");
  client.send({ flags: FIN | ACK });
  const state = node.states[0], sent = node.input(forged({ flags: ACK, seq: add32(client.snd, 1), ack: client.rcv }));
  return [sent.length > 0, `${state}: ${sent.map(show).join("; ") || "nothing sent"}`];
}

function tenIdle(node) {
  for (let i = 0; i < 10; i++) opened(node, { from: EVIL, port: 7000 + i });
  const client = opened(node, { irs: 5 });
  return [client.state !== "ESTABLISHED", client.state];
}

// Ten hosts get a page, acknowledge its FIN, and never close: FIN-WAIT-2.
function tenFinished(node) {
  for (let i = 0; i < 10; i++) finished(node, [10, 0, 2, i + 1], 7000 + i);
  const state = node.states.join(), client = opened(node, { irs: 5 });
  return [client.state !== "ESTABLISHED" || !/^(FIN-WAIT-2,?){10}$/.test(state), client.state];
}

// ---- which connection is given up

const host = number => [10, 0, 3, number];
const halfOpen = (node, from, port) => node.input(tcp({ from, port, flags: SYN, seq: 9 }));
const idle = (node, from, port) => opened(node, { from, port });
function finished(node, from, port) {
  const client = idle(node, from, port);
  client.get("/state.shtml");
}
// It waits for an acknowledgement.
function served(node, from, port) {
  const client = idle(node, from, port);
  client.isDeaf = true;
  client.get("/state.shtml");
}

// A SYN that finds no slot, by default of another host. It must end none but the one from port 9000.
function ends(node, fields = {}) {
  const ports = () => node.live.map(row => row.port), before = ports();
  node.input(tcp({ from: EVIL, port: 5000, flags: SYN, seq: 1, ...fields }));
  const after = ports(), ended = before.filter(port => !after.includes(port));
  return [ended.some(port => port !== 9000), `ended: ${ended.join() || "none"}`];
}
const tenHosts = node => { for (let i = 0; i < 10; i++) halfOpen(node, host(i), 1000 + i); };

function damagedSyn(node) {
  tenHosts(node);
  return ends(node, { sum: 0x1234 });
}

function synToClosedPort(node) {
  tenHosts(node);
  return ends(node, { dport: 81 });
}

function synWithMore(node) {
  tenHosts(node);
  return [SYN | FIN, SYN | PSH, SYN | ACK, SYN | RST].map(flags => ends(node, { flags })).find(([did]) => did) ?? [false, "ended: none"];
}

// The first host has `count` connections, and the others fewer than four each.
function crowd(node, count, opens) {
  for (let i = 0; i < count; i++) opens(node, VICTIM, 4000 + i);
  for (let i = count; i < 10; i++) idle(node, host(i % 3), 4000 + i);
}

function hostWithThree(node) {
  crowd(node, 3, idle);
  return ends(node);
}

function synOfItsOwnHost(node) {
  crowd(node, 4, idle);
  return ends(node, { from: VICTIM });
}

function servedBeforeIdle(node) {
  crowd(node, 3, served);
  node.input(tcp({ from: host(0), port: 4003, flags: RST, seq: 101 }));
  idle(node, VICTIM, 9000);
  return ends(node);
}

function handshakeBeforeFinished(node) {
  finished(node, host(0), 9000);
  for (let i = 1; i < 10; i++) halfOpen(node, host(i), 1000 + i);
  return ends(node);
}

function handshakeBeforeOlder(node) {
  halfOpen(node, host(0), 9000);
  node.tick(10);
  for (let i = 1; i < 10; i++) halfOpen(node, host(i), 1000 + i);
  return ends(node);
}

function handshakeBeforeOlderByTicks(node) {
  halfOpen(node, host(0), 9000);
  node.tick(2);
  for (let i = 1; i < 10; i++) halfOpen(node, host(i), 1000 + i);
  return ends(node);
}

function finishedBeforeOlder(node) {
  finished(node, host(0), 9000);
  node.tick(5);
  for (let i = 1; i < 10; i++) finished(node, host(i), 1000 + i);
  return ends(node);
}

// ----

// The RST for a port that is not served has the number that the segment named, or 0.
function resetTells(node) {
  const rst = fields => read(node.input(tcp({ from: EVIL, port: 80, dport: 81, seq: 5, ...fields }))[0]).seq;
  const [bare, named] = [rst({ flags: FIN, ack: 0 }), rst({ flags: ACK, ack: 1234 })];
  return [bare !== 0 || named !== 1234, `${bare} and ${named}`];
}

function nearNumbers(node) {
  const iss = (from, port) => read(node.input(tcp({ from, port, flags: SYN, seq: 1 }))[0]).seq;
  const [a, b] = [iss(EVIL, 5000), iss(VICTIM, 6000)];
  return [Math.abs(a - b) < 1000, `${a} and ${b}`];
}

const SOURCES = {
  "own address": [10, 0, 0, 1], "broadcast 255.255.255.255": [255, 255, 255, 255], "network 0.0.0.0": [0, 0, 0, 0],
  "multicast 224.0.0.1": [224, 0, 0, 1], "loopback 127.0.0.1": [127, 0, 0, 1],
};
// How many SYNs in each round trip of a client, and how many of 20 clients must still have their page.
const FLOODS = { 1: 15, 5: 8, 9: 4, 10: 3, 20: 1 };
const ATTACKS = {
  "a RST anywhere ends an ESTABLISHED connection": node => blindReset(node, 0xDEADBEEF),
  "a RST in the window ends an ESTABLISHED connection": node => blindReset(node, 201),
  "a RST ends a connection in SYN-RECEIVED": resetHalfOpen,
  "a predicted number presses a button in another host's name": predictedNumber,
  "ten SYNs lock clients out": tenHalfOpen,
  ...Object.fromEntries(Object.entries(FLOODS).map(([rate, least]) => [`${rate} SYNs in a round trip`, node => flood(node, +rate, least)])),
  "a window of 1, with no number known": blindWindow,
  "text without ACK": node => injected(node, { flags: PSH }),
  "text that acknowledges what was never sent": node => injected(node, { flags: PSH | ACK, ack: 0x33333333 }),
  "a SYN within a connection carries text": node => injected(node, { flags: SYN }),
  "an ACK with a foreign sequence number": foreignSequence,
  ...Object.fromEntries(Object.entries(SOURCES).map(([name, from]) => [`a SYN from the ${name}`, node => foreignSource(node, from)])),
  "LAND: own address and port": land,
  "TIME-WAIT answers a bare ACK": waitingAnswers,
  "ten idle connections of one host lock clients out": tenIdle,
  "ten finished connections lock clients out": tenFinished,
  "a SYN with a wrong checksum ends a connection": damagedSyn,
  "a SYN to a closed port ends a connection": synToClosedPort,
  "a SYN with another flag ends a connection": synWithMore,
  "a SYN ends one of three connections of a host": hostWithThree,
  "a SYN in a host's name ends a connection of it": synOfItsOwnHost,
  "a SYN ends a page on its way, beside an idle connection": servedBeforeIdle,
  "a SYN ends a handshake, beside a finished connection": handshakeBeforeFinished,
  "a SYN ends a handshake, beside one whose SYN-ACK was sent again": handshakeBeforeOlder,
  "a SYN ends a handshake, beside one older by two ticks": handshakeBeforeOlderByTicks,
  "a SYN ends a finished connection, beside an older one": finishedBeforeOlder,
  "the RST of a closed port tells a number": resetTells,
  "two hosts have near numbers": nearNumbers,
};

// A device that does not answer an honest client as it should is found too.
function outcome(attack, node) {
  try {
    return attack(node);
  } catch (error) {
    return [true, error.message];
  }
}

// Tries all attacks, and returns the names of those that work.
function tried(options, isTold) {
  const works = [];
  for (const [name, attack] of Object.entries(ATTACKS)) {
    const node = new Node(options), [did, what] = outcome(attack, node);
    node.close();
    if (did) works.push(name);
    if (isTold) console.log(`${did ? "WORKS" : "fails"}  ${name}: ${what}`);
  }
  if (isTold) console.log(`${works.length} of ${Object.keys(ATTACKS).length} attacks work`);
  return works;
}

// Without a secret every number can be predicted, and so can the connection that is given up next.
const WITHOUT_SECRET = ["a predicted number presses a button in another host's name", "10 SYNs in a round trip", "20 SYNs in a round trip",
  "two hosts have near numbers"];
const [mode, program] = process.argv.slice(2), isQuiet = mode === "quiet";
if (!["bare", "guarded", "quiet"].includes(mode)) {
  console.log("usage: node attacks.mjs bare|guarded|quiet [PROGRAM]");
  process.exit(2);
}
const works = tried({ program, isProtected: mode !== "bare" }, !isQuiet), expected = mode === "bare" ? WITHOUT_SECRET : [];
if (isQuiet) console.log(works.join(", "));
if (works.join() !== expected.join()) process.exitCode = 1;
