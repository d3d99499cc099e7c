// The sequence diagram: one row for each datagram, in the words of `uipd replay .. show` (crates/link_replay/README.md). Each
// retransmission is compared with the bytes that were sent before at its sequence numbers, of which each has one byte
// (RFC 793 section 3.3). So the diagram is a test of any node.
import { ACK, FIN, PSH, RST, SYN, read } from "./wire.js";
import { isAfter, plus } from "./connection.js";

const NAMES = [[SYN, "S"], [ACK, "A"], [PSH, "P"], [FIN, "F"], [RST, "R"]];
const LONG_NAMES = { S: "SYN", A: "ACK", P: "PSH", F: "FIN", R: "RST" };
const ECHO = { 0: "reply", 8: "echo" }, PING = { echo: "ping", reply: "reply to the ping" };
const KEPT = 65536, REMEMBERED = 64;
const UNKNOWN = -1, END = 256, START = 257;   // what a number has beside bytes: nothing yet, a FIN, a SYN

// One direction of a connection: the byte of each of its last numbers.
class Flow {
  #kept = new Int16Array(1024).fill(UNKNOWN);

  constructor(first) {
    this.first = this.next = first;
  }

  // Whether a segment, or a part of it, went before; and the first number at which it is another than then, or null.
  take({ seq, flags, text }) {
    const units = [...flags & SYN ? [START] : [], ...text, ...flags & FIN ? [END] : []];
    let isAgain = false, otherAt = null;
    units.forEach((unit, n) => {
      const old = this.#put(plus(seq, n), unit);
      if (old === UNKNOWN) return;
      isAgain = true;
      if (old !== unit) otherAt ??= plus(seq, n - this.first);
    });
    return { isAgain, otherAt };
  }

  // Puts a byte at a number that had none; returns what it had.
  #put(number, unit) {
    const ahead = number - this.next | 0;
    if (ahead < -this.#kept.length) return UNKNOWN;
    if (ahead >= 0) this.#reach(plus(number, 1));
    const at = this.#place(number), old = this.#kept[at];
    if (old === UNKNOWN) this.#kept[at] = unit;
    return old;
  }

  #place(number) {
    return number % this.#kept.length;
  }

  // Makes room for the numbers below `end`; the oldest are forgotten.
  #reach(end) {
    const count = plus(end, -this.next);
    while (plus(end, -this.first) > this.#kept.length && this.#kept.length < KEPT) this.#grow();
    if (count >= this.#kept.length) this.#kept.fill(UNKNOWN);
    else for (; this.next !== end; this.next = plus(this.next, 1)) this.#kept[this.#place(this.next)] = UNKNOWN;
    this.next = end;
  }

  #grow() {
    const old = this.#kept;
    this.#kept = new Int16Array(2 * old.length).fill(UNKNOWN);
    for (let n = 1; n <= old.length; n++) {
      const number = plus(this.next, -n);
      this.#kept[this.#place(number)] = old[number % old.length];
    }
  }
}

export class Sequence {
  #count = 0;
  #clients = 0;
  #connections = new Map();   // by ports: { client, to, from }, its number and its two flows

  // The row of a datagram: { number, who, flags, seq, len, ack, carries, isAgain, otherAt }, and `bad` where a check fails. Numbers of
  // bytes are counted from the connection's first; `ack` is undefined if there is none, and `carries` is what its text begins with.
  add(datagram, isToNode) {
    const row = { number: ++this.#count, isToNode, size: datagram.length, seq: 0, len: 0, isAgain: false, otherAt: null };
    const { bad, echo, segment } = read(datagram);
    if (bad) return { ...row, who: isToNode ? "p" : "n0", flags: bad.replace(" ", "-"), bad };
    if (echo) return { ...row, who: isToNode ? "p" : "n0", flags: ECHO[echo.type] ?? `icmp-${echo.type}` };
    const connection = this.#connectionOf(segment, isToNode), [flow, other] = isToNode ? [connection.to, connection.from] : [connection.from, connection.to];
    const names = NAMES.filter(([bit]) => segment.flags & bit).map(([, name]) => name);
    return {
      ...row, ...flow.take(segment), who: `${isToNode ? "c" : "n"}${connection.client}`, flags: names.join("") || "-",
      seq: plus(segment.seq, -flow.first), len: segment.text.length, carries: carriedBy(segment.text),
      ack: segment.flags & ACK && other ? plus(segment.ack, -other.first) : undefined,
    };
  }

  // A SYN of ours with another first number begins another connection.
  #connectionOf({ fromPort, toPort, seq, flags }, isToNode) {
    const ports = isToNode ? `${fromPort} ${toPort}` : `${toPort} ${fromPort}`, side = isToNode ? "to" : "from";
    let connection = this.#connections.get(ports);
    const isAnew = !!(flags & SYN) && connection?.[side]?.first !== seq;
    if (!connection || isAnew && isToNode) {
      connection = { client: ++this.#clients, to: null, from: null };
      this.#connections.delete(ports);
      this.#connections.set(ports, connection);
      if (this.#connections.size > REMEMBERED) this.#connections.delete(this.#connections.keys().next().value);
    }
    if (isAnew || !connection[side]) connection[side] = new Flow(seq);
    return connection;
  }
}

// The request or the status that a text begins with (RFC 1945 sections 5.1 and 6.1), or an empty text.
function carriedBy(text) {
  const line = String.fromCharCode(...text.subarray(0, 96));
  return /^GET \S+/.exec(line)?.[0] ?? /^HTTP\/\d\.\d (\d{3} [^\r\n]*)/.exec(line)?.[1] ?? "";
}

export const isEcho = ({ flags }) => /^(echo|reply|icmp-.*)$/.test(flags);

// A row in words: what it is, and its numbers. A report has neither texts nor acknowledgements.
export function labelOf(row) {
  const { bad, flags, seq, len, ack, carries } = row, names = flagsOf(row), acked = ack === undefined ? "" : `ack ${ack}`;
  if (bad) return { what: flags, numbers: "" };
  if (isEcho(row)) return { what: PING[flags] ?? flags, numbers: "" };
  if (flags === "A" && !len) return { what: ack === undefined ? "ACK" : `ACK ${ack}`, numbers: "" };
  const bytes = `bytes ${seq} to ${seq + len - 1}`, end = flags.includes("F") ? "FIN" : "";
  const numbers = [len && carries ? bytes : "", end && !len ? `seq ${seq}` : "", acked];
  const what = !len ? names.replace(/^ACK (?=FIN)/, "") : [carries || bytes, end].filter(Boolean).join(" + ");
  return { what, numbers: numbers.filter(Boolean).join(", ") };
}

// A row's last column in a report: whether it is a retransmission, and which faults hit it.
export function verdictOf({ isAgain, otherAt = null, hasBytes = true, fate = [] }) {
  const bytes = !hasBytes ? "" : otherAt === null ? ", the same bytes" : `, OTHER BYTES at ${otherAt}`;
  return [isAgain ? `again${bytes}` : "", ...fate].filter(Boolean).join("; ");
}

// The same on the page.
export function wordsOf({ isAgain, otherAt = null, hasBytes = true, fate = [] }) {
  const bytes = !hasBytes ? "" : otherAt === null ? ", identical" : `, DIFFERENT at ${otherAt}`;
  return [isAgain ? `retransmission${bytes}` : "", ...fate].filter(Boolean).join("; ");
}

// The flags of a row, written out.
export function flagsOf({ flags }) {
  return /^[SAPFR]+$/.test(flags) ? NAMES.filter(([, name]) => flags.includes(name)).map(([, name]) => LONG_NAMES[name]).join(" ") : flags;
}

// A row as a line of a report.
export function rowText(row) {
  const { number, time, who, flags, seq, len } = row;
  return `${number} ${time} ${who} ${flags} ${seq} ${len} ${verdictOf(row)}`.trimEnd();
}

const LINE = /^(\d+) ([\d.]+) ([cn]\d+|p) (\S+) (\d+) (\d+)( again)?(?:, (?:the same bytes|OTHER BYTES at (\d+)))?(?:;? (.*))?$/;

// The rows of a report: of `uipd replay .. show`, whose times are ticks, or of a diagram that was saved here.
export function readReport(text) {
  const rows = text.split("\n").map(line => LINE.exec(line.trimEnd())).filter(Boolean).map(parts => {
    const [line, number, time, who, flags, seq, len, again, otherAt, fate] = parts;
    return {
      number: +number, time, who, flags, seq: +seq, len: +len, isToNode: /^[cp]/.test(who), isAgain: !!again,
      otherAt: otherAt === undefined ? null : +otherAt, hasBytes: /bytes/i.test(line), fate: fate?.split("; ") ?? [],
    };
  });
  if (!rows.length) throw new Error("no row of a sequence diagram in it: the file has to be what `uipd replay SITE SCHEDULE show` writes");
  return { rows, unit: rows.some(({ time }) => time.includes(".")) ? "s" : "ticks" };
}
