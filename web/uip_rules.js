// A server by uIP's own rules, as a line: it stores no sent data. To retransmit, it generates the text again, and sends as many
// bytes as the first time, from the same place on (uip.c keeps the length of what is outstanding, not the bytes). If the text has
// changed, one sequence number has two bytes. test/by_uips_rules.py is an older, independent one.
//
// Its page is the meter of meter.js.
import { ACK, FIN, PSH, RST, SYN, SlipReader, read, slipText, tcpDatagram } from "./wire.js";
import { plus } from "./connection.js";
import { lineTo } from "./inside.js";
import { HEAD, LITRES, TAIL, textOf } from "./meter.js";

const RETRY = 6, MOST_RETRIES = 8, TICK = 500;   // ticks until a retransmission, and how many there are, as uIP's usual settings
const FIRST = 1000, LARGEST = 1460;
const REPLY = `HTTP/1.0 200 OK\r\nContent-Type: text/html\r\n\r\n${HEAD}`;
const NEXT = { syn: "request", request: "head", head: "reading", reading: "tail", tail: "end", end: "over" };

const ascii = text => Uint8Array.from(text, sign => sign.charCodeAt(0));

// A connection: its numbers and its place in the page, and not a byte of what was sent.
class Connection {
  #place = "syn";
  #offset = 0;      // bytes of the text at this place that are acknowledged
  #length = 0;      // of what is outstanding, in sequence numbers
  #text = 0;        // of these, how many are bytes
  #due = 0;
  #retries = 0;
  #ticks = 0;       // since the reading was generated first

  constructor(send, { seq, mss }) {
    Object.assign(this, { send, mss: Math.min(mss, LARGEST) });
    this.first = seq;
    this.acked = FIRST;
    this.received = plus(seq, 1);
    this.#transmit();
  }

  // The text at this place, as it is now.
  #generate() {
    if (this.#place === "head") return REPLY;
    if (this.#place === "reading") return textOf(LITRES[this.#ticks ? 1 : 0]);
    return this.#place === "tail" ? TAIL : "";
  }

  // Sends what is due at this place, generated anew; of a retransmission as many bytes as the first time.
  #transmit(isAgain = false) {
    const flags = { syn: SYN | ACK, end: FIN | ACK }[this.#place] ?? PSH | ACK, text = ascii(this.#generate()).slice(this.#offset);
    if (!isAgain) {
      this.#text = Math.min(text.length, this.mss);
      this.#length = this.#text + (flags & (SYN | FIN) ? 1 : 0);
      this.#retries = 0;
    }
    this.#due = RETRY;
    this.send({ flags, seq: this.acked, ack: this.received, text: text.slice(0, this.#text) });
  }

  receive({ seq, ack, flags, text }) {
    let isDue = false;
    if (this.#length && ack === plus(this.acked, this.#length)) isDue = this.#takeAck(ack);
    if (seq === this.received) {
      this.received = plus(this.received, text.length + (flags & FIN ? 1 : 0));
      if (text.length && this.#place === "request") isDue = this.#enter("head");
    }
    if (isDue) this.#transmit();
    else if (text.length || flags & FIN)
      this.send({ flags: ACK, seq: plus(this.acked, this.#length), ack: this.received, text: ascii("") });
  }

  // What was outstanding arrived. Returns whether something is to be sent.
  #takeAck(ack) {
    this.acked = ack;
    this.#offset += this.#text;
    this.#length = this.#text = 0;
    return this.#offset < this.#generate().length || this.#enter(NEXT[this.#place]);
  }

  #enter(place) {
    if (place === "reading") this.#ticks = 0;
    this.#place = place;
    this.#offset = 0;
    return place !== "request" && place !== "over";
  }

  // Returns whether the connection continues.
  tick() {
    this.#ticks++;
    if (!this.#length || --this.#due > 0) return this.#place !== "over";
    if (++this.#retries > MOST_RETRIES) return false;
    this.#transmit(true);
    return true;
  }
}

// The server as a line, as nodeInside.
export function serverByUipsRules({ clock }) {
  const connections = new Map(), slip = new SlipReader();
  function receive(datagram, send) {
    const { bad, from, to, segment } = read(datagram);
    if (bad || !segment) return;
    const { fromPort, toPort, flags, seq } = segment, key = `${from} ${fromPort}`;
    const ports = { fromPort: toPort, toPort: fromPort, window: 1460, mss: 0 };
    const answer = it => send(slipText(tcpDatagram([...to], [...from], 0, { ...it, ...ports })));
    if (flags & RST) connections.delete(key);
    else if (flags & SYN) {
      if (connections.get(key)?.first !== seq) connections.set(key, new Connection(answer, segment));
    } else if (connections.has(key)) connections.get(key).receive(segment);
    else answer({ flags: RST, seq: segment.ack, ack: 0, text: ascii("") });
  }
  function tick() {
    for (const [key, connection] of connections) if (!connection.tick()) connections.delete(key);
  }
  return lineTo({ feed: (bytes, send) => slip.feed(bytes, datagram => receive(datagram, send)), tick }, clock, TICK);
}
