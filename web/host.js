// A host with one node at the other end of its line: it pings (RFC 792), and opens TCP connections (RFC 793 section 3.4) from ports of its own,
// as a browser's system would. It gets each datagram by `receive` and sends each by `send`.
import { Clock } from "./clock.js";
import { Connection, EMPTY, plus, random32 } from "./connection.js";
import { ACK, FIN, LARGEST, RST, SYN, echoDatagram, read, tcpDatagram } from "./wire.js";

const FIRST_PORT = 49152, PORTS = 16384, LEAST_WAIT = 1000, MOST_WAIT = 3000;   // RFC 6335 section 6: ports for clients

const isSame = (a, b) => a.length === b.length && a.every((byte, at) => byte === b[at]);

export class Host {
  connections = new Map();   // by our port
  #id = 0;
  #port = random32() % PORTS;
  #pings = new Map();        // by number
  #ping = random32();
  #trip = null;              // { mean, spread } of round trips: all connections share the line

  // `waits` receives a connection for which nothing arrived for some milliseconds.
  constructor(send, options = {}) {
    const { own = [10, 0, 0, 2], node = [10, 0, 0, 1], mss = LARGEST - 40, clock = new Clock(), waits = () => {} } = options;
    Object.assign(this, { send, own, node, mss, clock, waits });
  }

  // A connection to a port of the node. Our ports are taken in turn, so none is used again before 16383 others were.
  connect(toPort = 80) {
    if (this.connections.size >= PORTS) throw new Error("no port is free");
    do this.#port = (this.#port + 1) % PORTS; while (this.connections.has(FIRST_PORT + this.#port));
    const connection = new Connection(this, FIRST_PORT + this.#port, toPort);
    this.connections.set(connection.port, connection);
    connection.transmit();
    return connection;
  }

  leave(connection) {
    if (this.connections.get(connection.port) === connection) this.connections.delete(connection.port);
  }

  // The milliseconds until the reply to an echo request came, whose payload is the same.
  ping(length = 56, patience = 5000) {
    const number = this.#ping = plus(this.#ping, 1), start = this.clock.now();
    const payload = Uint8Array.from({ length }, (_, at) => at & 0xff);
    return new Promise((resolve, reject) => {
      const fail = why => { this.#pings.delete(number); this.clock.cancel(timer); reject(new Error(why)); };
      const timer = this.clock.later(patience, () => fail("no reply"));
      const receive = reply => {
        if (!isSame(reply, payload)) return;
        this.#pings.delete(number);
        this.clock.cancel(timer);
        resolve(this.clock.now() - start);
      };
      this.#pings.set(number, { receive, fail });
      this.send(echoDatagram(this.own, this.node, this.#nextId(), number, payload));
    });
  }

  #nextId() {
    return this.#id = this.#id + 1 & 0xffff;
  }

  sendSegment(fromPort, toPort, flags, seq, ack, { text = EMPTY, mss = 0, window = 0 } = {}) {
    const segment = { fromPort, toPort, flags, seq, ack, text, mss, window };
    this.send(tcpDatagram(this.own, this.node, this.#nextId(), segment));
  }

  receive(datagram) {
    const { bad, from, to, echo, segment } = read(datagram);
    if (bad || !isSame(from, this.node) || !isSame(to, this.own)) return;
    if (echo) {
      if (echo.type === 0) this.#pings.get(echo.number)?.receive(echo.payload);
      return;
    }
    const connection = this.connections.get(segment.toPort);
    if (connection?.toPort === segment.fromPort) connection.receive(segment);
    else this.#refuse(segment);
  }

  // A segment to no connection is answered by a reset, unless it is one (RFC 793 section 3.4, "Reset Generation").
  #refuse({ fromPort, toPort, flags, seq, ack, text }) {
    if (flags & RST) return;
    const length = text.length + (flags & SYN ? 1 : 0) + (flags & FIN ? 1 : 0);
    if (flags & ACK) this.sendSegment(toPort, fromPort, RST, ack, 0);
    else this.sendSegment(toPort, fromPort, RST | ACK, 0, plus(seq, length));
  }

  // How long a first transmission waits for its acknowledgement (RFC 6298 section 2). It is bounded: a browser that stalls measures
  // long round trips, and a node by uIP's rules resets a connection from which nothing arrives for ten seconds.
  firstWait() {
    return this.#trip ? Math.min(MOST_WAIT, Math.max(LEAST_WAIT, this.#trip.mean + 4 * this.#trip.spread)) : LEAST_WAIT;
  }

  learnTrip(time) {
    const trip = this.#trip ??= { mean: time, spread: time / 2 };
    trip.spread += (Math.abs(time - trip.mean) - trip.spread) / 4;
    trip.mean += (time - trip.mean) / 8;
  }

  // Ends all that is under way, as when the line went away.
  close(why = "the line was closed") {
    for (const { fail } of [...this.#pings.values()]) fail(why);
    for (const connection of [...this.connections.values()]) connection.fail(why);
  }
}
