// One TCP connection that we opened to the node (RFC 793 section 3.9, as far as a client needs it): it never listens, holds
// back no acknowledgement, and drops what comes out of order, since such a node has one segment under way and sends it
// again. A segment of ours that is not acknowledged goes again by RFC 6298, but the wait grows to two seconds only: nobody
// else is on the line, and a node by uIP's rules resets a connection from which nothing comes for ten. While text of the
// node's is awaited and nothing comes, the last acknowledgement goes again too: it may be what was lost.
import { ACK, FIN, LARGEST, PSH, RST, SYN, USUAL_MSS } from "./wire.js";

const WINDOW = 0xffff, LONGEST_WAIT = 2000, PATIENCE = 120000, TIME_WAIT = 60000;   // milliseconds
const LARGEST_TEXT = LARGEST - 40;
export const EMPTY = new Uint8Array(0);

// Sequence numbers are modulo 2^32.
export const isAfter = (a, b) => (a - b | 0) > 0;
export const plus = (a, n) => (a + n) >>> 0;
export const random32 = () => crypto.getRandomValues(new Uint32Array(1))[0];

export class Connection {
  // Sent: #una is the first number that is not acknowledged, #next the next to send, #most the highest ever sent.
  #first = random32();
  #una = this.#first;
  #next = this.#first;
  #most = this.#first;
  #received = 0;         // the next number that has to come
  #text = EMPTY;         // what is written and not acknowledged, from #una on (after the SYN)
  #isEnding = false;     // a FIN follows #text
  #isSynOut = true;      // our SYN is not acknowledged
  #window = 1;           // the node's
  #advertised = WINDOW;        // ours, as it was advertised last
  #timed = null;         // { seq, at } of one segment whose round trip is measured
  #timer = 0;
  #waited = 0;           // since something new came
  #reader;

  constructor(host, port, toPort) {
    Object.assign(this, { host, port, toPort, state: "SYN-SENT", mss: USUAL_MSS });
    // What the node sends, in order. It closes where the node closes, and fails where the connection does.
    this.readable = new ReadableStream({
      start: reader => { this.#reader = reader; },
      pull: () => this.#widen(),
      cancel: () => this.abort(),
    }, new ByteLengthQueuingStrategy({ highWaterMark: WINDOW }));
  }

  write(bytes) {
    if (this.#isEnding || this.state === "CLOSED") throw new Error("the connection is closed");
    const text = new Uint8Array(this.#text.length + bytes.length);
    text.set(this.#text);
    text.set(bytes, this.#text.length);
    this.#text = text;
    if (this.state !== "SYN-SENT") this.transmit();
  }

  // No more is written. The node may go on.
  end() {
    if (this.#isEnding || this.state === "CLOSED") return;
    this.#isEnding = true;
    if (this.state === "SYN-SENT") return;
    this.state = "FIN-WAIT-1";
    this.transmit();
  }

  abort() {
    if (this.state === "CLOSED") return;
    if (this.state !== "SYN-SENT") this.#send(RST | ACK, this.#next);
    this.fail("the connection was given up");
  }

  // The error has `isReset` if the node ended the connection.
  fail(why, isReset = false) {
    if (this.state === "CLOSED") return;
    const isRead = this.state === "SYN-SENT" || this.#isOpen();
    this.#leave();
    if (isRead) try { this.#reader.error(Object.assign(new Error(why), { isReset })); } catch { /* it was cancelled */ }
  }

  #leave() {
    this.state = "CLOSED";
    this.host.clock.cancel(this.#timer);
    this.host.leave(this);
  }

  // The node's text may still come.
  #isOpen() {
    return ["ESTABLISHED", "FIN-WAIT-1", "FIN-WAIT-2"].includes(this.state);
  }

  // A FIN is to go or is under way.
  #mayEnd() {
    return ["FIN-WAIT-1", "CLOSING", "LAST-ACK"].includes(this.state);
  }

  #isOutstanding() {
    return this.#una !== this.#most;
  }

  #room() {
    return this.#isOpen() ? Math.max(0, this.#reader.desiredSize ?? 0) : WINDOW;
  }

  #send(flags, seq, text = EMPTY, mss = 0) {
    this.#advertised = this.#room();
    const ack = flags & ACK ? this.#received : 0;
    this.host.sendSegment(this.port, this.toPort, flags, seq, ack, { text, mss, window: this.#advertised });
  }

  // A slow reader took text: the window is advertised again once a whole segment fits.
  #widen() {
    if (this.#advertised < LARGEST_TEXT && this.#isOpen() && this.#room() >= LARGEST_TEXT) this.#acknowledge();
  }

  #acknowledge() {
    this.#send(ACK, this.#next);
  }

  // Sends what may be sent, from #next on. Gives whether something went.
  transmit() {
    if (this.state === "SYN-SENT") {
      this.#next = plus(this.#first, 1);
      this.#send(SYN, this.#first, EMPTY, this.host.mss);
      this.#sent(this.#first);
      return true;
    }
    let isSent = false;
    while (this.#sendNext()) isSent = true;
    return isSent;
  }

  #sendNext() {
    const at = this.#next - this.#una >>> 0, length = this.#text.length;
    const text = this.#text.subarray(at, Math.min(length, at + this.mss, Math.max(this.#window, 1)));
    const isEnd = this.#mayEnd() && at + text.length === length;   // once the FIN went out, `at` is length + 1
    if (!text.length && !isEnd) return false;
    const seq = this.#next;
    this.#next = plus(seq, text.length + (isEnd ? 1 : 0));
    this.#send(ACK | (text.length ? PSH : 0) | (isEnd ? FIN : 0), seq, text);
    this.#sent(seq);
    return true;
  }

  // A segment went out. Where it went for the first time its round trip may be measured (RFC 6298 section 3).
  #sent(seq) {
    if (!isAfter(this.#next, this.#most)) {
      this.#timed = null;
      return;
    }
    const isFirst = !this.#isOutstanding();
    this.#most = this.#next;
    this.#timed ??= { seq, at: this.host.clock.now() };
    if (isFirst) this.#arm();
  }

  // The timer runs while something of ours is not acknowledged, and while text of the node's is awaited.
  #arm(wait = this.host.firstWait()) {
    this.host.clock.cancel(this.#timer);
    if (this.#isOutstanding() || this.#isOpen()) this.#timer = this.host.clock.later(wait, () => this.#expire(wait));
  }

  #expire(wait) {
    this.#waited += wait;
    if (this.#waited >= PATIENCE) return this.fail("the node does not answer");
    this.host.waits(this, this.#waited);
    this.#arm(Math.max(this.host.firstWait(), Math.min(2 * wait, LONGEST_WAIT)));
    if (!this.#isOutstanding()) return this.#acknowledge();
    this.#next = this.#una;
    this.transmit();
  }

  #hasMoved() {
    this.#waited = 0;
    this.#arm();
  }

  receive(segment) {
    if (this.state === "SYN-SENT") return this.#receiveFirst(segment);
    const { seq, ack, flags, window, text } = segment, length = text.length + (flags & FIN ? 1 : 0);
    if (flags & RST) {
      if ((seq - this.#received >>> 0) < WINDOW) this.fail("the node reset the connection", true);
      return;
    }
    if (flags & SYN || !(flags & ACK) || isAfter(ack, this.#most)) return this.#acknowledge();
    if (isAfter(ack, this.#una)) this.#take(ack);
    this.#window = window;
    if (this.state === "CLOSED") return;
    const skipped = this.#received - seq >>> 0;   // what came before; very many where the segment is ahead
    if (skipped < length && this.#isOpen()) this.#receiveText(text.slice(skipped), plus(seq, length), flags & FIN);
    if (!this.transmit() && length) this.#acknowledge();
  }

  #receiveFirst({ seq, ack, flags, window, mss }) {
    if (flags & ACK && ack !== this.#next) {   // of an older connection that the node still has: it is reset, and the SYN sent again
      if (flags & RST) return;
      this.host.sendSegment(this.port, this.toPort, RST, ack, 0);
      this.#arm();
      return this.transmit();
    }
    if (flags & RST) return flags & ACK ? this.fail("the node refused the connection", true) : undefined;
    if ((flags & (SYN | ACK)) !== (SYN | ACK)) return;
    this.state = this.#isEnding ? "FIN-WAIT-1" : "ESTABLISHED";
    this.#received = plus(seq, 1);
    this.#window = window;
    this.mss = Math.min(mss, LARGEST_TEXT);
    this.#take(ack);
    if (!this.transmit()) this.#acknowledge();
  }

  #receiveText(piece, next, isEnd) {
    this.#received = next;
    if (piece.length) try { this.#reader.enqueue(piece); } catch { /* it was cancelled */ }
    this.#hasMoved();
    if (isEnd) this.#receiveEnd();
  }

  // Our text up to `ack` came.
  #take(ack) {
    const count = (ack - this.#una >>> 0) - (this.#isSynOut ? 1 : 0);
    this.#isSynOut = false;
    const isEnd = this.#isEnding && count === this.#text.length + 1;
    this.#text = this.#text.subarray(Math.min(count, this.#text.length));
    this.#una = ack;
    if (isAfter(ack, this.#next)) this.#next = ack;
    if (this.#timed && isAfter(ack, this.#timed.seq)) {
      this.host.learnTrip(this.host.clock.now() - this.#timed.at);
      this.#timed = null;
    }
    this.#hasMoved();
    if (isEnd) this.#receiveAckOfEnd();
  }

  // Our FIN is acknowledged.
  #receiveAckOfEnd() {
    if (this.state === "FIN-WAIT-1") this.state = "FIN-WAIT-2";
    else if (this.state === "CLOSING") this.#rest();
    else if (this.state === "LAST-ACK") this.#leave();
  }

  // The node's FIN followed all its text. We close too, unless we did.
  #receiveEnd() {
    try { this.#reader.close(); } catch { /* it was cancelled */ }
    if (this.state === "ESTABLISHED") {
      this.state = "LAST-ACK";
      this.#isEnding = true;
    } else if (this.state === "FIN-WAIT-1") {
      this.state = "CLOSING";
    } else {
      this.#rest();
    }
  }

  // TIME-WAIT: the node's FIN may come again.
  #rest() {
    this.state = "TIME-WAIT";
    this.host.clock.cancel(this.#timer);
    this.#timer = this.host.clock.later(TIME_WAIT, () => this.#leave());
  }
}
