// All that exists while a line to a node is open: the host, the faults between the two, the sequence diagram, the capture
// and the counts. It fetches pages by GET and judges each: complete, wrong or truncated. It knows no document (page.js does).
import { Clock } from "./clock.js";
import { Host } from "./host.js";
import { attach, fillSilence } from "./line.js";
import { Faults } from "./faults.js";
import { Capture } from "./capture.js";
import { Sequence } from "./sequence.js";
import { all, get } from "./http.js";

const TEN = 10;           // the connections of a node by uIP's usual settings
const AT_ONCE = 8;
const TRIES = 3;          // of a page of which not a byte came
const REMEMBERED = 256;   // pages of which the sum is kept
const LONG = 3000;        // milliseconds without an answer that are worth a word

const isScript = target => /\.shtml(\?|$)/.test(target);

// A sum over a page's bytes (FNV-1a), by which two copies are compared.
const SUM = 0x811c9dc5;
const sumOver = (sum, bytes) => bytes.reduce((one, byte) => Math.imul(one ^ byte, 0x01000193), sum);

export class Session {
  sequence = new Sequence();
  capture = new Capture();
  // `retransmissions` are the device's, `repeated` are this page's.
  sums = { datagrams: 0, hit: 0, retransmissions: 0, repeated: 0, different: 0, noise: 0, retried: 0, complete: 0, wrong: 0, truncated: 0,
    bytes: 0 };
  #atOnce = AT_ONCE;
  #running = 0;
  #waiting = [];
  #sumsOfPages = new Map();   // by target, of the first copy
  #stopFilling = () => {};
  #start = performance.now();
  #isClosed = false;

  // `line` is as in line.js; `leave` runs after its end. `show` receives each row, `notice` words for people and perhaps their
  // kind, and `over` the error that ended the line, or null. `words` describes an error of the line. If there is a `faultOf`, it receives
  // each target with the text of its page and returns in words why it is wrong, or null; else a page is compared with its first copy.
  constructor(line, { name = "a line", mss, own, node, clock = new Clock(), seed = 1, show = () => {}, notice = () => {}, over = () => {},
    words = error => error.message, leave = () => {}, faultOf = null } = {}) {
    Object.assign(this, { name, clock, show, notice, leave, faultOf });
    this.faults = new Faults(seed, clock);
    const waits = (connection, waited) => this.#reportWait(connection, waited);
    this.host = new Host(datagram => this.#pass(datagram, true, it => this.wire.send(it)), { mss, own, node, clock, waits });
    this.wire = attach(line, {
      received: datagram => this.#pass(datagram, false, it => this.host.receive(it)),
      noise: () => this.#reportNoise("overlong"),
      passing: error => notice(words(error)),
      ended: error => over(error && words(error)),
    });
  }

  // The silence of the line is filled at a rate in bytes a second; with 0 it is not.
  fill(rate) {
    this.#stopFilling();
    this.#stopFilling = rate > 0 ? fillSilence(this.wire, rate, this.clock) : () => {};
  }

  // Requests under way at a time.
  get atOnce() { return this.#atOnce; }

  set atOnce(count) {
    if (!(Number.isInteger(count) && count > 0)) throw new Error("at least one request is under way at a time");
    this.#atOnce = count;
  }

  #pass(datagram, isToNode, deliver) {
    const row = this.sequence.add(datagram, isToNode), time = performance.now();
    const { words, go } = this.faults.pass(datagram, isToNode, deliver);
    this.capture.add(datagram, performance.timeOrigin + time, isToNode, words.join(", "));
    this.sums.datagrams++;
    this.sums.hit += words.length > 0;
    this.sums[isToNode ? "repeated" : "retransmissions"] += row.isAgain;
    if (row.bad) this.#reportNoise(row.bad);
    if (row.otherAt !== null) this.#reportDifferent(row);
    this.show({ ...row, datagram, time: ((time - this.#start) / 1000).toFixed(3), fate: words });
    go();
  }

  #reportNoise(word) {
    this.sums.noise++;
    this.notice(`received bytes that are no datagram (${word}): a starting board, noise, or another rate`, "noise");
  }

  #reportDifferent({ who, otherAt, number }) {
    this.sums.different++;
    this.notice(`datagram ${number} of ${who} is a retransmission with different bytes, from number ${otherAt} on`, "different");
  }

  #reportWait({ state }, waited) {
    if (waited < (this.faults.loss > 0 ? 20 : 1) * LONG) return;   // with loss, waits are no news
    const others = this.host.connections.size - 1, seconds = Math.round(waited / 1000);
    const why = state !== "SYN-SENT" ? ""
      : others < TEN ? " to a SYN: is the device there, or still starting?"
        : ` to a SYN: the device may have no slot free (${others} are open);`;
    this.notice(`no answer for ${seconds} s${why || ";"} sent again`, "wait");
  }

  // Requests a page: at most `atOnce` in parallel, the others wait. `judged` receives its verdict, complete, wrong or truncated, and why it
  // is wrong.
  async get(target, judged = () => {}) {
    if (this.#running < this.atOnce) this.#running++;
    else await new Promise(resolve => this.#waiting.push(resolve));
    try {
      if (this.#isClosed) throw new Error("no line is open");
      const reply = await this.#ask(target);
      reply.over.then(() => this.#free());
      const counted = { ...reply, isWrong: false };
      counted.body = this.#counted(target, reply.body, counted, judged);
      return counted;
    } catch (error) {
      this.#free();
      this.#cut(judged);
      throw error;
    }
  }

  // If the node resets the connection before the head of its reply is complete, the request is retried.
  async #ask(target) {
    for (let left = TRIES - 1;; left--) {
      try {
        return await get(this.host, target);
      } catch (error) {
        if (!error.isReset || left === 0) throw error;
        this.sums.retried++;
      }
    }
  }

  // The next waiting request takes the place of one that is over.
  #free() {
    const next = this.#waiting.shift();
    if (next) next();
    else this.#running--;
  }

  // The same stream, judged at its end. If its reader cancels it, it is not counted.
  #counted(target, body, reply, judged) {
    const reader = body.getReader(), parts = [];
    let sum = SUM;
    return new ReadableStream({
      pull: async out => {
        const turn = await reader.read().catch(error => { this.#cut(judged); throw error; });
        if (turn.done) {
          const fault = this.faultOf ? this.faultOf(target, await new Blob(parts).text()) : this.#otherThanFirst(target, sum);
          this.#judge(target, fault, reply, judged);
          return out.close();
        }
        this.sums.bytes += turn.value.length;
        if (this.faultOf) parts.push(turn.value);
        sum = sumOver(sum, turn.value);
        out.enqueue(turn.value);
      },
      cancel: why => reader.cancel(why),
    });
  }

  // A page that failed before its end.
  #cut(judged) {
    this.sums.truncated++;
    judged("truncated");
  }

  // Why a page is wrong: its bytes differ from those of the first copy. The output of a script may change.
  #otherThanFirst(target, sum) {
    const first = this.#sumsOfPages.get(target);
    if (first === undefined && !isScript(target)) {
      this.#sumsOfPages.set(target, sum);
      if (this.#sumsOfPages.size > REMEMBERED) this.#sumsOfPages.delete(this.#sumsOfPages.keys().next().value);
    }
    return first !== undefined && first !== sum ? "its bytes differ from those of the first copy" : null;
  }

  // A page that ended is complete, or wrong.
  #judge(target, fault, reply, judged) {
    reply.isWrong = fault !== null;
    this.sums[reply.isWrong ? "wrong" : "complete"]++;
    judged(reply.isWrong ? "wrong" : "complete", fault);
    if (reply.isWrong) this.notice(`wrong page ${target}: ${fault}`, "wrong");
  }

  async whole(target) {
    const reply = await this.get(target), bytes = await all(reply.body);
    return { status: reply.status, headers: reply.headers, isWrong: reply.isWrong, bytes };
  }

  // Fetches a page `count` times; returns how many copies were complete, wrong and truncated, and the time.
  async fetchMany(target, count, report = () => {}) {
    if (!(Number.isInteger(count) && count > 0)) throw new Error("at least one page is fetched");
    const sums = { complete: 0, wrong: 0, truncated: 0, bytes: 0 }, start = performance.now();
    let left = count;
    const next = async () => {
      while (left-- > 0) {
        const page = await this.whole(target).catch(() => null);
        sums[!page ? "truncated" : page.isWrong ? "wrong" : "complete"]++;
        sums.bytes += page?.bytes.length ?? 0;
        report(sums);
      }
    };
    await Promise.all(Array.from({ length: Math.min(count, this.atOnce) }, next));
    return { ...sums, seconds: (performance.now() - start) / 1000 };
  }

  async close() {
    this.#isClosed = true;
    this.#stopFilling();
    this.faults.close();
    this.host.close();
    await this.wire.close();
    await this.leave();
  }
}
