// Network faults in both directions, by chances that follow from a seed: loss, duplication, reordering, corruption and delay.
// TCP has to repair each of them (RFC 793 section 1.5, "Reliability").
import { Clock } from "./clock.js";

const LATEST = 300;   // milliseconds that a datagram is held back if no other overtakes it

// Numbers below 2^32 that follow from a seed (mulberry32).
export function numbers(seed) {
  return () => {
    seed = seed + 0x6D2B79F5 | 0;
    let n = Math.imul(seed ^ seed >>> 15, 1 | seed);
    n = n + Math.imul(n ^ n >>> 7, 61 | n) ^ n;
    return (n ^ n >>> 14) >>> 0;
  };
}

export class Faults {
  // Chances from 0 to 1, and a delay in milliseconds.
  loss = 0;
  duplication = 0;
  reordering = 0;
  corruption = 0;
  delay = 0;
  plan = () => false;   // which datagrams are lost beside these, by the datagram and its direction
  #held = { true: null, false: null };   // by direction
  #isClosed = false;

  constructor(seed = 1, clock = new Clock()) {
    this.clock = clock;
    this.begin(seed);
  }

  // The numbers of a seed, from the first.
  begin(seed) {
    const next = numbers(seed);
    this.chance = () => next() / 0x100000000;
  }

  // The faults that hit a datagram, in words, and `go`, which delivers it so.
  pass(datagram, isToNode, deliver) {
    if (this.plan(datagram, isToNode) || this.chance() < this.loss) return { words: ["lost"], go() {} };
    const isDamaged = this.chance() < this.corruption, isTwice = this.chance() < this.duplication;
    const isLate = this.chance() < this.reordering && !this.#held[isToNode];
    const sent = isDamaged ? this.#damaged(datagram) : datagram;
    const give = () => { for (let n = 0; n < (isTwice ? 2 : 1); n++) this.#give(sent, deliver); };
    const go = () => {
      if (isLate) this.#hold(isToNode, give);
      else { give(); this.#release(isToNode); }
    };
    return { words: [isDamaged && "corrupted", isTwice && "duplicated", isLate && "reordered"].filter(Boolean), go };
  }

  // One byte of a datagram changed. By the checksums of 16 bits each such change is found.
  #damaged(datagram) {
    const other = datagram.slice();
    other[Math.floor(this.chance() * other.length)] ^= 1 + Math.floor(this.chance() * 255);
    return other;
  }

  #give(datagram, deliver) {
    const give = () => { if (!this.#isClosed) deliver(datagram); };
    if (this.delay > 0) this.clock.later(this.delay, give); else give();
  }

  // It follows the next one of its direction, or goes alone after a while.
  #hold(isToNode, give) {
    this.#held[isToNode] = { give, timer: this.clock.later(LATEST, () => this.#release(isToNode)) };
  }

  #release(isToNode) {
    const held = this.#held[isToNode];
    this.#held[isToNode] = null;
    this.clock.cancel(held?.timer);
    held?.give();
  }

  // Nothing is delivered any more.
  close() {
    this.#isClosed = true;
    for (const isToNode of [true, false]) this.#release(isToNode);
  }
}
