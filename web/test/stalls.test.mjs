// Why a page may be truncated under heavy faults: a browser that stalls measures long round trips, its client then waits longer
// than the ten seconds after which the node resets a silent connection. The client's wait is bounded for that. The time of these
// tests is simulated: thousands of pages in seconds, and no stall of this machine matters.
import test from "node:test";
import assert from "node:assert/strict";
import { readFileSync } from "node:fs";
import { join } from "node:path";
import { Session } from "../session.js";
import { nodeInside } from "../inside.js";
import { here, secret } from "./node_process.mjs";

const code = new WebAssembly.Module(readFileSync(join(here, "../node.wasm"))), image = new Uint8Array(readFileSync(join(here, "../site.img")));
const FAULTS = { loss: 0.2, duplication: 0.1, reordering: 0.1, corruption: 0.1 }, STALL = 30000;

// A clock whose time passes from one event to the next, when all that waits for no time is done.
class SimulatedClock {
  rate = 1;
  #time = 0;
  #events = [];
  #count = 0;

  now() { return this.#time; }

  later(wait, what) {
    const event = { at: this.#time + wait, number: this.#count++, what };
    this.#events.push(event);
    return event;
  }

  cancel(event) { this.#events = this.#events.filter(it => it !== event); }

  step() {
    const [next] = this.#events.sort((a, b) => a.at - b.at || a.number - b.number);
    if (!next) return;
    this.#events.shift();
    this.#time = Math.max(this.#time, next.at);
    next.what();
  }
}

async function pages(count, seed, stall) {
  const clock = new SimulatedClock(), { line, stop } = nodeInside({ code, image, own: [10, 0, 0, 1], clock, secret });
  const session = new Session(line, { clock, seed, leave: stop });
  Object.assign(session.faults, FAULTS);
  const measure = () => {   // as after a stall: all eight connections measured it
    for (let n = 0; n < 8; n++) session.host.learnTrip(stall);
    clock.later(stall, measure);
  };
  if (stall) clock.later(1000, measure);
  let isOver = false;
  const done = session.fetchMany("/", count).then(sums => { isOver = true; return sums; });
  while (!isOver) {
    for (let n = 0; n < 3; n++) await new Promise(setImmediate);
    clock.step();
  }
  const { sums } = session;
  await session.close();
  return { ...await done, ...sums };
}

for (const [name, stall] of [["a client that never stalls", 0], ["a client that stalled", STALL]])
  test(`${name}: 1,000 pages with 20 % loss and 10 % of each other fault`, { timeout: 240000 }, async t => {
    const { complete, wrong, truncated, retried, different, retransmissions } = await pages(1000, 5, stall);
    t.diagnostic(`${retransmissions} retransmissions, ${retried} retried`);
    assert.deepEqual([complete + truncated, wrong, different], [1000, 0, 0]);
    assert.ok(truncated < 4, `${truncated}`);   // eight losses in a row: one of 20,000 pages
    // Twelve runs with six seeds: 7 on average, 16 at most. Without the client's bound 277 and 285 of the client that stalled.
    assert.ok(retried < 40, `${retried}`);
  });
