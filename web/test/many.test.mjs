// Very many pages: a thousand in a row and a thousand eight at once, with a tenth of the datagrams lost, a tenth repeated, a
// tenth out of order, a tenth damaged, and all of them late. The time of both ends goes fifty times quicker.
import test from "node:test";
import assert from "node:assert/strict";
import { setFlagsFromString } from "node:v8";
import { runInNewContext } from "node:vm";
import { page, bodyOf, withSession } from "./node_process.mjs";

setFlagsFromString("--expose-gc");
const collect = runInNewContext("gc");
const TENTH = { loss: 0.1, duplication: 0.1, reordering: 0.1, corruption: 0.1, delay: 10 };
// Buffers that were given up are freed a moment after the collection that finds them.
const used = async () => {
  collect();
  await new Promise(resolve => setTimeout(resolve, 100));
  collect();
  const { heapUsed, arrayBuffers } = process.memoryUsage();
  return heapUsed + arrayBuffers;
};

for (const [name, atOnce] of [["in a row", 1], ["eight at once", 8]])
  test(`1,000 pages ${name}, a tenth of all hit`, { timeout: 300000 }, () =>
    withSession({ faults: TENTH, speed: 50, seed: atOnce }, async session => {
      session.capture.room = 1 << 16;     // so that it is full before the first look at the memory
      session.atOnce = atOnce;
      const first = await session.whole("/index.html");
      assert.ok(bodyOf(page("/index.html")).equals(Buffer.from(first.bytes)));
      const early = await session.fetchMany("/index.html", 200), before = await used();
      const late = await session.fetchMany("/index.html", 800), more = await used() - before;
      for (const [{ complete, wrong, truncated }, count] of [[early, 200], [late, 800]])
        assert.deepEqual([complete, wrong, truncated], [count, 0, 0]);
      const { hit, datagrams, different, retransmissions } = session.sums;
      assert.ok(hit > datagrams / 4 && retransmissions > 300, `${hit} of ${datagrams} were hit, ${retransmissions} retransmissions`);
      assert.equal(different, 0);
      assert.ok(more < 1e6, `${more} bytes more after 800 pages`);
      assert.ok(session.host.connections.size < 20);
    }));
