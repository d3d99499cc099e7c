// What the steps of the tour do. `page` has what they need of the page: each action ends early if its line is closed meanwhile.
import { read } from "./wire.js";
import { LAMP, LEVEL } from "./sensor.js";
import { PATH, losesSecondHalf } from "./meter.js";

const QUIET = "/now.shtml";   // a page without a script, so nothing else is on the line
const TIMES = 5;

// Whether a datagram is lost: the first with text of the device.
function losesFirstText() {
  let isLost = false;
  return (datagram, isToNode) => {
    if (isLost || isToNode || !read(datagram).segment?.text.length) return false;
    return isLost = true;
  };
}

export function stepsOf(page) {
  // Opens the water tank anew with a page. Returns the session once the page is there, or null if it was closed.
  async function opened(options) {
    await page.openSensor({ first: QUIET, ...options });
    const own = page.session();
    await page.until(() => page.session() !== own || page.isComplete(QUIET) && !own.host.connections.size);
    return page.session() === own ? own : null;
  }

  async function connect() {
    page.setFaults({});
    const own = await opened();
    if (!own) return {};
    page.rows.mark([1, 2, 3]);
    return { kind: "good", words: `Datagrams 1 to 3 are the handshake. Here are ${own.sums.datagrams} in all.` };
  }

  async function press() {
    page.setFaults({});
    if (page.device() !== "sensor") await page.openSensor();
    const own = page.session(), { panel } = page;
    await page.visit("/");
    await page.until(() => page.session() !== own || page.isComplete("/"));
    if (page.session() !== own) return {};
    panel.put(LEVEL, "73");
    await page.visit(`/lamp-on.html?${Date.now()}`);
    await page.until(() => page.session() !== own || panel.value(LAMP) === "on" && page.target() === "/");
    if (page.session() !== own) return {};
    const { level, lamp } = JSON.parse(new TextDecoder().decode((await own.whole("/state.shtml")).bytes));
    return { kind: "good", words: `The device answers: the level is ${level}, the lamp is ${lamp}.` };
  }

  async function lose() {
    if (!page.session()?.device) await page.openSensor();
    page.setFaults({ loss: 30, speed: 10 });
    const done = await page.load("/", 20);
    if (!done) return {};
    page.showResult("", "");   // the tour has its own
    const { retransmissions, different } = page.session().sums, kind = done.wrong ? "bad" : "good";
    const pages = `${done.complete} pages complete, ${done.wrong} wrong`;
    return { kind, words: `${pages}. ${retransmissions} retransmissions by the device, ${different} different.` };
  }

  async function capture() {
    page.setFaults({});
    const own = await opened({ plan: losesFirstText() });
    if (!own) return {};
    await page.until(() => own.sums.retransmissions > 0, 1000);
    const { kept } = page.rows, lost = kept.find(it => it.fate.includes("lost")), again = kept.find(it => it.isAgain && !it.isToNode);
    if (!lost || !again) return { kind: "warn", words: "The line was busy: try it again." };
    page.rows.mark([lost.number, again.number]);
    const wait = (again.time - lost.time).toFixed(1);
    const words = `Datagram ${lost.number} was lost. ${wait} s later, number ${again.number} has the same bytes: identical.`;
    return { kind: "good", words };
  }

  // How many of the meter's pages have two readings, or null if the line was closed.
  async function wrongPages(open) {
    await open({ first: PATH, plan: losesSecondHalf() });
    const own = page.session();
    await page.until(() => page.session() !== own || page.verdictAt(PATH));
    if (page.session() !== own) return null;
    own.atOnce = 1;
    const done = await page.load(PATH, TIMES);
    page.showResult("", "");
    return done?.wrong ?? null;
  }

  async function meter() {
    page.setFaults({ speed: 10 });
    const here = await wrongPages(page.openMeter), there = here === null ? null : await wrongPages(page.openRules);
    if (there === null) return {};
    const words = `Pages with both numbers: here ${here} of ${TIMES}; by uIP's rules ${there} of ${TIMES}, as the one that you see.`;
    return { kind: "bad", words };
  }

  async function end() {
    page.setFaults({});
    await page.openSensor();
    page.endTour();
  }

  return [connect, press, lose, capture, meter, end];
}
