// The story of 999 and 1000: a meter whose text has its reading twice. It reads 999 when the text is taken, and 1000 half a second
// later. The page asks for segments so small that the text takes two, and the second of them is lost once. A server by uIP's rules
// generates the text again for it (uip_rules.js); the device here sends the bytes of its record again.
import { pack } from "./site.js";
import { read } from "./wire.js";
import { startTimer, stopTimer } from "./timers.js";

export const PATH = "/meter.shtml", SMALL = 16, LITRES = [999, 1000];
export const textOf = litres => `${litres} litres, and again: ${litres} l`;   // its first 16 bytes end before "again"
export const HEAD = `<!DOCTYPE html><html lang="en"><title>Water meter</title><style>
body { font: 1.5em/1.5 system-ui; margin: 2em; text-align: center; color: #12211c }
</style><h1>Water meter</h1><p id="reading">`;
export const TAIL = `</p></html>\n`;

const ascii = text => Uint8Array.from(text, sign => sign.charCodeAt(0));

export const meterSite = () => pack([
  { name: PATH, bytes: ascii(`${HEAD}%! value-html 0\n${TAIL}`) },
  { name: "/index.html", bytes: ascii(`<!DOCTYPE html><title>Water meter</title><meta http-equiv="refresh" content="0;url=${PATH}">`) },
]);

// The firmware of the device here. Returns how to stop.
export function runMeter(device) {
  let hits = 0, then = 0, timer = 0;
  const set = litres => device.setValue(0, textOf(litres));
  device.work = () => {
    if (device.hits(PATH) === hits) return;
    [hits, then] = [device.hits(PATH), device.ticks];
    set(LITRES[0]);
  };
  function beat() {
    if (device.ticks !== then) set(LITRES[1]);
    timer = startTimer(10, beat);
  }
  set(LITRES[0]);
  beat();
  return () => stopTimer(timer);
}

// Why a page of the meter is wrong, in words, or null.
export function faultOf(target, page) {
  const [first, second] = page.match(/\d+(?= l)/g) ?? [];
  return !target.startsWith(PATH) || first === second ? null : `it has ${first} and ${second} in one text`;
}

// Whether a datagram is lost: of each connection the first segment with the second half of the text.
export function losesSecondHalf() {
  const ports = new Set();
  return (datagram, isToNode) => {
    const { segment } = read(datagram), text = String.fromCharCode(...segment?.text ?? []);
    if (isToNode || !text.startsWith("again: ") || ports.has(segment.toPort)) return false;
    ports.add(segment.toPort);
    return true;
  };
}
