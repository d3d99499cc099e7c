// A node inside this page, as a line. Its ticks come every half second of the clock.
import { Device } from "./uip.js";

const TICK = 500;

// The two streams of a line whose other end is here: `feed` receives bytes and a function that sends, `tick` that function
// every `period` milliseconds.
export function lineTo({ feed, tick }, clock, period = TICK) {
  let out, timer = 0;
  const send = text => out.enqueue(text);
  const stop = () => {
    clock.cancel(timer);
    timer = 0;
  };
  function beat() {
    tick(send);
    if (timer) timer = clock.later(period, beat);
  }
  const readable = new ReadableStream({ start(it) { out = it; timer = clock.later(period, beat); }, cancel: stop });
  const writable = new WritableStream({ write(bytes) { if (timer) feed(bytes, send); } });
  return { line: { readable, writable }, stop };
}

// `code` is node.wasm, compiled, and `image` the site; with `secret`, 16 random bytes, no host can predict the numbers of the device.
// Returns the device and its line; `stop` ends the line, and so does its reader.
export function nodeInside({ code, image, own, clock, secret }) {
  const device = new Device(code);
  device.open(image, own);
  if (secret) device.protect(secret);
  return { device, ...lineTo({ feed: (bytes, send) => device.feed(bytes, send), tick: send => device.tick(send) }, clock) };
}
