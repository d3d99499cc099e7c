// Between a host's datagrams and the bytes of a line. A line is what has `readable` and `writable`, streams of bytes: a
// serial port as Web Serial has it, the bridge of web/serve.py (a WebSocket, RFC 6455), or a child process in a test.
import { Clock } from "./clock.js";
import { after, startTimer, stopTimer } from "./timers.js";
import { SlipReader, silence, slipText } from "./wire.js";

// The errors after which Web Serial gives a port another `readable`.
const PASSING = ["BreakError", "BufferOverrunError", "FramingError", "ParityError"];

// Reads a line until it ends; returns how to write to it. `received` gets each datagram, `noise` runs for each frame that is too
// long, `passing` gets each error after which the line continues, `ended` the error that ended it, or null.
export function attach(line, { received, noise = () => {}, passing = () => {}, ended = () => {} }) {
  const slip = new SlipReader(), writer = line.writable.getWriter(), counts = { read: 0, written: 0, waiting: 0 };
  let reader = null, isClosed = false, why = null;

  async function readOn() {
    reader = line.readable.getReader();
    try {
      for (let turn; !(turn = await reader.read()).done;) {
        counts.read += turn.value.length;
        slip.feed(turn.value, received, noise);
      }
      isClosed = true;
    } catch (error) {
      why = error;
      if (PASSING.includes(error.name)) passing(error); else isClosed = true;
    } finally {
      reader.releaseLock();
    }
  }
  const loop = (async () => {
    while (line.readable && !isClosed) await readOn();
    ended(why);
  })();

  function write(bytes) {
    counts.written += bytes.length;
    counts.waiting += bytes.length;
    writer.write(bytes).catch(() => {}).then(() => { counts.waiting -= bytes.length; });
  }
  async function close() {
    isClosed = true;
    await reader?.cancel().catch(() => {});
    await loop;
    await writer.close().catch(() => {});
    writer.releaseLock();   // a port with a locked stream does not close
  }
  return { counts, send: datagram => write(slipText(datagram)), fill: length => write(silence(length)), close };
}

// END bytes while nothing else is sent, so that a line of `rate` bytes a second is never silent, and a node whose ticks are
// counted in bytes has a clock. At no time more than a quarter of a second goes, so that no tick comes together with
// another: a page that was held up lets the node's clock go slower. Gives how to stop.
export function fillSilence(wire, rate, clock = new Clock()) {
  let sent = wire.counts.written, then = performance.now(), timer = 0;
  function beat() {
    const now = performance.now(), most = Math.ceil(rate / 4);
    const due = Math.floor((now - then) / 1000 * rate * clock.rate) - (wire.counts.written - sent);
    if (due > 0 && wire.counts.waiting < most) wire.fill(Math.min(due, most));
    [sent, then] = [wire.counts.written, now];
    timer = startTimer(Math.min(50, 200 / clock.rate), beat);
  }
  beat();
  return () => stopTimer(timer);
}

// The bridge of web/serve.py as a line. Where it ends by a fault its words are the error's.
export async function bridge(url) {
  const socket = new WebSocket(url);
  socket.binaryType = "arraybuffer";
  await new Promise((resolve, reject) => {
    socket.onopen = resolve;
    socket.onerror = () => reject(new Error("the bridge does not answer: is web/serve.py still running?"));
  });
  const close = () => { if (socket.readyState <= WebSocket.OPEN) socket.close(); };
  const readable = new ReadableStream({
    start(out) {
      socket.onmessage = ({ data }) => out.enqueue(new Uint8Array(data));
      socket.onclose = ({ reason, wasClean }) => {
        try {
          if (reason || !wasClean) out.error(new Error(reason || "the bridge went away"));
          else out.close();
        } catch { /* it was cancelled */ }
      };
    },
    cancel: close,
  });
  const writable = new WritableStream({
    async write(bytes) {
      while (socket.bufferedAmount > 65536) await after(10);
      socket.send(bytes);
    },
    close,
  });
  return { readable, writable };
}
