// A serial port by Web Serial (wicg.github.io/serial): chosen, opened, and each of its errors in words.

const BUFFER = 65536;   // the usual 255 bytes are overrun at 115200 on a busy page

const CHOOSING = {
  NotFoundError: "no port was chosen",
  SecurityError: "the browser allows no serial port here: it needs a click, and a page from https, localhost or a file",
};
const OPENING = {
  NetworkError: "the port does not open: another program has it, or you have no permission (Linux: join the group dialout)",
  InvalidStateError: "the port is open already",
};
const RUNNING = {
  BreakError: "a break on the line: the wire was pulled, or the other end is starting",
  BufferOverrunError: "an overrun: bytes arrived faster than they were read and are lost; TCP sends them again",
  FramingError: "a framing error: a byte has no stop bit; do both ends have this rate?",
  ParityError: "a parity error: a byte is corrupt; do both ends have 8 bits, no parity and this rate?",
  NetworkError: "the port was pulled out",
};

const inWords = (words, error) => new Error(words[error.name] ?? `${error.name}: ${error.message}`);

// The port that was used last, if the browser still grants it; `info` is what idOf returned for it.
export async function lastPort(info, serial = navigator.serial) {
  const ports = info ? await serial?.getPorts?.() ?? [] : [];
  return ports.find(port => JSON.stringify(idOf(port)) === JSON.stringify(info)) ?? null;
}

export function idOf(port) {
  const { usbVendorId = 0, usbProductId = 0 } = port.getInfo?.() ?? {};
  return { usbVendorId, usbProductId };
}

// A port, or else one of the user's choice, open at a rate in bits a second.
export async function openPort(baudRate, serial = navigator.serial, known = null) {
  if (!serial) throw new Error("this browser has no Web Serial: use Chromium or Edge, or python3 web/serve.py --line PORT RATE");
  const port = known ?? await serial.requestPort().catch(error => { throw inWords(CHOOSING, error); });
  await port.open({ baudRate, bufferSize: BUFFER }).catch(error => { throw inWords(OPENING, error); });
  return port;
}

export const portFault = error => inWords(RUNNING, error).message;

// The segment size at which one segment takes a quarter of a second on the line.
export const segmentAt = baudRate => Math.max(100, Math.min(1460, Math.floor(baudRate / 40) - 40));
