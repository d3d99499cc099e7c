// What a line carries, written and read: SLIP frames (RFC 1055), IP without options (RFC 791 section 3.1), ICMP echo
// (RFC 792, "Echo or Echo Reply Message") and TCP segments (RFC 793 section 3.1). Each check is made as it is read.

const END = 0xC0, ESC = 0xDB, ESC_END = 0xDC, ESC_ESC = 0xDD;
export const LARGEST = 1500, USUAL_MSS = 536;
export const FIN = 1, SYN = 2, RST = 4, PSH = 8, ACK = 16;
const ICMP = 1, TCP = 6, IP_HEAD = 20, TCP_HEAD = 20, ICMP_HEAD = 8;

export function slipText(datagram) {
  const text = [END];
  for (const byte of datagram)
    if (byte === END) text.push(ESC, ESC_END);
    else if (byte === ESC) text.push(ESC, ESC_ESC);
    else text.push(byte);
  text.push(END);
  return Uint8Array.from(text);
}

// Bytes that mean nothing between frames.
export const silence = length => new Uint8Array(length).fill(END);

// Decodes bytes as they arrive: `received` gets each complete frame, and `overlong` runs for one that is too long.
export class SlipReader {
  #frame = new Uint8Array(LARGEST);
  #length = 0;
  #isEscaped = false;

  feed(bytes, received, overlong = () => {}) {
    for (const byte of bytes) {
      if (byte === END) {
        if (this.#length > LARGEST) overlong();
        else if (this.#length > 0) received(this.#frame.slice(0, this.#length));
        this.#length = 0;
        this.#isEscaped = false;
      } else if (this.#isEscaped) {
        this.#isEscaped = false;
        this.#put(byte === ESC_END ? END : byte === ESC_ESC ? ESC : byte);
      } else if (byte === ESC) {
        this.#isEscaped = true;
      } else {
        this.#put(byte);
      }
    }
  }

  #put(byte) {
    if (this.#length < LARGEST) this.#frame[this.#length] = byte;
    if (this.#length <= LARGEST) this.#length++;
  }
}

const put16 = (bytes, at, n) => { bytes[at] = n >> 8; bytes[at + 1] = n; };
const put32 = (bytes, at, n) => { put16(bytes, at, n >>> 16); put16(bytes, at + 2, n & 0xffff); };
const get16 = (bytes, at) => bytes[at] << 8 | bytes[at + 1];
const get32 = (bytes, at) => (get16(bytes, at) * 0x10000 + get16(bytes, at + 2)) >>> 0;

// The Internet checksum (RFC 1071 section 1) of bytes, added to a sum.
function checksum(bytes, sum = 0) {
  for (let at = 0; at < bytes.length; at += 2) sum += bytes[at] << 8 | (at + 1 < bytes.length ? bytes[at + 1] : 0);
  while (sum > 0xffff) sum = (sum & 0xffff) + Math.floor(sum / 0x10000);
  return ~sum & 0xffff;
}

// The checksum of a segment with its pseudo header (RFC 793 section 3.1).
function tcpSum(from, to, message) {
  const pseudo = [...from, ...to, 0, TCP, message.length >> 8, message.length & 0xff];
  return checksum(message, 0xffff ^ checksum(pseudo));
}

function ipDatagram(from, to, protocol, id, message) {
  const datagram = new Uint8Array(IP_HEAD + message.length);
  datagram.set([0x45, 0]);
  put16(datagram, 2, datagram.length);
  put16(datagram, 4, id);
  datagram.set([0x40, 0, 64, protocol, 0, 0, ...from, ...to], 6);   // not to be fragmented; time to live 64
  put16(datagram, 10, checksum(datagram.subarray(0, IP_HEAD)));
  datagram.set(message, IP_HEAD);
  return datagram;
}

// A segment is { fromPort, toPort, seq, ack, flags, window, mss, text }; with an mss of 0 it has no options.
export function tcpDatagram(from, to, id, segment) {
  const { fromPort, toPort, seq, ack, flags, window, mss, text } = segment;
  const head = mss ? TCP_HEAD + 4 : TCP_HEAD;
  const message = new Uint8Array(head + text.length);
  put16(message, 0, fromPort);
  put16(message, 2, toPort);
  put32(message, 4, seq);
  put32(message, 8, ack);
  message[12] = head << 2;
  message[13] = flags;
  put16(message, 14, window);
  if (mss) message.set([2, 4, mss >> 8, mss & 0xff], TCP_HEAD);
  message.set(text, head);
  put16(message, 16, tcpSum(from, to, message));
  return ipDatagram(from, to, TCP, id, message);
}

export function echoDatagram(from, to, id, number, payload) {
  const message = new Uint8Array(ICMP_HEAD + payload.length);
  message[0] = 8;
  put32(message, 4, number);
  message.set(payload, ICMP_HEAD);
  put16(message, 2, checksum(message));
  return ipDatagram(from, to, ICMP, id, message);
}

// The maximum segment size in the options, or else the usual one (RFC 1122 section 4.2.2.6).
function mssOf(options) {
  for (let at = 0; at < options.length && options[at] !== 0;) {
    if (options[at] === 1) { at++; continue; }
    if (options[at] === 2 && options[at + 1] === 4 && at + 4 <= options.length) return get16(options, at + 2) || USUAL_MSS;
    at += Math.max(options[at + 1] || 2, 2);
  }
  return USUAL_MSS;
}

// What a datagram is: { from, to, echo } or { from, to, segment }, or { bad } with the words of `uipd dump` for the
// first check that fails.
export function read(datagram) {
  const bad = ipFault(datagram);
  if (bad) return { bad };
  const from = datagram.subarray(12, 16), to = datagram.subarray(16, 20);
  const message = datagram.subarray(IP_HEAD, get16(datagram, 2));   // bytes after its length are no part of it
  return datagram[9] === ICMP ? readEcho(from, to, message) : readSegment(from, to, message);
}

function ipFault(datagram) {
  if (datagram.length < IP_HEAD) return "ip short";
  if (datagram[0] !== 0x45) return "ip version";
  if (get16(datagram, 2) < IP_HEAD || get16(datagram, 2) > datagram.length) return "ip length";
  if (get16(datagram, 6) & 0x3fff) return "ip fragment";
  if (checksum(datagram.subarray(0, IP_HEAD)) !== 0) return "ip checksum";
  return [ICMP, TCP].includes(datagram[9]) ? null : "ip protocol";
}

function readEcho(from, to, message) {
  if (message.length < ICMP_HEAD) return { bad: "icmp short" };
  if (checksum(message) !== 0) return { bad: "icmp checksum" };
  return { from, to, echo: { type: message[0], number: get32(message, 4), payload: message.subarray(ICMP_HEAD) } };
}

function readSegment(from, to, message) {
  const head = (message[12] >> 4) * 4;
  if (message.length < TCP_HEAD) return { bad: "tcp short" };
  if (head < TCP_HEAD || head > message.length) return { bad: "tcp offset" };
  if (tcpSum(from, to, message) !== 0) return { bad: "tcp checksum" };
  const [fromPort, toPort, window] = [0, 2, 14].map(at => get16(message, at));
  return {
    from, to,
    segment: {
      fromPort, toPort, window, seq: get32(message, 4), ack: get32(message, 8), flags: message[13] & 0x3f,
      mss: mssOf(message.subarray(TCP_HEAD, head)), text: message.subarray(head),
    },
  };
}
