// A capture file of datagrams, big-endian, raw IP: for Wireshark as pcapng, in which a datagram that a fault hit has a comment; for
// `uipd slip` as libpcap, which has no place for comments.
const RAW_IP = 101, SNAP = 1500;
const HEAD = Uint8Array.from([0xa1, 0xb2, 0xc3, 0xd4, 0, 2, 0, 4, 0, 0, 0, 0, 0, 0, 0, 0, 0, 0, SNAP >> 8, SNAP & 255, 0, 0, 0, RAW_IP]);
// Of pcapng: the kinds of blocks, the options of a packet, and its directions.
const SECTION = 0x0a0d0d0a, INTERFACE = 1, PACKET = 6, COMMENT = 1, FLAGS = 2, INBOUND = 1, OUTBOUND = 2;

const word = number => [number >>> 24, number >> 16 & 255, number >> 8 & 255, number & 255];
const half = number => [number >> 8, number & 255];
const padded = bytes => [...bytes, ...new Uint8Array(-bytes.length & 3)];
const option = (code, bytes) => [...half(code), ...half(bytes.length), ...padded(bytes)];

// A block of pcapng: its length is before and after what it has.
function block(type, ...parts) {
  const body = parts.flat(), length = word(12 + body.length);
  return Uint8Array.from([...word(type), ...length, ...body, ...length]);
}

// The time is in microseconds. The direction is that of this page's interface.
function packet({ datagram, time, isToNode, comment }) {
  const micro = Math.floor(time * 1000), size = word(datagram.length);
  const words = comment ? option(COMMENT, new TextEncoder().encode(comment)) : [];
  return block(PACKET, word(0), word(Math.floor(micro / 2 ** 32)), word(micro >>> 0), size, size, padded(datagram),
    words, option(FLAGS, word(isToNode ? OUTBOUND : INBOUND)), option(0, []));
}

function record({ datagram, time }) {
  const size = word(datagram.length);
  return Uint8Array.from([...word(Math.floor(time / 1000)), ...word(Math.floor(time % 1000 * 1000)), ...size, ...size, ...datagram]);
}

export class Capture {
  #records = [];
  #size = 0;
  dropped = 0;   // of the records, the first that had no room

  constructor(room = 1 << 24) {
    this.room = room;
  }

  // The time is in milliseconds since 1970; the comment may be empty.
  add(datagram, time, isToNode = true, comment = "") {
    this.#records.push({ datagram, time, isToNode, comment });
    this.#size += 16 + datagram.length;
    if (this.#size > this.room) this.#dropHalf();
  }

  // The older half goes when the room is full, so that a long session does not take ever more memory.
  #dropHalf() {
    const count = Math.ceil(this.#records.length / 2);
    for (const { datagram } of this.#records.splice(0, count)) this.#size -= 16 + datagram.length;
    this.dropped += count;
  }

  // As pcapng (draft-ietf-opsawg-pcapng, section 4).
  file() {
    const section = block(SECTION, word(0x1a2b3c4d), half(1), half(0), word(0xffffffff), word(0xffffffff));
    const line = block(INTERFACE, half(RAW_IP), half(0), word(SNAP));
    return new Blob([section, line, ...this.#records.map(packet)], { type: "application/x-pcapng" });
  }

  // As libpcap.
  plain() {
    return new Blob([HEAD, ...this.#records.map(record)], { type: "application/vnd.tcpdump.pcap" });
  }
}
