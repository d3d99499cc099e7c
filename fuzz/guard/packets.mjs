// Datagrams and frames of SLIP as bytes: every field can be set, and every checksum is right unless it is set.
export const NODE = [10, 0, 0, 1], PEER = [10, 0, 0, 2];
export const FIN = 1, SYN = 2, RST = 4, PSH = 8, ACK = 16, URG = 32;
const END = 0xC0, ESC = 0xDB, M = 2 ** 32;

export const u16 = n => [n >>> 8 & 255, n & 255];
export const u32 = n => [n >>> 24 & 255, n >>> 16 & 255, n >>> 8 & 255, n & 255];
export const get16 = (b, at) => b[at] * 256 + b[at + 1];
export const get32 = (b, at) => get16(b, at) * 65536 + get16(b, at + 2);
export const add32 = (a, b) => ((a + b) % M + M) % M;
export const ascii = text => [...text].map(sign => sign.charCodeAt(0) & 255);

export function onesSum(bytes) {
  let sum = 0;
  for (let i = 0; i < bytes.length; i += 2) sum += bytes[i] * 256 + (bytes[i + 1] ?? 0);
  while (sum > 65535) sum = (sum % 65536) + Math.floor(sum / 65536);
  return sum;
}
const checksum = bytes => 65535 - onesSum(bytes);

// An IPv4 datagram (RFC 791). `head` overrides fields of the header.
export function ip(payload, fields = {}) {
  const { from = PEER, to = NODE, proto = 6, id = 1, ttl = 64, version = 0x45, total, fragment = 0, sum, options = [] } = fields;
  const len = total ?? 20 + options.length + payload.length;
  const head = [version, 0, ...u16(len), ...u16(id), ...u16(fragment), ttl, proto, 0, 0, ...from, ...to, ...options];
  const right = sum ?? checksum(head);
  head.splice(10, 2, ...u16(right));
  return Uint8Array.from([...head, ...payload]);
}

// A TCP datagram (RFC 793).
export function tcp({ from = PEER, to = NODE, port = 4000, dport = 80, seq = 0, ack = 0, flags = ACK, window = 8192, ...more } = {}) {
  const { options = [], text = [], offset, sum, urgent = 0, ...head } = more;
  const bytes = typeof text === "string" ? ascii(text) : [...text];
  const words = offset ?? 5 + options.length / 4;
  const fixed = [...u16(port), ...u16(dport), ...u32(seq), ...u32(ack), words << 4, flags, ...u16(window), 0, 0, ...u16(urgent)];
  const segment = [...fixed, ...options, ...bytes];
  const right = sum ?? checksum([...from, ...to, 0, 6, ...u16(segment.length), ...segment]);
  segment.splice(16, 2, ...u16(right));
  return ip(segment, { from, to, ...head });
}

export function icmp({ type = 8, code = 0, body = [0, 1, 0, 1], sum, ...head } = {}) {
  const message = [type, code, 0, 0, ...body];
  message.splice(2, 2, ...u16(sum ?? checksum(message)));
  return ip(message, { proto: 1, ...head });
}

export function udp({ port = 53, dport = 53, text = [], len, ...head } = {}) {
  return ip([...u16(port), ...u16(dport), ...u16(len ?? 8 + text.length), 0, 0, ...text], { proto: 17, ...head });
}

// What a sent datagram says.
export function read(d) {
  const from = [...d.subarray(12, 16)], to = [...d.subarray(16, 20)];
  if (d[9] !== 6) return { proto: d[9], type: d[20], from, to, len: d.length };
  const off = 20 + (d[32] >> 4) * 4, total = get16(d, 2);
  const pseudo = [...from, ...to, 0, 6, ...u16(total - 20), ...d.subarray(20, total)];
  return {
    proto: 6, from, to, sport: get16(d, 20), dport: get16(d, 22), seq: get32(d, 24), ack: get32(d, 28), flags: d[33] & 63,
    window: get16(d, 34), text: d.slice(off, total), isSound: onesSum(pseudo) === 65535 && onesSum(d.subarray(0, 20)) === 65535,
  };
}

export function slip(datagram) {
  const out = [END];
  for (const byte of datagram) {
    if (byte === END) out.push(ESC, 0xDC);
    else if (byte === ESC) out.push(ESC, 0xDD);
    else out.push(byte);
  }
  out.push(END);
  return Uint8Array.from(out);
}

export function unslip(bytes) {
  const all = [];
  let now = [], escaped = false;
  for (const byte of bytes) {
    if (byte === END) { if (now.length) all.push(Uint8Array.from(now)); now = []; }
    else if (byte === ESC) escaped = true;
    else { now.push(escaped ? (byte === 0xDC ? END : ESC) : byte); escaped = false; }
  }
  return all;
}

export const flagNames = flags => ["FIN", "SYN", "RST", "PSH", "ACK", "URG"].filter((_, i) => flags >> i & 1).join("+") || "-";
export function show(d) {
  const s = read(d);
  if (s.proto !== 6) return `proto ${s.proto} type ${s.type} len ${s.len}`;
  return `${flagNames(s.flags)} seq ${s.seq} ack ${s.ack} len ${s.text.length} win ${s.window}`;
}
