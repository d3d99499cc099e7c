// One datagram in detail: the fields of its headers (RFC 791 section 3.1, RFC 793 section 3.1), what became of it, and its bytes.
import { read } from "./wire.js";
import { flagsOf, labelOf } from "./sequence.js";

const PER_LINE = 16;

function hexOf(bytes) {
  const lines = [];
  for (let at = 0; at < bytes.length; at += PER_LINE) {
    const part = [...bytes.subarray(at, at + PER_LINE)], hex = part.map(byte => byte.toString(16).padStart(2, "0")).join(" ");
    const text = part.map(byte => byte > 31 && byte < 127 ? String.fromCharCode(byte) : ".").join("");
    lines.push(`${at.toString(16).padStart(4, "0")}  ${hex.padEnd(3 * PER_LINE)} ${text}`);
  }
  return lines.join("\n");
}

function fateOf({ fate, isAgain, otherAt }) {
  const again = !isAgain ? "sent for the first time" : otherAt === null ? "a retransmission, identical to the bytes sent before"
    : `a retransmission: its bytes differ from those sent before, from number ${otherAt} on`;
  return `${again}; ${fate.length ? fate.join(", ") : "delivered"}`;
}

function segmentFields({ fromPort, toPort, seq, ack, flags, window, mss }, row) {
  return [
    ["Ports", `${fromPort} to ${toPort}`], ["Flags", flagsOf(row)], ["Sequence number", `${row.seq} (${seq} on the line)`],
    ...row.ack === undefined ? [] : [["Acknowledgement", `all before ${row.ack} (${ack} on the line)`]],
    ["Window", `${window} bytes`], ...flags & 2 ? [["Largest segment", `${mss} bytes`]] : [],
  ];
}

// { title, fields, hex }: each field is a name and a value.
export function detailsOf(row) {
  const { datagram, number, time, isToNode, len } = row, { bad, from, to, echo, segment } = read(datagram), { what, numbers } = labelOf(row);
  const fields = [["From", isToNode ? "this page, to the device" : "the device, to this page"], ["Time", `${time} s`]];
  fields.push(["What became of it", fateOf(row)], ["Size", `${datagram.length} bytes, of which ${len} are text`]);
  if (bad) fields.push(["Fault", bad]);
  else fields.push(["Addresses", `${from.join(".")} to ${to.join(".")}`], ["Checksums", "right"]);
  if (echo) fields.push(["ICMP", echo.type === 8 ? "echo request" : "echo reply"]);
  if (segment) fields.push(...segmentFields(segment, row));
  return { title: `Datagram ${number}: ${[what, numbers].filter(Boolean).join(", ")}`, fields, hex: hexOf(datagram) };
}
