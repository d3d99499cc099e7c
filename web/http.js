// GET over a host's connection (RFC 1945: HTTP/1.0, sections 5 and 6). The body ends where the node closes (section 7.2.2).

const encoder = new TextEncoder(), decoder = new TextDecoder("latin1");
const LONGEST_HEAD = 8192;

// The reply's status, reason, headers and the stream of its body, once the head is there. The body fails where the
// connection does, or if fewer bytes arrive than the head announces. `over` resolves when nothing more will arrive.
export async function get(host, target, { port = 80 } = {}) {
  const connection = host.connect(port), reader = connection.readable.getReader();
  connection.write(encoder.encode(`GET ${target} HTTP/1.0\r\nHost: ${host.node.join(".")}\r\n\r\n`));
  try {
    const { text, end } = await readHead(reader);
    const head = parseHead(decoder.decode(text.subarray(0, end - 4)));
    const body = bodyOf(connection, reader, text.subarray(end), lengthOf(head.headers));
    return { ...head, body, over: reader.closed.catch(() => {}) };
  } catch (error) {
    connection.abort();
    throw error;
  }
}

// What came until the head was whole, and where the body begins.
async function readHead(reader) {
  let text = new Uint8Array(0);
  for (;;) {
    const { value, done } = await reader.read();
    if (done) throw new Error("the node closed before a head");
    const more = new Uint8Array(text.length + value.length);
    more.set(text);
    more.set(value, text.length);
    text = more;
    const end = headEnd(text);
    if (end >= 0) return { text, end };
    if (text.length > LONGEST_HEAD) throw new Error("no head in what the node sent");
  }
}

function headEnd(text) {
  for (let at = 0; at + 4 <= text.length; at++)
    if (text[at] === 13 && text[at + 1] === 10 && text[at + 2] === 13 && text[at + 3] === 10) return at + 4;
  return -1;
}

function parseHead(text) {
  const [first, ...lines] = text.split("\r\n");
  const [, status, reason] = /^HTTP\/\d\.\d (\d{3}) ?(.*)$/.exec(first) ?? [];
  if (!status) throw new Error(`no head in what the node sent: ${first.slice(0, 80)}`);
  const headers = lines.map(line => /^([^:\s]+):\s*(.*?)\s*$/.exec(line)?.slice(1)).filter(Boolean);
  return { status: +status, reason, headers };
}

// The value of a reply's header, or undefined.
export function headerOf(headers, name) {
  return headers.find(([one]) => one.toLowerCase() === name)?.[1];
}

function lengthOf(headers) {
  const length = headerOf(headers, "content-length");
  return /^\d+$/.test(length ?? "") ? +length : null;
}

function bodyOf(connection, reader, rest, length) {
  let count = rest.length;
  return new ReadableStream({
    start(stream) { if (rest.length) stream.enqueue(rest); },
    async pull(stream) {
      const { value, done } = await reader.read();
      if (!done) {
        count += value.length;
        stream.enqueue(value);
      } else if (length !== null && count < length) {
        throw new Error(`the node closed after ${count} bytes of ${length}`);
      } else {
        stream.close();
      }
    },
    cancel: () => connection.abort(),
  });
}

// All bytes of a stream.
export async function all(stream) {
  const parts = [], reader = stream.getReader();
  for (let turn; !(turn = await reader.read()).done;) parts.push(turn.value);   // a Response would hide why it failed
  const bytes = new Uint8Array(parts.reduce((sum, part) => sum + part.length, 0));
  parts.reduce((at, part) => { bytes.set(part, at); return at + part.length; }, 0);
  return bytes;
}
