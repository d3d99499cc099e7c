// The proved library as WebAssembly (node.wasm): the calls of include/uip.h for one device, which has a memory of its own.
// It knows no document and no clock.
const MAX_IN = 16384, MAX_OUT = 3002, SLOTS = 10, MAX_VALUE = 32, MAX_QUERY = 64, LONGEST_NAME = 64;
const STATUSES = ["successful", "no device", "bad argument", "a device is open already", "bad image", "out of memory", "output is pending"];
// Why an image is bad (docs/FORMATS.md, The image of a site).
const FAULTS = {
  long: "it has more than 16 MiB", magic: "it is no image of a site", cut: "it ends too early", many: "it has more than 1,024 files",
  name: "a name of a file is not allowed", twice: "two files have one name", kind: "a content type is not allowed", rest: "bytes follow its last file",
  include: "a script includes a file that is not there", page: "a page could become too long",
};
const STATES = ["CLOSED", "SYN-RCVD", "ESTABLISHED", "CLOSE-WAIT", "FIN-WAIT-1", "FIN-WAIT-2", "CLOSING", "TIME-WAIT", "LAST-ACK"];

const ascii = text => Uint8Array.from(text, sign => sign.charCodeAt(0));

// A status of the library other than UIP_OK.
export class Refused extends Error {
  constructor(status, words = STATUSES[status]) {
    super(words);
    this.status = status;
  }
}

export class Device {
  #calls;   // the exports of the module
  #at;      // the addresses of its areas
  work = () => {};   // called after each `feed`: reads what a form sent and sets values, before the peer acknowledges the head of the page

  constructor(module) {
    this.#calls = new WebAssembly.Instance(module).exports;
    this.#at = Object.fromEntries(["device", "in", "out", "own", "result"].map(name => [name, this.#calls[name].value]));
  }

  // Opens the device with an image (docs/FORMATS.md) and its address.
  open(image, own = [10, 0, 0, 1]) {
    const { uip_open, image: areaFor } = this.#calls, { device, result, own: ownAt } = this.#at, at = areaFor(image.length);
    if (!at) throw new Refused(this.#bytes()[device] ? 3 : 5);
    this.#bytes().set(image, at);
    this.#bytes().set(own, ownAt);
    uip_open(result, device, at, image.length, ownAt);
    if (this.#word(0) === 0) return;
    const why = String.fromCharCode(...this.#bytes().subarray(result + 8, result + 16)).replace(/\0.*/s, "");
    throw new Refused(this.#word(0), why && `bad image: ${FAULTS[why] ?? "it is refused"} (${why} ${this.#word(1)})`);
  }

  // Gives the device a secret of 16 random bytes, so that no host can predict its sequence numbers: once, before anything is received.
  protect(secret = crypto.getRandomValues(new Uint8Array(16))) {
    if (secret.length !== 16) throw new Refused(2, "a secret has 16 bytes");
    this.#bytes().set(secret, this.#at.in);
    const status = this.#calls.uip_protect(this.#at.device, this.#at.in);
    if (status !== 0) throw new Refused(status);
  }

  // Feeds received serial bytes. Passes each text that the device sends to `send`.
  feed(bytes, send) {
    for (let from = 0; from < bytes.length; from += MAX_IN) {
      const part = bytes.subarray(from, from + MAX_IN), { device, in: at, out } = this.#at;
      this.#bytes().set(part, at);
      for (let consumed = 0; consumed < part.length; consumed += this.#word(2))
        this.#call("uip_feed", send, device, at + consumed, part.length - consumed, out, MAX_OUT);
    }
    this.work();
  }

  // A tick, due twice a second: the periodic calls of all slots.
  tick(send) {
    for (let slot = 0; slot < SLOTS; slot++) this.#call("uip_periodic", send, this.#at.device, slot, this.#at.out, MAX_OUT);
  }

  // Sets the value of a number from 0 to 15, which scripts of the site display.
  setValue(number, text) {
    const bytes = new TextEncoder().encode(text), { device, in: at } = this.#at;
    if (bytes.length > MAX_VALUE) throw new Refused(2, `a value has at most ${MAX_VALUE} bytes`);
    this.#bytes().set(bytes, at);
    const status = this.#calls.uip_set_value(device, number, at, bytes.length);
    if (status !== 0) throw new Refused(status);
  }

  // How often the file of a name was requested.
  hits(name) { return this.#number("uip_hits", ...this.#named(name)); }

  // The query that the device keeps for the file of a name: its text, as it was received, and the hits of the file after the request
  // that brought it. If it keeps none for that file, the text is empty and the number is 0.
  query(name) {
    const { result, device, out } = this.#at;
    this.#calls.uip_query(result, device, ...this.#named(name), out, MAX_QUERY);
    this.#check();
    return { text: String.fromCharCode(...this.#bytes().subarray(out, out + this.#word(2))), hit: this.#word(1) };
  }

  get ticks() { return this.#number("uip_ticks"); }
  get isIdle() { return this.#number("uip_is_idle") === 1; }
  get memory() { return this.#bytes().length; }
  counter(number) { return this.#number("uip_counter", number); }
  guardCounter(number) { return this.#number("uip_guard_counter", number); }

  connection(slot) {
    const { result, device } = this.#at;
    this.#calls.uip_connection(result, device, slot);
    this.#check();
    return {
      state: STATES[this.#word(1)], peer: [...this.#bytes().subarray(result + 8, result + 12)], port: this.#word(3), tries: this.#word(4),
      count: this.#word(5), isWaiting: this.#word(6) === 1,
    };
  }

  get connections() { return Array.from({ length: SLOTS }, (_, slot) => this.connection(slot)); }

  close() {
    const status = this.#calls.uip_close(this.#at.device);
    if (status !== 0) throw new Refused(status);
  }

  #bytes() { return new Uint8Array(this.#calls.memory.buffer); }   // made anew each time, since the memory may grow
  #word(number) { return new Uint32Array(this.#calls.memory.buffer, this.#at.result, 8)[number]; }
  #check() { if (this.#word(0) !== 0) throw new Refused(this.#word(0)); }

  // Puts a name into the input area. Returns its address and its length.
  #named(name) {
    const bytes = ascii(name.slice(0, LONGEST_NAME + 1));
    this.#bytes().set(bytes, this.#at.in);
    return [this.#at.in, bytes.length];
  }

  #number(call, ...words) {
    this.#calls[call](this.#at.result, this.#at.device, ...words);
    this.#check();
    return this.#word(1);
  }

  #call(call, send, ...words) {
    const { result, out } = this.#at;
    this.#calls[call](result, ...words);
    this.#check();
    const written = this.#word(3);
    if (written) send(this.#bytes().slice(out, out + written));
  }
}
