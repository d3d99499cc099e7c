// The declarations of uip.js: the calls of include/uip.h for one device, as WebAssembly.

/** A status of the library other than UIP_OK. */
export class Refused extends Error {
  constructor(status: number, words?: string);
  /** An `enum uip_status` of include/uip.h. */
  status: number;
}

/** The query that a device keeps for a file. */
export interface Query {
  /** What followed the `?`, undecoded; empty if the device keeps no query for that file. */
  text: string;
  /** What `hits` of that file was just after the request that brought it; 0 if there is none. */
  hit: number;
}

export type State =
  "CLOSED" | "SYN-RCVD" | "ESTABLISHED" | "CLOSE-WAIT" | "FIN-WAIT-1" | "FIN-WAIT-2" | "CLOSING" | "TIME-WAIT" | "LAST-ACK";

/** A connection of a device. In CLOSED all other fields are 0. */
export interface Connection {
  state: State;
  /** The IPv4 address of the peer, first byte first. */
  peer: number[];
  port: number;
  /** How often the segment that waits for its acknowledgement was sent again. */
  tries: number;
  /** The ticks that pass before that segment is sent again; in FIN-WAIT-2 and TIME-WAIT the ticks spent there. */
  count: number;
  isWaiting: boolean;
}

/** Called with each text that the device sends; the array is a copy. */
export type Send = (text: Uint8Array) => void;

/** A device on a serial line, with a memory of its own. Each method throws `Refused` if its call is refused. */
export class Device {
  /** `module` is web/node.wasm, compiled. */
  constructor(module: WebAssembly.Module);
  /** Called after each `feed`: reads what a form sent, and sets values. */
  work: () => void;
  /** Opens the device with the image of a site (docs/FORMATS.md) and its address; 10.0.0.1 if none is given. */
  open(image: Uint8Array, own?: ArrayLike<number>): void;
  /** Gives the device a secret of 16 random bytes, so that no host can predict its sequence numbers: once, before the first `feed` or `tick`. */
  protect(secret?: Uint8Array): void;
  /** Feeds received serial bytes, cut in any way. */
  feed(bytes: Uint8Array, send: Send): void;
  /** Makes a tick, which is due each half second. */
  tick(send: Send): void;
  /** Sets the value of a number from 0 to 15: at most 32 bytes in UTF-8. */
  setValue(number: number, text: string): void;
  /** How often the file of a name, such as /index.html, was requested, modulo 2^32. */
  hits(name: string): number;
  query(name: string): Query;
  /** The counter of an `enum uip_counter_id`, 1 to 20. */
  counter(number: number): number;
  /** The counter of an `enum uip_guard_counter_id`: 1 for datagrams that the guard dropped, 2 for connections that it gave up. */
  guardCounter(number: number): number;
  /** The connection of a slot, 0 to 9. */
  connection(slot: number): Connection;
  readonly connections: Connection[];
  /** The ticks since opening, modulo 2^32. */
  readonly ticks: number;
  /** Whether every connection is CLOSED. */
  readonly isIdle: boolean;
  /** The bytes of memory of the device's WebAssembly instance. */
  readonly memory: number;
  close(): void;
}
