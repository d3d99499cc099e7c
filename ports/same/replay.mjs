// node replay.mjs REPLAY.wasm: runs replay.c on WebAssembly, and makes its system calls.
import { readFileSync, readSync, writeSync } from "node:fs";

const READ = 0, WRITE = 1;

function read(bytes) {
  for (;;) {
    try { return readSync(0, bytes); } catch (error) {
      if (error.code === "EOF") return 0;
      if (error.code !== "EAGAIN") throw error;
    }
  }
}

const { instance } = await WebAssembly.instantiate(readFileSync(process.argv[2]), {
  env: {
    system_call(number, first, from, len) {
      if (number !== READ && number !== WRITE) process.exit(first);
      const bytes = new Uint8Array(instance.exports.memory.buffer, from, len);
      return number === READ ? read(bytes) : writeSync(2, bytes);
    },
  },
});
process.exit(instance.exports.main());
