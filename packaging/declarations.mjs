// Compares web/uip.d.ts with web/uip.js: each name that one exports, and each member of its classes, the other has too. If the command
// tsc is here, it also compiles a use of the declarations.
import { execFileSync } from "node:child_process";
import { mkdtempSync, readFileSync, rmSync, writeFileSync } from "node:fs";
import { tmpdir } from "node:os";
import { dirname, join } from "node:path";
import { fileURLToPath } from "node:url";
import * as uip from "../web/uip.js";

const web = join(dirname(fileURLToPath(import.meta.url)), "../web"), text = readFileSync(join(web, "uip.d.ts"), "utf8").replace(/\/\*\*.*?\*\//gs, "");
const device = new uip.Device(new WebAssembly.Module(readFileSync(join(web, "node.wasm"))));
device.open(readFileSync(join(web, "site.img")));
const things = { Refused: new uip.Refused(1), Device: device };
const faults = [];
const same = (what, has, declared) => {
  for (const name of has) if (!declared.includes(name)) faults.push(`${what}: ${name} is not declared`);
  for (const name of declared) if (!has.includes(name)) faults.push(`${what}: ${name} is declared and not there`);
};
const members = thing => [...new Set([...Object.getOwnPropertyNames(Object.getPrototypeOf(thing)), ...Object.keys(thing)])];
const declared = (kind, name) => {
  const body = new RegExp(`export ${kind} ${name}\\b[^{]*\\{(.*?)^\\}`, "ms").exec(text)?.[1] ?? "";
  return [...body.matchAll(/^ {2}(?:readonly )?(\w+)(?=[(:?])/gm)].map(it => it[1]);
};

same("uip.js", Object.keys(uip), [...text.matchAll(/^export class (\w+)/gm)].map(it => it[1]));
for (const [name, thing] of Object.entries(things)) same(name, members(thing), declared("class", name));
same("Connection", Object.keys(device.connection(0)), declared("interface", "Connection"));
same("Query", Object.keys(device.query("/index.html")), declared("interface", "Query"));
same("State", [...readFileSync(join(web, "uip.js"), "utf8").match(/STATES = \[(.*?)\]/s)[1].matchAll(/"(.*?)"/g)].map(it => it[1]),
  [...text.match(/export type State =(.*?);/s)[1].matchAll(/"(.*?)"/g)].map(it => it[1]));

const USE = `import { Device, Refused, type Connection } from "${join(web, "uip")}";
export function use(module: WebAssembly.Module, image: Uint8Array): Connection[] {
  const device = new Device(module);
  try { device.open(image, [10, 0, 0, 1]); } catch (error) { if (error instanceof Refused) console.log(error.status); }
  device.feed(new Uint8Array(1), text => console.log(text.length));
  return device.connections;
}\n`;
let hasTsc = true;
try { execFileSync("tsc", ["--version"], { stdio: "ignore" }); } catch { hasTsc = false; }
if (hasTsc) {
  const room = mkdtempSync(join(tmpdir(), "declarations-"));
  writeFileSync(join(room, "use.ts"), USE);
  try { execFileSync("tsc", ["--noEmit", "--strict", "--target", "es2020", "--module", "es2020", "--moduleResolution", "node", join(room, "use.ts")]); }
  catch (error) { faults.push(String(error.stdout)); }
  rmSync(room, { recursive: true });
}
console.log(faults.length ? faults.join("\n") : `the declarations agree with uip.js${hasTsc ? "" : "; not compiled: no tsc here"}`);
process.exit(faults.length ? 1 : 0);
