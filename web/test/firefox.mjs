// Firefox without a window, by its Marionette protocol: messages of JSON after their length, at a free port of this machine, which
// Firefox writes into its profile.
import { execFileSync, spawn } from "node:child_process";
import { mkdtempSync, readFileSync, rmSync, writeFileSync } from "node:fs";
import { connect } from "node:net";
import { tmpdir } from "node:os";
import { join } from "node:path";
import { PATIENCE } from "./chromium.mjs";

const FIREFOX = process.env.FIREFOX ?? "firefox-esr", COLON = 58;
const SETTINGS = ["datareporting.policy.dataSubmissionEnabled", "app.update.enabled", "browser.shell.checkDefaultBrowser"];
const sleep = milliseconds => new Promise(resolve => setTimeout(resolve, milliseconds));

export const noFirefox = (() => {
  try { execFileSync(FIREFOX, ["--version"], { stdio: "ignore" }); return false; } catch { return "no Firefox here"; }
})();

const portIn = home => { try { return +readFileSync(join(home, "MarionetteActivePort"), "utf8"); } catch { return 0; } };

async function connected(home) {
  for (const end = Date.now() + 60000 * PATIENCE; Date.now() < end; await sleep(100)) {
    const port = portIn(home);
    const socket = port && await new Promise(resolve => {
      const it = connect(port, "127.0.0.1", () => resolve(it)).on("error", () => resolve(null));
    });
    if (socket) return socket;
  }
  throw new Error("Firefox does not answer");
}

// Calls of the protocol over a socket.
function callsOver(socket) {
  const waiting = new Map();
  let rest = Buffer.alloc(0), id = 0;
  socket.on("data", data => {
    rest = Buffer.concat([rest, data]);
    for (let colon; (colon = rest.indexOf(COLON)) > 0;) {
      const end = colon + 1 + +rest.subarray(0, colon).toString();
      if (rest.length < end) return;
      const message = JSON.parse(rest.subarray(colon + 1, end).toString());
      rest = rest.subarray(end);
      if (!Array.isArray(message)) continue;   // its greeting
      const [, of, error, result] = message, it = waiting.get(of);
      waiting.delete(of);
      if (error) it.reject(new Error(`${error.error}: ${error.message}`)); else it.resolve(result);
    }
  });
  return (name, parameters = {}) => new Promise((resolve, reject) => {
    waiting.set(++id, { resolve, reject });
    const text = JSON.stringify([0, id, name, parameters]);
    socket.write(`${Buffer.byteLength(text)}:${text}`);
  });
}

// The one tab, as chromium.mjs has them.
function tabOver(call) {
  const run = async source => (await call("WebDriver:ExecuteScript", { script: `return (async () => { ${source} })()`, args: [] })).value;
  return {
    run,
    close: () => call("WebDriver:Navigate", { url: "about:blank" }),
    async until(isSo, seconds = 30) {
      for (const end = Date.now() + seconds * PATIENCE * 1000; Date.now() < end; await sleep(50))
        if (await run(`return !!(${isSo})`).catch(() => false)) return;
      const notices = await run(`return document.getElementById("notices")?.textContent`).catch(() => "");
      throw new Error(`not in ${seconds * PATIENCE} s: ${isSo}; the page's messages: ${notices}`);
    },
    async picture(file) {
      writeFileSync(file, Buffer.from((await call("WebDriver:TakeScreenshot", { full: false })).value, "base64"));
    },
  };
}

export async function startFirefox() {
  const home = mkdtempSync(join(tmpdir(), "firefox-"));
  writeFileSync(join(home, "user.js"), [`user_pref("marionette.port", 0);`, ...SETTINGS.map(name => `user_pref("${name}", false);`)].join("\n"));
  const words = ["--headless", "--marionette", "--no-remote", "--profile", home, "--window-size=1400,900", "about:blank"];
  const child = spawn(FIREFOX, words, { stdio: "ignore", env: { ...process.env, HOME: home } }), ended = new Promise(resolve => child.on("exit", resolve));
  const socket = await connected(home), call = callsOver(socket);
  await call("WebDriver:NewSession", { capabilities: {} });
  await call("WebDriver:SetTimeouts", { script: 300000, pageLoad: 60000 });
  const tab = tabOver(call);
  return {
    async open(url) {
      await tab.close();
      await call("WebDriver:Navigate", { url });
      return tab;
    },
    async stop() {
      await Promise.race([call("Marionette:Quit", { flags: ["eForceQuit"] }).catch(() => {}), sleep(3000)]);
      await Promise.race([ended, sleep(5000)]);
      child.kill("SIGKILL");
      socket.destroy();
      rmSync(home, { recursive: true, force: true, maxRetries: 10, retryDelay: 200 });
    },
  };
}
