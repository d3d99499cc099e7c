// Chromium without a window, by its debugging pipe (no port, no WebSocket, nothing to install). It ends when the pipe closes.
import { execFileSync, spawn } from "node:child_process";
import { mkdtempSync, rmSync, writeFileSync } from "node:fs";
import { tmpdir } from "node:os";
import { join } from "node:path";

const CHROMIUM = process.env.CHROMIUM ?? "chromium";
// PATIENCE=4 waits four times as long, for a busy machine.
export const PATIENCE = +(process.env.PATIENCE ?? 1);
const FLAGS = ["--headless", "--no-sandbox", "--disable-gpu", "--no-first-run", "--disable-background-networking",
  "--disable-component-update", "--disable-sync", "--disable-default-apps", "--disable-dev-shm-usage", "--no-proxy-server",
  "--remote-debugging-pipe", "--window-size=1400,900"];

export const noChromium = (() => {
  try { execFileSync(CHROMIUM, ["--version"], { stdio: "ignore" }); return false; } catch { return "no Chromium here"; }
})();

// Calls of the debugging protocol over the pipe: messages of JSON, parted by zero bytes.
function callsOver(to, from) {
  const waiting = new Map(), listeners = [];
  let rest = "", id = 0;
  from.setEncoding("utf8").on("data", text => {
    const parts = (rest + text).split("\0");
    rest = parts.pop();
    for (const part of parts) {
      const message = JSON.parse(part), it = waiting.get(message.id);
      waiting.delete(message.id);
      if (!it) listeners.forEach(listen => listen(message));
      else if (message.error) it.reject(new Error(`${it.method}: ${message.error.message}`));
      else it.resolve(message.result);
    }
  });
  const call = (method, params = {}, sessionId) => new Promise((resolve, reject) => {
    waiting.set(++id, { resolve, reject, method });
    to.write(JSON.stringify({ id, method, params, sessionId }) + "\0");
  });
  return { call, listen: listener => listeners.push(listener) };
}

// The text of a message from the page or the browser.
function wordsOf({ method, params }) {
  if (method === "Runtime.exceptionThrown") return params.exceptionDetails.exception?.description ?? params.exceptionDetails.text;
  if (method === "Runtime.consoleAPICalled") return params.args.map(it => it.value ?? it.description).join(" ");
  if (method === "Log.entryAdded") return `${params.entry.text} ${params.entry.url ?? ""}`;
  return null;
}

class Tab {
  messages = [];

  constructor(call, targetId) {
    Object.assign(this, { call, targetId });
  }

  // What a script of the page answers with, as by a click of the user.
  async run(source) {
    const expression = `(async () => { ${source} })()`;
    const { result, exceptionDetails } = await this.call("Runtime.evaluate",
      { expression, awaitPromise: true, returnByValue: true, userGesture: true });
    if (exceptionDetails) throw new Error(exceptionDetails.exception?.description ?? exceptionDetails.text);
    return result.value;
  }

  async until(isSo, seconds = 30) {
    for (const end = Date.now() + seconds * PATIENCE * 1000; Date.now() < end;) {
      if (await this.run(`return !!(${isSo})`).catch(() => false)) return;
      await new Promise(resolve => setTimeout(resolve, 50));
    }
    const notices = await this.run(`return document.getElementById("notices")?.innerText`).catch(() => "");
    throw new Error(`not in ${seconds * PATIENCE} s: ${isSo}; the page's messages: ${[...this.messages, notices].join("; ")}`);
  }

  async picture(file) {
    const { data } = await this.call("Page.captureScreenshot", { format: "png" });
    writeFileSync(file, Buffer.from(data, "base64"));
  }

  close() {
    return this.call("Page.close").catch(() => {});
  }

  size(width, height) {
    return this.call("Emulation.setDeviceMetricsOverride", { width, height, deviceScaleFactor: 1, mobile: false });
  }

  async key(key, code = key, text = undefined) {
    const of = { key, code, text, windowsVirtualKeyCode: { Enter: 13, Tab: 9, Escape: 27 }[key] ?? key.charCodeAt(0) };
    await this.call("Input.dispatchKeyEvent", { type: "keyDown", ...of });
    await this.call("Input.dispatchKeyEvent", { type: "keyUp", ...of });
  }
}

export async function startChromium() {
  const home = mkdtempSync(join(tmpdir(), "chromium-"));
  const child = spawn(CHROMIUM, [...FLAGS, `--user-data-dir=${home}`, "about:blank"],
    { stdio: ["ignore", "ignore", "ignore", "pipe", "pipe"], env: { ...process.env, HOME: home } });
  const { call, listen } = callsOver(child.stdio[3], child.stdio[4]);
  const ended = new Promise(resolve => child.on("exit", resolve));

  // A new tab at an address; `first` is a script that runs in it before all others.
  async function open(url, first = "") {
    const { targetId } = await call("Target.createTarget", { url: "about:blank" });
    const { sessionId } = await call("Target.attachToTarget", { targetId, flatten: true });
    const tab = new Tab((method, params) => call(method, params, sessionId), targetId);
    listen(message => {
      const words = message.sessionId === sessionId ? wordsOf(message) : null;
      if (words !== null) tab.messages.push(words);
    });
    await Promise.all(["Page.enable", "Runtime.enable", "Log.enable"].map(it => tab.call(it)));
    if (first) await tab.call("Page.addScriptToEvaluateOnNewDocument", { source: first });
    await tab.call("Page.navigate", { url });
    return tab;
  }

  async function stop() {
    await Promise.race([call("Browser.close").catch(() => {}), new Promise(resolve => setTimeout(resolve, 3000))]);
    await Promise.race([ended, new Promise(resolve => setTimeout(resolve, 3000))]);
    child.kill("SIGKILL");
    await ended;
    rmSync(home, { recursive: true, force: true, maxRetries: 10, retryDelay: 200 });
  }
  return { open, stop };
}
