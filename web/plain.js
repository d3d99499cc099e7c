// The device's site in a frame of no origin, without the service worker: where this page is a file, or where the device's
// scripts are to be kept apart. A page is shown with the styles, pictures and scripts that it names put into it; its links,
// its forms and its scripts' own requests (`fetch`) come here as messages. What its styles name is not there.
import { all, headerOf } from "./http.js";

// Runs in the frame, before the device's own scripts.
function inFrame() {
  const waiting = new Map(), ask = message => parent.postMessage(message, "*");
  let count = 0;
  addEventListener("click", event => {
    const link = event.target.closest?.("a[href]");
    if (!link) return;
    event.preventDefault();
    ask({ visit: link.getAttribute("href") });
  });
  addEventListener("submit", event => {
    const form = event.target, [path] = (form.getAttribute("action") ?? "").split(/[?#]/);
    event.preventDefault();
    ask({ visit: `${path}?${new URLSearchParams(new FormData(form, event.submitter))}` });
  });
  addEventListener("dragenter", event => { if (event.dataTransfer.types.includes("Files")) ask({ isDrag: true }); });
  window.fetch = what => new Promise((resolve, reject) => {
    waiting.set(++count, { resolve, reject });
    ask({ fetch: what.url ?? String(what), count });
  });
  addEventListener("message", ({ source, data }) => {
    const it = source === parent && waiting.get(data?.count);
    if (!it) return;
    waiting.delete(data.count);
    if (data.why) it.reject(new TypeError(data.why));
    else it.resolve(new Response(data.bytes.length ? data.bytes : null, { status: data.status, headers: data.headers }));
  });
}

function dataUrl(type, bytes) {
  let text = "";
  for (let at = 0; at < bytes.length; at += 8192) text += String.fromCharCode(...bytes.subarray(at, at + 8192));
  return `data:${type};base64,${btoa(text)}`;
}

const NAMED = "link[rel=stylesheet][href], img[src], script[src]";
const pathOf = url => url.pathname + url.search;

export class PlainFrame {
  #visited = [];   // targets, the last is shown
  #refresh = 0;    // a timer
  #running = 0;    // pages that are being put together
  isAway = false;  // as of WorkerFrame: links do not lead away here

  // `get` returns a page's reply, `shown` receives the target that is shown, and `failed` the error if none is. `left` and `dragged` are
  // as of WorkerFrame.
  constructor(element, { get, shown, failed, left = () => {}, dragged = () => {} }) {
    Object.assign(this, { element, get, shown, failed, left, dragged });
    addEventListener("message", event => this.#receive(event));
  }

  // Another device is open.
  renew() {
    clearTimeout(this.#refresh);
    this.#visited = [];
  }

  blank() { this.element.srcdoc = ""; }

  async visit(target) {
    this.#visited.push(target);
    this.#running++;
    try { await this.#show(target); } catch (error) { this.failed(error); } finally { this.#running--; }
  }

  get isLoading() { return this.#running > 0; }

  reload() {
    return this.visit(this.#visited.pop() ?? "/");
  }

  back() {
    this.#visited.pop();
    return this.reload();
  }

  #base() {
    return new URL(this.#visited.at(-1) ?? "/", "http://node/");
  }

  async #whole(url) {
    const { status, headers, body } = await this.get(pathOf(url));
    return { status, headers, type: headerOf(headers, "content-type") ?? "text/plain", bytes: await all(body) };
  }

  async #show(target) {
    clearTimeout(this.#refresh);
    const base = new URL(target, "http://node/"), { type, bytes } = await this.#whole(base);
    const page = new DOMParser().parseFromString(htmlOf(type, bytes), "text/html");
    await Promise.all([...page.querySelectorAll(NAMED)].map(it => this.#putIn(it, base)));
    const script = page.createElement("script"), own = page.createElement("base");
    script.textContent = `(${inFrame})();`;
    own.href = base.href;   // else a link that a handler changes leads to where this page lies
    page.head.prepend(own, script);
    this.#refreshLater(page, base);
    this.element.setAttribute("sandbox", "allow-scripts allow-forms");
    this.element.srcdoc = `<!DOCTYPE html>${page.documentElement.outerHTML}`;
    this.shown(pathOf(base));
  }

  // A refresh that a page asks for is a visit: the frame itself does not reach the device.
  #refreshLater(page, base) {
    const meta = page.querySelector("meta[http-equiv=refresh i]");
    const [, seconds, name] = /^\s*(\d+)\s*(?:[;,]\s*url\s*=\s*["']?([^"']*))?/i.exec(meta?.content ?? "") ?? [];
    meta?.remove();
    if (!seconds) return;
    const url = new URL(name || base, base);
    if (url.host === base.host) this.#refresh = setTimeout(() => this.visit(pathOf(url) + url.hash), seconds * 1000);
  }

  // Puts what an element names into it.
  async #putIn(element, base) {
    const name = element.hasAttribute("src") ? "src" : "href", url = new URL(element.getAttribute(name), base);
    if (url.host !== base.host || url.protocol !== base.protocol) return;
    const { type, bytes } = await this.#whole(url);
    element.setAttribute(name, dataUrl(type, bytes));
  }

  async #receive({ source, data }) {
    if (source !== this.element.contentWindow || typeof data !== "object") return;
    if (data.isDrag) this.dragged();
    if (typeof data.visit === "string") {
      const url = new URL(data.visit, this.#base());
      if (url.host === "node") this.visit(pathOf(url) + url.hash);
      else if (/^https?:$/.test(url.protocol)) this.left(url.href);
    }
    if (typeof data.fetch !== "string") return;
    const { count } = data;
    try {
      const { status, headers, bytes } = await this.#whole(new URL(data.fetch, this.#base()));
      source.postMessage({ count, status, headers, bytes }, "*");
    } catch (error) {
      source.postMessage({ count, why: error.message }, "*");
    }
  }
}

// A page for what is none: a picture, or text.
function htmlOf(type, bytes) {
  if (type.startsWith("text/html")) return new TextDecoder().decode(bytes);
  if (type.startsWith("image/")) return `<img alt="" src="${dataUrl(type, bytes)}">`;
  const text = new TextDecoder().decode(bytes).replace(/[&<]/g, sign => `&#${sign.charCodeAt(0)};`);
  return `<pre>${text}</pre>`;
}
