// The device's site in a frame, by the service worker: each page of the device and each file that it requests, with no byte
// changed. Its scripts have this page's origin; plain.js is for scripts that are not trusted.
import { after } from "./timers.js";

const LONGEST_BLANK = 300, LONGEST_VISIT = 5000;   // milliseconds for which a load is awaited

export class WorkerFrame {
  #id;               // of the device that is open
  #mount;            // its first page is mount + "/". A link to "/x" stays below it, also where this page does not lie at the origin's root
  #followed = null;
  #trail;            // the targets that were shown, the last is shown now
  #isBack = false;   // a visit by Back is under way
  isAway = false;    // a link led to another origin
  #visited = -LONGEST_VISIT;   // when a visit began whose page is not loaded
  #watched = new WeakSet();   // documents whose drags are watched
  #href = "";

  // `get` returns a page's reply, and `shown` receives the target that is shown. `left` receives the address of a link that leads away from
  // the device, and `dragged` each drag that enters the frame.
  constructor(element, { get, shown, left = () => {}, dragged = () => {} }) {
    Object.assign(this, { element, get, shown, left, dragged });
    this.answer = event => this.#answer(event);
    element.addEventListener("load", () => { this.#visited = -LONGEST_VISIT; });
    this.renew();
  }

  // Another device is open: what the pages of the last one still request is not for it.
  renew() {
    this.#id = crypto.randomUUID().slice(0, 8);
    this.#mount = new URL(`at/${this.#id}`, document.baseURI).href;
    this.#trail = [];
    this.#href = "";
  }

  // Needs a page from https or from this machine: elsewhere there is no service worker.
  async start() {
    if (!navigator.serviceWorker) throw new Error("no service worker here");
    navigator.serviceWorker.addEventListener("message", this.answer);
    await navigator.serviceWorker.register("worker.js");
    await navigator.serviceWorker.ready;
    setInterval(() => this.#follow(), 50);
  }

  // Leaves the page that is shown, so that its scripts end.
  async blank() {
    const loaded = new Promise(resolve => this.element.addEventListener("load", resolve, { once: true }));
    this.element.src = "about:blank";
    this.element.removeAttribute("srcdoc");
    await Promise.race([loaded, after(LONGEST_BLANK)]);
  }

  visit(target) {
    this.element.removeAttribute("sandbox");
    this.#visited = performance.now();
    this.element.src = this.#mount + target;
    this.element.removeAttribute("srcdoc");
  }

  reload() {
    if (this.isAway) return this.visit(this.#trail.at(-1) ?? "/");
    this.element.contentWindow.location.reload();
  }

  // Whether the page that was visited, or a file that it names, is still missing. A download is never loaded.
  get isLoading() {
    const { contentDocument } = this.element;
    if (performance.now() - this.#visited < LONGEST_VISIT) return true;
    return !!contentDocument && contentDocument.readyState !== "complete";
  }

  // A visit of the page before. The browser's own history is shared with this page, and a step back in it could leave this page.
  back() {
    this.#follow();
    if (!this.isAway && this.#trail.length < 2) return;
    if (!this.isAway) this.#trail.pop();
    this.#isBack = true;
    this.visit(this.#trail.at(-1));
  }

  // What the worker asks for.
  async #answer({ data, ports: [port] }) {
    if (data.id !== this.#id) return port.postMessage("not mine");
    try {
      const { status, reason, headers, body } = await this.get(data.target);
      port.postMessage({ status, reason, headers, body }, [body]);
    } catch (error) {
      port.postMessage({ why: error.message });
    }
  }

  #follow() {
    const inside = this.element.contentWindow;
    let href;
    try { href = inside.location.href; } catch { return this.#leave(); }
    this.isAway = false;
    if (href.startsWith(this.#mount)) this.#enter(href);
    if (!this.#watched.has(inside.document)) inside.addEventListener("dragenter", this.dragged);
    this.#watched.add(inside.document);
    if (!inside.navigation || inside.navigation === this.#followed) return;
    this.#followed = inside.navigation;
    this.#followed.addEventListener("navigate", event => this.#turn(event));
  }

  // The frame shows another origin, of which nothing is known here.
  #leave() {
    if (this.isAway) return;
    this.isAway = true;
    this.#href = "";
    this.shown("");
  }

  #enter(href) {
    const target = href.slice(this.#mount.length);
    if (href !== this.#href && !this.#isBack) this.#trail.push(target);
    if (href !== this.#href) this.#isBack = false;
    this.#href = href;
    this.shown(target);
  }

  // A link that leads out of the worker's places, as "/x" where this page lies below a path, or out of the device.
  #turn(event) {
    const url = new URL(event.destination.url);
    if (url.href.startsWith(this.#mount) || !event.cancelable || !/^https?:$/.test(url.protocol)) return;
    event.preventDefault();
    if (url.origin !== location.origin) return this.left(url.href);
    this.visit(url.pathname + url.search + url.hash);
  }
}
