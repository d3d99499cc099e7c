// The service worker: it passes the requests of a device's page to the page that has the line. A device's pages lie under
// at/ID/, ID the page's own; whatever such a page asks for of this origin, at whatever path, is the device's. It keeps
// nothing, since a worker may be ended between two requests.
const BASE = new URL("at/", registration.scope).href;
const WITHOUT_BODY = [204, 205, 304];

self.addEventListener("install", () => self.skipWaiting());
self.addEventListener("activate", event => event.waitUntil(clients.claim()));
self.addEventListener("fetch", event => event.respondWith(answer(event)));

// The ID and the target where a URL is one below BASE.
function placeOf(url) {
  const parts = url.startsWith(BASE) ? /^([\w-]+)(\/[^#]*)/.exec(url.slice(BASE.length)) : null;
  return parts && { id: parts[1], target: parts[2] };
}

// The ID and the target where a URL is a device's; `asker` is the URL of the document that asks.
function placeAskedBy(asker, url) {
  const own = placeOf(url.href), of = placeOf(asker);
  if (own) return own;
  return of && url.origin === location.origin ? { id: of.id, target: url.pathname + url.search } : null;
}

async function answer({ request, clientId }) {
  const url = new URL(request.url), isPage = request.mode === "navigate";
  const asker = isPage ? request.referrer : clientId ? (await clients.get(clientId))?.url : "";
  const place = placeAskedBy(asker ?? "", url);
  if (!place) return fetch(request);
  if (isPage && !url.href.startsWith(BASE)) return Response.redirect(BASE + place.id + place.target);   // by a link like "/x"
  if (request.method !== "GET") return plainReply(405, "the page asks a device by GET alone");
  const { why, status, reason, headers, body } = await ask(place);
  if (why) return plainReply(504, why);
  if (status < 200 || status > 599) return plainReply(502, `the node answers with the status ${status}`);
  return new Response(WITHOUT_BODY.includes(status) ? null : body, { status, statusText: reason, headers });
}

function plainReply(status, words) {
  return new Response(`${words}\n`, { status, headers: { "Content-Type": "text/plain" } });
}

// Asks every page of ours; the one whose ID it is answers.
async function ask(place) {
  const windows = await clients.matchAll({ type: "window", includeUncontrolled: true });
  const pages = windows.filter(page => !page.url.startsWith(BASE));
  return new Promise(resolve => {
    let left = pages.length;
    const none = () => resolve({ why: "the page with the line is gone" });
    if (!left) none();
    for (const page of pages) {
      const { port1, port2 } = new MessageChannel();
      port1.onmessage = ({ data }) => { if (data !== "not mine") resolve(data); else if (!--left) none(); };
      page.postMessage(place, [port2]);
    }
  });
}
