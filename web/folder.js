// Live reload: the site of web/serve.py, a folder whose files this page packs or an image. It looks twice a second whether
// a file has changed.
import { pack } from "./site.js";
import { startTimer, stopTimer } from "./timers.js";

const PERIOD = 500;

// The site as it is now: { stamp, image }, where `image` packs it, or fails, and the stamp changes with any file. `fetched` returns a
// reply of the server, or fails.
export async function siteOfFolder(fetched) {
  const { names, isImage, stamp } = await (await fetched("folder")).json();
  const pathOf = name => `folder/${name.split("/").map(encodeURIComponent).join("/")}`;
  const bytesOf = async name => new Uint8Array(await (await fetched(pathOf(name))).arrayBuffer());
  const image = async () => {
    if (isImage) return bytesOf(names[0]);
    return pack(await Promise.all(names.map(async name => ({ name: `/${name}`, bytes: await bytesOf(name) }))));
  };
  return { stamp, image };
}

// Calls `changed` once the stamp is another one; returns how to stop.
export function watchFolder(stamp, fetched, changed) {
  let timer = 0, isOver = false;
  async function look() {
    const now = await fetched("folder").then(it => it.json()).catch(() => null);   // a file is being written, or the server is gone
    if (isOver) return;
    if (now && now.stamp !== stamp) return changed();
    timer = startTimer(PERIOD, look);
  }
  timer = startTimer(PERIOD, look);
  return () => { isOver = true; stopTimer(timer); };
}
