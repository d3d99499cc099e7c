// Timers that a background tab does not slow down. A browser wakes a page that nobody sees once a second, later once a minute; a worker's
// timers are on time. Where there is no worker, as under node, these are the usual timers.
const SOURCE = `const running = new Map();
onmessage = ({ data: { id, wait } }) => {
  clearTimeout(running.get(id));
  running.delete(id);
  if (wait >= 0) running.set(id, setTimeout(() => { running.delete(id); postMessage(id); }, wait));
};`;

const waiting = new Map();   // by ID: what is due
let last = 0;

function startWorker() {
  if (typeof Worker === "undefined" || typeof document === "undefined") return null;
  try {
    const worker = new Worker(URL.createObjectURL(new Blob([SOURCE], { type: "text/javascript" })));
    worker.onmessage = ({ data }) => {
      const what = waiting.get(data);
      waiting.delete(data);
      what?.();
    };
    return worker;
  } catch { return null; }   // it is forbidden here
}
const worker = startWorker();

// Runs `what` after some milliseconds. Returns what stopTimer takes; it is never 0.
export function startTimer(wait, what) {
  if (!worker) return setTimeout(what, wait);
  waiting.set(++last, what);
  worker.postMessage({ id: last, wait: Math.max(0, wait) });
  return last;
}

export function stopTimer(timer) {
  if (!worker) return clearTimeout(timer);
  if (waiting.delete(timer)) worker.postMessage({ id: timer, wait: -1 });
}

export const after = wait => new Promise(resolve => { startTimer(wait, resolve); });
