// The state of the page in its address, so that a run can be sent to somebody: #device=sensor&loss=30&speed=10&seed=7&path=/now.shtml.
// The seed draws the same faults in the same order; which datagrams they hit follows from the times too.
export const DEVICES = ["sensor", "site", "rules"];   // those that everybody has
// The greatest value of each number.
const FAULTS = { loss: 50, duplication: 50, reordering: 50, corruption: 50, delay: 500, speed: 20, seed: 999999 };
const USUAL = { speed: 1 };

// What an address asks for: a device or "", a path, the number of a step of the tour or 0, and the numbers that it has.
export function readAddress(hash) {
  const words = new URLSearchParams(hash === "#try" ? "device=sensor&tour=1" : hash.slice(1)), numbers = {};
  for (const [name, most] of Object.entries(FAULTS))
    if (/^\d{1,6}$/.test(words.get(name) ?? "")) numbers[name] = Math.min(most, Math.max(USUAL[name] ?? 0, +words.get(name)));
  const device = DEVICES.find(it => it === words.get("device")) ?? "", path = words.get("path") ?? "", tour = words.get("tour") ?? "";
  return { device, numbers, path: path.startsWith("/") ? path : "/", tour: /^[1-6]$/.test(tour) ? +tour : 0 };
}

// Leaves out what is usual.
export function addressOf({ device = "", numbers = {}, path = "/", tour = 0 }) {
  const words = new URLSearchParams(device ? { device } : {});
  for (const name of Object.keys(FAULTS)) if (numbers[name] && numbers[name] !== USUAL[name]) words.set(name, numbers[name]);
  if (path && path !== "/" && device) words.set("path", path);
  if (tour) words.set("tour", tour);
  return words.size ? `#${words.toString().replaceAll("%2F", "/")}` : "";
}
