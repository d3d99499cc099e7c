// What the page remembers between visits. A browser that keeps nothing for a file or a private window loses it, and no more.
const KEY = "lowunbisa";

function all() {
  try { return JSON.parse(localStorage.getItem(KEY)) ?? {}; } catch { return {}; }
}

export const remembered = name => all()[name];

export function remember(name, value) {
  try { localStorage.setItem(KEY, JSON.stringify({ ...all(), [name]: value })); } catch { /* it is kept for this visit alone */ }
}
