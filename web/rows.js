// The sequence diagram on the page: a table of the last rows, laid out ten times a second, and the same rows as a text. A row is chosen by
// a click, or by the arrow keys and Enter.
import { isEcho, labelOf, rowText, wordsOf } from "./sequence.js";

const SHOWN = 400, KEPT = 2000, WAIT = 100;   // a layout for each frame of the screen would take most of a busy page's time
const NEAR = 40;

export class Rows {
  kept = [];
  #fresh = [];
  #lines = new WeakMap();   // by line of the table: its row
  #isFollowing = true;   // the reader is at the end
  #marked = new Set();   // numbers of rows

  // `body` is a tbody, `box` what scrolls it, and `choose` receives the row that is chosen.
  constructor(body, box, choose = () => {}) {
    Object.assign(this, { body, box });
    box.addEventListener("scroll", () => {
      this.#isFollowing = box.scrollTop + box.clientHeight > box.scrollHeight - NEAR;
    });
    body.addEventListener("click", event => {
      const row = this.#lines.get(event.target.closest("tr"));
      if (row) choose(row);
    });
    box.addEventListener("keydown", event => this.#takeKey(event, choose));
  }

  #takeKey(event, choose) {
    const line = this.#lines.has(document.activeElement) ? document.activeElement : null, { rows } = this.body;
    if (event.key === "Enter" && line) choose(this.#lines.get(line));
    const next = event.key === "ArrowDown" ? (line ? line.nextElementSibling : rows[0])
      : event.key === "ArrowUp" ? (line ? line.previousElementSibling : rows[rows.length - 1]) : null;
    if (!next) return;
    event.preventDefault();
    next.focus();
  }

  add(row) {
    this.kept.push(row);
    if (this.kept.length > 2 * KEPT) this.kept.splice(0, KEPT);
    this.#fresh.push(row);
    if (this.#fresh.length > 2 * SHOWN) this.#fresh.splice(0, SHOWN);
    if (this.#fresh.length === 1) setTimeout(() => this.#layOut(), WAIT);
  }

  #layOut() {
    const fresh = this.#fresh.splice(0).slice(-SHOWN), lines = fresh.map(lineOf);
    lines.forEach((line, n) => this.#lines.set(line, fresh[n]));
    this.body.append(...lines);
    this.#showMarks(lines);
    while (this.body.rows.length > SHOWN) this.body.rows[0].remove();
    if (this.#isFollowing) this.box.scrollTop = this.box.scrollHeight;
  }

  // Marks the rows of some numbers, and no other.
  mark(numbers) {
    this.#marked = new Set(numbers);
    this.#showMarks([...this.body.rows]);
    const first = [...this.body.rows].find(line => line.classList.contains("marked"));
    if (first) this.box.scrollTop = first.offsetTop - 2 * first.offsetHeight;   // the head of the table covers a row
  }

  #showMarks(lines) {
    for (const line of lines) line.classList.toggle("marked", this.#marked.has(this.#lines.get(line)?.number));
  }

  clear() {
    this.#marked.clear();
    this.kept = [];
    this.#fresh = [];
    this.body.textContent = "";
    this.#isFollowing = true;
  }

  text() {
    return this.kept.map(row => `${rowText(row)}\n`).join("");
  }
}

const cell = (className, textContent) => Object.assign(document.createElement("td"), { className, textContent });

// A row with its arrow between the two time lines, which page.css draws.
function lineOf(row) {
  const { number, time, isToNode, who, isAgain, otherAt, fate, bad } = row, line = document.createElement("tr");
  const isLost = fate.includes("lost"), { what, numbers } = labelOf(row);
  const kinds = [isToNode ? "to" : "from", isAgain && "again", otherAt !== null && "other", fate.length && "hit", isLost && "lost"];
  line.className = kinds.filter(Boolean).join(" ");
  line.tabIndex = -1;
  const arrow = cell("arrow", ""), label = document.createElement("span");
  label.append(Object.assign(document.createElement("b"), { textContent: what }));
  if (numbers) label.append(" ", Object.assign(document.createElement("i"), { textContent: numbers }));
  arrow.append(label);
  const connection = bad || isEcho(row) ? "–" : who.slice(1);
  line.append(cell("number", number), cell("time", time), cell("who", connection), arrow, cell("note", wordsOf(row)));
  return line;
}
