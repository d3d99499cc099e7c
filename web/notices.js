// The messages of the page: the last one is shown, and the others on request.
const KEPT = 30, OF_LINE = ["noise", "different", "wait", "wrong"];   // kinds of session.js, of the line that is open

export class Notices {
  // `box` is what is hidden if there is none, `list` has the messages, and `more` is the button that shows all.
  constructor(box, list, more) {
    Object.assign(this, { box, list, more });
    more.addEventListener("click", () => { box.classList.toggle("all"); this.#count(); });
  }

  // Another message of a kind takes the place of the last one, and counts.
  add(words, kind = words) {
    const same = [...this.list.children].find(it => it.dataset.kind === kind);
    if (same) {
      same.dataset.times = +same.dataset.times + 1;
      same.firstElementChild.textContent = `${words} (${same.dataset.times} times)`;
      if (same.nextElementSibling) this.list.append(same);
    } else {
      this.list.append(this.#itemOf(words, kind));
    }
    while (this.list.children.length > KEPT) this.list.firstElementChild.remove();
    this.#count();
  }

  // Forgets the messages about a line that is over.
  forgetLine() {
    for (const it of [...this.list.children]) if (OF_LINE.includes(it.dataset.kind)) it.remove();
    this.#count();
  }

  #itemOf(words, kind) {
    const item = document.createElement("li"), close = document.createElement("button");
    Object.assign(close, { textContent: "×", type: "button" });
    close.setAttribute("aria-label", "Dismiss the message");
    close.addEventListener("click", () => { item.remove(); this.#count(); });
    Object.assign(item.dataset, { kind, times: 1 });
    item.append(Object.assign(document.createElement("span"), { textContent: words }), close);
    return item;
  }

  #count() {
    const count = this.list.children.length;
    this.box.hidden = !count;
    this.more.hidden = count < 2;
    this.more.textContent = this.box.classList.contains("all") ? "Show the last" : `Show all ${count}`;
  }
}
