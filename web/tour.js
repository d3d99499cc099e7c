// The guided tour: five steps, each with an action and what it showed. It knows the page by the actions that it is given alone.
const STEPS = [
  {
    title: "Open a connection",
    text: "The device runs in this page, at 10.0.0.1. Each arrow of the diagram is one datagram. "
      + "A connection begins with three: SYN, SYN ACK, and an acknowledgement that brings the request.",
    button: "Load one page",
  },
  {
    title: "Read a value, press a button",
    text: "The water level is a sensor's value: the page shows what the firmware set. "
      + "“Lamp on” is a link: the device counts its requests, and the firmware switches the lamp.",
    button: "Set the level to 73, press Lamp on",
  },
  {
    title: "Lose 30 % of all datagrams",
    text: "TCP has to repair the loss. The device stores no sent data: it generates each retransmission again. "
      + "It is proved that the bytes are identical.",
    button: "Lose 30 %, load 20 pages",
  },
  {
    title: "Read this capture",
    text: "Now one datagram is lost: the first with the page. Find it in the diagram (×), and its retransmission (dashed). "
      + "A click on a row shows its fields. “Wireshark” saves all of them.",
    button: "Lose one datagram",
  },
  {
    title: "999 and 1000",
    text: "A meter goes from 999 to 1000 while its page is on the way, and half of its text is lost. uIP too generates text again, "
      + "but from the new reading: its page has both numbers. The device here keeps to the record that it took.",
    button: "Load the meter 5 times, here and by uIP's rules",
  },
];
const LAST = {
  title: "Now break it yourself",
  text: "Move the sliders, drop a folder with your own site onto this page, save the line for Wireshark, or send somebody "
    + "the link to this run.",
  button: "Back to the water tank",
};

export class Tour {
  #at = 0;
  #isBusy = false;

  // `box` is the element; `actions` has one for each step and one for the end. Each resolves to { kind, words } or nothing. `moved` runs
  // when another step is shown.
  constructor(box, actions, moved = () => {}) {
    Object.assign(this, { box, actions, moved });
    this.button = box.querySelector("[data-tour=go]");
    this.button.addEventListener("click", () => this.#go());
    box.querySelector("[data-tour=close]").addEventListener("click", () => { box.hidden = true; moved(); });
    for (const it of box.querySelectorAll("[data-step]"))
      it.addEventListener("click", () => { if (!this.#isBusy) this.#show(+it.dataset.step); });
  }

  // Begins at a step, from 1 on.
  start(step = 1) {
    this.box.hidden = false;
    this.#show(step - 1);
  }

  // The step that is shown, from 1 on, or 0.
  get step() { return this.box.hidden ? 0 : this.#at + 1; }

  #show(at) {
    this.#at = at;
    delete this.button.dataset.next;
    const { title, text, button } = STEPS[at] ?? LAST;
    const set = (name, words) => { this.box.querySelector(`[data-tour=${name}]`).textContent = words; };
    set("title", title);
    set("text", text);
    set("result", "");
    this.button.textContent = button;
    this.box.querySelectorAll("[data-step]").forEach(it => {
      if (+it.dataset.step === at) it.setAttribute("aria-current", "step"); else it.removeAttribute("aria-current");
      it.classList.toggle("done", +it.dataset.step < at);
    });
    this.moved();
  }

  async #go() {
    if (this.#isBusy) return;
    if (this.button.dataset.next) return this.#show(this.#at + 1);
    const result = this.box.querySelector("[data-tour=result]");
    this.#isBusy = this.button.disabled = true;
    result.textContent = "..";
    try {
      const { kind = "", words = "" } = await this.actions[this.#at]() ?? {};
      Object.assign(result.dataset, { kind });
      result.textContent = words;
      this.button.dataset.next = "yes";
      this.button.textContent = this.#at + 1 < STEPS.length ? "Next step" : "Finish";
    } catch (error) {
      result.dataset.kind = "bad";
      result.textContent = error.message;
    } finally {
      this.#isBusy = this.button.disabled = false;
    }
  }
}
