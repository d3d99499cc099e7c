// The panel of a device inside the page: its sensors as sliders, its values as fields, the hits of its files as lamps, their last query,
// and its ten slots.
const LIT = 600, MOST = 24;   // milliseconds that a lamp is lit; files that have a lamp
const ROOMY = 800;            // the height of a window in which all of the panel has room

const make = (tag, properties = {}, ...children) => {
  const it = Object.assign(document.createElement(tag), properties);
  it.append(...children);
  return it;
};
const isNumber = text => text.trim() !== "" && Number.isFinite(+text);

export class DevicePanel {
  #device = null;
  #lamps = [];
  #fields = new Map();   // by the number of a value
  #timer = 0;

  // `guard` runs what may fail and reports why.
  constructor(box, guard) {
    Object.assign(this, { box, guard });
    for (const name of ["sensors", "more", "values", "hits", "query", "slots", "facts"])
      this[name] = box.querySelector(`[data-panel=${name}]`);
  }

  // Shows a device with the files of its site and the values that its scripts display: { number, isText }. `kinds` has by number the name
  // of a value, and whether it is a sensor's or the firmware's.
  show(device, files, values, kinds = []) {
    this.hide();
    this.#device = device;
    this.#fields.clear();
    const rows = isOfSensor => values.filter(({ number }) => !!kinds[number]?.isSensor === isOfSensor)
      .map(({ number, isText }) => this.#valueOf(number, isText, kinds[number] ?? { name: `value ${number}` }));
    this.sensors.replaceChildren(...rows(true));
    this.values.replaceChildren(...rows(false));
    this.sensors.hidden = !this.sensors.children.length;
    this.values.closest("section").hidden = !this.values.children.length;
    this.#lamps = files.slice(0, MOST).map(({ name }) => ({ name, count: 0, since: -LIT, ...lampOf(name) }));
    this.hits.replaceChildren(...this.#lamps.map(it => it.item));
    this.slots.replaceChildren(...device.connections.map((_, slot) => make("li", { className: "slot", title: `slot ${slot}` })));
    this.more.open = innerHeight >= ROOMY && !kinds.length;
    this.box.hidden = false;
    this.#timer = setInterval(() => this.guard(() => this.#look()), 150);
  }

  hide() {
    clearInterval(this.#timer);
    this.#device = null;
    this.box.hidden = true;
  }

  // Sets a value, as its field does; and what its field has.
  put(number, value) {
    const { text, set } = this.#fields.get(number);
    if (text.value === value) return;
    text.value = value;
    set(value);
  }

  value(number) { return this.#fields.get(number).text.value; }

  // A field for a value; for a number also a slider.
  #valueOf(number, isText, { name, isOfFirmware = false, isSensor = false }) {
    const placeholder = isText ? "text" : "number";
    const text = make("input", { type: "text", maxLength: 32, spellcheck: false, placeholder, readOnly: isOfFirmware });
    const slider = make("input", { type: "range", value: 0 }), label = make("span", { textContent: name });
    const row = make("div", { className: "value" }, label, slider, text);
    const set = value => {
      slider.hidden = isOfFirmware || (value ? !isNumber(value) : isText);
      slider.value = value;
      slider.setAttribute("aria-valuetext", value || "not set");
      this.guard(() => this.#device.setValue(number, value));
    };
    this.#fields.set(number, { text, set });
    slider.hidden = isOfFirmware || isText;
    if (isSensor) label.prepend(make("i", { textContent: "Sensor: " }));
    text.setAttribute("aria-label", isOfFirmware ? `${name}, set by the firmware` : name);
    slider.setAttribute("aria-label", `${name}, from 0 to 100`);
    text.addEventListener("input", () => set(text.value));
    slider.addEventListener("input", () => { text.value = slider.value; set(slider.value); });
    return row;
  }

  // The query that the device keeps, if it is one of a file that has a lamp.
  #showQuery() {
    const kept = this.#lamps.map(({ name }) => ({ name, ...this.#device.query(name) })).find(({ hit }) => hit !== 0);
    this.query.textContent = kept ? `last query: ${kept.name}?${kept.text}` : "";
  }

  #look() {
    const device = this.#device, now = performance.now();
    if (!device) return;
    for (const it of this.#lamps) {
      const count = device.hits(it.name);
      if (count !== it.count) Object.assign(it, { count, since: now });
      it.number.textContent = count;
      it.item.classList.toggle("lit", now - it.since < LIT);
    }
    this.#showQuery();
    device.connections.forEach(({ state, peer, port }, slot) => {
      const item = this.slots.children[slot];
      item.dataset.state = state;
      item.title = state === "CLOSED" ? `slot ${slot}: free` : `slot ${slot}: ${state}, ${peer.join(".")}:${port}`;
    });
    this.facts.textContent = `${device.ticks} tick${device.ticks === 1 ? "" : "s"}, ${device.memory / 1024} KiB of WebAssembly memory`;
  }
}

function lampOf(name) {
  const number = make("b", { textContent: 0 });
  const item = make("li", { className: "lamp", title: `requests for ${name}` }, make("i"), make("code", { textContent: name }), number);
  return { number, item };
}
