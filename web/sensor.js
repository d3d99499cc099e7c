// The firmware of the device with a sensor and a lamp, as examples/linux-c/state.c is in C. It sets the values that the pages of
// examples/state display, switches the lamp if a page of the lamp was requested, and reads the alarm level that their form sends. The
// level is the slider's.
import { startTimer, stopTimer } from "./timers.js";

const NAME = 0, SECONDS = 1, NOTE = 3, ALARM = 6, PERIOD = 250, MOST_BYTES = 32;
export const LEVEL = 2, LAMP = 4, LIMIT = 5;

// Each value has a name. The sensor's is yours to move, and those of the firmware are its own.
export const VALUES = [{ name: "name" }, { name: "seconds", isOfFirmware: true }, { name: "level", isSensor: true },
  { name: "note", isOfFirmware: true }, { name: "lamp", isOfFirmware: true }, { name: "limit" }, { name: "alarm", isOfFirmware: true }];

// The alarm level that a query sets, from 0 to 100, or undefined if it sets none. After it the query ends or "&" follows.
function limitIn(query) {
  const limit = /^limit=(\d{1,3})(&|$)/.exec(query)?.[1];
  return limit <= 100 ? `${+limit}` : undefined;
}

// `panel` has the fields of the values. Returns how to stop.
export function runFirmware(device, panel) {
  let on = 0, off = 0, last = 0, timer = 0;
  panel.put(NAME, "Water tank");
  panel.put(LEVEL, "42");
  panel.put(LAMP, "off");
  panel.put(LIMIT, "80");
  function showAlarm() {
    const level = +panel.value(LEVEL), limit = +panel.value(LIMIT);
    panel.put(ALARM, `${level} is ${level > limit ? "" : "not "}above ${limit}`.slice(0, MOST_BYTES));
  }
  function readForm() {
    const { text, hit } = device.query("/alarm.shtml");
    if (hit === 0 || hit === last) return;
    last = hit;
    panel.put(LIMIT, limitIn(text) ?? panel.value(LIMIT));
    showAlarm();
  }
  function beat() {
    const nowOn = device.hits("/lamp-on.html"), nowOff = device.hits("/lamp-off.html");
    if (nowOn !== on) panel.put(LAMP, "on");
    if (nowOff !== off) panel.put(LAMP, "off");
    [on, off] = [nowOn, nowOff];
    panel.put(SECONDS, `${Math.floor(device.ticks / 2)}`);
    panel.put(NOTE, `${panel.value(LEVEL)} % full`);
    showAlarm();
    timer = startTimer(PERIOD, beat);
  }
  beat();
  device.work = readForm;
  return () => stopTimer(timer);
}
