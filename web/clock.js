// The time of a host, in milliseconds. It may go quicker than the clock on the wall, for a line that is played, and change
// its pace while something is under way.
import { startTimer, stopTimer } from "./timers.js";

export class Clock {
  #rate = 1;
  #then = performance.now();
  #time = 0;   // as it was then

  constructor(rate = 1) {
    this.#rate = rate;
  }

  now() {
    return this.#time + (performance.now() - this.#then) * this.#rate;
  }

  later(wait, what) {
    return startTimer(wait / this.#rate, what);
  }

  // Ends what `later` returned; 0 or undefined is nothing.
  cancel(timer) {
    if (timer) stopTimer(timer);
  }

  get rate() {
    return this.#rate;
  }

  set rate(rate) {
    this.#time = this.now();
    this.#then = performance.now();
    this.#rate = rate;
  }
}
