// The table of planted faults: each is an edit of a module, and the test that has to fail with it. `node planted.mjs [WORD]`
// tries all, or those of a module or a test with that word; with `--quick` those that need no browser, with `--browser` the others,
// with `--check` none: it only looks whether each edit still applies. It fails if a fault is not found. A test may take 40 seconds,
// or PATIENCE times as long; so a browser's test that waits in vain is ended.
import { spawnSync } from "node:child_process";
import { cpSync, mkdtempSync, readFileSync, readdirSync, rmSync, symlinkSync, writeFileSync } from "node:fs";
import { tmpdir } from "node:os";
import { join } from "node:path";
import { PATIENCE, noChromium } from "./chromium.mjs";
import { SITE, UIPD, here, noProgram, top } from "./node_process.mjs";

const LONGEST = `${40 * PATIENCE}`, IN_BROWSER = ["browser", "page"];   // seconds: a test that hangs has failed

// By module: the text that occurs there once, what replaces it, the test's file, and words of its name.
const FAULTS = {
  "wire.js": [
    [`if (checksum(datagram.subarray(0, IP_HEAD)) !== 0) return "ip checksum";`, "", "wire", "one byte was changed"],
    [`if (tcpSum(from, to, message) !== 0) return { bad: "tcp checksum" };`, "", "wire", "one byte was changed"],
    [`if (checksum(message) !== 0) return { bad: "icmp checksum" };`, "", "wire", "one byte was changed"],
    [`if (get16(datagram, 6) & 0x3fff) return "ip fragment";`, "", "wire", "words of uipd dump"],
    [`if (get16(datagram, 2) < IP_HEAD || get16(datagram, 2) > datagram.length) return "ip length";`, "", "wire", "words of uipd dump"],
    [`datagram.subarray(IP_HEAD, get16(datagram, 2))`, `datagram.subarray(IP_HEAD)`, "wire", "words of uipd dump"],
    [`while (sum > 0xffff) sum`, `if (sum > 0xffff) sum`, "wire", "carries twice"],
    [`if (this.#length > LARGEST) overlong();`, `if (this.#length > LARGEST) received(this.#frame);`, "wire", "more than 1500"],
    [`        this.#length = 0;\n        this.#isEscaped = false;`, `        this.#length = 0;`, "wire", "none outlives its frame"],
    [`if (byte === END) text.push(ESC, ESC_END);`, `if (byte === END) text.push(END);`, "wire", "however they are cut"],
    [`if (options[at] === 1) { at++; continue; }`, "", "wire", "segment size"],
    [`get16(options, at + 2) || USUAL_MSS`, `get16(options, at + 2)`, "wire", "segment size"],
  ],
  "connection.js": [
    [`text.slice(skipped), plus(seq, length)`, `text, plus(seq, length)`, "scripted", "in order and once"],
    [`if (skipped < length && this.#isOpen())`, `if (length && this.#isOpen())`, "scripted", "in order and once"],
    [`if (skipped < length && this.#isOpen())`, `if (skipped < length)`, "scripted", "in order and once"],
    [`if (!this.transmit() && length) this`, `if (!this.transmit() && length && skipped < length) this`, "scripted", "in order and once"],
    [`if (flags & SYN || !(flags & ACK) || isAfter(ack, this.#most)) return this.#acknowledge();`, "", "scripted", "in order and once"],
    [`|| isAfter(ack, this.#most)) return`, `) return`, "scripted", "in order and once"],
    [`if ((seq - this.#received >>> 0) < WINDOW) this.fail`, `this.fail`, "scripted", "in order and once"],
    [`      this.#isEnding = true;\n    } else if`, `    } else if`, "scripted", "in order and once"],
    [`else if (this.state === "LAST-ACK") this.#leave();`, "", "scripted", "in order and once"],
    [`if (isEnd) this.#receiveEnd();`, "", "scripted", "in order and once"],
    [`if (isAfter(ack, this.#next)) this.#next = ack;`, "", "scripted", "what is not acknowledged"],
    [`    this.#next = this.#una;\n    this.transmit();`, `    this.transmit();`, "scripted", "what is not acknowledged"],
    [`LONGEST_WAIT = 2000`, `LONGEST_WAIT = 64000`, "scripted", "what is not acknowledged"],
    [`if (this.#waited >= PATIENCE) return`, `if (false) return`, "scripted", "what is not acknowledged"],
    [`this.mss = Math.min(mss, LARGEST_TEXT);`, `this.mss = LARGEST_TEXT;`, "scripted", "segments and its window"],
    [`Math.max(this.#window, 1)`, `1e9`, "scripted", "segments and its window"],
    [`    this.#window = window;\n    if (this.state`, `    if (this.state`, "scripted", "segments and its window"],
    [`if (this.#isOutstanding() || this.#isOpen()) this`, `if (this.#isOpen()) this`, "scripted", "our end goes again"],
    [`if (this.#isOutstanding() || this.#isOpen()) this`, `if (this.#isOutstanding()) this`, "scripted", "while text is awaited"],
    [`if (!this.#isOutstanding()) return this.#acknowledge();`, `if (!this.#isOutstanding()) return;`, "scripted", "while text is awaited"],
    [`    this.#waited = 0;\n    this.#arm();`, `    this.#arm();`, "scripted", "while text is awaited"],
    [`      this.#timed = null;\n      return;`, `      return;`, "scripted", "follows the round trips"],
    [`this.#advertised = this.#room();`, `this.#advertised = WINDOW;`, "scripted", "reader that is slow"],
    [`this.#room() >= LARGEST_TEXT) this.#acknowledge();`, `this.#room() >= LARGEST_TEXT) return;`, "scripted", "reader that is slow"],
    [`&& this.#room() >= LARGEST_TEXT)`, `)`, "scripted", "reader that is slow"],
    [`if (this.state !== "SYN-SENT") this.#send(RST | ACK, this.#next);`, "", "scripted", "gives a connection up"],
    [`    this.host.clock.cancel(this.#timer);\n    this.host.leave(this);`, `    this.host.leave(this);`, "scripted", "gives a connection up"],
    [`this.host.sendSegment(this.port, this.toPort, RST, ack, 0);`, "", "scripted", "older connection"],
    [`      if (flags & RST) return;\n      this.host`, `      this.host`, "scripted", "reset for an older number"],
    [`return flags & ACK ? this.fail`, `return false ? this.fail`, "scripted", "reset for an older number"],
    [`(this.#isSynOut ? 1 : 0)`, `0`, "scripted", "written before"],
    [`if (this.state === "FIN-WAIT-1") this.state = "FIN-WAIT-2";`, `if (false);`, "scripted", "both ends close: ours first"],
    [`this.state = "CLOSING";`, `this.#rest();`, "scripted", "both ends close: both at once"],
    [`this.#timer = this.host.clock.later(TIME_WAIT, () => this.#leave());`, "", "scripted", "both ends close"],
  ],
  "host.js": [
    [`!isSame(from, this.node) || `, "", "scripted", "datagram of another host"],
    [` || !isSame(to, this.own)`, "", "scripted", "datagram of another host"],
    [`if (!isSame(reply, payload)) return;`, "", "scripted", "an echo reply"],
    [`this.#pings.get(echo.number)?.receive`, `[...this.#pings.values()][0]?.receive`, "scripted", "an echo reply"],
    [`    if (flags & RST) return;\n`, "", "scripted", "segment to no connection"],
    [`plus(seq, length));`, `seq);`, "scripted", "segment to no connection"],
    [`(Math.abs(time - trip.mean) - trip.spread) / 4`,
      `(Math.abs(time - trip.mean) - trip.spread) / 2`, "scripted", "follows the round trips"],
    [`Math.min(MOST_WAIT, `, `Math.max(0, `, "stalls", "a client that stalled"],
    [`MOST_WAIT = 3000`, `MOST_WAIT = 30000`, "scripted", "the wait is bounded"],
    [`do this.#port = (this.#port + 1) % PORTS; while (this.connections.has(FIRST_PORT + this.#port));`,
      `this.#port = 7;`, "transfer", "ports are taken"],
    [`if (connection?.toPort === segment.fromPort) connection`, `if (connection) connection`, "scripted", "of another port"],
  ],
  "http.js": [
    [`count < length`, `false`, "scripted", "shorter than its length"],
    [`count = rest.length`, `count = 0`, "scripted", "a reply's head is read"],
    [`if (text.length > LONGEST_HEAD) throw`, `if (false) throw`, "scripted", "shorter than its length"],
    [`if (done) throw new Error("the node closed before a head");`,
      `if (done) return { text, end: text.length };`, "scripted", "shorter than its length"],
    [`        stream.close();`, `        return;`, "scripted", "a reply's head is read"],
    [`    connection.abort();\n    throw error;`, `    throw error;`, "scripted", "shorter than its length"],
  ],
  "line.js": [
    [`if (PASSING.includes(error.name)) passing(error); else isClosed = true;`, `isClosed = true;`, "line", "errors of a port that pass"],
    [`passing(error); else isClosed = true;`, `passing(error);`, "line", "a stream that fails"],
    [`    writer.releaseLock();`, "", "line", "a line that is closed"],
    [`    await reader?.cancel().catch(() => {});\n`, "", "line", "a line that is closed"],
    [`wire.fill(Math.min(due, most))`, `wire.fill(due)`, "line", "silence is filled"],
    [` && wire.counts.waiting < most`, "", "line", "silence is filled"],
    [` - (wire.counts.written - sent);`, `;`, "line", "silence is filled"],
    [`out.error(new Error(reason || "the bridge went away"));`, `out.close();`, "browser", "why a node ended"],
  ],
  "port.js": [
    [`ParityError: `, `Parity: `, "line", "each error of a port"],
    [`bufferSize: BUFFER`, `bufferSize: 255`, "browser", "the page at /:"],
    [`.catch(error => { throw inWords(OPENING, error); })`, "", "line", "each error of a port"],
  ],
  "faults.js": [
    [`isTwice ? 2 : 1`, `1`, "line", "faults come as often"],
    [`1 + Math.floor(this.chance() * 255)`, `Math.floor(this.chance() * 255)`, "line", "faults come as often"],
    [`const other = datagram.slice();`, `const other = datagram;`, "line", "faults come as often"],
    [`else { give(); this.#release(isToNode); }`, `else give();`, "line", "late comes after the next"],
    [`if (!this.#isClosed) deliver`, `deliver`, "line", "late comes after the next"],
    [`&& !this.#held[isToNode]`, "", "line", "faults come as often"],
  ],
  "clock.js": [
    [`this.#time = this.now();\n    this.#then`, `this.#then`, "line", "change its pace"],
    [`wait / this.#rate`, `wait`, "transfer", "a node that is gone"],
  ],
  "capture.js": [
    [`if (this.#size > this.room) this.#dropHalf();`, "", "line", "keeps to its room"],
    [`...word(Math.floor(time / 1000)), ...word(Math.floor(time % 1000 * 1000))`, `...word(Math.floor(time)), ...word(0)`, "line", "keeps to its room"],
    [`this.#size -= 16 + datagram.length`, `datagram.length`, "line", "keeps to its room"],
    [`comment ? option(COMMENT, new TextEncoder().encode(comment)) : []`, `[]`, "line", "a comment for each datagram"],
    [`isToNode ? OUTBOUND : INBOUND`, `INBOUND`, "line", "a comment for each datagram"],
    [`const padded = bytes => [...bytes, ...new Uint8Array(-bytes.length & 3)];`, `const padded = bytes => [...bytes];`, "line", "a comment for each datagram"],
  ],
  "sequence.js": [
    [`if (old === UNKNOWN) this.#kept[at] = unit;`, `this.#kept[at] = unit;`, "sequence", "whether it is the same"],
    [`, ...flags & FIN ? [END] : []`, "", "sequence", "whether it is the same"],
    [`flags & SYN ? [START] : []`, `[]`, "sequence", "whether it is the same"],
    [`if (ahead < -this.#kept.length) return UNKNOWN;`, "", "sequence", "numbers may wrap"],
    [`if (count >= this.#kept.length) this.#kept.fill(UNKNOWN);`, `if (count >= this.#kept.length);`, "sequence", "whether it is the same"],
    [`this.#kept[this.#place(number)] = old[number % old.length];`, "", "sequence", "whether it is the same"],
    [`if (!connection || isAnew && isToNode)`, `if (!connection)`, "sequence", "its own numbers"],
    [`if (isAnew || !connection[side])`, `if (!connection[side])`, "sequence", "its own numbers"],
    [`if (this.#connections.size > REMEMBERED) this`, `if (false) this`, "sequence", "does not grow"],
    [`otherAt ??= plus(seq, n - this.first);`, "", "sequence", "uIP's own rules"],
  ],
  "picture.js": [
    [`row.time - then`, `0`, "sequence", "a report of uipd"],
    [/* escapes */ `.replace(/[&<>"]/g`, `.replace(/["]/g`, "sequence", "a report of uipd"],
    [`isLost && "lost"`, `false`, "sequence", "a diagram of the page"],
  ],
  "session.js": [
    [`if (this.#running < this.atOnce) this.#running++;`, `if (true) this.#running++;`, "transfer", "eight connections at once"],
    [`if (!error.isReset || left === 0) throw error;`, `throw error;`, "transfer", "asked for anew"],
    [`first !== undefined && first !== sum ?`, `false ?`, "sequence", "uIP's own rules"],
    [`this.sums[isToNode ? "repeated" : "retransmissions"] += row.isAgain;`, `this.sums.retransmissions += row.isAgain;`, "parts", "of the retransmissions"],
    [`    if (!(Number.isInteger(count) && count > 0)) throw new Error("at least one request is under way at a time");\n`, "", "parts", "a load test needs"],
    [`isToNode, words.join(", "));`, `isToNode);`, "line", "the capture of a line"],
    [`.catch(error => { this.#cut(judged); throw error; })`, "", "transfer", "asked for anew"],
    [`    judged(reply.isWrong ? "wrong" : "complete", fault);`, "", "page", "Chromium: #try"],
    [`others < TEN ?`, `true ?`, "transfer", "eleven connections"],
    [`    if (next) next();\n    else this.#running--;`, `    next?.();`, "transfer", "eight connections at once"],
    [`if (row.bad) this.#reportNoise(row.bad);`, "", "browser", "opening the port resets"],
  ],
  "uip.js": [
    [`consumed += this.#word(2)`, `consumed += part.length`, "parts", "two in one feed"],
    [`send(this.#bytes().slice(out, out + written))`, `send(this.#bytes().subarray(out, out + written))`, "parts", "two in one feed"],
    [`from += MAX_IN`, `from += MAX_IN + 1`, "parts", "two in one feed"],
    [`throw new Refused(this.#bytes()[device] ? 3 : 5);`, `throw new Refused(5);`, "inside", "bad images"],
    [`this.#bytes().set(own, ownAt);`, "", "inside", "three nodes"],
    [`LONGEST_NAME + 1`, `LONGEST_NAME - 60`, "inside", "values, hits"],
    [`out + this.#word(2))), hit`, `out + MAX_QUERY)), hit`, "inside", "queries"],
    [`out, MAX_QUERY);`, `out, MAX_QUERY - 1);`, "inside", "queries"],
    [`hit: this.#word(1) };`, `hit: this.hits(name) };`, "inside", "queries"],
    [`    this.work();`, "", "inside", "a form sets"],
  ],
  "inside.js": [
    [`    if (timer) timer = clock.later(period, beat);`, "", "parts", "sent twice"],
    [`if (timer) feed(bytes, send);`, "", "parts", "right without loss"],
  ],
  "uip_rules.js": [
    [`this.#text = Math.min(text.length, this.mss);`, `this.#text = text.length;`, "parts", "sent twice"],
    [`textOf(LITRES[this.#ticks ? 1 : 0])`, `textOf(LITRES[0])`, "parts", "sent twice"],
    [`.slice(this.#offset)`, `.slice(0)`, "parts", "sent twice"],
    [`else answer({ flags: RST`, `else if (false) answer({ flags: RST`, "parts", "answered by a reset"],
  ],
  "meter.js": [
    [`|| first === second ? null`, `? null`, "parts", "two readings differ"],
    [`ports.has(segment.toPort)) return false;`, `false) return false;`, "parts", "the meter by the device"],
  ],
  "address.js": [
    [`Math.min(most, `, `(`, "parts", "state of the page"],
    [`path.startsWith("/") ? path : "/"`, `path`, "parts", "state of the page"],
    [`&& numbers[name] !== USUAL[name]`, "", "parts", "state of the page"],
  ],
  "timers.js": [
    [`if (typeof Worker === "undefined" || typeof document === "undefined") return null;`, `return null;`, "page", "in the background"],
  ],
  "notices.js": [
    [`      if (same.nextElementSibling) this.list.append(same);`, `      this.list.append(same.cloneNode(true));`, "page", "Chromium: messages"],
    [`    this.more.hidden = count < 2;`, "", "page", "Chromium: messages"],
  ],
  "details.js": [
    [`isToNode ? "this page, to the device"`, `!isToNode ? "this page, to the device"`, "page", "Chromium: the diagram"],
  ],
  "documents.js": [
    [`part.length && isStart(it)`, `false`, "page", "the page alone"],
    [`make("strong", {}, ...inline(strong, linkTo))`, `all`, "page", "the page alone"],
  ],
  "site.js": [
    [`  if (length > LONGEST_IMAGE) throw`, `  if (false) throw`, "parts", "an image is read"],
    [`&& form !== "")`, `&& true)`, "parts", "an image is read"],
    [`length >> 16 & 255`, `0`, "inside", "16 MB"],
    [`    if (isTyped) at += 1 + image[at];`, "", "parts", "an image is read"],
    [`name.endsWith(".shtml") && isJson`, `isJson`, "parts", "a folder is packed"],
    [`"{[".includes(`, `"{".includes(`, "parts", "a folder is packed"],
    [`byte !== 32 && (byte < 9 || byte > 13)`, `byte !== 32`, "parts", "a folder is packed"],
    [`if (!name.endsWith(".shtml")) continue;`, `continue;`, "parts", "an image is read"],
    [`if (files.length > MOST_FILES) throw`, `if (false) throw`, "parts", "an image is read"],
    [`name === "/index.html")) warnings`, `true)) warnings`, "parts", "paths that lead to no page"],
    [`if (inFolder) warnings`, `if (false) warnings`, "parts", "paths that lead to no page"],
    [`["file-stats", 1]`, `["file-stats", 0]`, "parts", "no effect"],
    [`isScript ? text.matchAll`, `true ? text.matchAll`, "parts", "no effect"],
    [`    if (entry.name.startsWith(".")) return;`, `    if (!entry.isFile) return;`, "page", "Chromium: a folder and an image"],
    [`types.get(ending.toLowerCase()) ?? ""`, `""`, "page", "Chromium: one's own site"],
    [`types.get(ending.toLowerCase()) ?? ""`, `types.get(ending) ?? ""`, "parts", "as tools/pack.py does"],
    [`Object.hasOwn(KNOWN, ending) ? "" : `, "", "parts", "as tools/pack.py does"],
  ],
  "verdict.js": [
    [`  if (wrong) return`, `  if (false) return`, "parts", "each verdict"],
    [`  if (different) return { kind`, `  if (false) return { kind`, "parts", "each verdict"],
    [`  if (truncated) return`, `  if (false) return`, "parts", "each verdict"],
    [`  if (loading) return`, `  if (false) return`, "parts", "each verdict"],
    [`  if (!seconds) return`, `  if (seconds === undefined) return`, "parts", "each verdict"],
    [`  if (different) return \`\${some(different`, `  if (false) return \`\${some(different`, "parts", "each verdict"],
  ],
  "rows.js": [
    [`otherAt !== null && "other"`, `false`, "page", "Chromium: the tour: a connection"],
    [`isToNode ? "to" : "from"`, `"to"`, "page", "Chromium: the diagram"],
    [`    this.body.textContent = "";`, "", "page", "Chromium: the diagram"],
  ],
  "panel.js": [
    [`      it.number.textContent = count;`, "", "page", "Chromium: values"],
    [`      item.dataset.state = state;`, "", "page", "Chromium: values"],
    [`    this.#showQuery();`, "", "page", "Chromium: values"],
    [`hit !== 0);`, `hit === 0);`, "page", "Chromium: values"],
    [`slider.addEventListener("input", () => { text.value = slider.value; set(slider.value); });`, "", "page", "Chromium: values"],
    [`    text.value = value;\n    set(value);`, `    text.value = value;`, "page", "Chromium: a device with a sensor"],
  ],
  "sensor.js": [
    [`limit <= 100`, `limit <= 101`, "inside", "a form sets"],
    [`(\\d{1,3})`, `(\\d*)`, "inside", "a form sets"],
    [`(&|$)`, "", "inside", "a form sets"],
    [`(&|$)`, "$", "inside", "a form sets"],
    [`level > limit`, `level >= limit`, "inside", "a form sets"],
    [`.slice(0, MOST_BYTES)`, `.padEnd(MOST_BYTES + 1)`, "inside", "a form sets"],
    [`    showAlarm();\n  }\n  function beat`, `  }\n  function beat`, "inside", "a form sets"],
    [`if (nowOff !== off)`, `if (nowOff !== on)`, "page", "Chromium: a device with a sensor"],
    [`  return () => stopTimer(timer);`, `  return () => {};`, "page", "Chromium: a device with a sensor"],
  ],
  "tour.js": [
    [`this.#show(this.#at + 1);`, `this.#show(this.#at);`, "page", "Chromium: the tour: a connection"],
    [`    delete this.button.dataset.next;\n`, "", "page", "Chromium: the tour begins"],
  ],
  "settings.js": [[`localStorage.setItem(KEY`, `String(KEY`, "page", "Chromium: rate, address"]],
  "folder.js": [
    [`if (now && now.stamp !== stamp) return changed();`, "", "page", "live reload of a folder, the device inside"],
    [`    if (isImage) return bytesOf(names[0]);`, "", "page", "an image for the device inside"],
  ],
  "page.js": [
    [`  if (session) Object.assign(session.host, both);`, "", "page", "Chromium: the device's address"],
    [`(scheme || isAddress ? rest : host + rest)`, `host + rest`, "page", "Chromium: Back stays"],
    [`  if ((scheme || isAddress) && host`, `  if (false && host`, "page", "Chromium: an address that"],
    [`"no-faults": () => setFaults({}),`, `"no-faults": () => {},`, "page", "Chromium: faults"],
    [`if (files.length) await openOwn(files);`, "", "page", "Chromium: messages"],
    [`    if (step) return tryHere(step);`, "", "page", "Chromium: #try"],
    [`addEventListener("hashchange", () => openAddress());`, "", "page", "Chromium: #try"],
    [`    it.href = base + file;`, "", "page", "the page alone"],
    [`  session.atOnce = numberIn("at-once", "the requests in parallel");`, "", "page", "Chromium: faults"],
    [`!validity.valid || !Number.isInteger(+value)`, `false`, "page", "Chromium: a number that"],
    [`  notices.forgetLine();\n`, "", "page", "Chromium: the tour: a connection"],
    [`kind === "complete" && frame().isLoading`, `false`, "page", "Chromium: while a page"],
    [`verdictOf(sums, isLoading ? target : "")`, `verdictOf(sums)`, "page", "Chromium: while a page"],
    [`dragged: event => { if (hasFiles(event)) dragged(); }`, `dragged: () => {}`, "page", "Chromium: a folder and an image"],
    [`session ? addressOf(`, `session && false ? addressOf(`, "page", "Chromium: the state is"],
    [`    if (event.target === $("fast")) $("speed").value = $("fast").checked ? FAST : 1;`, "", "page", "Chromium: faults"],
    [`.catch(() => {\n    throw new Error("the server`, `.catch(error => {\n    throw error; new Error("the server`, "page", "Chromium: a server that"],
    [`  $("documents").hidden = base === null;`, "", "page", "Chromium: one file"],
    [`  for (const words of warningsOf(files)) notice(words);`, "", "page", "Chromium: one's own site"],
    [`    await close();\n    throw error;`, `    throw error;`, "browser", "each fault of a port"],
    [`  const inside = nodeInside(`, `  await close();\n  const inside = nodeInside(`, "page", "Chromium: one's own site"],
    [`  } finally {\n    stopBeside();`, `    stopBeside();`, "page", "a folder that cannot be packed"],
    [`    if (event.key !== "Escape") return;`, `    return;`, "page", "the options by keyboard"],
    [`addEventListener("focusin"`, `menu.addEventListener("focusin"`, "page", "the options by keyboard"],
    [`remember("port", idOf(port));`, "", "page", "the last port"],
  ],
  "page.css": [
    [`    --ink: #e2ebe7;`, `    --ink: #4a5a54;`, "page", "Chromium: dark"],
    [`  #work { display: flex; flex-direction: column; padding: 0.6em; }`, "", "page", "Chromium: light"],
    [`minmax(0, 1.2fr) minmax(0, 1fr)`, `minmax(0, 0.7fr) minmax(0, 1fr)`, "page", "Chromium: on a laptop"],
    [`padding: 0; min-height: 24px;`, `padding: 0;`, "page", "Chromium: names and sizes"],
    [`  .menu { position: static; }`, "", "page", "Chromium: light"],
    [`  .diagram { flex: none; height: 30em; }`, "", "page", "Chromium: light"],
  ],
  "worker.js": [
    [`if (isPage && !url.href.startsWith(BASE)) return Response.redirect(BASE + place.id + place.target);`,
      "", "browser", "without the Navigation API"],
    [`return of && url.origin === location.origin ? `, `return false ? `, "browser", "the page at /:"],
    [`if (data !== "not mine") resolve(data); else if`, `resolve(data); if`, "browser", "two pages at once"],
  ],
  "frame.js": [
    [`    if (!this.isAway && this.#trail.length < 2) return;`, "", "page", "Chromium: Back stays"],
    [`    if (!this.isAway) this.#trail.pop();`, `    this.#trail.pop();`, "page", "away from the device, without"],
    [`    if (url.origin !== location.origin) return this.left(url.href);`, "", "page", "away from the device, with the"],
    [`  back() {\n    this.#follow();`, `  back() {`, "page", "Chromium: Back stays"],
    [`href !== this.#href && !this.#isBack`, `href !== this.#href`, "page", "Chromium: Back stays"],
    [`if (data.id !== this.#id) return port.postMessage("not mine");`, "", "browser", "two pages at once"],
    [`    this.visit(url.pathname + url.search + url.hash);`, "", "browser", "the page at /some/where/:"],
    [`this.element.removeAttribute("sandbox");`, "", "browser", "scripts are kept apart"],
    [`port.postMessage({ why: error.message });`, "", "browser", "a page that never comes"],
  ],
  "plain.js": [
    [`"allow-scripts allow-forms"`, `"allow-scripts allow-forms allow-same-origin"`, "browser", "scripts are kept apart"],
    [`source !== this.element.contentWindow || `, "", "browser", "the page as one file"],
    [`    await Promise.all([...page.querySelectorAll(NAMED)].map(it => this.#putIn(it, base)));\n`, "", "browser", "the page as one file"],
    [`window.fetch = what =>`, `window.fetched = what =>`, "browser", "the page as one file"],
    [`    ask({ visit: link.getAttribute("href") });`, "", "browser", "the page as one file"],
    [`    this.#refreshLater(page, base);`, "", "page", "Chromium: one file"],
    [`    own.href = base.href;`, "", "page", "Chromium: a link sends"],
    [`new FormData(form, event.submitter)`, `new FormData(form)`, "page", "Chromium: a form sends"],
    [`.split(/[?#]/)`, `.split(/#/)`, "page", "Chromium: a form sends"],
    [` allow-forms"`, `"`, "page", "Chromium: a form sends"],
  ],
  "serve.py": [
    [`int(text) > 65535`, `False`, "parts", "bad command line"],
    [`    def do_HEAD(self):\n        self.do_GET()\n`, ``, "parts", "HEAD has the head"],
    [`threading.Thread(target=webbrowser.open, args=(address,), daemon=True).start()`, `webbrowser.open(address)`, "parts", "while the browser runs"],
    [`(f": {browse.STATUSES[status]}" if status in browse.STATUSES else "")`, `""`, "page", "statuses in words"],
    [`pack.pack(pack.files_in(folder, []))`, `pack.pack(pack.files_of((f"/{it}", os.path.join(folder, it)) for it in names_in(folder)))`,
      "page", "live reload of a folder, UIPD"],
    [`fail(f"cannot pack {folder}: {fault}")`, `fail(str(fault))`, "page", "live reload of a folder, UIPD"],
    [`self.is_changed = self.look()`, `pass`, "page", "live reload of a folder, UIPD"],
    [`            if name not in names:`, `            if False:`, "page", "live reload of a folder, the device inside"],
    [` or self.headers.get("Origin") != f"http://{self.headers['Host']}"`, "", "browser", "why a node ended"],
    [`if not self.is_ours():`, `if False:`, "browser", "why a node ended"],
    [`if kind is None or name not in os.listdir(HERE):`,
      `if kind is None:\n            kind = "text/plain"\n        if False:`, "browser", "why a node ended"],
    [`if not self.is_taken.acquire(blocking=False):`, `if False:`, "browser", "serial port at the bridge"],
    [`    if not line.is_over:\n        socket.close(line.why())`, `    pass`, "browser", "why a node ended"],
  ],
};

// The edits whose text is not in its module exactly once.
function applies() {
  return Object.entries(FAULTS).flatMap(([file, edits]) => {
    const text = readFileSync(join(here, "..", file), "utf8");
    return edits.filter(([old]) => text.split(old).length !== 2).map(([old]) => `${file}: ${old.split("\n")[0]}`);
  });
}

function passes(folder, suite, words) {
  const args = ["--test", "--test-force-exit", `--test-name-pattern=${words}`, join(folder, `web/test/${suite}.test.mjs`)];
  const env = { ...process.env, SITE, BROWSERS: "Chromium", ...noProgram ? { INSIDE: "1" } : { UIPD } };
  const { status, stdout } = spawnSync("timeout", ["-k", "1", LONGEST, process.execPath, ...args], { env, encoding: "utf8" });
  if (status === 0 && /^(# |ℹ )skipped [1-9]/m.test(stdout) && /^(# |ℹ )pass 0/m.test(stdout)) return "skipped";
  return status === 0;
}

const passed = new Map();   // by the test: whether it passes without an edit, or "skipped"

// Found if the test passes as it is, and fails with the edit.
function found(folder, file, [old, other, suite, words]) {
  const path = join(folder, "web", file), text = readFileSync(path, "utf8"), test = `${suite} ${words}`;
  if (!passed.has(test)) passed.set(test, passes(folder, suite, words));
  if (passed.get(test) !== true) return passed.get(test) || "not tried: its test fails without it, or takes too long";
  writeFileSync(path, text.replace(old, () => other));
  const isFailed = passes(folder, suite, words) === false;
  writeFileSync(path, text);
  return isFailed ? "found" : "missed";
}

const isWanted = (word, file, [, , suite, words]) =>
  word === "--quick" || word === "--browser" ? IN_BROWSER.includes(suite) === (word === "--browser") : [file, suite, words].some(text => text.includes(word));

function main(word = "") {
  const skipped = suite => IN_BROWSER.includes(suite) && noChromium, gone = applies();
  for (const it of gone) console.log(`does not apply: ${it}`);
  if (gone.length || word === "--check") process.exit(gone.length ? 1 : 0);
  const folder = mkdtempSync(join(tmpdir(), "planted-")), counts = { found: 0, skipped: 0, missed: 0, failed: 0 };
  cpSync(join(here, ".."), join(folder, "web"), { recursive: true });
  for (const it of readdirSync(top)) if (it !== "web" && !it.startsWith(".")) symlinkSync(join(top, it), join(folder, it));
  for (const [file, edits] of Object.entries(FAULTS))
    for (const edit of edits.filter(it => isWanted(word, file, it))) {
      const verdict = skipped(edit[2]) ? "skipped" : found(folder, file, edit);
      counts[verdict in counts ? verdict : "failed"]++;
      if (verdict !== "found" || word !== "--quick") console.log(`${verdict}: ${file}: ${edit[0].split("\n")[0]} (${edit[2]}: ${edit[3]})`);
    }
  rmSync(folder, { recursive: true, force: true });
  console.log(`planted faults: ${counts.found} found, ${counts.missed} not found, ${counts.skipped + counts.failed} not tried`);
  process.exit(counts.missed + counts.failed ? 1 : 0);
}

main(process.argv[2]);
