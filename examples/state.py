#!/usr/bin/env python3
"""Fetches the state of a running device many times, and checks that each value in each page is one that the device set, whole.

    sh examples/board/run.sh state -- python3 examples/state.py [PAGES]
    python3 examples/browse.py examples/linux-c/out/uip_state examples/state.img -- python3 examples/state.py [PAGES]

PAGES is the number of pages to fetch, 1000 if none is given. The device sets its values again before each tick, by a rule that is known
here: the board's level rises and falls with the ticks, and the C program shows the load of this machine. Each value of a page belongs
to a tick between that of the page's seconds and that of the next page's. After every 50th page the lamp is switched by its link, which
is requested twice. Then another alarm level is set, by an address to which the form of /now.shtml leads; the page that answers shows it,
and so does each later page. Bad texts follow, which must change nothing. The status is 0 if all is as it should be, else 1.
"""
import html
import json
import os
import re
import socket
import sys
import threading
import time

from fetch import fetch

BETWEEN_SWITCHES = 50
PATIENCE = 10
LIMITS = [42, 0, 100, 7, 60, 1, 99, 10]    # alarm levels, one after another
SETS_NOTHING = ["", "?", *("?" + text for text in (
    "limit=", "limit=abc", "limit=5x", "limit=101", "limit=1000", "limit=0005", "limit=4294967301", "limit=-5", "limit=+5", "limit=5.0",
    "limit=%35", "limit=&n=6", "limit=5x&n=6", "limit=101&n=6", "limit=0005&n=6", "n=6&limit=5", "Limit=5", "level=5", "limits=5",
    "limit5", "5",
    "limit=" + 58 * "5", "limit=" + 59 * "5", 60 * "0" + "limit"))]    # the last two are longer than a device keeps


class Board:
    """The values that examples/board/state.c sets at a tick."""
    name = 'Lamp & level of the "virt" board'

    def level(self, tick):
        place = tick % 50
        return str(4 * min(place, 50 - place))

    def levels(self, first, last):
        return {self.level(tick) for tick in range(first, last + 1)}

    def notes(self, first, last):
        return {f"{self.level(tick)} of 100, {'rising' if tick % 50 < 25 else 'falling'}" for tick in range(first, last + 1)}


class Linux:
    """The values that examples/linux-c/state.c sets: the load of this machine, which is read here all the time."""
    name = f'Lamp & load of "{socket.gethostname()}"'[:32]

    def __init__(self):
        self.processors = os.sysconf("SC_NPROCESSORS_ONLN")
        self.loads = {os.getloadavg()}
        threading.Thread(target=self.look, daemon=True).start()

    def look(self):
        while True:
            self.loads.add(os.getloadavg())
            time.sleep(0.1)

    def seen(self):
        self.loads.add(os.getloadavg())
        return list(self.loads)

    def levels(self, *_):
        return {str(min(100, int(load[0] / self.processors * 100))) for load in self.seen()}

    def notes(self, *_):
        return {"load {:.2f}, {:.2f}, {:.2f} of {}".format(*load, self.processors)[:32] for load in self.seen()}


class Page:
    """A page of the state: its values, each as its text in the page."""

    def __init__(self):
        head, body = fetch("/state.shtml")
        if not head.startswith(b"HTTP/1.0 200 OK\r\n") or not head.endswith(b"\r\nContent-type: application/json"):
            raise ValueError(f"the head of a page is {head!r}")
        state = json.loads(body, parse_int=str, parse_float=str)
        self.name, self.seconds, self.level, self.note, self.lamp, self.limit, self.alarm = (
            state[name] for name in ("name", "seconds", "level", "note", "lamp", "limit", "alarm"))
        if not re.fullmatch(r"(0|[1-9]\d*)\.[05]", self.seconds):
            raise ValueError(f"the seconds of a page are {self.seconds}")
        self.tick = round(2 * float(self.seconds))


class Visit:
    """What has been checked, and how much of it was wrong."""

    def __init__(self):
        linux = Linux()
        time.sleep(1)    # the load that the device shows is then known here too
        self.page = Page()
        self.rule = linux if self.page.name == linux.name else Board()
        self.pages = self.later = self.switches = self.settings = self.wrong = 0
        self.limit = self.page.limit
        self.ticks = set()
        self.wanted, self.is_switched = self.page.lamp, True

    def see(self, is_good, text):
        if not is_good:
            self.wrong += 1
            print("WRONG", text)

    def see_values(self, page, next_tick):
        """The values of a page, which were fixed in their order, and before the seconds of the next page."""
        self.see(page.tick <= next_tick, f"{page.seconds} seconds, and then {next_tick / 2}")
        self.see(page.name == self.rule.name, f"the name {page.name}")
        self.see(page.level in self.rule.levels(page.tick, next_tick), f"level {page.level} at {page.seconds} seconds")
        self.see(page.note in self.rule.notes(page.tick, next_tick), f"{page.note} at {page.seconds} seconds")
        self.see(page.limit == self.limit, f"the alarm level {page.limit} and not {self.limit}")
        alarms = {self.alarm(level) for level in self.rule.levels(page.tick, next_tick)}
        self.see(page.alarm in alarms, f"{page.alarm} at {page.seconds} seconds, with the alarm level {self.limit}")
        self.later += page.note not in self.rule.notes(page.tick, page.tick)
        self.ticks.add(page.tick)

    def alarm(self, level):
        return f"{level} is {'' if int(level) > int(self.limit) else 'not '}above {self.limit}"

    def see_lamp(self, page):
        """After a request of its link the lamp is switched at a tick, and stays so."""
        if page.lamp == self.wanted:
            self.is_switched = True
        else:
            self.see(page.lamp in ("off", "on") and not self.is_switched, f"the lamp is {page.lamp} and not {self.wanted}")

    def look(self):
        page = Page()
        self.see_values(self.page, page.tick)
        self.see_lamp(page)
        self.page = page
        self.pages += 1

    def switch(self):
        self.wanted, self.is_switched = "off" if self.wanted == "on" else "on", False
        fetch(f"/lamp-{self.wanted}.html")
        fetch(f"/lamp-{self.wanted}.html")
        end = time.monotonic() + PATIENCE
        while not self.is_switched and time.monotonic() < end:
            self.look()
        self.see(self.is_switched, f"the lamp was not switched within {PATIENCE} seconds")
        self.switches += self.is_switched

    def see_setting(self, query):
        """The page that answers a form shows the alarm level."""
        body = fetch(f"/alarm.shtml{query}")[1].decode()
        shown = re.search(r"<h1>The alarm level is (.*)</h1>\n<p>Now: ((\d+) .*)\.</p>", body)
        is_good = shown and shown[1] == self.limit and shown[2] == self.alarm(shown[3])
        self.see(is_good, f"with the alarm level {self.limit} /alarm.shtml{query} shows {shown and shown.group(1, 2)}")

    def set_limit(self):
        """Sets the next alarm level by the form, and then requests what sets nothing."""
        self.look()
        self.limit = str(LIMITS[self.settings % len(LIMITS)])
        self.see_setting(f"?limit={self.limit}&n={time.time_ns() // 10**6}")
        self.page = Page()    # the page before had the other alarm level
        for query in SETS_NOTHING:
            self.see_setting(query)
        fetch("/now.shtml?limit=5")
        self.look()
        self.settings += 1

    def see_html(self):
        """In a page of HTML the quotes and the ampersand of the name are character references."""
        body = fetch("/now.shtml")[1].decode()
        form = '<form action="/alarm.shtml" onsubmit="this.n.value = Date.now()">'
        for part in (f"<h1>{html.escape(self.page.name)}</h1>", form, f' value="{self.limit}"></label>'):
            self.see(part in body, f"the page /now.shtml has no {part}: {body}")


def main():
    words = sys.argv[1:]
    if "--help" in words or "-h" in words:
        sys.exit(print(__doc__))
    if len(words) > 1 or not all(word.isdigit() for word in words):
        sys.exit(f"state.py: unknown word {words[-1]}; --help says which there are")
    wanted = int(words[0]) if words else 1000
    start, visit = time.monotonic(), Visit()
    while visit.pages < wanted and visit.wrong < 10:
        visit.look()
        if visit.pages % BETWEEN_SWITCHES == 0:
            visit.switch()
            visit.set_limit()
    visit.see_html()
    later = f", {visit.later} of them with values of a later tick" if visit.later else ""
    print(f"{visit.pages} pages of the state in {time.monotonic() - start:.0f} s, at {len(visit.ticks)} ticks{later}; "
          f"the lamp was switched {visit.switches} times, and the alarm level set {visit.settings} times; {visit.wrong} were wrong")
    sys.exit(1 if visit.wrong else 0)


try:
    main()
except (OSError, ValueError, KeyError) as error:
    sys.exit(f"state.py: {error}")
