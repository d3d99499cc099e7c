// Calls the library in random ways and looks whether each call answers as include/uip.h and docs/FORMATS.md foretell.
//
//     fuzz SECONDS CALLS SEED [mixed] [record FOLDER]
//
// It ends behind so many seconds or calls of the device under test, whichever is first, or with the first finding. A session is a random
// site at a random address, three devices in step (devices.c) and a fourth on Ethernet (frames.c) that are given values (values.c), clients
// and a link between (clients.c). What of it was asked for, and how the connections stand, follows from what is heard and sent (peers.c).
// With `mixed` datagrams come outside of the line too. With `record` each session has a pace, and its line and what was sent are kept for
// `uipd serve` (run.sh compares).
#include <stdio.h>
#include <stdlib.h>
#include <string.h>
#include "fuzz.h"

static unsigned long most_calls;
static double most_seconds;
static int is_mixed;
static const char *folder;

static int is_done(void) { return counts.calls >= most_calls || seconds_gone() >= most_seconds; }

// Ticks come slot by slot, mostly in their order.
static void act(const way *how, unsigned *slot) {
    if (how->pace || !chance(12)) { clients_act(); return; }
    devices_tick(chance(97) ? *slot : below(UIP_SLOTS));
    if (++*slot < UIP_SLOTS) return;
    *slot = 0;
    clients_tick();
}

static void session(void) {
    static site s;
    byte own[4] = {10, 0, 0, 1};
    calls_of has = {.others = chance(50), .values = !folder && chance(60)};
    way how = {.is_mixed = is_mixed, .may_be_overlong = !has.others, .pace = folder ? between(1, 3000) : 0};
    unsigned slot = 0;
    if (chance(50)) random_bytes(own, 4);
    make_site(&s, &has);
    if (folder) record_begin(folder, &s, own, how.pace);
    devices_open(&s, own, &how);
    clients_begin(&s, own, how.may_be_overlong);
    for (unsigned left = folder ? 3000 : between(100, 20000); left && !is_done(); left--) act(&how, &slot);
    devices_close();
    record_end();
    counts.sessions++;
}

int main(int argc, char **argv) {
    if (argc < 4) { fprintf(stderr, "fuzz SECONDS CALLS SEED [mixed] [record FOLDER]\n"); return 2; }
    most_seconds = atof(argv[1]), most_calls = strtoul(argv[2], 0, 10);
    unsigned long seed = strtoul(argv[3], 0, 10);
    for (int k = 4; k < argc; k++) {
        if (!strcmp(argv[k], "mixed")) is_mixed = 1;
        else if (!strcmp(argv[k], "record") && k + 1 < argc) folder = argv[++k];
    }
    random_begin(seed);
    report_begin(seed, is_mixed);
    calls_begin();
    while (!is_done()) session();
    report_end();
    return 0;
}
