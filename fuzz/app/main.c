// Makes the calls of include/uip_app.h, or of uip_both.h, in random ways, and looks whether each one does what the header states.
//
//     fuzz_app SECONDS CALLS SEED
//
// It ends after SECONDS or CALLS, whichever is first, or with the first finding. A session has two devices at random addresses
// (program.c), and clients and strangers at the other end of a link (peers.c). A second implementation of the node foretells each status,
// each frame that is sent, and each result that is read (node.c, calls.c).
#include <stdio.h>
#include <stdlib.h>
#include "app.h"

struct app_counts app_counts;
static unsigned long most_calls;
static double most_seconds;

static int is_done(void) { return counts.calls >= most_calls || seconds_gone() >= most_seconds; }

// Ticks come slot by slot, mostly in their order.
static void act(unsigned *slot) {
    if (!chance(12)) {
        if (serves_pages() && chance(50)) pages_act();
        else peers_act();
        return;
    }
    if (*slot == 0 && pages_whole_tick()) *slot = UIP_SLOTS - 1;
    else tick(chance(97) ? *slot : below(UIP_SLOTS));
    if (++*slot < UIP_SLOTS) return;
    *slot = 0;
    peers_tick();
    pages_tick();
    if (chance(1)) silence(chance(80) ? between(1, 300) : between(300, 2600));
    if (chance(2)) heap_check();
}

static void session(void) {
    unsigned slot = 0;
    program_begin();
    for (unsigned left = between(100, 20000); left && !is_done(); left--) act(&slot);
    program_end();
    counts.sessions++;
}

static void show(unsigned long seed) {
    double gone = seconds_gone();
    printf("seed %lu: %lu calls (%lu refused, %lu of them since a message could not be sent) in %.1f s: %.0f a second\n", seed,
           counts.calls, counts.refused, app_counts.not_ready, gone, (double)counts.calls / gone);
    printf("%lu sessions, %lu opens (%lu without memory), %lu datagrams sent, %lu of them echo replies; %lu in frames, %lu of these by the "
           "router; %lu ARP packets\n", counts.sessions, counts.opens, counts.refusals, counts.datagrams, counts.pings, counts.framed,
           counts.routed, counts.taught);
    printf("%lu times a port was opened, or was open; %lu segments to ports that were not open, %lu clients answered at a port that opened "
           "later\n", app_counts.listens, app_counts.dropped, app_counts.early);
    printf("%lu connections opened, %lu reads, %lu messages written, %lu bytes taken from clients, %lu bytes compared at clients\n",
           app_counts.opened, app_counts.reads, app_counts.written, app_counts.taken, app_counts.compared);
    printf("%lu segments sent again by ticks, %lu connections with too many bytes, %lu resets, %lu plain closes, %lu silences\n",
           app_counts.again, app_counts.overruns, app_counts.resets, app_counts.ends, app_counts.silences);
    printf("%lu datagrams dropped by the guard, %lu connections given up\n", counts.dropped, counts.gave_up);
    pages_show();
}

int main(int argc, char **argv) {
    if (argc < 4) { fprintf(stderr, "fuzz_app SECONDS CALLS SEED\n"); return 2; }
    most_seconds = atof(argv[1]), most_calls = strtoul(argv[2], 0, 10);
    unsigned long seed = strtoul(argv[3], 0, 10);
    random_begin(seed);
    report_begin(seed, 0);
    calls_begin();
    while (!is_done()) session();
    show(seed);
    return 0;
}
