// What was found, and what was counted. A finding ends the run, with the seed that makes it again.
#include <signal.h>
#include <stdarg.h>
#include <stdio.h>
#include <stdlib.h>
#include <time.h>
#include "parts.h"

struct counts counts;
static unsigned long used_seed;
static int was_mixed;
static struct timespec start;

// An access to a page that cannot be touched, an instruction that this processor has not, and the like.
static void faulted(int signal) { fail("the library faulted, by signal %d", signal); }

void report_begin(unsigned long seed, int is_mixed) {
    for (unsigned k = 0; k < 5; k++) signal((int[]){SIGSEGV, SIGBUS, SIGILL, SIGFPE, SIGTRAP}[k], faulted);
    used_seed = seed;
    was_mixed = is_mixed;
    clock_gettime(CLOCK_MONOTONIC, &start);
}

double seconds_gone(void) {
    struct timespec now;
    clock_gettime(CLOCK_MONOTONIC, &now);
    return (double)(now.tv_sec - start.tv_sec) + (double)(now.tv_nsec - start.tv_nsec) / 1e9;
}

_Noreturn void fail(const char *format, ...) {
    va_list words;
    va_start(words, format);
    printf("FINDING: ");
    vprintf(format, words);
    printf("\nseed %lu%s, session %lu, call %lu\n", used_seed, was_mixed ? " mixed" : "", counts.sessions, counts.calls);
    va_end(words);
    exit(1);
}

void report_end(void) {
    double gone = seconds_gone();
    printf("seed %lu%s: %lu calls of the device under test (%lu refused) and %lu of the others, in %.1f s: %.0f a second in all\n",
           used_seed, was_mixed ? " mixed" : "", counts.calls, counts.refused, counts.others, gone,
           (double)(counts.calls + counts.others) / gone);
    printf("%lu sessions, %lu datagrams sent, %lu echo replies, %lu opens (%lu of bad images, %lu without memory), "
           "%lu pages closed, %lu of them compared whole\n", counts.sessions, counts.datagrams, counts.pings, counts.opens,
           counts.bad_images, counts.refusals, counts.pages, counts.whole);
    printf("%lu values given, %lu texts of calls in pages, %lu segments sent again at a value that was another by then, "
           "%lu hit counts, %lu queries and %lu rows of connections read\n",
           counts.given, counts.shown, counts.changed, counts.hits, counts.queries, counts.rows);
    printf("%lu datagrams sent in frames, %lu of them by the router; %lu addresses taught by ARP\n", counts.framed, counts.routed,
           counts.taught);
    printf("%lu datagrams dropped by the guard, %lu connections given up\n", counts.dropped, counts.gave_up);
}
