/*
 * A test of ether_dma.c, or with TEST_rtos_dma of rtos_dma.c, and of ether_loop.c, without the library: the order of the calls, and the
 * owner of each buffer. The library, the drivers and the RTOS are here. Each line of `passes` has what happens in a pass of the loop, and
 * the calls that are expected then. The loop ends by a call that is refused: that of a received frame, or with ENDS_BY_TICK a periodic
 * one. It prints nothing and returns 0 if all is as it should be.
 *
 * SPDX-License-Identifier: MIT OR Apache-2.0
 * Copyright 2026 The Lowunbisa authors
 */
#include <stdio.h>
#include <stdlib.h>
#include <string.h>
#include "pages.h"
#include "drivers.h"
#ifdef TEST_rtos_dma
#include "rtos.h"
#define PROGRAM_NAME "rtos_dma.c"
#else
#define PROGRAM_NAME "ether_dma.c"
#endif

/* What happens                                            The calls
 *     r    a frame comes, and gets a reply                    f or -    mac_take_received, which returns a frame or NULL
 *     g    a frame comes, and gets none                       i         uip_input_frame
 *     x    a frame comes whose call is refused                r, g      mac_reply, mac_give_back
 *     h    half a second passes                               w         pages_work
 *     s    the periodic call writes a frame                   t or n    mac_take_spare, which returns a buffer or NULL
 *     b    the periodic call is refused                       0 to 9    uip_periodic_frame of that slot
 *     e    the frame of the spare buffer is sent after n      s         mac_send_spare
 *     c    a frame comes just after mac_take_received         z         sleep_until_interrupt or take_for, which waits: the frame of the
 *                                                                       spare buffer is sent
 *                                                             v         uip_set_value: the value of the other task
 *                                                             ?         a call with a wrong argument, or at a wrong time
 */
static const struct pass { const char *happens, *calls; } passes[] = {
#ifdef TEST_rtos_dma
    {"", "-vw"},                               /* the other task has given the semaphore: the wait ends at once */
#endif
    {"", "-wz"}, {"r", "firw"}, {"g", "figw"}, {"", "-wz"},
    {"h", "-t0w"}, {"", "-1w"}, {"rs", "fir2sw"}, {"g", "fignw"}, {"", "-nwz"}, {"s", "-t3sw"}, {"e", "-nw"}, {"hs", "-t4sw"},
    {"re", "firnw"}, {"s", "-t5sw"}, {"c", "-nw"}, {"r", "firnw"}, {"", "-nwz"}, {"", "-t6w"}, {"g", "fig7w"}, {"", "-8w"}, {"", "-9w"},
    {"", "-0w"}, {"", "-1w"}, {"", "-2w"}, {"", "-3w"}, {"", "-4w"}, {"", "-5w"}, {"", "-6w"}, {"", "-7w"}, {"", "-8w"}, {"s", "-9sw"},
    {"c", "-w"}, {"r", "firw"}, {"", "-wz"},
#ifdef ENDS_BY_TICK
    {"h", "-t0w"}, {"b", "-1"}
#else
    {"xh", "fig"}
#endif
};
enum { PASSES = sizeof passes / sizeof passes[0] };

enum owner { DRIVER, PROGRAM, SENDER };
enum { UNUSED = 0xA5 };
static unsigned char frame[MAC_ROOM], spare[MAC_ROOM];    /* while the program does not own one, it is full of UNUSED */
static enum owner frame_owner, spare_owner;
static size_t pass = PASSES;                   /* PASSES before the first */
static char calls[32];
static unsigned now;
static int are_interrupts_off;                 /* those of the program, by interrupts_off */

const unsigned char mac[6] = {2, 0, 0, 0, 0, 1};

static int happens(char what) { return strchr(passes[pass].happens, what) != NULL; }

#ifdef TEST_rtos_dma
static int is_given;
static void interrupt(void) { give_from_interrupt(); }
#else
static void interrupt(void) { events++; }
#endif

static void note(int is_right, char call) {
    size_t len = strlen(calls);
    if (len + 1 < sizeof calls) calls[len] = is_right ? call : '?';
}

static void end_pass(void) {
    if (strcmp(calls, passes[pass].calls) == 0) return;
    printf(PROGRAM_NAME ": pass %u: %s in place of %s\n", (unsigned)pass, calls, passes[pass].calls);
    exit(1);
}

static uip_result result(unsigned status, size_t consumed, size_t written) {
    uip_result made = {status, 0, consumed, written};
    return made;
}

/* Whether the program has written into no buffer that it does not own. */
static int is_kept(void) {
    size_t k;
    int is_same = 1;
    for (k = 0; k < MAC_ROOM; k++) {
        if (frame_owner != PROGRAM) is_same &= frame[k] == UNUSED;
        if (spare_owner != PROGRAM) is_same &= spare[k] == UNUSED;
    }
    return is_same;
}

/* What the program does before its loop: each is called once, in this order. */
static void start(char call) {
#ifdef TEST_rtos_dma
    static const char *expected = "obpvsit";   /* uip_open_ether, board_start, pages_start, uip_set_value, make_semaphore,
                                                  mac_interrupts_on, start_tasks */
#else
    static const char *expected = "obp";
#endif
    if (*expected == call) {
        expected++;
        return;
    }
    printf(PROGRAM_NAME ": at the start %c in place of %c\n", call, *expected);
    exit(1);
}

/* ---- the driver ---- */

unsigned char *mac_take_received(size_t *len) {
    if (pass < PASSES) end_pass();
    pass = pass == PASSES ? 0 : pass + 1;
    if (pass == PASSES) exit(1);               /* it did not end */
    memset(calls, 0, sizeof calls);
    if (happens('h')) now += 500;
    int has_frame = happens('r') || happens('g') || happens('x');
    note(frame_owner == DRIVER && is_kept() && !are_interrupts_off, has_frame ? 'f' : '-');
    if (happens('c')) interrupt();
    if (!has_frame) return NULL;
    frame_owner = PROGRAM;
    *len = 60;
    return frame;
}

void mac_reply(unsigned char *bytes, size_t len) {
    note(bytes == frame && frame_owner == PROGRAM && len == 77, 'r');
    memset(frame, UNUSED, MAC_ROOM);
    frame_owner = DRIVER;
}

void mac_give_back(unsigned char *bytes) {
    note(bytes == frame && frame_owner == PROGRAM, 'g');
    memset(frame, UNUSED, MAC_ROOM);
    frame_owner = DRIVER;
}

unsigned char *mac_take_spare(void) {
    int is_free = spare_owner == DRIVER;
    note(spare_owner != PROGRAM, is_free ? 't' : 'n');
    if (is_free) spare_owner = PROGRAM;
    if (!is_free && happens('e')) spare_owner = DRIVER, interrupt();
    return is_free ? spare : NULL;
}

void mac_send_spare(unsigned char *bytes, size_t len) {
    note(bytes == spare && spare_owner == PROGRAM && len == 88, 's');
    memset(spare, UNUSED, MAC_ROOM);
    spare_owner = SENDER;
}

/* The end of a wait that no interrupt had ended before. */
static void wait_for_sent(int is_right) {
    note(is_right, 'z');
    if (spare_owner == SENDER) spare_owner = DRIVER, interrupt();
}

unsigned milliseconds(void) { return now; }

void board_start(void) {
    memset(frame, UNUSED, MAC_ROOM);
    memset(spare, UNUSED, MAC_ROOM);
    start('b');
}

void fail(unsigned status, unsigned entry, const char *word) {
    printf(PROGRAM_NAME ": %u %u %s\n", status, entry, word);
    exit(1);
}

void stop(unsigned status) {
    end_pass();
    exit(pass != PASSES - 1 || status != UIP_BAD_ARGUMENT || frame_owner == PROGRAM);
}

#ifdef TEST_rtos_dma

/* ---- the RTOS ---- */

static void (*network_task)(void *);

void mac_interrupts_on(void) { start('i'); }
void make_semaphore(void) { start('s'); }
void give_from_interrupt(void) { is_given = 1; }

void take_for(unsigned limit) {
    if (!is_given) wait_for_sent(limit == 20);
    is_given = 0;
}

/* The second task begins. When it gives the semaphore, the first one runs at once, and does not return. */
void start_tasks(void (*first)(void *), void (*second)(void *)) {
    start('t');
    network_task = first;
    second(NULL);
}

void sleep_one_second(void) {
    static unsigned seconds;
    if (++seconds == 2) exit(1);               /* it did not give the semaphore */
}

void give(void) {
    is_given = 1;
    network_task(NULL);
}

#else

void interrupts_off(void) { are_interrupts_off = 1; }
void interrupts_on(void) { are_interrupts_off = 0; }
void sleep_until_interrupt(int is_deep) { wait_for_sent(are_interrupts_off && !is_deep); }

#endif

/* ---- the library, and the pages ---- */

uip_opened uip_open_ether(uip_device *opened, const unsigned char *image, size_t len, const unsigned char own[4],
                          const unsigned char own_mac[6], const unsigned char mask[4], const unsigned char router[4]) {
    uip_opened made = {UIP_OK, 0, ""};
    if (opened != &device || !image || len == 0 || own[0] != 10 || own_mac != mac || mask[0] != 255 || router[0] != 10) exit(1);
    start('o');
    return made;
}

unsigned uip_set_value(uip_device *of, size_t number, const void *text, size_t len) {
    if (pass == PASSES) start('v');
    else note(of == &device && number == 7 && len == 1 && memcmp(text, "1", 1) == 0, 'v');
    return UIP_OK;
}

uip_result uip_input_frame_area(uip_device *of, unsigned char *at, size_t room, size_t len) {
    note(of == &device && at == frame && frame_owner == PROGRAM && room == MAC_ROOM && len == 60, 'i');
    if (happens('x')) return result(UIP_BAD_ARGUMENT, 0, 0);
    memset(at, 1, room);
    return result(UIP_OK, len, happens('r') ? 77 : 0);
}

uip_result uip_periodic_frame(uip_device *of, size_t slot, unsigned char *at, size_t room) {
    note(of == &device && at == spare && spare_owner == PROGRAM && room == MAC_ROOM && slot < UIP_SLOTS, (char)('0' + slot));
    if (happens('b')) return result(UIP_BAD_ARGUMENT, 0, 0);
    memset(at, 1, room);
    return result(UIP_OK, 0, happens('s') ? 88 : 0);
}

void pages_start(void) { start('p'); }
void pages_work(void) { note(frame_owner == DRIVER && is_kept(), 'w'); }
