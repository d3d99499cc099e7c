/*
 * A device on a serial line that never waits for its port, and sleeps if there is nothing to do. The loop is in ../step.c, and ring
 * and sender are in port.c: compile both beside this file.
 *
 * SPDX-License-Identifier: MIT OR Apache-2.0
 * Copyright 2026 The Lowunbisa authors
 */
#include "pages.h"
#include "../../support/step.h"
#include "site.c"                              /* python3 tools/pack.py examples/firmware/site site.c /state.shtml=application/json */
#define UIP_HEAP_SIZE UIP_MEMORY(SITE_IMAGE_FILES)
#include "../../support/heap.c"
#include "drivers.h"
#include "port.h"

uip_device device = UIP_INIT;

static volatile unsigned halves;               /* half seconds */
static int needs_ticks = 1;                    /* uip_needs_ticks at the last check, and `halves` and bytes_received then */
static unsigned halves_checked, bytes_checked;

void work(void) { pages_work(); }

void on_half_second(void);

/* The interrupt of a timer, each half second. */
void on_half_second(void) {
    halves++;
    events++;
}

/* Whether ticks may be left out: the device needed none at the last check, and has received nothing since. */
static int is_quiet(void) { return !needs_ticks && bytes_received == bytes_checked; }

/* Returns 1 if a tick is due. If three or more are due, only one is made. */
int half_a_second_passed(void) {
    static unsigned last;
    unsigned now = halves, due = now - last;
    if (due == 0) return 0;
    last = due > 2 || is_quiet() ? now : last + 1;
    return !is_quiet();
}

/* Sleeps until an interrupt. The loop calls it with interrupts held back, in a pass that had nothing to do. Each half second it looks
 * whether the device needs ticks, with interrupts on, since that takes some time; the loop then makes another pass. If it needs none
 * and the port does not send, no output is pending either. If pages_may_stop_timer allows it, the timer then stops, and only a received byte
 * ends the sleep. Else the sleep ends each half second, and all clocks run.
 */
void wfi(void) {
    int is_deep = is_quiet() && !dma_is_busy() && pages_may_stop_timer();
    if (halves != halves_checked && !dma_is_busy()) {
        halves_checked = halves;
        bytes_checked = bytes_received;
        interrupts_on();
        needs_ticks = uip_needs_ticks(&device);
        interrupts_off();
        return;
    }
    if (is_deep) timer_stop();
    sleep_until_interrupt(is_deep);
    if (is_deep) timer_start();
}

int main(void) {
    static const unsigned char own[4] = {10, 0, 0, 1};
    uip_opened opened = uip_open(&device, site_image, SITE_IMAGE_LEN, own);
    if (opened.status != UIP_OK) fail(opened.status, opened.entry, opened.word);
    board_start();
    pages_start();
    stop(serve());                             /* the loop, which calls `work`. It returns only if a call was refused */
}
