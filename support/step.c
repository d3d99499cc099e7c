/*
 * A loop that never waits for the port of a serial line: see step.h.
 *
 * SPDX-License-Identifier: MIT OR Apache-2.0
 * Copyright 2026 The Lowunbisa authors
 */
#include "step.h"

static unsigned char in[64];                              /* received bytes: those from `at` to `end` are not yet fed */
static size_t at, end;
static unsigned char out[256];                            /* in use until the port has sent it */
static unsigned pending;                                  /* whether output is pending */
static size_t slot = UIP_SLOTS;                           /* that of the next periodic call; UIP_SLOTS between ticks */
static int is_fed;                                        /* whether bytes were fed after the last periodic call */

void reset_step(void) {
    at = end = 0;
    pending = 0;
    slot = UIP_SLOTS;
    is_fed = 0;
}

/* Makes at most one call of the library, and returns its status. Sets `is_idle` if there was none to make. */
static unsigned step(int *is_idle) {
    uip_result done = {UIP_OK, 0, 0, 0};
    *is_idle = dma_is_busy();
    if (*is_idle) return UIP_OK;
    if (slot == UIP_SLOTS && half_a_second_passed()) slot = 0;
    if (at == end) {
        at = 0;
        end = read_serial(in, sizeof in);
    }
    if (pending) {
        done = uip_drain(&device, out, sizeof out);
    } else if (at < end && (!is_fed || slot == UIP_SLOTS)) {
        done = uip_feed(&device, in + at, end - at, out, sizeof out);
        at += done.consumed;
        is_fed = 1;
    } else if (slot < UIP_SLOTS) {
        done = uip_periodic(&device, slot++, out, sizeof out);
        is_fed = 0;
    } else {
        *is_idle = 1;
    }
    pending = done.pending;
    if (done.written) dma_send(out, done.written);
    return done.status;
}

unsigned serve(void) {
    for (;;) {
        unsigned seen = events, status;
        int is_idle;
        work();
        status = step(&is_idle);
        if (status != UIP_OK) return status;
        if (!is_idle) continue;
        interrupts_off();
        if (events == seen) wfi();
        interrupts_on();
    }
}
