/*
 * Ticks from a clock of milliseconds, for the loops of uip.h and of examples/firmware.
 *
 * SPDX-License-Identifier: MIT OR Apache-2.0
 * Copyright 2026 The Lowunbisa authors
 */
#ifndef TICKS_H
#define TICKS_H

#include "uip.h"

/* Returns 1 if a tick is due at this time, in milliseconds modulo 2^32: once for each half second. If three or more are due, after a
 * stall, only one is made. Call it in one place: its state is that of the file which includes it.
 */
UIP_INLINE int tick_is_due_at(unsigned milliseconds) {
    static unsigned last;
    unsigned late = milliseconds - last;
    if (late < 500) return 0;
    last = late < 1500 ? last + 500 : milliseconds;
    return 1;
}

#endif
