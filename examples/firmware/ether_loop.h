/* A pass of a loop on Ethernet that never waits for the controller, for ether_dma.c and rtos_dma.c: see ether_loop.c.
 *
 * SPDX-License-Identifier: MIT OR Apache-2.0
 * Copyright 2026 The Lowunbisa authors
 */
#ifndef ETHER_LOOP_H
#define ETHER_LOOP_H

#include "uip.h"

extern uip_device device;              /* of the program: not static, and open */

/* Handles at most one received frame, and then makes at most one periodic call. Returns UIP_OK, or the status of a call that was refused.
 *
 * After each pass handle values, buttons and forms: the next one may bring another query. If there was nothing to do, `*is_idle` is 1, else
 * 0. Then wait for an interrupt of the controller, at most 20 ms, since a tick may be due. The wait ends at once if that interrupt has
 * come since the pass began.
 */
unsigned ether_pass(int *is_idle);

void reset_ether_loop(void);           /* between uip_close and the next opening: the next tick begins at slot 0. A spare buffer stays, and
                                          buffers that are being sent return as usual */

#endif
