/*
 * A pass of the loop of ether_dma.c and rtos_dma.c, which never waits for the controller. DMA and library use the same buffers: no frame
 * is copied.
 *
 * A buffer has one owner at a time, the program or the driver. The program owns it from the call that takes it to the call that gives
 * it away. After that the program neither reads nor writes it.
 *
 *     buffer      taken by             given away by
 *     received    mac_take_received    mac_reply, if the library has written a reply into it; else mac_give_back
 *     spare       mac_take_spare       mac_send_spare; while the library writes nothing into it, the program keeps it for the next slot
 *
 * SPDX-License-Identifier: MIT OR Apache-2.0
 * Copyright 2026 The Lowunbisa authors
 */
#include "ether_loop.h"
#include "../../support/ticks.h"
#include "drivers.h"

static unsigned char *spare;                   /* the spare buffer that the program owns, or NULL */
static size_t slot = UIP_SLOTS;                /* that of the next periodic call; UIP_SLOTS between ticks */

/* Handles one received frame, if there is one. The reply is in the buffer of that frame, which returns to the ring when it is sent. */
static unsigned receive(int *is_idle) {
    size_t len;
    unsigned char *received = mac_take_received(&len);
    if (!received) return UIP_OK;
    *is_idle = 0;
    uip_result done = uip_input_frame(&device, received, len, MAC_ROOM);
    if (done.written > 0) mac_reply(received, done.written);
    else mac_give_back(received);              /* also if the call was refused */
    return done.status;
}

/* Makes the periodic call of one slot, if a tick is under way. If all spare buffers are being sent, a later pass makes it. */
static unsigned tick(int *is_idle) {
    if (slot == UIP_SLOTS && tick_is_due_at(milliseconds())) slot = 0;
    if (slot == UIP_SLOTS) return UIP_OK;
    if (!spare) spare = mac_take_spare();
    if (!spare) return UIP_OK;
    *is_idle = 0;
    uip_result done = uip_periodic_frame(&device, slot++, spare, MAC_ROOM);
    if (done.written > 0) {
        mac_send_spare(spare, done.written);
        spare = NULL;
    }
    return done.status;
}

void reset_ether_loop(void) { slot = UIP_SLOTS; }

unsigned ether_pass(int *is_idle) {
    *is_idle = 1;
    unsigned status = receive(is_idle);
    return status == UIP_OK ? tick(is_idle) : status;
}
