/*
 * A device on Ethernet whose loop never waits for the controller, and sleeps if there is nothing to do. A pass of the loop is in
 * ether_loop.c, which uses the buffers of the DMA in place, and explains who owns each. rtos_dma.c has the same loop under an RTOS.
 *
 * SPDX-License-Identifier: MIT OR Apache-2.0
 * Copyright 2026 The Lowunbisa authors
 */
#include "pages.h"
#include "site.c"                              /* python3 tools/pack.py examples/firmware/site site.c /state.shtml=application/json */
#define UIP_HEAP_SIZE UIP_MEMORY_ETHER(SITE_IMAGE_FILES)
#include "../../support/heap.c"
#include "drivers.h"
#include "ether_loop.h"

uip_device device = UIP_INIT;
volatile unsigned events;

/* Sleeps, unless the controller has received or sent a frame since `events` was `seen`. While interrupts are off, the next one is held
 * back, and ends the sleep: none is missed.
 */
static void sleep_if_none_since(unsigned seen) {
    interrupts_off();
    if (events == seen) sleep_until_interrupt(0);
    interrupts_on();
}

int main(void) {
    static const unsigned char own[4] = {10, 0, 0, 1}, mask[4] = {255, 255, 255, 0}, router[4] = {10, 0, 0, 254};
    uip_opened opened = uip_open_ether(&device, site_image, SITE_IMAGE_LEN, own, mac, mask, router);
    unsigned status = opened.status;
    if (status != UIP_OK) fail(status, opened.entry, opened.word);
    board_start();
    pages_start();
    while (status == UIP_OK) {                 /* nothing that arrives ends this loop */
        unsigned seen = events;                /* read before the driver is asked */
        int is_idle;
        status = ether_pass(&is_idle);
        if (status == UIP_OK) pages_work();    /* after each frame, so that no request is missed */
        if (is_idle) sleep_if_none_since(seen);
    }
    stop(status);
}
