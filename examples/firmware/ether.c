/*
 * A device on Ethernet. One area has the received frame, and in its place the reply.
 *
 * SPDX-License-Identifier: MIT OR Apache-2.0
 * Copyright 2026 The Lowunbisa authors
 */
#include "pages.h"
#include "site.c"                              /* python3 tools/pack.py examples/firmware/site site.c /state.shtml=application/json */
#define UIP_HEAP_SIZE UIP_MEMORY_ETHER(SITE_IMAGE_FILES)
#include "../../support/heap.c"
#include "../../support/ticks.h"
#include "drivers.h"

uip_device device = UIP_INIT;

int main(void) {
    static const struct addresses usual = {{10, 0, 0, 1}, {255, 255, 255, 0}, {10, 0, 0, 254}};    /* own, mask, router */
    static unsigned char frame[UIP_MAX_FRAME];
    board_start();
    struct addresses at = pages_addresses(usual);          /* `usual`, unless a page can set them: settings_pages.c */
    uip_opened opened = uip_open_ether(&device, site_image, SITE_IMAGE_LEN, at.own, mac, at.mask, at.router);
    unsigned status = opened.status;
    if (status != UIP_OK) fail(status, opened.entry, opened.word);
    pages_start();
    while (status == UIP_OK) {                 /* nothing that arrives ends this loop */
        size_t len = mac_receive(frame, sizeof frame);
        if (len > 0) {
            uip_result done = uip_input_frame(&device, frame, len, sizeof frame);
            if (done.written > 0) mac_send(NULL, frame, done.written);
            status = done.status;
        }
        if (status == UIP_OK && tick_is_due_at(milliseconds()))
            status = uip_tick_frames(&device, frame, sizeof frame, mac_send, NULL);
        if (status == UIP_OK) pages_work();
    }
    stop(status);
}
