/*
 * A device on a serial line. The loop waits while it sends, which is enough for a trial; sleep.c is for a product.
 *
 * SPDX-License-Identifier: MIT OR Apache-2.0
 * Copyright 2026 The Lowunbisa authors
 */
#include "pages.h"
#include "site.c"                              /* python3 tools/pack.py examples/firmware/site site.c /state.shtml=application/json */
#define UIP_HEAP_SIZE UIP_MEMORY(SITE_IMAGE_FILES)
#include "../../support/heap.c"
#include "../../support/ticks.h"
#include "drivers.h"

uip_device device = UIP_INIT;

int main(void) {
    static const unsigned char own[4] = {10, 0, 0, 1};
    static unsigned char bytes[42], out[64];      /* 42: at most one request a pass (uip.h, section 9) */
    uip_opened opened = uip_open(&device, site_image, SITE_IMAGE_LEN, own);
    unsigned status = opened.status;
    if (status != UIP_OK) fail(status, opened.entry, opened.word);
    board_start();
    pages_start();
    while (status == UIP_OK) {                 /* nothing that arrives ends this loop */
        size_t len = read_serial(bytes, sizeof bytes);
        status = uip_feed_all(&device, bytes, len, out, sizeof out, write_serial, NULL);
        if (status == UIP_OK && tick_is_due_at(milliseconds()))
            status = uip_tick_all(&device, out, sizeof out, write_serial, NULL);
        if (status == UIP_OK) pages_work();
    }
    stop(status);
}
