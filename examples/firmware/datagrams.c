/*
 * A device on a link that carries IPv4 datagrams, such as a tunnel or a PPP of yours. The link gives the address. If it goes down, the
 * device is closed, and opened again when the link is up.
 *
 * SPDX-License-Identifier: MIT OR Apache-2.0
 * Copyright 2026 The Lowunbisa authors
 */
#include "pages.h"
#include "site.c"                              /* python3 tools/pack.py examples/firmware/site site.c /state.shtml=application/json */
#define UIP_HEAP_SIZE UIP_MEMORY(SITE_IMAGE_FILES)
#include "../../support/heap.c"
#include "../../support/ticks.h"
#include "drivers.h"

uip_device device = UIP_INIT;

/* The loop, while the link is up. Nothing that arrives ends it. */
static void serve_link(void) {
    static unsigned char in[UIP_MAX_DATAGRAM], out[UIP_MAX_DATAGRAM];
    unsigned status = UIP_OK;
    while (status == UIP_OK && link_is_up()) {
        size_t len = datagram_receive(in, sizeof in);
        if (len > 0) {
            uip_result done = uip_input(&device, in, len, out, sizeof out);
            if (done.written > 0) datagram_send(NULL, out, done.written);
            status = done.status;
        }
        if (status == UIP_OK && tick_is_due_at(milliseconds()))
            status = uip_tick_datagrams(&device, out, sizeof out, datagram_send, NULL);
        if (status == UIP_OK) pages_work();
    }
    if (status != UIP_OK) stop(status);
}

int main(void) {
    board_start();
    for (;;) {
        unsigned char own[4];
        link_wait(own);
        uip_opened opened = uip_open(&device, site_image, SITE_IMAGE_LEN, own);
        if (opened.status != UIP_OK) fail(opened.status, opened.entry, opened.word);
        pages_start();
        serve_link();
        uip_close(&device);
    }
}
