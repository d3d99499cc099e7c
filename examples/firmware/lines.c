/*
 * A device on Ethernet that answers each line which a peer sends to port 5025, as SCPI or a console does. It has no pages: uip_app.h.
 *
 *     ncat 10.0.0.1 5025
 *
 * SPDX-License-Identifier: MIT OR Apache-2.0
 * Copyright 2026 The Lowunbisa authors
 */
#include <string.h>

#include "uip_app.h"
#define UIP_HEAP_SIZE UIP_APP_MEMORY
#include "../../support/heap.c"
#include "../../support/ticks.h"
#include "drivers.h"

size_t answer(const char *line, size_t len, char *reply, unsigned *last);  /* yours: at most UIP_MAX_MESSAGE bytes; *last 1 closes */

static uip_app device = UIP_APP_INIT;
static unsigned char frame[UIP_MAX_FRAME];

static void send(uip_result done) {
    if (done.written) mac_send(NULL, frame, done.written);
}

/* Answers each connection that has a whole line. */
static void serve(void) {
    char line[UIP_MAX_RECEIVED], reply[UIP_MAX_MESSAGE];
    for (size_t slot = 0; slot < UIP_SLOTS; slot++) {
        uip_received it = uip_app_read(&device, slot, line, sizeof line);
        const char *end = it.ready ? memchr(line, '\n', it.len) : NULL;
        if (!end) continue;
        unsigned last = 0;
        size_t taken = (size_t)(end - line) + 1, len = answer(line, taken - 1, reply, &last);
        send(uip_app_write(&device, slot, taken, reply, len, last, frame, sizeof frame));
    }
}

int main(void) {
    static const unsigned char own[4] = {10, 0, 0, 1}, mask[4] = {255, 255, 255, 0}, router[4] = {10, 0, 0, 254};
    board_start();
    unsigned status = uip_app_open(&device, own, mac, mask, router);
    if (status == UIP_OK) status = uip_app_listen(&device, 5025);
    if (status != UIP_OK) fail(status, 0, "");
    for (;;) {
        size_t len = mac_receive(frame, sizeof frame);
        if (len > 0) {
            send(uip_app_input_frame(&device, frame, len, sizeof frame));
            serve();
        }
        if (tick_is_due_at(milliseconds())) {
            for (size_t slot = 0; slot < UIP_SLOTS; slot++)
                send(uip_app_periodic_frame(&device, slot, frame, sizeof frame));
            serve();
        }
    }
}
