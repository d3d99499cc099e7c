/*
 * A device on Ethernet under an RTOS. The task `network` makes all calls, so there is no mutex, and no other task ever waits for it:
 * the second task passes its value in a variable (for more than a word take a queue). `main` opens the device before the scheduler
 * starts, so no task needs the stack of opening.
 *
 * SPDX-License-Identifier: MIT OR Apache-2.0
 * Copyright 2026 The Lowunbisa authors
 */
#include "pages.h"
#include "site.c"                              /* python3 tools/pack.py examples/firmware/site site.c /state.shtml=application/json */
#define UIP_HEAP_SIZE UIP_MEMORY_ETHER(SITE_IMAGE_FILES)
#include "../../support/heap.c"
#include "../../support/text.h"
#include "../../support/ticks.h"
#include "drivers.h"
#include "rtos.h"

uip_device device = UIP_INIT;
static volatile unsigned seconds;              /* the value of the other task */

static void show_seconds(void) {
    static unsigned shown;
    char text[UIP_MAX_VALUE];
    unsigned now = seconds;
    if (now == shown) return;
    shown = now;
    uip_set_value(&device, 7, text, decimal(text, now));
}

void network(void *unused) {
    static unsigned char frame[UIP_MAX_FRAME];
    unsigned status = UIP_OK;
    (void)unused;
    while (status == UIP_OK) {
        size_t len = mac_receive(frame, sizeof frame);    /* waits for the interrupt of the receiver, at most 20 ms */
        if (len > 0) {
            uip_result done = uip_input_frame(&device, frame, len, sizeof frame);
            if (done.written > 0) mac_send(NULL, frame, done.written);
            status = done.status;
        }
        if (status == UIP_OK && tick_is_due_at(milliseconds()))
            status = uip_tick_frames(&device, frame, sizeof frame, mac_send, NULL);
        if (status != UIP_OK) break;
        show_seconds();
        pages_work();
    }
    stop(status);
}

void count_seconds(void *unused) {
    (void)unused;
    for (;;) {
        sleep_one_second();
        seconds++;
    }
}

int main(void) {
    static const unsigned char own[4] = {10, 0, 0, 1}, mask[4] = {255, 255, 255, 0}, router[4] = {10, 0, 0, 254};
    uip_opened opened = uip_open_ether(&device, site_image, SITE_IMAGE_LEN, own, mac, mask, router);
    if (opened.status != UIP_OK) fail(opened.status, opened.entry, opened.word);
    board_start();
    pages_start();
    uip_set_value(&device, 7, UIP_TEXT("0"));
    start_tasks(network, count_seconds);
}
