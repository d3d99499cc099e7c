/*
 * A gate on Ethernet, with a button that acts exactly once, on the state that its page showed. There are two tasks of an RTOS:
 *
 *     network    makes all calls of the library, and never waits for the other task: this file, and gate_pages.c
 *     control    keeps the state of the gate, and makes no call: gate_control.c
 *
 * They share nothing but two queues (gate.h). On another link take another `network`, as that of rtos_serial.c, which control then has
 * to wake by give() after each report.
 *
 * SPDX-License-Identifier: MIT OR Apache-2.0
 * Copyright 2026 The Lowunbisa authors
 */
#include "pages.h"
#include "site.c"                              /* python3 tools/pack.py examples/firmware/gate_site site.c /state.shtml=application/json */
#define UIP_HEAP_SIZE UIP_MEMORY_ETHER(SITE_IMAGE_FILES)
#include "../../support/heap.c"
#include "../../support/ticks.h"
#include "drivers.h"
#include "gate.h"

uip_device device = UIP_INIT;
queue reports, commands;

/* `pages_work` follows each frame: the next one may bring another query. */
void network(void *unused) {
    static unsigned char frame[UIP_MAX_FRAME];
    unsigned status = UIP_OK;
    (void)unused;
    while (status == UIP_OK) {
        size_t len = mac_receive(frame, sizeof frame);    /* waits for the interrupt of the receiver, at most 20 ms */
        if (len > 0) {
            uip_result done = uip_input_frame(&device, frame, len, sizeof frame);
            if (done.written > 0) mac_send(NULL, frame, done.written);
            status = done.status;
        }
        if (status == UIP_OK && tick_is_due_at(milliseconds()))
            status = uip_tick_frames(&device, frame, sizeof frame, mac_send, NULL);
        if (status == UIP_OK) pages_work();
    }
    stop(status);
}

int main(void) {
    static const unsigned char own[4] = {10, 0, 0, 1}, mask[4] = {255, 255, 255, 0}, router[4] = {10, 0, 0, 254};
    uip_opened opened = uip_open_ether(&device, site_image, SITE_IMAGE_LEN, own, mac, mask, router);
    if (opened.status != UIP_OK) fail(opened.status, opened.entry, opened.word);
    board_start();                             /* first: after a queue is made, FreeRTOS masks interrupts until its scheduler runs */
    reports = queue_make(sizeof(struct report));
    commands = queue_make(sizeof(struct command));
    pages_start();
    start_tasks(network, control);
}
