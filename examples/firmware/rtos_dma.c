/*
 * A device on Ethernet under an RTOS, such as FreeRTOS on an STM32. There are two tasks:
 *
 *     network          makes all calls, so there is no mutex. It runs the passes of ether_loop.c, which never wait for the controller and
 *                      use the buffers of the DMA in place. If there is nothing to do, it waits for a semaphore
 *     count_seconds    makes no call. It passes its value in a variable (for more than a word take a queue), and gives the semaphore
 *
 * The two interrupts of the controller give the semaphore, too. While frames arrive, `network` does not wait: a task with a deadline has
 * a higher priority. `main` opens the device before the scheduler starts, so no task needs the stack of opening.
 *
 * SPDX-License-Identifier: MIT OR Apache-2.0
 * Copyright 2026 The Lowunbisa authors
 */
#include "pages.h"
#include "site.c"                              /* python3 tools/pack.py examples/firmware/site site.c /state.shtml=application/json */
#define UIP_HEAP_SIZE UIP_MEMORY_ETHER(SITE_IMAGE_FILES)
#include "../../support/heap.c"
#include "../../support/text.h"
#include "drivers.h"
#include "ether_loop.h"
#include "rtos.h"

uip_device device = UIP_INIT;
static volatile unsigned seconds;              /* the value of the other task */

static void show_seconds(void) {
    static unsigned shown;
    char text[UIP_MAX_VALUE];
    unsigned now = seconds;
    if (now == shown) return;
    shown = now;
    uip_set_value(&device, 7, text, decimal(text, now));
}

/* The semaphore remembers what gave it during the pass. The wait then ends at once, and another pass follows: nothing is missed. */
void network(void *unused) {
    unsigned status = UIP_OK;
    (void)unused;
    while (status == UIP_OK) {                 /* nothing that arrives ends this loop */
        int is_idle;
        status = ether_pass(&is_idle);
        if (status != UIP_OK) break;
        show_seconds();
        pages_work();                          /* after each frame, so that no request is missed */
        if (is_idle) take_for(20);
    }
    stop(status);
}

void count_seconds(void *unused) {
    (void)unused;
    for (;;) {
        sleep_one_second();
        seconds++;                             /* before it gives the semaphore: `network` then reads the new value */
        give();
    }
}

/* FreeRTOS masks interrupts from the first call that makes an object, such as a semaphore, until its scheduler runs. So what may wait for
 * an interrupt or a clock comes before make_semaphore, and nothing that waits comes after it.
 */
int main(void) {
    static const unsigned char own[4] = {10, 0, 0, 1}, mask[4] = {255, 255, 255, 0}, router[4] = {10, 0, 0, 254};
    uip_opened opened = uip_open_ether(&device, site_image, SITE_IMAGE_LEN, own, mac, mask, router);
    if (opened.status != UIP_OK) fail(opened.status, opened.entry, opened.word);
    board_start();                             /* it may wait, as for the reset of a PHY. It leaves the interrupts of the controller off */
    pages_start();
    uip_set_value(&device, 7, UIP_TEXT("0"));
    make_semaphore();
    mac_interrupts_on();                       /* only now, since they give the semaphore */
    start_tasks(network, count_seconds);
}
