/*
 * A device on a serial line under an RTOS. The task `network` runs the loop of ../step.c with the port of port.c, and makes all calls,
 * so there is no mutex. If the loop has nothing to do, it waits for a semaphore. Each interrupt gives it, and so does the other task,
 * which passes its value in a variable.
 *
 * SPDX-License-Identifier: MIT OR Apache-2.0
 * Copyright 2026 The Lowunbisa authors
 */
#include "pages.h"
#include "../../support/step.h"
#include "site.c"                              /* python3 tools/pack.py examples/firmware/site site.c /state.shtml=application/json */
#define UIP_HEAP_SIZE UIP_MEMORY(SITE_IMAGE_FILES)
#include "../../support/heap.c"
#include "../../support/text.h"
#include "../../support/ticks.h"
#include "drivers.h"
#include "port.h"
#include "rtos.h"

uip_device device = UIP_INIT;
static volatile unsigned seconds;              /* the value of the other task */

#ifdef PC_CDC                                  /* with port_cdc.c its interrupts call on_cdc_.. and give_from_interrupt */
#include "port_cdc.h"
#else

void interrupt_received(void);
void interrupt_sent(void);

#ifndef PC_DMA                                 /* with port_dma.c its interrupts call on_dma and give_from_interrupt */
void interrupt_received(void) {
    on_received();
    give_from_interrupt();
}
#endif

void interrupt_sent(void) {
    on_sent();
    give_from_interrupt();
}

#endif

/* The semaphore remembers an interrupt that comes before the wait. So nothing has to hold interrupts back. */
void interrupts_off(void) {}
void interrupts_on(void) {}
void wfi(void) { take_for(100); }

int half_a_second_passed(void) { return tick_is_due_at(milliseconds()); }

/* The loop calls it in each pass: sets the value of the other task, and does what the pages need. */
void work(void) {
    static unsigned shown;
    unsigned now = seconds;
    if (now != shown) {
        char text[UIP_MAX_VALUE];
        uip_set_value(&device, 7, text, decimal(text, now));
        shown = now;
    }
#ifdef PC_CDC
    cdc_work(milliseconds());
#endif
    pages_work();
}

void network(void *unused) {
    (void)unused;
    stop(serve());                             /* the loop. It returns only if a call was refused */
}

void count_seconds(void *unused) {
    (void)unused;
    for (;;) {
        sleep_one_second();
        seconds++;
        give();
    }
}

int main(void) {
    static const unsigned char own[4] = {10, 0, 0, 1};
    uip_opened opened = uip_open(&device, site_image, SITE_IMAGE_LEN, own);
    if (opened.status != UIP_OK) fail(opened.status, opened.entry, opened.word);
    board_start();                             /* it may wait. It leaves the interrupts of the port off */
    pages_start();
    uip_set_value(&device, 7, UIP_TEXT("0"));
    make_semaphore();                          /* FreeRTOS masks interrupts from here until its scheduler runs */
    port_interrupts_on();                      /* only now, since they give the semaphore */
    start_tasks(network, count_seconds);
}
