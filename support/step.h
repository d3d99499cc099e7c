/*
 * A loop for a serial line that never waits for the port, and sleeps if there is nothing to do. It makes all calls of uip.h for a serial line.
 *
 * COMPILE your program with -Iinclude -Isupport, support/step.c, and one port of examples/firmware. Or write a port: see the end.
 *
 *     port          receives by             include                your port functions               your interrupts call
 *     port.c        an interrupt a byte     port.h                 port_start, port_read             on_received, on_sent
 *     port_dma.c    a circular DMA          port.h, port_dma.h     port_start, dma_place             on_dma, on_sent; after an error
 *                                                                                                    on_dma_restarted
 *     port_cdc.c    a USB stack (CDC)       port_cdc.h             cdc_send, cdc_receive,            on_cdc_received, on_cdc_sent,
 *                                                                  cdc_abort                         on_cdc_opened, on_cdc_reset
 *
 * WRITE what is below the words "You write", and a main. For a Cortex-M with a clock that interrupts each millisecond:
 *
 *     #include "step.h"
 *     #include "ticks.h"
 *     #include "firmware/port.h"
 *     #include "site.c"                                  // tools/pack.py makes it
 *     #define UIP_HEAP_SIZE UIP_MEMORY(SITE_IMAGE_FILES)
 *     #include "heap.c"
 *
 *     uip_device device = UIP_INIT;
 *     void interrupts_off(void) { __asm volatile("cpsid i" ::: "memory"); }
 *     void interrupts_on(void) { __asm volatile("cpsie i" ::: "memory"); }
 *     void wfi(void) { __asm volatile("dsb\n wfi" ::: "memory"); }
 *     int half_a_second_passed(void) { return tick_is_due_at(milliseconds()); }
 *     void work(void) { .. }                             // with port_cdc.c first: cdc_work(milliseconds());
 *
 *     int main(void) {
 *         static const unsigned char own[4] = {10, 0, 0, 1};
 *         uip_opened opened = uip_open(&device, site_image, SITE_IMAGE_LEN, own);
 *         if (opened.status != UIP_OK) fail(opened.status, opened.entry, opened.word);
 *         board_start();                                 // clock, port and interrupts
 *         stop(serve());                                 // serve returns only if a call was refused
 *     }
 *
 * On RISC-V interrupts_off is csrci mstatus, 8, and interrupts_on csrsi mstatus, 8. firmware/drivers.h explains board_start, milliseconds,
 * fail and stop. firmware/sleep.c is a program that also stops its timer, and firmware/rtos_serial.c one under an RTOS.
 *
 * EACH PASS runs `work`, also while output is pending, and then the first of these that applies:
 *
 *     the port sends                   sleeps
 *     output is pending                uip_drain
 *     bytes wait                       uip_feed; during a tick it alternates with uip_periodic
 *     a tick is due or under way       uip_periodic of the next slot
 *     nothing is to do                 sleeps
 *
 * A pass makes at most one call of the library. It sends at most 256 bytes, and takes at most 64 from the port. It sleeps by wfi, unless
 * `events` has changed since the pass began. So no wake-up is lost, and `work` sees each request before the next one is handled.
 *
 * THE RING of port.c has 8,192 bytes, and that of port_dma.c 16,384. They suit most lines of up to 115,200 bits a second. With port_dma.c
 * 8,192 suffice if a clock ends wfi within 100 ms. -DRING=4096, for all files, sets another size. port_cdc.c needs no ring. The size is
 *
 *     6,005 + what arrives in all 24 gaps + with port_dma.c: what arrives in the longest sleep, at most half the ring
 *
 * Between two feeds the loop sends at most two frames, 2 * UIP_MAX_OUT bytes, in 24 pieces. In a gap between two pieces `work` and
 * half_a_second_passed run, and one call is made. If a ring overflows, TCP sends the lost data again, after seconds.
 *
 * IF NOBODY TAKES THE OUTPUT, no tick is made and nothing is read while dma_is_busy returns 1. A UART sends without a listener.
 * port_cdc.c drops pieces by itself. If your port can stop (RTS and CTS, for example), time each piece in `work`. If it takes too long,
 * stop the transfer, so that it no longer reads the piece, and call on_sent. Then let port_start drop all pieces, and call on_sent, until
 * the port takes bytes again. TCP sends the data again.
 *
 * SPDX-License-Identifier: MIT OR Apache-2.0
 * Copyright 2026 The Lowunbisa authors
 */
#ifndef STEP_H
#define STEP_H

#include "uip.h"

unsigned serve(void);                                     /* the loop. Returns the status of a call that failed, if one does */
void reset_step(void);                                    /* between uip_close and the next uip_open, in `work` */

/* You write these. wfi is called with interrupts off, all others with interrupts on. */
extern uip_device device;                                 /* not static; open when `serve` is called */
void work(void);                                          /* sets values, reads hits and queries, feeds a watchdog. It may make any call but
                                                             those that send. Keep it short: it runs before each piece, and after each
                                                             wfi. If it has more to do, it adds 1 to `events`: another pass then comes
                                                             before the loop sleeps. It may hold interrupts back for a moment */
int half_a_second_passed(void);                           /* 1 if a tick is due, once for each tick. Asked between ticks, if the port
                                                             does not send. It returns 0 to leave ticks out. If no clock ends wfi, a
                                                             timer of half a second does, and adds 1 to `events`: sleep.c */
void interrupts_off(void);
void interrupts_on(void);
void wfi(void);                                           /* sleeps until an interrupt, also one that is held back: on Cortex-M by
                                                             PRIMASK, not BASEPRI. It may return early. Under an RTOS it waits for a
                                                             semaphore, at most some 100 ms, and interrupts_off and interrupts_on are
                                                             empty. Each interrupt of the port gives it, and each task with work */

/* The port defines these: port.c, port_dma.c or port_cdc.c, or your own. */
extern volatile unsigned events;                          /* An interrupt adds 1 if it gives the loop or `work` something to do: bytes
                                                             arrived (with a DMA: line idle, half full, full), the port has sent, or one
                                                             of yours. Those that add may preempt one another: a lost count does no harm.
                                                             A clock that only ends the sleep need not add, nor a task that gives */
size_t read_serial(unsigned char *bytes, size_t room);    /* moves what has arrived, 0 if nothing. It does not wait */
int dma_is_busy(void);                                    /* 1 while the port sends: a variable that dma_send sets, and that the
                                                             interrupt clears which adds to `events`. If you stop the port's clock, take
                                                             the interrupt of the last bit, not of the DMA. wfi may call it */
void dma_send(const unsigned char *bytes, size_t len);    /* begins to send by DMA or interrupt; `bytes` stay meanwhile. It may drop the
                                                             piece: dma_is_busy is then 0. For a polled port it waits until all is sent.
                                                             The bytes are a static array of step.c: link it where the DMA reaches it
                                                             (not in the CCM of an STM32F4, nor in the DTCM of an STM32H7). On a core
                                                             with a data cache clean them before the DMA starts */

#endif
