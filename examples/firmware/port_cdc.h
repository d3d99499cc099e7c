/* The port of USB CDC-ACM for ../step.c: port_cdc.c in the place of port.c. It defines read_serial, events, dma_is_busy and dma_send of
 * step.h over a USB device stack, such as TinyUSB or ST's. There is no ring: the host keeps its data (NAK) until the loop has read the
 * packet before, and nothing is lost.
 *
 * SPDX-License-Identifier: MIT OR Apache-2.0
 * Copyright 2026 The Lowunbisa authors
 */
#ifndef PORT_CDC_H
#define PORT_CDC_H

#include <stddef.h>

#ifndef CDC_PACKET
#define CDC_PACKET 64                          /* bytes of the longest packet of both bulk endpoints; 512 at high speed */
#endif

#ifndef CDC_SEND
#define CDC_SEND CDC_PACKET                    /* bytes of the longest cdc_send. 512 if your stack cuts a transfer into packets, and ends
                                                  it with an empty one if need be, as those of ST and TinyUSB do */
#endif

/* You call this in each pass, in `work`, with the time in milliseconds, modulo 2^32. It begins the next packet, and ends a piece. If the
 * host takes no packet for 0.2 s, it gives the piece up, and dma_send drops all pieces until the host takes data again. The first pass
 * after 0.2 s does that, so a clock ends `wfi`: within 100 ms, for example.
 */
void cdc_work(unsigned now);

/* You write these three. Only the loop calls them, by read_serial, dma_send and cdc_work, with interrupts on. They do not wait. While the
 * device is not configured they do nothing.
 */
void cdc_send(const unsigned char *bytes, size_t len);    /* begins to send `len` bytes to the host, 0 to CDC_SEND. The bytes stay as they
                                                             are until on_cdc_sent or cdc_abort; they are not aligned */
void cdc_receive(void);                        /* arms the OUT endpoint for one packet. At configuration your stack arms it by itself */
void cdc_abort(void);                          /* ends what cdc_send began, if it has not ended. After that the stack does not read the
                                                  bytes, and on_cdc_sent does not come for them. A stack that copied them may still
                                                  send its copy, and call on_cdc_sent for it */

/* Your USB interrupts call these. They do not preempt one another: they run in one interrupt, or in one task. They may preempt the loop at
 * any place, and the loop may preempt that task. Under an RTOS give the semaphore of `wfi` after each.
 */
void on_cdc_received(const unsigned char *bytes, size_t len);    /* a packet has arrived, of 0 to CDC_PACKET bytes, which are copied. The
                                                                    endpoint is not armed again until the loop calls cdc_receive */
void on_cdc_sent(void);                        /* the host has taken all of the last cdc_send */
void on_cdc_opened(int is_now_open);           /* SET_CONTROL_LINE_STATE, also if it comes again: DTR, 1 if the host has the port open */
void on_cdc_reset(void);                       /* a bus reset, or the cable is out: the port is closed. A suspend needs no call: the host
                                                  keeps the port open. Pieces are dropped, until it resumes and takes data again */

#endif
