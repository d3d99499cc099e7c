/*
 * The port of a serial line whose receiver is a circular DMA: in the place of port.c. The DMA writes dma_ring over and over, and
 * interrupts when the line falls idle, when half of the ring is written, and at its end.
 *
 * SPDX-License-Identifier: MIT OR Apache-2.0
 * Copyright 2026 The Lowunbisa authors
 */
#include "port_dma.h"
#include "../../support/step.h"
#include "port.h"

volatile unsigned events;                      /* an interrupt that gives the loop something to do adds 1 */
volatile unsigned bytes_received;              /* at the last interrupt of the receiver */

volatile unsigned char dma_ring[RING];
static volatile unsigned laps;                 /* how often the DMA reached the end of the ring */
static unsigned taken;                         /* how many bytes were taken, modulo 2^32 */
static volatile int is_restarted;              /* whether the DMA began anew, and read_serial has not seen it */
static volatile int is_sending;
static volatile unsigned char put;             /* the byte of port_put */
static volatile int has_put;                   /* whether read_serial has not taken it */

/* How many bytes the DMA has written since the start, modulo 2^32; it is known to be `at_least` or more. If the DMA has just reached the
 * end of the ring, and the interrupt has not come yet, `laps` is one too low.
 */
static unsigned written(unsigned at_least) {
    unsigned before, place, count;
    do {
        before = laps;
        place = dma_place();
    } while (before != laps);                  /* the interrupt came in between */
    count = before * RING + place;
    return count - at_least < 0x80000000u ? count : count + RING;
}

void on_dma(int is_end) {
    if (is_end) laps++;
    bytes_received = written(bytes_received);
    events++;
}

void on_dma_restarted(void) {
    laps++;                                    /* so the count only rises */
    is_restarted = 1;
    events++;
}

void on_sent(void) {
    is_sending = 0;
    events++;
}

void port_put(unsigned char byte) {
    put = byte;
    has_put = 1;
    events++;
}

size_t read_serial(unsigned char *bytes, size_t room) {
    size_t len = 0;
    unsigned end;
    if (has_put && room > 0) {
        bytes[len++] = put;
        has_put = 0;
    }
    if (is_restarted) {                        /* what waited is lost: TCP sends it again */
        is_restarted = 0;
        taken = laps * RING;
    }
    end = written(taken);
    if (end - taken > RING) taken = end;       /* the DMA has overtaken: all is lost, and TCP sends it again */
    for (; len < room && taken != end; taken++) bytes[len++] = dma_ring[taken % RING];
    return len;
}

int dma_is_busy(void) { return is_sending; }

void dma_send(const unsigned char *bytes, size_t len) {
    is_sending = 1;                            /* first: the port may end at once */
    port_start(bytes, len);
}
