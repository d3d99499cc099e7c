/*
 * The port of a serial line for sleep.c and rtos_serial.c: a ring that the interrupt of the receiver fills, and a sender that does
 * not wait.
 *
 * SPDX-License-Identifier: MIT OR Apache-2.0
 * Copyright 2026 The Lowunbisa authors
 */
#include "port.h"
#include "../../support/step.h"

volatile unsigned events;                      /* an interrupt that gives the loop something to do adds 1 */
volatile unsigned bytes_received;

/* The size of the ring: ../step.h has how to compute it. One byte of it stays free. */
#ifndef RING
#define RING 8192
#endif
static volatile unsigned char ring[RING];
static volatile unsigned received, taken;      /* where the next byte goes, and where the next one is taken */
static volatile int is_sending;

static unsigned after(unsigned place) { return place + 1 < sizeof ring ? place + 1 : 0; }

void on_received(void) { port_put(port_read()); }

void port_put(unsigned char byte) {
    unsigned next = after(received);
    if (next != taken) {                       /* else the byte is lost: TCP sends the data again */
        ring[received] = byte;
        received = next;
    }
    bytes_received++;
    events++;
}

void on_sent(void) {
    is_sending = 0;
    events++;
}

size_t read_serial(unsigned char *bytes, size_t room) {
    size_t len = 0;
    while (len < room && taken != received) {
        bytes[len++] = ring[taken];            /* first it reads, and then it releases the place */
        taken = after(taken);
    }
    return len;
}

int dma_is_busy(void) { return is_sending; }

void dma_send(const unsigned char *bytes, size_t len) {
    is_sending = 1;                            /* first: the port may end at once */
    port_start(bytes, len);
}
