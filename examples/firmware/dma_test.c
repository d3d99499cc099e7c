/*
 * A test of port_dma.c with a ring of 16 bytes: what it takes when the DMA has passed the end of the ring, before and after its interrupt.
 * It prints nothing and returns 0 if all is as it should be.
 *
 * SPDX-License-Identifier: MIT OR Apache-2.0
 * Copyright 2026 The Lowunbisa authors
 */
#include <stdio.h>
#include "../../support/step.h"
#include "port.h"
#include "port_dma.h"

static unsigned written;                       /* how many bytes the DMA of the test has written; byte n has the value n */
static unsigned expected;                      /* the value of the next byte */

unsigned dma_place(void) { return written % RING; }

void port_start(const unsigned char *bytes, size_t len) {
    (void)bytes;
    (void)len;
}

static void arrive(unsigned count) {
    for (; count > 0; count--, written++) dma_ring[written % RING] = (unsigned char)written;
}

/* Takes `count` bytes, in order. */
static int takes(const char *what, size_t room, size_t count) {
    unsigned char bytes[64];
    size_t k, len = read_serial(bytes, room);
    int is_right = len == count;
    for (k = 0; k < len; k++) is_right &= bytes[k] == (unsigned char)(expected + k);
    expected += (unsigned)len;
    if (!is_right) printf("port_dma.c: %s: %u bytes\n", what, (unsigned)len);
    return is_right;
}

/* A byte of port_put is taken once, before those that arrived. */
static int puts_end_first(void) {
    unsigned char byte = 0;
    int is_right = read_serial(&byte, 0) == 0 && read_serial(&byte, 1) == 1 && byte == 0xC0;
    if (!is_right) printf("port_dma.c: port_put: %u\n", byte);
    return is_right;
}

int main(void) {
    int is_right = takes("at the start", 64, 0);
    arrive(13);
    is_right &= takes("less than waits", 10, 10);
    arrive(5);
    is_right &= takes("before the interrupt of the end", 64, 8);
    on_dma(1);
    is_right &= takes("after it", 64, 0);
    arrive(3);
    on_dma(0);
    is_right &= takes("in the next lap", 64, 3);
    is_right &= bytes_received == 21;
    arrive(16);
    on_dma(1);
    is_right &= takes("a whole ring", 64, 16);
    arrive(20);                                /* the DMA overtakes: all that waits is lost */
    on_dma(1);
    is_right &= takes("overtaken", 64, 0);
    expected = written;
    arrive(2);
    is_right &= takes("after that", 64, 2);
    arrive(5);
    written = (written / RING + 1) * RING;     /* an error: the DMA begins anew at the start of the ring */
    on_dma_restarted();
    is_right &= takes("after a new start", 64, 0);
    expected = written;
    arrive(3);
    is_right &= takes("in the new lap", 64, 3);
    arrive(13);
    on_dma(1);
    is_right &= takes("to the end of it", 64, 13);
    arrive(2);
    port_put(0xC0);
    is_right &= puts_end_first();
    is_right &= takes("after that byte", 64, 2);
    return !is_right;
}
