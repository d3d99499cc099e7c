// The ring that the receive interrupt fills, the count of ticks, and the sleep between events: the same for every board. If the ring is
// full, the interrupt is turned off, and the port's own queue keeps further bytes until there is room.
#include "ring.h"

unsigned char ring[RING];
volatile unsigned ring_received, ring_taken, ring_ticks;

port_bytes port_waiting(void) {
    unsigned len = ring_received - ring_taken, at = ring_taken % RING;
    return (port_bytes){ring + at, len < RING - at ? len : RING - at};
}

void port_taken(size_t len) {
    ring_taken += (unsigned)len;
    port_receives(1);
}

void port_send(void *to, const unsigned char *bytes, size_t len) {
    (void)to;
    for (; len; len--) port_put(*bytes++);
}

unsigned clock_ticks(void) { return ring_ticks; }

// Waits for one interrupt, of any kind, unless the ring has bytes or a tick has passed. An interrupt between this test and the wait is held
// back, and ends the wait. A further source of work needs a test here too: a DMA that received is not seen.
void board_sleep(unsigned ticks) {
    interrupts(0);
    if (ring_received == ring_taken && ring_ticks == ticks) wait_for_interrupt();
    interrupts(1);
}
