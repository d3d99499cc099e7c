// The ring that the receive interrupt fills, and what the board offers to ring.c. The functions are inline: an interrupt saves fewer registers
// if it calls none.
#ifndef RING_H
#define RING_H

#include "board.h"

#ifndef RING
#define RING 512    // bytes, a power of two
#endif

extern unsigned char ring[RING];
extern volatile unsigned ring_received, ring_taken;    // counts of bytes, modulo 2^32
extern volatile unsigned ring_ticks;

static inline int ring_is_full(void) { return ring_received - ring_taken == RING; }

// For an interrupt that received a byte, if the ring is not full.
static inline void ring_put(unsigned char byte) {
    ring[ring_received % RING] = byte;
    ring_received++;
}

// For an interrupt: half a second passed.
static inline void tick_passed(void) { ring_ticks++; }

void port_receives(int is_on);         // turns the port's receive interrupt on or off
void interrupts(int are_on);
void wait_for_interrupt(void);         // the processor's own wait (wfi): an interrupt that is held back ends it too

#endif
