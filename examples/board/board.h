// What every board has: a serial port and a clock, both with interrupts. ring.c has the part that all boards share.
#ifndef BOARD_H
#define BOARD_H

#include <stddef.h>

void board_start(void);                                   // opens the port, starts the clock, and turns both interrupts on
typedef struct { const unsigned char *at; size_t len; } port_bytes;
port_bytes port_waiting(void);                            // received bytes that are contiguous in the ring
void port_taken(size_t len);                              // removes the first `len` of them
void port_put(unsigned char byte);                        // sends a byte; waits until the port accepts it
void port_send(void *to, const unsigned char *bytes, size_t len);    // a uip_sink that sends each byte in turn
unsigned clock_ticks(void);                               // half seconds since the start, modulo 2^32
void board_sleep(unsigned ticks);                         // until an interrupt, if nothing is waiting and clock_ticks() is `ticks`

// Whether a tick is due, that is, clock_ticks() is not `*ticks`. Counts it there. If three or more are due, after a stall, it counts all of
// them, and only one is made.
static inline int tick_is_due(unsigned *ticks) {
    unsigned now = clock_ticks(), due = now - *ticks;
    if (due == 0) return 0;
    *ticks = due < 3 ? *ticks + 1 : now;
    return 1;
}

// A board on Ethernet has these in place of the port (boards/mps2-an386/ether.c).
void mac_start(const unsigned char mac[6]);                     // begins to receive frames for this address and for all, and to send
size_t mac_receive(unsigned char *frame, size_t room);          // the length of a frame that was waiting, or 0
void mac_send(const unsigned char *frame, size_t len);          // waits until the controller accepts the frame

#endif
