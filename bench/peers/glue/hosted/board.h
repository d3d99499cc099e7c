// The board of examples/board/board.h as a program of Linux: the line is standard input and output, and no time passes. Output leaves when
// the program asks for more input; with COUNT nothing is written, for a run whose instructions are counted. Inline: the port costs all
// stacks alike.
#ifndef BOARD_H
#define BOARD_H
#include <stddef.h>
#include "system.h"

typedef struct { const unsigned char *at; size_t len; } port_bytes;

enum { HOSTED_OUT = RING / 40 * 3002 + 3002 };             // a frame of the greatest length for each of 40 bytes that came, and more
static unsigned char hosted_in[RING], hosted_out[HOSTED_OUT];
static size_t hosted_len, hosted_at, hosted_sent;

static inline void board_start(void) {}
static inline void board_sleep(unsigned ticks) { (void)ticks; }
static inline unsigned clock_ticks(void) { return 0; }
static inline int tick_is_due(unsigned *ticks) { return *ticks != 0; }

__attribute__((noinline)) static void hosted_read(void) {
#ifndef COUNT
    for (size_t at = 0; at < hosted_sent;) at += (size_t)system_call(WRITE, 1, (long)(hosted_out + at), (long)(hosted_sent - at));
#endif
    hosted_sent = hosted_at = 0;
    long count = system_call(READ, 0, (long)hosted_in, RING);
    if (count <= 0) system_call(EXIT, 0, 0, 0);
    hosted_len = (size_t)count;
}

static inline port_bytes port_waiting(void) {
    if (hosted_at == hosted_len) hosted_read();
    return (port_bytes){hosted_in + hosted_at, hosted_len - hosted_at};
}

static inline void port_taken(size_t len) { hosted_at += len; }
__attribute__((always_inline)) static inline void port_put(unsigned char byte) { hosted_out[hosted_sent++] = byte; }

static inline void port_send(void *to, const unsigned char *bytes, size_t len) {
    (void)to;
    for (; len; len--) port_put(*bytes++);
}

#endif
