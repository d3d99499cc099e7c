// What record.c writes for each call and replay.c reads: these words of 8 bytes, then the input, then what the call left in `out`.
#ifndef STREAM_H
#define STREAM_H

#include <stdint.h>

enum { OPEN = 1, FEED, PERIODIC, DRAIN, INPUT, PERIODIC_DATAGRAM, TICKS, COUNTER, IS_IDLE, CONNECTION, SET_VALUE, HITS, CLOSE,
       OPEN_ETHER, INPUT_FRAME, PERIODIC_FRAME, QUERY, PROTECT, GUARD_COUNTER,
       APP_OPEN, APP_LISTEN, APP_INPUT_FRAME, APP_PERIODIC_FRAME, APP_READ, APP_WRITE, APP_CLOSE, APP_PROTECT, APP_GUARD_COUNTER,
       OPS };
enum { DEVICES = 8, MOST_INPUT = 1 << 21, MOST_ROOM = 1 << 20, COMPARED = 256 };

typedef struct {
    uint64_t op, device, number, in_len, room, fill, refuses;        // the arguments; the addresses precede an image in the input
    uint64_t status, pending, consumed, written, out_len, heap;      // the result, and a hash over all calls of the heap so far
} record;

static inline uint64_t mixed(uint64_t hash, uint64_t more) { return (hash ^ more) * 0x100000001b3u; }

#endif
