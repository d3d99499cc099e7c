// What record.c and record_app.c share: each call of the library and its result is written to descriptor 3. The including file has included
// the header of its harness.
#ifndef RECORD_H
#define RECORD_H

#include <stdio.h>
#include <stdlib.h>
#include <string.h>
#include "stream.h"
#include "uip_app.h"

enum { BLOCKS = 64 };
static const void *known_devices[DEVICES];
static struct { void *at; uint64_t number; } blocks[BLOCKS];
static uint64_t heap, allocated;
static FILE *to;

static _Noreturn void stop(const char *why) {
    fprintf(stderr, "record: %s\n", why);
    exit(3);
}

static uint64_t index_of(const void *device) {
    for (unsigned k = 0; k < DEVICES; k++) {
        if (!known_devices[k]) known_devices[k] = device;
        if (known_devices[k] == device) return k;
    }
    stop("too many devices");
}

static void put(const record *r, const void *before, size_t before_len, const void *in, const void *out) {
    if (!to) to = fdopen(3, "wb");
    if (!to) stop("no descriptor 3");
    fwrite(r, sizeof *r, 1, to);
    fwrite(before, before_len, 1, to);
    fwrite(in, r->in_len - before_len, 1, to);
    if (fwrite(out, 1, r->out_len, to) != r->out_len) exit(3);
}

// ---- the heap

uip_block __real_rattle_alloc(size_t len, size_t align);
uip_block __wrap_rattle_alloc(size_t len, size_t align) {
    uip_block b = __real_rattle_alloc(len, align);
    heap = mixed(mixed(mixed(heap, len), align), b.ok);
    if (!b.ok) return b;
    for (unsigned k = 0; k < BLOCKS; k++) {
        if (blocks[k].at) continue;
        blocks[k].at = b.block;
        blocks[k].number = ++allocated;
        return b;
    }
    stop("too many blocks");
}

void __real_rattle_dealloc(void *block);
void __wrap_rattle_dealloc(void *block) {
    for (unsigned k = 0; k < BLOCKS; k++) {
        if (blocks[k].at != block) continue;
        heap = mixed(heap, blocks[k].number);
        blocks[k].at = 0;
        break;
    }
    __real_rattle_dealloc(block);
}

// ---- the calls

// 2^32 - 1 replaces every number that 32 bits cannot hold: both are too large for the call.
static uint64_t fitted(size_t number) { return number > 0xffffffff ? 0xffffffff : number; }

static record begun(uint64_t op, const void *device, size_t number, size_t in_len, const unsigned char *out, size_t room) {
    if (in_len > MOST_INPUT - 4 || room > MOST_ROOM) stop("too long");
    return (record){.op = op, .device = index_of(device), .number = fitted(number), .in_len = in_len, .room = room,
                    .fill = room ? out[0] : 0, .refuses = heap_refuses};
}

// A call with an area, whose input begins with `before`.
static uip_result ended_after(record *r, const void *before, size_t before_len, uip_result result, const void *in, const unsigned char *out) {
    size_t least = r->room < COMPARED ? r->room : COMPARED;
    r->status = result.status;
    r->pending = result.pending;
    r->consumed = result.consumed;
    r->written = result.written;
    r->heap = heap;
    r->out_len = result.written > least ? result.written : least;
    put(r, before, before_len, in, out);
    return result;
}

static uip_result ended(record *r, uip_result result, const void *in, const unsigned char *out) {
    return ended_after(r, 0, 0, result, in, out);
}

// A call that returns numbers; they are recorded as a status and `pending`.
static void returned(record *r, unsigned status, uint64_t number, const void *in, const void *out, size_t out_len) {
    r->status = status;
    r->pending = number;
    r->heap = heap;
    r->out_len = out_len;
    put(r, 0, 0, in, out);
}

// ---- the three calls for an application of the program's own, by their names

// The result of reading is recorded as that of a call that writes: `ready`, `port` and `len` in the place of `pending`, `consumed` and
// `written`. Two numbers precede the text of a message.
#define OWN_CALLS(type, listen, read, write) \
    unsigned __real_##listen(type *d, unsigned port); \
    unsigned __wrap_##listen(type *d, unsigned port) { \
        record r = begun(APP_LISTEN, d, port, 0, 0, 0); \
        unsigned status = __real_##listen(d, port); \
        returned(&r, status, 0, 0, 0, 0); \
        return status; \
    } \
    uip_received __real_##read(type *d, size_t slot, void *bytes, size_t room); \
    uip_received __wrap_##read(type *d, size_t slot, void *bytes, size_t room) { \
        record r = begun(APP_READ, d, slot, 0, bytes, room); \
        uip_received it = __real_##read(d, slot, bytes, room); \
        r.consumed = it.port; \
        r.written = it.len; \
        returned(&r, it.status, it.ready, 0, bytes, room < COMPARED ? room : COMPARED); \
        return it; \
    } \
    uip_result __real_##write(type *d, size_t slot, size_t taken, const void *text, size_t len, unsigned last, unsigned char *frame, \
                              size_t room); \
    uip_result __wrap_##write(type *d, size_t slot, size_t taken, const void *text, size_t len, unsigned last, unsigned char *frame, \
                              size_t room) { \
        uint64_t numbers[2] = {fitted(taken), last}; \
        record r = begun(APP_WRITE, d, slot, len, frame, room); \
        uip_result result = __real_##write(d, slot, taken, text, len, last, frame, room); \
        r.in_len = len + sizeof numbers; \
        return ended_after(&r, numbers, sizeof numbers, result, text, frame); \
    }

#endif
