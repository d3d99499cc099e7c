// What replay.c and replay_app.c share: they make the recorded calls again with the library that they are linked with, and compare each
// status, number, byte and call of the heap. They need no C library: they run under qemu's user mode for any processor, and under node.
#ifndef REPLAY_H
#define REPLAY_H

#include "stream.h"
#include "system.h"
#include "uip_app.h"

// ---- the report

static uint64_t calls, skipped, successful, bytes_in, bytes_out, of_op[OPS];

static void print(const char *text) {
    long len = 0;
    while (text[len]) len++;
    system_call(WRITE, 2, (long)text, len);
}

static void print_number(uint64_t number) {
    char digits[24], *at = digits + 23;
    *at = 0;
    do *--at = (char)('0' + number % 10); while (number /= 10);
    print(at);
}

static _Noreturn void differ(const char *what, uint64_t is, uint64_t was) {
    print("DIFFERS: "), print(what), print(" is "), print_number(is), print(" and was "), print_number(was);
    print(", call "), print_number(calls), print("\n");
    for (;;) system_call(EXIT, 1, 0, 0);
}

static void same(const char *what, uint64_t is, uint64_t was) {
    if (is != was) differ(what, is, was);
}

static void report(void) {
    print("same: "), print_number(calls - skipped), print(" calls ("), print_number(successful), print(" successful; ");
    print_number(of_op[OPEN_ETHER] + of_op[INPUT_FRAME] + of_op[PERIODIC_FRAME]), print(" of the three calls for Ethernet), ");
    print_number(bytes_in), print(" bytes of input, "), print_number(bytes_out), print(" bytes compared; by kind:");
    for (unsigned op = OPEN; op < OPS; op++) print(" "), print_number(of_op[op]);
    print("\n");
}

// ---- the input: reads `len` bytes, and returns 0 at its end; long ones without a copy

static unsigned char buffer[1 << 16];
static long from, to;
static int take(void *where, uint64_t len) {
    for (unsigned char *w = where; len;) {
        int is_long = from == to && len >= sizeof buffer;
        if (!is_long && from == to) from = 0, to = system_call(READ, 0, (long)buffer, sizeof buffer);
        long part = is_long ? system_call(READ, 0, (long)w, (long)len) : (uint64_t)(to - from) < len ? to - from : (long)len;
        if (part <= 0) return 0;
        if (!is_long) __builtin_memcpy(w, buffer + from, (size_t)part), from += part;
        w += part;
        len -= (uint64_t)part;
    }
    return 1;
}

// ---- the heap: each block has a place of its own, with marks on both sides

enum { BLOCKS = 64, PLACE = 1 << 16, MARGIN = 64, MARK = 0xa7 };
static __attribute__((aligned(16))) unsigned char places[BLOCKS][PLACE];
static struct { size_t len; uint64_t number; } blocks[BLOCKS];
static uint64_t heap, allocated;
static unsigned refuses;

uip_block rattle_alloc(size_t len, size_t align) {
    int ok = !(refuses && --refuses == 0);
    heap = mixed(mixed(mixed(heap, len), align), (uint64_t)ok);
    if (!ok) return (uip_block){0, (void *)0x10};
    if (len == 0) len = align;
    for (unsigned k = 0; k < BLOCKS; k++) {
        if (blocks[k].len) continue;
        if (len > PLACE - 2 * MARGIN) differ("a block's length", len, PLACE - 2 * MARGIN);
        __builtin_memset(places[k], MARK, len + 2 * MARGIN);
        blocks[k].len = len;
        blocks[k].number = ++allocated;
        return (uip_block){1, places[k] + MARGIN};
    }
    differ("the number of blocks", BLOCKS, BLOCKS);
}

uip_block rattle_realloc(void *block, size_t kept, size_t len, size_t align) {
    (void)block, (void)kept, (void)len, (void)align;
    differ("rattle_realloc", 1, 0);
}

void rattle_dealloc(void *block) {
    for (unsigned k = 0; k < BLOCKS; k++) {
        if (block != places[k] + MARGIN || !blocks[k].len) continue;
        for (size_t at = 0; at < MARGIN; at++) {
            same("a byte before a block", places[k][at], MARK);
            same("a byte after a block", places[k][MARGIN + blocks[k].len + at], MARK);
        }
        heap = mixed(heap, blocks[k].number);
        blocks[k].len = 0;
        return;
    }
    differ("a freed block", 0, 1);
}

// ---- the calls

static unsigned char in[MOST_INPUT];
static __attribute__((aligned(4))) unsigned char out[MOST_ROOM + COMPARED], was[MOST_ROOM], marks[COMPARED + 4];

static uip_result of_status(unsigned status) { return (uip_result){status, 0, 0, 0}; }

// The three calls for an application of the program's own, by their names, as cases of `call`.
static inline uip_result of_read(uip_received it) { return (uip_result){it.status, it.ready, it.port, it.len}; }

// The record is of a little-endian machine.
static inline uint64_t number_at(const unsigned char *at) {
    uint64_t number = 0;
    for (int k = 7; k >= 0; k--) number = number << 8 | at[k];
    return number;
}

static void order_record(record *r) {
    uint64_t *words = (uint64_t *)r;
    for (size_t k = 0; k < sizeof *r / 8; k++) words[k] = number_at((const unsigned char *)&words[k]);
}

// The numbers of 4 bytes in a struct of uip.h, in the order of the record.
static inline void order_numbers(void *at, size_t len) {
    unsigned char *b = at;
    for (size_t k = 0; k < len; k += 4) {
        uint32_t number;
        __builtin_memcpy(&number, b + k, 4);
        for (size_t byte = 0; byte < 4; byte++) b[k + byte] = (unsigned char)(number >> 8 * byte);
    }
}

#define OWN_CASES(listen, read, write) \
    case APP_LISTEN: return of_status(listen(d, (unsigned)number)); \
    case APP_READ: return of_read(read(d, number, out, room)); \
    case APP_WRITE: return write(d, number, (size_t)number_at(input), input + 16, len - 16, (unsigned)number_at(input + 8), out, room);

// These are of the including file. The input of a call goes to `input_of`. `call` makes a call, and sets `left` to the bytes that it left, in
// the order of the record. A call that is `skipped` is not in the library that is tried.
static int is_skipped(const record *r);
static unsigned char *input_of(const record *r);
static uip_result call(const record *r, const unsigned char *input, const unsigned char **left);

// Compares two areas that begin at the same place of a word: by words, and by bytes what is before and after them, and what differs.
static void same_bytes(const char *what, const unsigned char *is, const unsigned char *must, uint64_t len) {
    typedef uint32_t __attribute__((may_alias)) word;
    for (; len && ((uintptr_t)is & 3); len--) same(what, *is++, *must++);
    for (; len >= 4 && *(const word *)is == *(const word *)must; len -= 4) is += 4, must += 4;
    for (; len; len--) same(what, *is++, *must++);
}

static void compare(const record *r, uip_result result, const unsigned char *left) {
    same("the status", result.status, r->status);
    same("the number, or whether output is pending", result.pending, r->pending);
    same("the number of consumed bytes", result.consumed, r->consumed);
    same("the number of written bytes", result.written, r->written);
    if (!skipped) same("the calls of the heap", heap, r->heap);
    same_bytes("a byte", left, was, r->out_len);
    same_bytes("a byte after the room", out + r->room, marks + (r->room & 3), COMPARED);
}

int main(void) {
    record r;
    __builtin_memset(marks, MARK, sizeof marks);
    while (take(&r, sizeof r)) {
        order_record(&r);
        unsigned char *input = input_of(&r);
        const unsigned char *left = out;
        calls++;
        bytes_in += r.in_len;
        bytes_out += r.out_len;
        if (!take(input, r.in_len) || !take(was, r.out_len)) differ("the end of the record", 0, 1);
        __builtin_memset(out, (int)r.fill, r.room < COMPARED ? (size_t)r.room : COMPARED);
        __builtin_memset(out + r.room, MARK, COMPARED);
        refuses = (unsigned)r.refuses;
        if (is_skipped(&r)) {
            skipped++;
            continue;
        }
        uip_result result = call(&r, input, &left);
        compare(&r, result, left);
        of_op[r.op]++;
        successful += r.status == UIP_OK;
    }
    report();
    return 0;
}

#endif
