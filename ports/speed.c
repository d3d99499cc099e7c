// For speed.py: reads an image and what arrives on a link from standard input, opens a device, and makes the calls for it. speed.py runs
// the program twice and subtracts, or counts each call of one run by the marks below. With ETHERNET it opens on Ethernet.
#include "system.h"
#include "uip.h"

// The first bytes of the input: the link, the place of the records' bytes (below), whether the output is written to standard output, and
// four numbers of 4 bytes, the first byte first: the length of the image, how many records the input has, how many of them are made, and
// the room of the calls for a serial line. Then come the image, and the line or the records.
enum { HEAD = 19, LINE = 0, DATAGRAMS = 1, FRAMES = 2 };

// A record has a length, and the bytes for one call, 0 to 2 bytes (its place) after a multiple of 4. With the length PERIODIC it is the
// periodic call of the slot in its first byte. A record that is not made is passed over, so that both runs read the same.
enum { RECORD = 4 + UIP_MAX_FRAME + 2, PERIODIC = 0xffff };

// What runs between two marks is one call of the library.
#define MARK(name) __attribute__((noinline)) static void name(void) { __asm__ volatile(""); }
MARK(mark_open)
MARK(mark_call)
MARK(mark_drain)

enum { MOST = 1 << 20, PIECE = 512 };
static unsigned char image[MOST], out[UIP_MAX_OUT];
static _Alignas(16) unsigned char line[MOST], heap[1 << 16];
static size_t heap_used, sent, is_written, place, room;
static uip_device device = UIP_INIT;

uip_block rattle_alloc(size_t len, size_t align) {
    heap_used = (heap_used + align - 1) & ~(align - 1);
    void *at = heap + heap_used;
    heap_used += len;
    return (uip_block){heap_used <= sizeof heap, at};
}

uip_block rattle_realloc(void *block, size_t kept, size_t len, size_t align) {
    (void)block, (void)kept, (void)len, (void)align;
    return (uip_block){0, heap};
}

void rattle_dealloc(void *block) { (void)block; }

static size_t take(unsigned char *to, size_t len) {
    size_t at = 0;
    for (long count = 1; at < len && count > 0; at += (size_t)count) count = system_call(READ, 0, (long)(to + at), (long)(len - at));
    return at;
}

static size_t number_at(const unsigned char *at) { return (size_t)at[0] << 24 | (size_t)at[1] << 16 | (size_t)at[2] << 8 | at[3]; }

static void count_sent(void *to, const unsigned char *bytes, size_t len) {
    (void)to;
    sent += len;
    if (is_written) system_call(WRITE, 1, (long)bytes, (long)len);
}

static unsigned feed_line(size_t len) {
    unsigned status = UIP_OK;
    for (size_t at = 0; at < len && status == UIP_OK; at += PIECE)
        status = uip_feed_all(&device, line + at, len - at < PIECE ? len - at : PIECE, out, sizeof out, count_sent, 0);
    return status == UIP_OK && len > 0 && sent == 0 ? 1 : status;
}

// The call of a record. Its output is in `out`, or on Ethernet in the record.
static uip_result call(unsigned char *record, unsigned link) {
    size_t len = number_at(record);
    unsigned char *in = record + 4 + place;
    mark_call();
#ifdef ETHERNET
    (void)link;
    if (len == PERIODIC) return uip_periodic_frame(&device, in[0], in, UIP_MAX_FRAME);
    return uip_input_frame(&device, in, len, UIP_MAX_FRAME);
#else
    if (link == LINE) return len == PERIODIC ? uip_periodic(&device, in[0], out, room) : uip_feed(&device, in, len, out, room);
    return len == PERIODIC ? uip_periodic_datagram(&device, in[0], out, sizeof out) : uip_input(&device, in, len, out, sizeof out);
#endif
}

static uip_result drain(void) {
    mark_drain();
    return uip_drain(&device, out, room);
}

static unsigned make_records(unsigned link, size_t count, size_t made) {
    for (size_t k = 0; k < count; k++) {
        unsigned char *record = line + k * RECORD;
        if (k >= made) continue;
        uip_result done = call(record, link);
        if (done.written) count_sent(0, link == FRAMES ? record + 4 + place : out, done.written);
        while (done.status == UIP_OK && done.pending) {
            done = drain();
            count_sent(0, out, done.written);
        }
        if (done.status != UIP_OK) return done.status;
    }
    return UIP_OK;
}

static unsigned open_device(size_t len) {
    mark_open();
    static const unsigned char own[4] = {10, 0, 0, 1};
#ifdef ETHERNET
    static const unsigned char mac[6] = {2, 0, 0, 0, 0, 1}, mask[4] = {255, 255, 255, 0}, router[4] = {10, 0, 0, 254};
    return uip_open_ether(&device, image, len, own, mac, mask, router).status;
#else
    return uip_open(&device, image, len, own).status;
#endif
}

int main(void) {
    unsigned char head[HEAD];
    if (take(head, HEAD) != HEAD) return 2;
    size_t image_len = number_at(head + 3), count = number_at(head + 7);
    place = head[1], is_written = head[2], room = number_at(head + 15);
    if (room > sizeof out) return 2;
    if (image_len > MOST || take(image, image_len) != image_len) return 2;
    size_t len = take(line, MOST);
    unsigned status = open_device(image_len);
    if (status == UIP_OK) status = count > 0 ? make_records(head[0], count, number_at(head + 11)) : feed_line(len);
    return (int)status;
}
