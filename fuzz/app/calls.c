// Single calls of include/uip_app.h, or of uip_both.h. What each returns is foretold: its status from its arguments and its handle, the
// frame that is sent and what is read from the node (node.c). A refused call leaves the handle, the area and the heap unchanged.
#include <string.h>
#include "app.h"

enum { MOST_ROOM = 8192, GUARD = 64 };

static area own_in, mac_in, mask_in, router_in, secret_in, text_in, outputs;
static byte before[MOST_ROOM], *out;
static size_t heap_before, out_room;
static node_handle handle_before;
static byte guard;

void calls_begin(void) {
    own_in = area_new(4, 1), mac_in = area_new(6, 1), mask_in = area_new(4, 1), router_in = area_new(4, 1);
    secret_in = area_new(16, 1), text_in = area_new(1 << 16, 1);
    outputs = area_new(MOST_ROOM + GUARD, 0);
#ifdef BOTH
    reads_begin();
#endif
}

// Begins a call: an area of `room` bytes, which begins with these, between bytes that are looked at and a page that cannot be touched.
static void begin(const device *d, size_t room, const byte *bytes, size_t len) {
    out = take_room(&outputs, room), out_room = room;
    guard = (byte)random_next();
    memset(out - GUARD, guard, GUARD);
    memset(out, guard ^ 0x55, room);
    memcpy(out, bytes, len < room ? len : room);
    memcpy(before, out, room);
    heap_before = heap_calls;
    handle_before = d->on.handle;
}

static void is_untouched(const device *d, size_t from, const char *what) {
    WANT(!memcmp(out + from, before + from, out_room - from), "%s wrote to the area", what);
    WANT(!memcmp(&d->on.handle, &handle_before, sizeof d->on.handle), "%s wrote to the handle", what);
}

// Ends a call: its status, and what no call changes.
static int end(const device *d, unsigned status, unsigned wanted, const char *what) {
    counts.calls++;
    WANT(status == wanted, "%s returned %u, and %u was foretold", what, status, wanted);
    WANT(heap_calls == heap_before, "%s called the heap", what);
    for (unsigned k = 0; k < GUARD; k++) WANT(out[-1 - (int)k] == guard, "%s wrote before the area", what);
    WANT(d->on.handle.is_open == (unsigned)d->on.is_open, "%s left the handle with %u", what, d->on.handle.is_open);
    if (wanted == UIP_OK) return 1;
    counts.refused++;
    is_untouched(d, 0, what);
    return 0;
}

static unsigned foretold(const device *d, int is_bad) { return is_bad ? UIP_BAD_ARGUMENT : d->on.is_open ? UIP_OK : UIP_NO_DEVICE; }

// Ends a call that may send: the frame that it sent is the one that was foretold.
static void end_sent(device *d, uip_result done, unsigned wanted, size_t consumed, sent_frame *sent, const char *what) {
    size_t at = 0;
    if (!end(d, done.status, wanted, what)) consumed = sent->len = 0;
    WANT(done.pending == 0 && done.consumed == consumed, "%s left %u and consumed %zu of %zu", what, done.pending, done.consumed, consumed);
    while (at < sent->len && at < done.written && out[at] == sent->bytes[at]) at++;
    WANT(done.written == sent->len && at == sent->len,
         "%s sent a frame of %zu bytes, and one of %zu was foretold; they differ from byte %zu on", what, done.written, sent->len, at);
}

// Opens a device, and returns the status.
static unsigned open_one(device *d, const byte *own, const byte *mac, const byte *mask, const byte *router) {
#ifdef BOTH
    text image = pages_image();
    memcpy(d->on.mac, mac, 6), memcpy(d->on.mask, mask, 4), memcpy(d->on.router, router, 4), d->on.is_ether = 1;
    return call_open_site(&d->on, image.bytes, image.len, own);
#else
    begin(d, 0, own, 0);
    heap_refused = 0;
    unsigned status = uip_app_open(&d->on.handle, put_input(&own_in, own, 4), put_input(&mac_in, mac, 6), put_input(&mask_in, mask, 4),
                                   put_input(&router_in, router, 4));
    unsigned wanted = d->on.is_open ? UIP_HAS_DEVICE : heap_refused ? UIP_NO_MEMORY : UIP_OK;
    heap_refuses = 0;
    counts.opens++, counts.refusals += wanted == UIP_NO_MEMORY;
    WANT(!d->on.is_open || heap_calls == heap_before, "uip_app_open called the heap of a handle with a device");
    heap_before = heap_calls;
    d->on.is_open |= wanted == UIP_OK;
    end(d, status, wanted, "uip_app_open");
    return status;
#endif
}

// Whether the site that is opened has a file: without one a device takes three blocks.
static int has_files(void) {
    const byte *image = pages_image().bytes;
    return image && (image[8] || image[9]);
}

void call_open(device *d, const byte *own, const byte *mac, const byte *mask, const byte *router) {
    size_t blocks = heap_blocks;
    unsigned status = open_one(d, own, mac, mask, router);
    if (status == UIP_OK) d->blocks = has_files() ? DEVICE_BLOCKS : 3;
    WANT(heap_blocks == blocks + (status == UIP_OK ? d->blocks : 0), "opening took %zu blocks", heap_blocks - blocks);
    if (status != UIP_OK) return;
    memset(&d->node, 0, sizeof d->node);
    host_begin(&d->node.host, own, mac, mask, router);
}

void call_close(device *d) {
    size_t blocks = heap_blocks;
    begin(d, 0, &guard, 0);
    unsigned wanted = foretold(d, 0), status = CALL(close)(&d->on.handle);
    WANT(heap_blocks == blocks - (wanted == UIP_OK ? d->blocks : 0), NAMED(close) " left a block");
    if (wanted == UIP_OK) heap_before = heap_calls;
    d->on.is_open = 0;
    end(d, status, wanted, NAMED(close));
}

// A port that is out of range is looked for before the device, and whether there is room for one more after it.
int call_listen(device *d, unsigned port) {
    begin(d, 0, &guard, 0);
    unsigned status = CALL(listen)(&d->on.handle, port);
    unsigned wanted = foretold(d, port == 0 || port == WEB_PORT || port > 65535);
    if (wanted == UIP_OK && !node_listens(&d->node, port)) wanted = UIP_BAD_ARGUMENT;
    app_counts.listens += wanted == UIP_OK;
    return end(d, status, wanted, NAMED(listen));
}

void call_secret(device *d) {
    byte bytes[16];
    random_bytes(bytes, sizeof bytes);
    begin(d, 0, &guard, 0);
    unsigned status = CALL(protect)(&d->on.handle, put_input(&secret_in, bytes, sizeof bytes)), wanted = foretold(d, 0);
    if (wanted == UIP_OK && !node_protects(&d->node, bytes)) wanted = UIP_BAD_ARGUMENT;
    end(d, status, wanted, NAMED(protect));
}

// Reads a counter of the guard: of a number that there is, or of none.
void call_guard_counter(device *d) {
    size_t number = chance(80) ? between(1, 2) : chance(50) ? 0 : 3 + random_next();
    begin(d, 0, &guard, 0);
    uip_number it = CALL(guard_counter)(&d->on.handle, number);
    int is_read = end(d, it.status, foretold(d, number == 0 || number > 2), NAMED(guard_counter));
    unsigned wanted = is_read ? d->node.guard[number] : 0;
    WANT(it.number == wanted, NAMED(guard_counter) " returned %u, and %u was foretold", it.number, wanted);
    is_untouched(d, 0, NAMED(guard_counter));
}

void call_frame(device *d, const byte *frame, size_t len, size_t room, sent_frame *sent) {
    begin(d, room, frame, len);
    uip_result done = CALL(input_frame)(&d->on.handle, out, len, room);
    unsigned wanted = foretold(d, room < UIP_MAX_FRAME || len > room);
    if (wanted == UIP_OK) sent->len = node_receives(&d->node, frame, len, sent->bytes);
    end_sent(d, done, wanted, len, sent, NAMED(input_frame));
}

void call_tick(device *d, size_t slot, size_t room, sent_frame *sent) {
    begin(d, room, &guard, 0);
    uip_result done = CALL(periodic_frame)(&d->on.handle, slot, out, room);
    unsigned wanted = foretold(d, slot >= UIP_SLOTS || room < UIP_MAX_FRAME);
    if (wanted == UIP_OK) sent->len = node_ticks(&d->node, (unsigned)slot, sent->bytes);
    end_sent(d, done, wanted, 0, sent, NAMED(periodic_frame));
}

// Reads a connection into an area, and returns the result with at most UIP_MAX_RECEIVED of its bytes.
uip_received call_read(device *d, size_t slot, size_t room, byte *bytes) {
    begin(d, room, &guard, 0);
    uip_received it = CALL(read)(&d->on.handle, slot, out, room), wanted = {0};
    app_counts.reads++;
    unsigned status = foretold(d, slot >= UIP_SLOTS);
    if (end(d, it.status, status, NAMED(read))) wanted = node_reads(&d->node, (unsigned)slot);
    WANT(it.ready == wanted.ready && it.port == wanted.port && it.len == wanted.len,
         NAMED(read) " reads %u, %u and %zu, and %u, %u and %zu was foretold",
         it.ready, it.port, it.len, wanted.ready, wanted.port, wanted.len);
    size_t len = it.len < room ? it.len : room;
    if (len) WANT(!memcmp(out, d->node.slots[slot].received, len), NAMED(read) " copied other bytes than were received");
    is_untouched(d, len, NAMED(read));
    memcpy(bytes, out, len);
    return it;
}

// Returns whether the message was written.
int call_write(device *d, size_t slot, size_t taken, const byte *text, size_t len, unsigned last, size_t room, sent_frame *sent) {
    begin(d, room, &guard, 0);
    uip_result done = CALL(write)(&d->on.handle, slot, taken, put_input(&text_in, text, len), len, last, out, room);
    unsigned wanted = foretold(d, slot >= UIP_SLOTS || len > UIP_MAX_MESSAGE || room < UIP_MAX_FRAME);
    if (wanted == UIP_OK && !node_can_write(&d->node, (unsigned)slot, taken)) wanted = UIP_NOT_READY;
    app_counts.not_ready += wanted == UIP_NOT_READY, app_counts.written += wanted == UIP_OK;
    if (wanted == UIP_OK) sent->len = node_writes(&d->node, (unsigned)slot, taken, text, len, last, sent->bytes);
    end_sent(d, done, wanted, 0, sent, NAMED(write));
    return wanted == UIP_OK;
}

// A port that cannot be opened: 0, that of the pages, or one above 65535, at times one that is in range modulo 65536.
static unsigned bad_port(void) {
    if (chance(30)) return 0;
    if (chance(30)) return WEB_PORT;
    return chance(60) ? 65536 + (chance(50) ? some_port() : below(3)) : 65536 + (unsigned)random_next() % 0xffff0000u;
}

// A call with an argument that is out of its range, or on a handle without a device.
void wrong_call(device *d) {
    static byte bytes[1 << 15];
    static sent_frame sent;
    size_t no_slot = chance(50) ? UIP_SLOTS : UIP_SLOTS + random_next(), slot = chance(60) ? below(UIP_SLOTS) : no_slot;
    size_t room = chance(50) ? UIP_MAX_FRAME : between(UIP_MAX_FRAME, MOST_ROOM);
    size_t small = chance(50) ? UIP_MAX_FRAME - 1 : below(UIP_MAX_FRAME);
    size_t too_long = chance(70) ? UIP_MAX_MESSAGE + 1 : between(UIP_MAX_MESSAGE + 1, sizeof bytes);
    random_bytes(bytes, 300);
    if (serves_pages() && chance(30)) { pages_refuse(d); return; }
    if (chance(10) && (!d->on.is_open || d->node.is_used || d->node.secret.is_set)) { call_secret(d); return; }
    if (chance(10)) { call_guard_counter(d); return; }
    switch (below(11)) {
    case 0: call_frame(d, bytes, below((unsigned)small + 1), small, &sent); break;
    case 1: call_frame(d, bytes, room + 1 + below(5000), room, &sent); break;
    case 2: call_tick(d, no_slot, room, &sent); break;
    case 3: call_tick(d, slot, small, &sent); break;
    case 4: call_read(d, no_slot, below(300), bytes); break;
    case 5: call_write(d, no_slot, below(200), bytes, below(UIP_MAX_MESSAGE + 1), below(2), room, &sent); break;
    case 6: call_write(d, slot, 0, bytes, too_long, below(2), room, &sent); break;
    case 7: call_write(d, slot, 0, bytes, below(UIP_MAX_MESSAGE + 1), below(2), small, &sent); break;
    case 8: call_listen(d, bad_port()); break;
    default:
        if (d->on.is_open) { call_open(d, bytes, bytes, bytes, bytes); break; }
        call_listen(d, chance(50) ? some_port() : bad_port());
        call_frame(d, bytes, below(300), room, &sent);
        call_tick(d, below(UIP_SLOTS), room, &sent);
        call_read(d, below(UIP_SLOTS), below(300), bytes);
        call_write(d, below(UIP_SLOTS), below(3), bytes, below(UIP_MAX_MESSAGE + 1), below(2), room, &sent);
        call_close(d);
    }
}
