// Linked into the fuzzer by --wrap: writes each call of the library and its result to descriptor 3, for replay.c. With BOTH it is for
// the calls of uip_both.h.
#include "fuzz.h"
#include "record.h"
#ifdef BOTH
#include "uip_both.h"
#endif

// ---- the sites: every third one begins with a file so long that the other files start beyond 64 kB. The harness for uip_both.h, which
// foretells each byte of a page, does not know this file, so nobody requests it

void __real_make_site(site *s, const calls_of *has);
void __wrap_make_site(site *s, const calls_of *has) {
    static byte room[1 << 20];
    __real_make_site(s, has);
    size_t len = between(66000, 300000), head = (size_t)(s->is_two ? 11 : 10), more = head + len;
    int is_known = 1;
#ifdef BOTH
    if (s->count == 0) return;
    is_known = 0;
#endif
    if (!chance(33) || s->count == MOST_FILES || s->len + more > sizeof room) return;
    memcpy(room, s->image, 10);
    memcpy(room + 10 + more, s->image + 10, s->len - 10);
    room[8] = (byte)((s->count + 1) >> 8);
    room[9] = (byte)(s->count + 1);
    memcpy(room + 10, "\005/long\0", head - 4);
    for (unsigned at = 0; at < 4; at++) room[6 + head + at] = (byte)(len >> (24 - 8 * at));
    random_bytes(room + 10 + head, len);
    for (unsigned k = 0; k < s->count; k++) s->files[k].content = room + more + (s->files[k].content - s->image);
    s->image = room;
    s->len += more;
    if (!is_known) return;
    memmove(s->files + 1, s->files, s->count * sizeof *s->files);
    s->files[0] = (file){.name = "/long", .name_len = 5, .content = room + 10 + head, .len = len};
    s->count++;
}

// ---- the calls

#ifndef BOTH
uip_opened __real_uip_open(uip_device *d, const unsigned char *image, size_t len, const unsigned char own[4]);
uip_opened __wrap_uip_open(uip_device *d, const unsigned char *image, size_t len, const unsigned char own[4]) {
    record r = begun(OPEN, d, 0, len, 0, 0);
    uip_opened opened = __real_uip_open(d, image, len, own);
    r.status = opened.status;
    r.heap = heap;
    r.in_len = len + 4;
    r.out_len = sizeof opened;
    put(&r, own, 4, image, &opened);
    return opened;
}
#endif

uip_opened __real_uip_open_ether(uip_device *d, const unsigned char *image, size_t len, const unsigned char own[4], const unsigned char mac[6],
                                 const unsigned char mask[4], const unsigned char router[4]);
uip_opened __wrap_uip_open_ether(uip_device *d, const unsigned char *image, size_t len, const unsigned char own[4], const unsigned char mac[6],
                                 const unsigned char mask[4], const unsigned char router[4]) {
    unsigned char addresses[18];
    record r = begun(OPEN_ETHER, d, 0, len, 0, 0);
    memcpy(addresses, own, 4), memcpy(addresses + 4, mac, 6), memcpy(addresses + 10, mask, 4), memcpy(addresses + 14, router, 4);
    uip_opened opened = __real_uip_open_ether(d, image, len, own, mac, mask, router);
    r.status = opened.status;
    r.heap = heap;
    r.in_len = len + 18;
    r.out_len = sizeof opened;
    put(&r, addresses, 18, image, &opened);
    return opened;
}

unsigned __real_uip_protect(uip_device *d, const unsigned char secret[16]);
unsigned __wrap_uip_protect(uip_device *d, const unsigned char secret[16]) {
    record r = begun(PROTECT, d, 0, 16, 0, 0);
    unsigned status = __real_uip_protect(d, secret);
    returned(&r, status, 0, secret, 0, 0);
    return status;
}

#define RESULTS(name, op, parameters, arguments, which, in, in_len) \
    uip_result __real_##name parameters; \
    uip_result __wrap_##name parameters { \
        record r = begun(op, d, which, in_len, out, room); \
        return ended(&r, __real_##name arguments, in, out); \
    }
#ifdef BOTH
OWN_CALLS(uip_device, uip_listen, uip_read, uip_write)
#else
RESULTS(uip_feed, FEED, (uip_device *d, const unsigned char *bytes, size_t len, unsigned char *out, size_t room),
        (d, bytes, len, out, room), 0, bytes, len)
RESULTS(uip_periodic, PERIODIC, (uip_device *d, size_t slot, unsigned char *out, size_t room), (d, slot, out, room), slot, 0, 0)
RESULTS(uip_drain, DRAIN, (uip_device *d, unsigned char *out, size_t room), (d, out, room), 0, 0, 0)
RESULTS(uip_input, INPUT, (uip_device *d, const unsigned char *datagram, size_t len, unsigned char *out, size_t room),
        (d, datagram, len, out, room), 0, datagram, len)
RESULTS(uip_periodic_datagram, PERIODIC_DATAGRAM, (uip_device *d, size_t slot, unsigned char *out, size_t room),
        (d, slot, out, room), slot, 0, 0)
#endif

// In a tick by the inline call the area has what the last slot left. Then what it has is the input.
uip_result __real_uip_periodic_frame(uip_device *d, size_t slot, unsigned char *out, size_t room);
uip_result __wrap_uip_periodic_frame(uip_device *d, size_t slot, unsigned char *out, size_t room) {
    static unsigned char left[COMPARED];
    size_t least = room < COMPARED ? room : COMPARED, part = 0;
    for (size_t at = 1; at < least; at++) if (out[at] != out[0]) part = least;
    memcpy(left, out, part);
    record r = begun(PERIODIC_FRAME, d, slot, part, out, room);
    return ended(&r, __real_uip_periodic_frame(d, slot, out, room), left, out);
}

// The frame lies at the start of `out`, and what comes after it was filled.
uip_result __real_uip_input_frame_area(uip_device *d, unsigned char *out, size_t room, size_t len);
uip_result __wrap_uip_input_frame_area(uip_device *d, unsigned char *out, size_t room, size_t len) {
    static unsigned char frame[MOST_ROOM];
    size_t part = len < room ? len : room;
    record r = begun(INPUT_FRAME, d, len, part, part < room ? out + part : out, room);
    memcpy(frame, out, part);
    return ended(&r, __real_uip_input_frame_area(d, out, room, len), frame, out);
}

#define NUMBERS(name, op, parameters, arguments, which, in, in_len) \
    uip_number __real_##name parameters; \
    uip_number __wrap_##name parameters { \
        record r = begun(op, d, which, in_len, 0, 0); \
        uip_number n = __real_##name arguments; \
        returned(&r, n.status, n.number, in, 0, 0); \
        return n; \
    }
NUMBERS(uip_ticks, TICKS, (uip_device *d), (d), 0, 0, 0)
NUMBERS(uip_counter, COUNTER, (uip_device *d, size_t number), (d, number), number, 0, 0)
NUMBERS(uip_guard_counter, GUARD_COUNTER, (uip_device *d, size_t number), (d, number), number, 0, 0)
NUMBERS(uip_is_idle, IS_IDLE, (uip_device *d), (d), 0, 0, 0)
NUMBERS(uip_hits, HITS, (uip_device *d, const void *name, size_t len), (d, name, len), 0, name, len)

uip_row __real_uip_connection(uip_device *d, size_t slot);
uip_row __wrap_uip_connection(uip_device *d, size_t slot) {
    record r = begun(CONNECTION, d, slot, 0, 0, 0);
    uip_row row = __real_uip_connection(d, slot);
    returned(&r, row.status, 0, 0, &row, sizeof row);
    return row;
}

// The hit is recorded as `pending`, and the length of the text as `written`.
uip_query_text __real_uip_query(uip_device *d, const void *name, size_t len, unsigned char *out, size_t room);
uip_query_text __wrap_uip_query(uip_device *d, const void *name, size_t len, unsigned char *out, size_t room) {
    record r = begun(QUERY, d, 0, len, out, room);
    uip_query_text text = __real_uip_query(d, name, len, out, room);
    (void)ended(&r, (uip_result){text.status, text.hit, 0, text.len}, name, out);
    return text;
}

unsigned __real_uip_set_value(uip_device *d, size_t number, const void *text, size_t len);
unsigned __wrap_uip_set_value(uip_device *d, size_t number, const void *text, size_t len) {
    record r = begun(SET_VALUE, d, number, len, 0, 0);
    unsigned status = __real_uip_set_value(d, number, text, len);
    returned(&r, status, 0, text, 0, 0);
    return status;
}

unsigned __real_uip_close(uip_device *d);
unsigned __wrap_uip_close(uip_device *d) {
    record r = begun(CLOSE, d, 0, 0, 0, 0);
    unsigned status = __real_uip_close(d);
    returned(&r, status, 0, 0, 0, 0);
    return status;
}
