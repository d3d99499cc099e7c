
/* ---- the memory by malloc: for a program on a PC that has no functions `rattle_..` of its own */

#if defined(UIP_MALLOC)
#define OF_LIBRARY
#elif (defined(__unix__) || defined(__APPLE__)) && defined(__GNUC__) && !defined(__TINYC__) && (!defined(__STDC_HOSTED__) || __STDC_HOSTED__)
#define OF_LIBRARY __attribute__((weak))    /* those of the program take its place */
#endif
#ifdef OF_LIBRARY
#include <stdlib.h>

static uip_block given(void *at) {
    static unsigned char none[16];
    uip_block block;
    block.ok = at != NULL;
    block.block = at != NULL ? at : none;
    return block;
}

OF_LIBRARY uip_block rattle_alloc(size_t len, size_t align) { return given(malloc(len ? len : align)); }

OF_LIBRARY uip_block rattle_realloc(void *block, size_t kept, size_t len, size_t align) {
    (void)kept;
    return given(realloc(block, len ? len : align));
}

OF_LIBRARY void rattle_dealloc(void *block) { free(block); }
#endif

/* ---- the calls of the headers over those of the module: a handle of 16 bytes is copied in and out, and a struct is returned through memory */

INLINE void of_handle(u8 *to, size_t is_open, const void *at) {
    put4(to, (u32)is_open);
    put4(to + 4, 0);
    putp(to + 8, (const u8 *)at);
}

#define BEGIN u64 handle[2]; u8 *const d = (u8 *)handle; of_handle(d, device->is_open, device->at);
#define END device->is_open = get4(d); device->at = getp(d + 8);

INLINE uip_result of_result(const u64 *words) {
    const u8 *const from = (const u8 *)words;
    uip_result result;
    result.status = get4(from);
    result.pending = get4(from + 4);
    result.consumed = (size_t)get8(from + 8);
    result.written = (size_t)get8(from + 16);
    return result;
}

/* A call that returns a uip_result, with `d` among the arguments. */
#define RESULT(call, arguments) u64 result[3]; BEGIN port_##call arguments; END return of_result(result);

INLINE uip_number of_number(u64 both) {
    uip_number number;
    number.status = (u32)both;
    number.number = (u32)(both >> 32);
    return number;
}

#if !IS_APP
INLINE uip_opened of_opened(const u64 *words) {
    const u8 *const from = (const u8 *)words;
    uip_opened opened;
    unsigned at;
    opened.status = get4(from);
    opened.entry = get4(from + 4);
    for (at = 0; at < 8; at++) opened.word[at] = (char)from[8 + at];
    return opened;
}
#endif

#if IS_SERIAL || IS_WHOLE
uip_opened uip_open(uip_device *device, const unsigned char *image, size_t len, const unsigned char own[4]) {
    u64 opened[2];
    BEGIN
    port_uip_open((u8 *)opened, d, (u8 *)image, len, (u8 *)own);
    END
    return of_opened(opened);
}

uip_result uip_feed(uip_device *device, const unsigned char *bytes, size_t len, unsigned char *out, size_t room) {
    RESULT(uip_feed, ((u8 *)result, d, (u8 *)bytes, len, out, room))
}

uip_result uip_periodic(uip_device *device, size_t slot, unsigned char *out, size_t room) {
    RESULT(uip_periodic, ((u8 *)result, d, slot, out, room))
}

uip_result uip_drain(uip_device *device, unsigned char *out, size_t room) {
    RESULT(uip_drain, ((u8 *)result, d, out, room))
}

uip_result uip_input(uip_device *device, const unsigned char *datagram, size_t len, unsigned char *out, size_t room) {
    RESULT(uip_input, ((u8 *)result, d, (u8 *)datagram, len, out, room))
}

uip_result uip_periodic_datagram(uip_device *device, size_t slot, unsigned char *out, size_t room) {
    RESULT(uip_periodic_datagram, ((u8 *)result, d, slot, out, room))
}
#endif

#if IS_WHOLE || IS_BOTH
uip_opened uip_open_ether(uip_device *device, const unsigned char *image, size_t len, const unsigned char own[4], const unsigned char mac[6],
                          const unsigned char mask[4], const unsigned char router[4]) {
    u64 opened[2];
    BEGIN
    port_uip_open_ether((u8 *)opened, d, (u8 *)image, len, (u8 *)own, (u8 *)mac, (u8 *)mask, (u8 *)router);
    END
    return of_opened(opened);
}

uip_result uip_input_frame_area(uip_device *device, unsigned char *frame, size_t room, size_t len) {
    RESULT(uip_input_frame_area, ((u8 *)result, d, frame, room, len))
}

uip_result uip_periodic_frame(uip_device *device, size_t slot, unsigned char *frame, size_t room) {
    RESULT(uip_periodic_frame, ((u8 *)result, d, slot, frame, room))
}
#endif

#if !IS_APP
unsigned uip_protect(uip_device *device, const unsigned char secret[16]) {
    unsigned status;
    BEGIN
    status = (unsigned)port_uip_protect(d, (u8 *)secret);
    END
    return status;
}

uip_number uip_guard_counter(uip_device *device, size_t number) {
    u64 both;
    BEGIN
    both = port_uip_guard_counter(d, number);
    END
    return of_number(both);
}

uip_number uip_ticks(uip_device *device) {
    u64 both;
    BEGIN
    both = port_uip_ticks(d);
    END
    return of_number(both);
}

uip_number uip_counter(uip_device *device, size_t number) {
    u64 both;
    BEGIN
    both = port_uip_counter(d, number);
    END
    return of_number(both);
}

uip_number uip_is_idle(uip_device *device) {
    u64 both;
    BEGIN
    both = port_uip_is_idle(d);
    END
    return of_number(both);
}

uip_row uip_connection(uip_device *device, size_t slot) {
    u64 area[4];
    const u8 *const from = (u8 *)area;
    uip_row row;
    unsigned at;
    BEGIN
    port_uip_connection((u8 *)area, d, slot);
    END
    row.status = get4(from);
    row.state = get4(from + 4);
    for (at = 0; at < 4; at++) row.peer[at] = from[8 + at];
    row.port = get4(from + 12);
    row.tries = get4(from + 16);
    row.count = get4(from + 20);
    row.waiting = get4(from + 24);
    return row;
}

unsigned uip_set_value(uip_device *device, size_t number, const void *text, size_t len) {
    unsigned status;
    BEGIN
    status = (unsigned)port_uip_set_value(d, number, (u8 *)text, len);
    END
    return status;
}

uip_number uip_hits(uip_device *device, const void *name, size_t len) {
    u64 both;
    BEGIN
    both = port_uip_hits(d, (u8 *)name, len);
    END
    return of_number(both);
}

uip_query_text uip_query(uip_device *device, const void *name, size_t len, void *out, size_t room) {
    u64 area[2];
    const u8 *const from = (u8 *)area;
    uip_query_text text;
    BEGIN
    port_uip_query((u8 *)area, d, (u8 *)name, len, (u8 *)out, room);
    END
    text.status = get4(from);
    text.hit = get4(from + 4);
    text.len = (size_t)get8(from + 8);
    return text;
}

unsigned uip_close(uip_device *device) {
    unsigned status;
    BEGIN
    status = (unsigned)port_uip_close(d);
    END
    return status;
}
#endif

/* The three calls for an application of the program's own, by their names. */
#define OWN_CALLS(type, listen_name, read_name, write_name) \
    unsigned listen_name(type *device, unsigned port) { \
        unsigned status; \
        BEGIN \
        status = (unsigned)port_##listen_name(d, port); \
        END \
        return status; \
    } \
    uip_received read_name(type *device, size_t slot, void *bytes, size_t room) { \
        u64 area[3]; \
        const u8 *const from = (u8 *)area; \
        uip_received received; \
        BEGIN \
        port_##read_name((u8 *)area, d, slot, (u8 *)bytes, room); \
        END \
        received.status = get4(from); \
        received.ready = get4(from + 4); \
        received.port = get4(from + 8); \
        received.len = (size_t)get8(from + 16); \
        return received; \
    } \
    uip_result write_name(type *device, size_t slot, size_t taken, const void *text, size_t len, unsigned last, unsigned char *frame, \
                          size_t room) { \
        RESULT(write_name, ((u8 *)result, d, slot, taken, (u8 *)text, len, last, frame, room)) \
    }

#if IS_BOTH
OWN_CALLS(uip_device, uip_listen, uip_read, uip_write)
#endif

#if IS_APP
unsigned uip_app_open(uip_app *device, const unsigned char own[4], const unsigned char mac[6], const unsigned char mask[4],
                      const unsigned char router[4]) {
    unsigned status;
    BEGIN
    status = (unsigned)port_uip_app_open(d, (u8 *)own, (u8 *)mac, (u8 *)mask, (u8 *)router);
    END
    return status;
}

unsigned uip_app_protect(uip_app *device, const unsigned char secret[16]) {
    unsigned status;
    BEGIN
    status = (unsigned)port_uip_app_protect(d, (u8 *)secret);
    END
    return status;
}

uip_number uip_app_guard_counter(uip_app *device, size_t number) {
    u64 both;
    BEGIN
    both = port_uip_app_guard_counter(d, number);
    END
    return of_number(both);
}

uip_result uip_app_input_frame_area(uip_app *device, unsigned char *frame, size_t room, size_t len) {
    RESULT(uip_app_input_frame_area, ((u8 *)result, d, frame, room, len))
}

uip_result uip_app_periodic_frame(uip_app *device, size_t slot, unsigned char *frame, size_t room) {
    RESULT(uip_app_periodic_frame, ((u8 *)result, d, slot, frame, room))
}

OWN_CALLS(uip_app, uip_app_listen, uip_app_read, uip_app_write)

unsigned uip_app_close(uip_app *device) {
    unsigned status;
    BEGIN
    status = (unsigned)port_uip_app_close(d);
    END
    return status;
}
#endif
