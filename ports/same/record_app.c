// As record.c for the harness of uip_app.h, for replay_app.c.
#include "app/app.h"
#include "record.h"

unsigned __real_uip_app_open(uip_app *d, const unsigned char own[4], const unsigned char mac[6], const unsigned char mask[4],
                             const unsigned char router[4]);
unsigned __wrap_uip_app_open(uip_app *d, const unsigned char own[4], const unsigned char mac[6], const unsigned char mask[4],
                             const unsigned char router[4]) {
    unsigned char addresses[18];
    record r = begun(APP_OPEN, d, 0, sizeof addresses, 0, 0);
    memcpy(addresses, own, 4), memcpy(addresses + 4, mac, 6), memcpy(addresses + 10, mask, 4), memcpy(addresses + 14, router, 4);
    unsigned status = __real_uip_app_open(d, own, mac, mask, router);
    returned(&r, status, 0, addresses, 0, 0);
    return status;
}

unsigned __real_uip_app_protect(uip_app *d, const unsigned char secret[16]);
unsigned __wrap_uip_app_protect(uip_app *d, const unsigned char secret[16]) {
    record r = begun(APP_PROTECT, d, 0, 16, 0, 0);
    unsigned status = __real_uip_app_protect(d, secret);
    returned(&r, status, 0, secret, 0, 0);
    return status;
}

uip_number __real_uip_app_guard_counter(uip_app *d, size_t number);
uip_number __wrap_uip_app_guard_counter(uip_app *d, size_t number) {
    record r = begun(APP_GUARD_COUNTER, d, number, 0, 0, 0);
    uip_number n = __real_uip_app_guard_counter(d, number);
    returned(&r, n.status, n.number, 0, 0, 0);
    return n;
}

// The frame lies at the start of `frame`, and what comes after it was filled.
uip_result __real_uip_app_input_frame_area(uip_app *d, unsigned char *frame, size_t room, size_t len);
uip_result __wrap_uip_app_input_frame_area(uip_app *d, unsigned char *frame, size_t room, size_t len) {
    static unsigned char given[MOST_ROOM];
    size_t part = len < room ? len : room;
    record r = begun(APP_INPUT_FRAME, d, len, part, part < room ? frame + part : frame, room);
    memcpy(given, frame, part);
    return ended(&r, __real_uip_app_input_frame_area(d, frame, room, len), given, frame);
}

uip_result __real_uip_app_periodic_frame(uip_app *d, size_t slot, unsigned char *frame, size_t room);
uip_result __wrap_uip_app_periodic_frame(uip_app *d, size_t slot, unsigned char *frame, size_t room) {
    record r = begun(APP_PERIODIC_FRAME, d, slot, 0, frame, room);
    return ended(&r, __real_uip_app_periodic_frame(d, slot, frame, room), 0, frame);
}

OWN_CALLS(uip_app, uip_app_listen, uip_app_read, uip_app_write)

unsigned __real_uip_app_close(uip_app *d);
unsigned __wrap_uip_app_close(uip_app *d) {
    record r = begun(APP_CLOSE, d, 0, 0, 0, 0);
    unsigned status = __real_uip_app_close(d);
    returned(&r, status, 0, 0, 0, 0);
    return status;
}
