// Makes the recorded calls of uip_app.h again (replay.h).
#include "replay.h"

static uip_app devices[DEVICES];

static int is_skipped(const record *r) {
    (void)r;
    return 0;
}

static unsigned char *input_of(const record *r) {
    (void)r;
    return in;
}

static uip_result of_number(uip_number n) { return (uip_result){n.status, n.number, 0, 0}; }

static uip_result call(const record *r, const unsigned char *input, const unsigned char **left) {
    uip_app *d = &devices[r->device];
    size_t len = (size_t)r->in_len, room = (size_t)r->room, number = (size_t)r->number;
    (void)left;
    switch (r->op) {
    case APP_OPEN: return of_status(uip_app_open(d, input, input + 4, input + 10, input + 14));
    case APP_PROTECT: return of_status(uip_app_protect(d, input));
    case APP_GUARD_COUNTER: return of_number(uip_app_guard_counter(d, number));
    case APP_INPUT_FRAME: __builtin_memcpy(out, input, len); return uip_app_input_frame(d, out, number, room);
    case APP_PERIODIC_FRAME: return uip_app_periodic_frame(d, number, out, room);
    OWN_CASES(uip_app_listen, uip_app_read, uip_app_write)
    case APP_CLOSE: return of_status(uip_app_close(d));
    default: differ("the kind of a call", r->op, 0);
    }
}
