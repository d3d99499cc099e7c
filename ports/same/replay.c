// Makes the recorded calls of uip.h again (replay.h); with BOTH those of uip_both.h, with SERIAL without those of a device on Ethernet.
#include "replay.h"
#ifdef BOTH
#include "uip_both.h"
#endif

static uip_device devices[DEVICES];
static unsigned char images[DEVICES + 1][MOST_INPUT];
static uip_opened opened;
static uip_row row;

// An image stays where it is while its device is open.
static unsigned char *input_of(const record *r) {
    return r->op != OPEN && r->op != OPEN_ETHER ? in : images[r->status == UIP_HAS_DEVICE ? DEVICES : r->device];
}

static int is_skipped(const record *r) {
#ifdef SERIAL
    static unsigned char on_ether[DEVICES];
    if (r->op == OPEN_ETHER && r->status != UIP_HAS_DEVICE) on_ether[r->device] = r->status == UIP_OK;
    int is = on_ether[r->device] || r->op == OPEN_ETHER || r->op == INPUT_FRAME || r->op == PERIODIC_FRAME;
    if (r->op == CLOSE && r->status == UIP_OK) on_ether[r->device] = 0;
    return is;
#else
    (void)r;
    return 0;
#endif
}

// What opening and uip_connection return, in the order of the record.
static uip_result of_opened(const unsigned char **left) {
    uip_result result = of_status(opened.status);
    order_numbers(&opened, 8);
    *left = (unsigned char *)&opened;
    return result;
}

static uip_result of_row(const unsigned char **left) {
    uip_result result = of_status(row.status);
    order_numbers(&row, 8), order_numbers((char *)&row + 12, 16);
    *left = (unsigned char *)&row;
    return result;
}

static uip_result of_number(uip_number n) { return (uip_result){n.status, n.number, 0, 0}; }
static uip_result of_text(uip_query_text t) { return (uip_result){t.status, t.hit, 0, t.len}; }

static uip_result call(const record *r, const unsigned char *input, const unsigned char **left) {
    uip_device *d = &devices[r->device];
    size_t len = (size_t)r->in_len, room = (size_t)r->room, number = (size_t)r->number;
    switch (r->op) {
#ifdef BOTH
    OWN_CASES(uip_listen, uip_read, uip_write)
#else
    case OPEN: opened = uip_open(d, input + 4, len - 4, input); return of_opened(left);
    case FEED: return uip_feed(d, input, len, out, room);
    case PERIODIC: return uip_periodic(d, number, out, room);
    case DRAIN: return uip_drain(d, out, room);
    case INPUT: return uip_input(d, input, len, out, room);
    case PERIODIC_DATAGRAM: return uip_periodic_datagram(d, number, out, room);
#endif
#ifndef SERIAL
    case OPEN_ETHER:
        opened = uip_open_ether(d, input + 18, len - 18, input, input + 4, input + 10, input + 14);
        return of_opened(left);
    case INPUT_FRAME: __builtin_memcpy(out, input, len); return uip_input_frame(d, out, number, room);
    case PERIODIC_FRAME: __builtin_memcpy(out, input, len); return uip_periodic_frame(d, number, out, room);
#endif
    case PROTECT: return of_status(uip_protect(d, input));
    case TICKS: return of_number(uip_ticks(d));
    case COUNTER: return of_number(uip_counter(d, number));
    case GUARD_COUNTER: return of_number(uip_guard_counter(d, number));
    case IS_IDLE: return of_number(uip_is_idle(d));
    case CONNECTION: row = uip_connection(d, number); return of_row(left);
    case SET_VALUE: return of_status(uip_set_value(d, number, input, len));
    case HITS: return of_number(uip_hits(d, input, len));
    case QUERY: return of_text(uip_query(d, input, len, out, room));
    case CLOSE: return of_status(uip_close(d));
    default: differ("the kind of a call", r->op, 0);
    }
}
