// Faults between the harness and the library of include/uip_both.h, one for each number PLANT: the harness has to find each
// (`sh fuzz/run.sh both-planted`). 1 to 67 are those of app.c, 68 to 85 those of reads.c, 100 to 103 are of the guard, and the others are
// of pages and messages side by side.
#define INNER(name) JOIN(inner, CALL(name))
#define WRAP INNER
#define BEFORE 67
#define SECRET 99
#include "app.c"
#include "reads.c"

#undef FAULT
#define FAULT (PLANT - 85)

static byte last_text[UIP_MAX_MESSAGE], last_mac[6];
static size_t last_len, last_slot;
static unsigned writes_of_slot_0;

static unsigned port_at(const byte *at) { return (unsigned)at[0] << 8 | at[1]; }

// A frame with a text of a page.
static int is_page(const byte *frame, size_t len) {
    return len > 80 && frame[13] == 0 && frame[23] == 6 && port_at(frame + 34) == WEB_PORT;
}

static int is_in(uip_device *d, size_t slot, unsigned state) {
    return __real_uip_connection(d, slot).state == state && __real_uip_read(d, slot, room_of_own, 0).port == 0;
}

// The request of a frame is for another file.
static void change_request(byte *frame, size_t len) {
    if (len < 62 || frame[13] != 0 || frame[23] != 6 || port_at(frame + 36) != WEB_PORT || memcmp(frame + 54, "GET /f", 6)) return;
    frame[60] = frame[60] == '1' ? '2' : '1';
    repair_sums(frame + 14, port_at(frame + 16));
}

// Fault 10 is in the library and in node.c alike, so that only the clients can find it.
size_t __real_node_receives(node *n, const byte *frame, size_t len, byte *sent);

size_t __wrap_node_receives(node *n, const byte *frame, size_t len, byte *sent) {
    size_t sent_len = __real_node_receives(n, frame, len, sent);
    if (FAULT != 10 || n->datagram_len < 80) return sent_len;
    byte copy[UIP_MAX_FRAME] = {0};
    memcpy(copy + 14, n->datagram, n->datagram_len);
    if (!is_page(copy, n->datagram_len + 14)) return sent_len;
    swap_words(copy, n->datagram_len + 14), memcpy(n->datagram, copy + 14, n->datagram_len);
    if (sent[13] == 0) swap_words(sent, sent_len);
    return sent_len;
}

uip_result __wrap_uip_input_frame_area(uip_device *d, byte *frame, size_t room, size_t len) {
    if (FAULT == 1 && d->is_open == 1 && len <= room && is_due(20)) change_request(frame, len);
    uip_result done = INNER(input_frame_area)(d, frame, room, len);
    if (FAULT == 2 && is_page(frame, done.written) && is_due(20)) swap_words(frame, done.written);    // another byte of a page
    if (FAULT == 3 && done.written >= 34 && frame[13] == 0) {                   // to the hardware address that was sent to before
        byte now[6];
        memcpy(now, frame, 6), memcpy(frame, last_mac, 6), memcpy(last_mac, now, 6);
    }
    if (FAULT == 10 && is_page(frame, done.written)) swap_words(frame, done.written);
    return done;
}

uip_result __wrap_uip_periodic_frame(uip_device *d, size_t slot, byte *frame, size_t room) {
    if (FAULT == 4 && last_len && slot == last_slot && __real_uip_read(d, slot, room_of_own, 0).ready) {    // a message is sent twice
        size_t len = last_len;
        last_len = 0;
        return __real_uip_write(d, slot, 0, last_text, len, 0, frame, room);
    }
    uip_result done = INNER(periodic_frame)(d, slot, frame, room);
    if (FAULT == 5 && is_page(frame, done.written)) swap_words(frame, done.written);    // a text of a page is sent again with other bytes
    return done;
}

uip_received __wrap_uip_read(uip_device *d, size_t slot, void *bytes, size_t room) {
    uip_received it = INNER(read)(d, slot, bytes, room);
    if (FAULT == 6 && it.status == UIP_OK && is_in(d, slot, UIP_ESTABLISHED)) it.port = WEB_PORT;    // a connection of a page is read
    return it;
}

uip_result __wrap_uip_write(uip_device *d, size_t slot, size_t taken, const void *text, size_t len, unsigned last, byte *frame,
                            size_t room) {
    size_t other = slot;
    for (size_t k = 0; FAULT == 7 && k < UIP_SLOTS && other == slot; k++)       // a message for another connection
        if (k != slot && __real_uip_read(d, k, room_of_own, 0).ready) other = k;
    if (other != slot && slot < UIP_SLOTS) slot = other, taken = 0;
    if (FAULT == 8 && len > 100 && len <= UIP_MAX_MESSAGE && is_due(5)) len /= 2;    // a message is cut
    if (FAULT == 9 && slot < UIP_SLOTS && d->is_open && room >= UIP_MAX_FRAME && len <= UIP_MAX_MESSAGE && is_in(d, slot, UIP_ESTABLISHED))
        return INNER(periodic_frame)(d, slot, frame, room);                  // a connection of a page takes a message
    uip_result done = INNER(write)(d, slot, taken, text, len, last, frame, room);
    writes_of_slot_0 += slot == 0 && done.status == UIP_OK;
    if (done.status == UIP_OK && len && !last) memcpy(last_text, text, last_len = len), last_slot = slot;
    return done;
}

uip_number __real_uip_ticks(uip_device *d);

uip_number __wrap_uip_ticks(uip_device *d) {
    uip_number read = __real_uip_ticks(d);
    if (FAULT == 11 && read.number) read.number -= writes_of_slot_0;            // a write to slot 0 does not count as a tick
    return read;
}

uip_number __real_uip_counter(uip_device *d, size_t number);

uip_number __wrap_uip_counter(uip_device *d, size_t number) {
    uip_number read = __real_uip_counter(d, number);
    if (FAULT == 12 && number == UIP_SYN_DROPPED && read.number) read.number--;
    if (FAULT == 13 && number == UIP_RETRANSMISSIONS && read.number) read.number--;
    if (FAULT == 14 && number == UIP_DATAGRAMS_OUT && read.number) read.number--;
    return read;
}
