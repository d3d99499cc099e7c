// Single calls of the library that may send, as reads.c has the others: a refused call leaves the handle, the area and the heap as they
// were, and none uses the heap.
// [add: c-call] a call, and the status that is foretold for it
#include <string.h>
#include "fuzz.h"

static area line_in, datagram_in;

void calls_begin(void) {
    line_in = area_new(1 << 16, 1);
    datagram_in = area_new(1 << 16, 1);
    reads_begin();
}

static void end(tested *t, uip_result done, unsigned wanted, const byte *out, size_t room, text *to, const char *what) {
    counts.calls++;
    WANT(done.status == wanted, "%s answers %u, and %u was foretold", what, done.status, wanted);
    heap_was_not_called(what);
    if (wanted != UIP_OK) {
        counts.refused++;
        WANT(done.consumed == 0 && done.written == 0, "%s was refused and took %zu, wrote %zu", what, done.consumed, done.written);
        is_untouched(t, out, room, what);
        return;
    }
    WANT(done.written <= room, "%s wrote %zu bytes to an area of %zu", what, done.written, room);
    WANT(done.pending <= 1 && (done.pending == 0 || done.written + 1 >= room), "%s left a text with room to go on", what);
    WANT(done.pending == 0 || room < UIP_MAX_OUT, "%s left a text with all room", what);
    WANT(t->handle.is_open == 1u + (unsigned)t->is_ether, "%s closed the handle", what);
    WANT(to->len + done.written <= LONGEST_TEXT, "the harness has no room for a text");
    memcpy(to->bytes + to->len, out, done.written);
    to->len += done.written;
    t->has_left = (int)done.pending;
}

uip_result call_hear(tested *t, const byte *bytes, size_t len, size_t room, text *to) {
    byte *out = begin_call(t, room);
    uip_result done = uip_feed(&t->handle, put_input(&line_in, bytes, len), len, out, room);
    unsigned wanted = foretold(t, len == 0 || room < UIP_MIN_OUT, AN_IDLE_LINE);
    end(t, done, wanted, out, room, to, "uip_feed");
    WANT(wanted != UIP_OK || (done.consumed >= 1 && done.consumed <= len), "uip_feed took %zu of %zu bytes", done.consumed, len);
    return done;
}

uip_result call_slot(tested *t, unsigned slot, size_t room, text *to) {
    byte *out = begin_call(t, room);
    uip_result done = uip_periodic(&t->handle, slot, out, room);
    end(t, done, foretold(t, slot >= UIP_SLOTS || room < UIP_MIN_OUT, AN_IDLE_LINE), out, room, to, "uip_periodic");
    WANT(done.consumed == 0, "uip_periodic took bytes");
    return done;
}

uip_result call_more(tested *t, size_t room, text *to) {
    byte *out = begin_call(t, room);
    uip_result done = uip_drain(&t->handle, out, room);
    int had_left = t->has_left;
    end(t, done, foretold(t, room < UIP_MIN_OUT, A_LINE), out, room, to, "uip_drain");
    WANT(done.consumed == 0 && (had_left || done.written == 0), "uip_drain wrote where nothing was left");
    return done;
}

uip_result call_datagram(tested *t, const byte *datagram, size_t len, text *to) {
    size_t room = chance(90) ? LARGEST : between(LARGEST, 4000);
    byte *out = begin_call(t, room);
    uip_result done = uip_input(&t->handle, put_input(&datagram_in, datagram, len), len, out, room);
    unsigned wanted = foretold(t, len == 0 || len > LARGEST, AN_IDLE_LINE);
    end(t, done, wanted, out, room, to, "uip_input");
    WANT(done.pending == 0 && done.consumed == (wanted == UIP_OK ? len : 0), "uip_input took %zu of %zu bytes", done.consumed, len);
    return done;
}

uip_result call_slot_datagram(tested *t, unsigned slot, text *to) {
    size_t room = chance(90) ? LARGEST : between(LARGEST, 4000);
    byte *out = begin_call(t, room);
    uip_result done = uip_periodic_datagram(&t->handle, slot, out, room);
    end(t, done, foretold(t, slot >= UIP_SLOTS, AN_IDLE_LINE), out, room, to, "uip_periodic_datagram");
    WANT(done.pending == 0 && done.consumed == 0, "uip_periodic_datagram left a text");
    return done;
}

// A room for a frame: at times too small, with `is_bad` 1.
static size_t frame_room(int is_bad) { return is_bad ? below(UIP_MAX_FRAME) : chance(90) ? UIP_MAX_FRAME : between(UIP_MAX_FRAME, 4000); }

// Begins a call whose area begins with a frame, as far as there is room.
static byte *begin_frame(const tested *t, const byte *frame, size_t len, size_t room) {
    byte *out = begin_call(t, room);
    begins_with(out, frame, len, room);
    return out;
}

static uip_result frame_in(tested *t, const byte *frame, size_t len, size_t room, text *to) {
    byte *out = begin_frame(t, frame, len, room);
    uip_result done = uip_input_frame(&t->handle, out, len, room);
    unsigned wanted = foretold(t, room < UIP_MAX_FRAME || len > room, ETHER);
    end(t, done, wanted, out, room, to, "uip_input_frame");
    t->is_used |= wanted == UIP_OK;
    WANT(done.pending == 0 && done.consumed == (wanted == UIP_OK ? len : 0), "uip_input_frame took %zu of %zu bytes", done.consumed, len);
    return done;
}

uip_result call_frame(tested *t, const byte *frame, size_t len, text *to) {
    size_t room = frame_room(0);
    return frame_in(t, frame, len, room < len ? len : room, to);
}

static uip_result frame_out(tested *t, unsigned slot, size_t room, text *to) {
    byte *out = begin_call(t, room);
    uip_result done = uip_periodic_frame(&t->handle, slot, out, room);
    end(t, done, foretold(t, slot >= UIP_SLOTS || room < UIP_MAX_FRAME, ETHER), out, room, to, "uip_periodic_frame");
    t->is_used |= done.status == UIP_OK;
    WANT(done.pending == 0 && done.consumed == 0, "uip_periodic_frame left a text");
    return done;
}

uip_result call_slot_frame(tested *t, unsigned slot, text *to) { return frame_out(t, slot, frame_room(0), to); }

// A call that has to be refused: with bad words, or while a text is left, or without a device.
void refused_calls(tested *t) {
    static byte none[4096];
    text nowhere = {none, 0};
    int is_idle = t->is_open && !t->has_left && !t->is_ether;
    switch (below(13)) {
    case 0: call_hear(t, none, 0, 2 + below(4000), &nowhere); break;
    case 1: call_hear(t, none, between(1, 100), below(2), &nowhere); break;
    case 2: call_slot(t, chance(50) ? UIP_SLOTS : (unsigned)random_next() | 0x10, is_idle ? 2 : below(4000), &nowhere); break;
    case 3: call_slot(t, below(UIP_SLOTS), below(2), &nowhere); break;
    case 4: call_more(t, below(2), &nowhere); break;
    case 5: call_datagram(t, none, chance(50) ? 0 : LARGEST + 1, &nowhere); break;
    case 6: call_slot_datagram(t, chance(50) ? UIP_SLOTS : (unsigned)random_next() | 0x10, &nowhere); break;
    case 8: refused_words(t); break;
    case 9: frame_in(t, none, chance(50) ? below(100) : UIP_MAX_FRAME, frame_room(1), &nowhere); break;
    case 12: late_protect(t); break;
    case 10: frame_in(t, none, 4001 + (size_t)random_next() % 1000000, frame_room(0), &nowhere); break;
    case 11: frame_out(t, chance(50) ? below(UIP_SLOTS) : UIP_SLOTS + below(9), frame_room(1), &nowhere); break;
    default:
        if (!t->is_open || !t->is_ether) {
            frame_in(t, none, below(UIP_MAX_FRAME), frame_room(0), &nowhere);
            frame_out(t, below(UIP_SLOTS), frame_room(0), &nowhere);
        }
        if (is_idle) break;
        if (t->is_ether) call_more(t, 2 + below(4000), &nowhere);
        call_hear(t, none, between(1, 100), 2 + below(4000), &nowhere);
        call_slot(t, below(UIP_SLOTS), 2 + below(4000), &nowhere);
        call_datagram(t, none, between(1, LARGEST), &nowhere);
        call_slot_datagram(t, below(UIP_SLOTS), &nowhere);
    }
    if (chance(20)) refused_counter(t);
}
