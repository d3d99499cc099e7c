// Three devices in step. `under test` gets what comes in random cuts, has random rooms, and is called wrongly and read between its
// calls; `whole` gets the same in whole pieces with all room; `by datagrams` gets the frames that the harness itself finds in the
// line. What the three send has to be the same. In a mixed session the first two hear some datagrams outside of the line. A fourth device
// gets the datagrams of the third in Ethernet frames (frames.c).
#include <stdio.h>
#include <string.h>
#include "fuzz.h"

model counted;
static model counted_before;    // before what the device under test hears now
static tested under_test, whole, by_datagrams;
static way how;
static decoder line;
static text said, said_whole, said_by_datagrams;
static byte rooms[3][LONGEST_TEXT];
static FILE *line_file, *said_file;
static unsigned until_tick;
static const site *open_site;
static int is_last, is_given;    // whether the devices hear one event alone; whether a value was given to the first device alone
static unsigned given_number;
static value given;
static secret used;               // that of the devices
static unsigned periodic_calls;   // of each

static size_t random_room(void) {
    unsigned kind = below(100);
    if (kind < 40) return between(2, 12);
    if (kind < 70) return between(2, 200);
    return kind < 90 ? between(2, 3100) : kind < 99 ? UIP_MAX_OUT : between(2, 1 << 20);
}

// Gives the device under test a value; the others get it before they hear anything more.
static void give(void) {
    given_number = below(UIP_VALUES), given = random_value(), is_given = 1;
    call_value(&under_test, given_number, given.bytes, given.len);
    counts.given++;
}

static void give_others(void) {
    if (!is_given) return;
    call_value(&whole, given_number, given.bytes, given.len);
    call_value(&by_datagrams, given_number, given.bytes, given.len);
    frames_give(given_number, &given);
    counts.calls -= 2, counts.others += 2;
    values_given(given_number, &given);
    is_given = 0;
}

// Reads a hit count while an event is being heard: of before or behind it.
static void read_hits(void) {
    byte name[66];
    size_t len = some_name(open_site, name);
    unsigned told = call_hits(&under_test, name, len), low = least_hits(name, len), high = hits_foretold(name, len);
    WANT(told - low <= high - low, "a file was asked for %u times, and %u to %u was foretold", told, low, high);
}

// Hands out what is left of a text in random rooms, with refused calls and reads between them, and with a value where the text is of
// the last event that the others hear too.
static void drain(void) {
    while (under_test.has_left) {
        if (chance(10)) refused_calls(&under_test);
        if (chance(5)) reads(&under_test, &counted_before, &counted);
        if (chance(3)) read_hits();
        if (chance(2)) (void)call_idle(&under_test), (void)call_row(&under_test, below(UIP_SLOTS));
        if (is_last && !is_given && chance(8)) give();
        call_more(&under_test, random_room(), &said);
    }
}

static void hear_in_parts(const byte *bytes, size_t len) {
    for (size_t at = 0; at < len; drain()) {
        size_t part = chance(30) ? 1 : chance(50) ? between(1, 40) : len - at;
        if (part > len - at) part = len - at;
        if (chance(3)) refused_calls(&under_test);
        at += call_hear(&under_test, bytes + at, part, random_room(), &said).consumed;
    }
}

static void hear_whole(const byte *bytes, size_t len) {
    int one_by_one = chance(5);
    for (size_t at = 0; at < len; counts.others++, counts.calls--)
        at += call_hear(&whole, bytes + at, one_by_one ? 1 : len - at, UIP_MAX_OUT, &said_whole).consumed;
}

// What the device by datagrams sent is told to the model and to the clients, and is due on the line as a frame.
static void take_sent(const byte *heard, size_t heard_len, const byte *datagram, size_t len) {
    byte kept[LARGEST];
    if (len == 0) return;
    memcpy(kept, datagram, len);
    model_sends(&counted, kept, len);
    counts.datagrams++, counts.pings += kept[9] == 1;
    requests_see(heard, heard_len, kept, len);
    said_by_datagrams.len += write_frame(said_by_datagrams.bytes + said_by_datagrams.len, kept, len);
    WANT(said_by_datagrams.len + 3100 < LONGEST_TEXT, "the harness has no room for a text");
    heard_back(kept, len, 0);
}

static int is_page_port(unsigned port) { return port == 80; }

static int is_segment(const byte *datagram, size_t len) { return !fault_of(counted.own, datagram, len) && datagram[9] == 6; }

// What the guard sees: the rows of the device by datagrams if it looks at them, and the numbers that follow from what that sent.
static guard_view guard_now(int looks_at_rows) {
    guard_view g = {.secret = used, .has_pages = 1, .is_served = is_page_port};
    memcpy(g.own, counted.own, 4);
    for (unsigned slot = 0; looks_at_rows && slot < UIP_SLOTS; slot++) {
        uip_row row = uip_connection(&by_datagrams.handle, slot);
        held *c = g.slots + slot;
        c->state = row.state, c->port = row.port, c->own_port = 80, c->count = row.count, c->tries = row.tries;
        memcpy(c->peer, row.peer, 4);
        if (row.state != UIP_CLOSED) numbers_are_known(c, (int)row.waiting);
    }
    return g;
}

// A reply to what no connection has: a SYN-ACK has the number of periodic calls, shifted; a RST the number that the segment named.
static void reply_has_number(const guard_view *g, const byte *datagram, const byte *reply, size_t len) {
    segment in, out;
    if (!read_segment(reply, len, &out) || !read_segment(datagram, (size_t)datagram[2] << 8 | datagram[3], &in) || held_by(g, &in)) return;
    unsigned first = periodic_calls + shift_of(&used, g->own, in.source, in.from, in.to);
    unsigned wanted = out.flags & RST ? in.ack : first;
    WANT(out.seq == wanted, "a reply to a stranger has the number %u, and %u was foretold", out.seq, wanted);
}

// What was dropped changes no row, and a connection that is given up makes room for the SYN.
static void is_as_judged(const guard_view *g, judgement by_guard, const byte *datagram, size_t len, size_t sent_len) {
    WANT(by_guard.what != DROPS || !sent_len, "a datagram was answered that the guard drops");
    WANT(by_guard.what != GIVES_UP || sent_len == 44, "a SYN was not answered for which a connection is given up");
    if (by_guard.what == PASSES || !is_segment(datagram, len)) return;
    for (unsigned slot = 0; slot < UIP_SLOTS; slot++) {
        uip_row row = uip_connection(&by_datagrams.handle, slot);
        const held *c = g->slots + slot;
        if (slot == by_guard.slot)
            WANT(row.state == UIP_SYN_RCVD && !memcmp(row.peer, datagram + 12, 4), "slot %u was not given up", slot);
        else
            WANT(row.state == c->state && row.port == c->port && row.tries == c->tries, "the guard changed the row of slot %u", slot);
    }
}

// Text beside the ACK of a FIN is taken, and nothing is sent for it (FIN-WAIT-1 to FIN-WAIT-2).
static void text_with_ack_of_fin(const guard_view *g, const byte *datagram, size_t len) {
    segment in;
    if (!is_segment(datagram, len) || !read_segment(datagram, (size_t)datagram[2] << 8 | datagram[3], &in)) return;
    const held *c = held_by(g, &in);
    if (!c || c->state != UIP_FIN_WAIT_1) return;
    uip_row row = uip_connection(&by_datagrams.handle, (size_t)(c - g->slots));
    if (row.state == UIP_FIN_WAIT_2) takes_silently(c, in.len);
}

static void hear_one(const byte *datagram, size_t len) {
    static byte room[LARGEST];
    text sent = {room, 0};
    guard_view g = guard_now(is_segment(datagram, len));
    judgement by_guard = judge(&g, datagram, len);
    model_judged(&counted, by_guard);
    if (by_guard.what != DROPS) model_hears(&counted, datagram, len);
    counts.dropped += by_guard.what == DROPS, counts.gave_up += by_guard.what == GIVES_UP;
    call_datagram(&by_datagrams, datagram, len, &sent);
    counts.calls--, counts.others++;
    is_as_judged(&g, by_guard, datagram, len, sent.len);
    frames_hear(datagram, len, room, sent.len);
    if (sent.len) reply_has_number(&g, datagram, room, sent.len);
    else text_with_ack_of_fin(&g, datagram, len);
    take_sent(datagram, len, room, sent.len);
}

// Whether a frame is partly fed: a serial device has it in its packet.
static int has_open_frame(void) {
    return line.len > 0;
}

// A call that sends, or that takes or sends datagrams, loses the frame that is partly fed. It is dropped as one that is too long.
static void lose_open_frame(void) {
    if (has_open_frame()) line.is_over = 1;
}

static unsigned hear_frames(const byte *bytes, size_t len) {
    unsigned events = 0;
    for (size_t at = 0; at < len; at++) {
        int ended = decode(&line, bytes[at]);
        events += ended > 0;
        if (ended > 0) hear_one(line.bytes, line.len);
        if (ended < 0) counted.numbers[UIP_OVERLONG_FRAMES]++;
        if (bytes[at] == 0xc0) line.len = 0;
    }
    return events;
}

static void same_text(const text *other, const char *name) {
    size_t at = 0;
    while (at < said.len && at < other->len && said.bytes[at] == other->bytes[at]) at++;
    WANT(at == said.len && at == other->len, "what was sent (%zu bytes) is not what the device %s sent (%zu bytes), from byte %zu on",
         said.len, name, other->len, at);
}

// What is read of all three devices is the same, and as it was foretold.
static void read_all(void) {
    byte name[66];
    size_t len = some_name(open_site, name);
    unsigned told = call_hits(&under_test, name, len), rows = 0;
    WANT(told == hits_foretold(name, len), "a file was asked for %u times, and %u was foretold", told, hits_foretold(name, len));
    WANT(told == call_hits(&whole, name, len) && told == call_hits(&by_datagrams, name, len), "the hits differ");
    query kept = call_query(&under_test, name, len, between(UIP_MAX_QUERY, 300));
    query second = call_query(&whole, name, len, UIP_MAX_QUERY), third_kept = call_query(&by_datagrams, name, len, UIP_MAX_QUERY);
    query wanted = query_foretold(name, len);
    WANT(!memcmp(&kept, &wanted, sizeof kept), "a query of %zu bytes of hit %zu, and one of %zu bytes of hit %zu was foretold", kept.len,
         kept.hit, wanted.len, wanted.hit);
    WANT(!memcmp(&kept, &second, sizeof kept) && !memcmp(&kept, &third_kept, sizeof kept), "the queries differ");
    counts.queries += kept.hit > 0;
    for (unsigned slot = 0; slot < UIP_SLOTS; slot++) {
        uip_row row = call_row(&under_test, slot), other = call_row(&whole, slot), third = call_row(&by_datagrams, slot);
        row_is_foretold(slot, &row);
        rows += row.state != UIP_CLOSED;
        int is_same = row.state == UIP_CLOSED ? other.state == UIP_CLOSED && third.state == UIP_CLOSED
            : !memcmp(&row, &other, sizeof row) && !memcmp(&row, &third, sizeof row);
        WANT(is_same, "the rows of slot %u differ", slot);
    }
    WANT(call_idle(&under_test) == (rows == 0), "a device with %u connections is %sidle", rows, rows ? "" : "not ");
    WANT(call_idle(&whole) == (rows == 0) && call_idle(&by_datagrams) == (rows == 0), "the devices are not idle alike");
    frames_read(&by_datagrams, name, len);
    counts.hits++, counts.rows += rows;
    counts.calls -= 2 * (UIP_SLOTS + 3), counts.others += 2 * (UIP_SLOTS + 3);
}

static void compare(void) {
    counted_before = counted;
    hits_settled();
    give_others();
    same_text(&said_whole, "in whole pieces");
    same_text(&said_by_datagrams, "by datagrams");
    if (said_file) fwrite(said.bytes, 1, said.len, said_file);
    said.len = said_whole.len = said_by_datagrams.len = 0;
    if (chance(2)) {
        // [add: counter] a number that the model does not foretell
        unsigned number = between(19, 20), told = numbers_of(&under_test, number);
        WANT(told == numbers_of(&whole, number) && told == numbers_of(&by_datagrams, number), "counter %u differs", number);
    }
    if (chance(3)) reads(&under_test, &counted_before, &counted);
    if (chance(1)) heap_check();
    if (chance(1)) read_all();
    if (chance(4)) give(), give_others();
}

static void hear_part(const byte *bytes, size_t len) {
    is_last = hear_frames(bytes, len) <= 1;
    hear_in_parts(bytes, len);
    hear_whole(bytes, len);
    compare();
}

static void whole_tick(void) {
    for (unsigned slot = 0; slot < UIP_SLOTS; slot++) devices_tick(slot);
    clients_tick();
}

// Where a session has a pace, each so manieth byte makes a tick.
void devices_hear(const byte *bytes, size_t len) {
    if (line_file) fwrite(bytes, 1, len, line_file);
    for (size_t at = 0; at < len;) {
        size_t part = how.pace && until_tick < len - at ? until_tick : len - at;
        hear_part(bytes + at, part);
        at += part;
        if (how.pace && (until_tick -= (unsigned)part) == 0) whole_tick(), until_tick = how.pace;
    }
}

void devices_hear_datagram(const byte *datagram, size_t len) {
    static byte room[LARGEST];
    byte frame[2 * LARGEST + 2];
    guard_view g = guard_now(is_segment(datagram, len));
    if (line_file && judge(&g, datagram, len).what != PASSES) return;    // uipd has no guard
    if (!how.is_mixed || has_open_frame() || chance(70)) {
        devices_hear(frame, write_frame(frame, datagram, len));
        return;
    }
    text sent = {room, 0}, again = {room, 0};
    hear_one(datagram, len);
    call_datagram(&under_test, datagram, len, &sent);
    said.len += sent.len ? write_frame(said.bytes + said.len, room, sent.len) : 0;
    call_datagram(&whole, datagram, len, &again);
    said_whole.len += again.len ? write_frame(said_whole.bytes + said_whole.len, room, again.len) : 0;
    counts.calls--, counts.others++;
    compare();
}

void forge_one(void) {
    byte datagram[LARGEST];
    guard_view g = guard_now(1);
    size_t len = forge(&g, datagram);
    if (len) devices_hear_datagram(datagram, len);
}

// What a tick of a slot sends goes to the peer of its row, but for a RST, behind which the slot is CLOSED.
static void speaks(unsigned slot, const byte *datagram, size_t len) {
    segment s;
    uip_row row = call_row(&under_test, slot);
    WANT(read_segment(datagram, len, &s), "a tick sent what is no segment");
    if (s.flags & RST) WANT(row.state == UIP_CLOSED, "slot %u is not CLOSED behind a RST", slot);
    else WANT(row.state != UIP_CLOSED && row.port == s.to && !memcmp(row.peer, s.target, 4), "slot %u sent to another peer", slot);
}

void devices_tick(unsigned slot) {
    static byte room[LARGEST], sent_room[LARGEST];
    text sent = {room, 0}, one = {sent_room, 0};
    if (has_open_frame() && !how.may_be_overlong) return;      // a lost frame would be counted in the pages of one device alone
    int was_idle = chance(5) && call_idle(&under_test);
    is_last = 1;
    counted.ticks += slot == 0, periodic_calls++;
    call_slot_datagram(&by_datagrams, slot, &one);
    frames_tick(slot, sent_room, one.len);
    take_sent(0, 0, sent_room, one.len);
    WANT(!was_idle || one.len == 0, "an idle device sent a datagram for a tick");
    if (one.len) lose_open_frame();
    if (how.is_mixed && !has_open_frame() && chance(30)) {
        call_slot_datagram(&under_test, slot, &sent);
        said.len += sent.len ? write_frame(said.bytes + said.len, room, sent.len) : 0;
    } else {
        call_slot(&under_test, slot, random_room(), &said);
        drain();
    }
    call_slot(&whole, slot, UIP_MAX_OUT, &said_whole);
    counts.calls -= 2, counts.others += 2;
    compare();
    if (one.len && chance(30)) speaks(slot, sent_room, one.len);
}

// Bad images, a good one without memory, and a good one; then one more, which the handle refuses.
static void open_under_test(const site *s, const byte *own) {
    static byte damaged[1 << 20];
    for (unsigned k = below(10); k; k--) {
        memcpy(damaged, s->image, s->len);
        call_open_site(&under_test, damaged, damage_image(damaged, s->len), own);
        if (under_test.is_open) call_close_site(&under_test);
    }
    if (chance(50)) {
        heap_refuses = between(1, 9);
        call_open_site(&under_test, s->image, s->len, own);
        if (under_test.is_open) call_close_site(&under_test);
    }
    WANT(heap_blocks == 0, "%zu blocks are kept without a device", heap_blocks);
    if (chance(30)) refused_calls(&under_test);
    call_open_site(&under_test, s->image, s->len, own);
    if (chance(30)) call_open_site(&under_test, damaged, below(100), own);
}

// All have one secret, or none.
static void protect(void) {
    used.is_set = !line_file && chance(70), periodic_calls = 0;
    random_bytes(used.bytes, sizeof used.bytes);
    if (!used.is_set) return;
    call_protect(&under_test, used.bytes), call_protect(&whole, used.bytes), call_protect(&by_datagrams, used.bytes);
    frames_protect(used.bytes);
    if (chance(30)) late_protect(&under_test);
}

void devices_open(const site *s, const byte *own, const way *asked) {
    how = *asked;
    said.bytes = rooms[0], said_whole.bytes = rooms[1], said_by_datagrams.bytes = rooms[2];
    memset(&counted, 0, sizeof counted);
    memcpy(counted.own, own, 4);
    memset(&line, 0, sizeof line);
    until_tick = how.pace;
    open_site = s, is_given = 0;
    values_begin();
    requests_begin(s);
    open_under_test(s, own);
    call_open_site(&whole, s->image, s->len, own);
    call_open_site(&by_datagrams, s->image, s->len, own);
    frames_open(s, own);
    protect();
}

void devices_close(void) {
    if (chance(20)) {
        byte ping[100], frame[300];
        size_t len = write_frame(frame, ping, write_ping(ping, (byte[]){10, 9, 8, 7}, counted.own, 40));
        for (size_t at = 0; at < len && !under_test.has_left;) at += call_hear(&under_test, frame + at, len - at, 2, &said).consumed;
        said.len = 0;
    }
    call_close_site(&under_test);
    if (chance(20)) call_close_site(&under_test);
    for (unsigned k = below(5); k; k--) refused_calls(&under_test);
    call_close_site(&whole);
    call_close_site(&by_datagrams);
    frames_close();
    WANT(heap_blocks == 0, "%zu blocks are kept behind uip_close", heap_blocks);
}

// Records a session for uipd: the image, the line, what was sent, and the words behind SITE.
void record_begin(const char *folder, const site *s, const byte *own, unsigned pace) {
    char path[4096];
    static const char *const names[] = {"site", "words", "line", "said"};
    FILE *files[4];
    for (unsigned k = 0; k < 4; k++) {
        snprintf(path, sizeof path, "%s/%lu.%s", folder, counts.sessions, names[k]);
        files[k] = fopen(path, "wb");
        WANT(files[k], "cannot write %s", path);
    }
    fwrite(s->image, 1, s->len, files[0]);
    fprintf(files[1], "%u.%u.%u.%u pace %u\n", own[0], own[1], own[2], own[3], pace);
    fclose(files[0]), fclose(files[1]);
    line_file = files[2], said_file = files[3];
}

void record_end(void) {
    if (line_file) fclose(line_file), fclose(said_file);
    line_file = said_file = 0;
}
