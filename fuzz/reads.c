// The calls of uip.h that send nothing: opening, closing, values and what is read. What each returns is foretold from its arguments and
// from what the handle has, by include/uip.h: a refused call leaves the handle, the area and the heap as they were, and only opening and
// closing use the heap.
// [add: c-call] a call, and the status that is foretold for it
// [add: counter] the numbers that are read, and those that the model does not foretell
#include <string.h>
#include "fuzz.h"

enum { MOST_ROOM = 1 << 20, LOOKED_AT = 256 };

static area image_in, words_in, own_in, mac_in, mask_in, router_in, secret_in, outputs;
static byte before[2 * LOOKED_AT];
static size_t heap_before;
static uip_device handle_before;

void reads_begin(void) {
    image_in = area_new(1 << 20, 1);
    words_in = area_new(1 << 16, 1);
    own_in = area_new(4, 1), mac_in = area_new(6, 1), mask_in = area_new(4, 1), router_in = area_new(4, 1), secret_in = area_new(16, 1);
    outputs = area_new(MOST_ROOM, 0);
}

// The bytes of an area for output that are looked at: its front and its end.
static size_t looked_at(size_t room) { return room < 2 * LOOKED_AT ? room : LOOKED_AT; }

byte *begin_call(const tested *t, size_t room) {
    byte *out = take_room(&outputs, room);
    size_t len = looked_at(room);
    memset(out, (int)below(256), len);
    memcpy(before, out, len);
    if (room > len) memcpy(before + LOOKED_AT, out + room - LOOKED_AT, LOOKED_AT);
    heap_before = heap_calls;
    handle_before = t->handle;
    return out;
}

void is_untouched(const tested *t, const byte *out, size_t room, const char *what) {
    size_t len = looked_at(room);
    WANT(!memcmp(before, out, len), "%s was refused and wrote to the area", what);
    WANT(room == len || !memcmp(before + LOOKED_AT, out + room - LOOKED_AT, LOOKED_AT), "%s was refused and wrote to the area", what);
    WANT(!memcmp(&t->handle, &handle_before, sizeof t->handle), "%s was refused and wrote to the handle", what);
}

// The status that a call answers: its own words go first, then whether there is a device, then its link, then whether a text is left.
unsigned foretold(const tested *t, int is_bad, link_of link) {
    if (is_bad) return UIP_BAD_ARGUMENT;
    if (!t->is_open) return UIP_NO_DEVICE;
    if (link != ANY && (link == ETHER) != t->is_ether) return UIP_WRONG_LINK;
    return link == AN_IDLE_LINE && t->has_left ? UIP_OUTPUT_PENDING : UIP_OK;
}

void heap_was_not_called(const char *what) { WANT(heap_calls == heap_before, "%s called the heap", what); }

void begins_with(byte *out, const byte *bytes, size_t len, size_t room) {
    size_t looked = looked_at(room);
    memcpy(out, bytes, len < room ? len : room);
    memcpy(before, out, looked);
    if (room > looked) memcpy(before + LOOKED_AT, out + room - LOOKED_AT, LOOKED_AT);
}

// Opens a device of its kind; of either kind where there is one already.
static uip_opened opened_by(tested *t, const byte *at, size_t len, const byte *own) {
    const byte *address = put_input(&own_in, own, 4);
#ifndef BOTH    // the library of uip_both.h has one kind
    int is_ether = t->is_open ? chance(50) : t->is_ether;
    if (!is_ether) return uip_open(&t->handle, at, len, address);
#endif
    const byte *mac = put_input(&mac_in, t->mac, 6), *mask = put_input(&mask_in, t->mask, 4);
    return uip_open_ether(&t->handle, at, len, address, mac, mask, put_input(&router_in, t->router, 4));
}

// Opens with an image, of which the first fault is foretold, and with an allocation refused, which is foretold by the heap. The image of
// an open device stays as it is, so each handle has an area for its own, and a call on an open one brings another.
unsigned call_open_site(tested *t, const byte *image, size_t len, const byte *own) {
    unsigned entry;
    const char *word = site_fault(image, len, &entry);
    size_t blocks = heap_blocks;
    (void)begin_call(t, 0);
    heap_refused = 0;
    if (!t->image.len) t->image = area_new(1 << 20, 1);
    const byte *at = put_input(t->is_open ? &image_in : &t->image, image, len);
    uip_opened opened = opened_by(t, at, len, own);
    heap_refuses = 0;
    counts.opens++, counts.calls++;
    unsigned wanted = t->is_open ? UIP_HAS_DEVICE : heap_refused ? UIP_NO_MEMORY : word ? UIP_BAD_IMAGE : UIP_OK;
    WANT(opened.status == wanted, "uip_open answers %u, and %u was foretold", opened.status, wanted);
    counts.refusals += wanted == UIP_NO_MEMORY, counts.bad_images += wanted == UIP_BAD_IMAGE;
    if (wanted == UIP_BAD_IMAGE) {
        byte told[8] = {0};
        memcpy(told, word, strlen(word));
        WANT(!memcmp(opened.word, told, 8) && opened.entry == entry, "uip_open tells %.8s %u of an image, and %s %u was foretold",
             opened.word, opened.entry, word, entry);
    }
    if (wanted == UIP_OK) {
        t->is_open = 1, t->has_left = t->has_secret = t->is_used = 0;
        return wanted;
    }
    WANT(heap_blocks == blocks, "uip_open took memory and opened no device");
    WANT(wanted != UIP_HAS_DEVICE || heap_calls == heap_before, "uip_open called the heap of a handle with a device");
    WANT(!memcmp(&t->handle, &handle_before, sizeof t->handle), "uip_open was refused and wrote to the handle");
    return wanted;
}

void call_close_site(tested *t) {
    (void)begin_call(t, 0);
    unsigned status = uip_close(&t->handle);
    counts.calls++;
    WANT(status == (t->is_open ? UIP_OK : UIP_NO_DEVICE), "uip_close answers %u", status);
    WANT(t->is_open || heap_calls == heap_before, "uip_close called the heap without a device");
    t->is_open = t->has_left = 0;
}

// What calls that neither read nor write an area answer: they leave the heap, and the handle where they were refused or read.
static void told(const tested *t, unsigned status, int is_bad, const char *what) {
    unsigned wanted = foretold(t, is_bad, ANY);
    counts.calls++;
    counts.refused += wanted != UIP_OK;
    WANT(status == wanted, "%s answers %u, and %u was foretold", what, status, wanted);
    WANT(heap_calls == heap_before, "%s called the heap", what);
    WANT(!memcmp(&t->handle, &handle_before, sizeof t->handle), "%s wrote to the handle", what);
}

// It comes too late if there is a secret, or if the device has received a datagram or counted a tick; on Ethernet, a frame or a call of a slot.
static int is_late(tested *t) {
    if (t->has_secret || !t->is_open) return t->is_open;
    return t->is_ether ? t->is_used : uip_ticks(&t->handle).number || uip_counter(&t->handle, UIP_DATAGRAMS_IN).number;
}

void call_protect(tested *t, const byte *bytes) {
    int is_bad = is_late(t);
    (void)begin_call(t, 0);
    unsigned status = uip_protect(&t->handle, put_input(&secret_in, bytes, 16)), wanted = t->is_open ? UIP_OK : UIP_NO_DEVICE;
    if (is_bad) wanted = UIP_BAD_ARGUMENT;
    told(t, status, is_bad, "uip_protect");
    t->has_secret |= wanted == UIP_OK;
}

void late_protect(tested *t) {
    byte bytes[16];
    random_bytes(bytes, 16);
    if (!t->is_open || is_late(t)) call_protect(t, bytes);
}

void call_value(tested *t, unsigned long number, const byte *bytes, size_t len) {
    (void)begin_call(t, 0);
    unsigned status = uip_set_value(&t->handle, number, put_input(&words_in, bytes, len), len);
    told(t, status, number >= UIP_VALUES || len > UIP_MAX_VALUE, "uip_set_value");
}

unsigned call_hits(tested *t, const byte *name, size_t len) {
    (void)begin_call(t, 0);
    uip_number read = uip_hits(&t->handle, put_input(&words_in, name, len), len);
    told(t, read.status, 0, "uip_hits");
    return read.number;
}

int is_kept(byte b) {
    return (b >= 'a' && b <= 'z') || (b >= 'A' && b <= 'Z') || (b >= '0' && b <= '9') || (b && strchr("-_.~%&=+", b));
}

query call_query(tested *t, const byte *name, size_t len, size_t room) {
    byte *out = begin_call(t, room);
    uip_query_text read = uip_query(&t->handle, put_input(&words_in, name, len), len, out, room);
    query got = {.hit = read.hit, .len = read.len};
    told(t, read.status, room < UIP_MAX_QUERY, "uip_query");
    if (read.status != UIP_OK) is_untouched(t, out, room, "uip_query");
    WANT(read.len <= (read.status == UIP_OK ? UIP_MAX_QUERY : 0), "uip_query tells %zu bytes", read.len);
    WANT(read.status == UIP_OK || read.hit == 0, "uip_query was refused and tells a hit");
    for (size_t k = 0; k < read.len; k++) WANT(is_kept(got.bytes[k] = out[k]), "a query has the byte %u", out[k]);
    size_t looked = looked_at(room);
    WANT(read.len > looked || !memcmp(before + read.len, out + read.len, looked - read.len), "uip_query wrote after its text");
    return got;
}

int call_idle(tested *t) {
    (void)begin_call(t, 0);
    uip_number read = uip_is_idle(&t->handle);
    told(t, read.status, 0, "uip_is_idle");
    WANT(read.number <= (unsigned)t->is_open, "uip_is_idle tells %u", read.number);
    return (int)read.number;
}

uip_row call_row(tested *t, unsigned long slot) {
    (void)begin_call(t, 0);
    uip_row row = uip_connection(&t->handle, slot);
    told(t, row.status, slot >= UIP_SLOTS, "uip_connection");
    return row;
}

// These two are refused for their words or without a device; a name that no file has was asked for by nobody.
void refused_words(tested *t) {
    static byte words[1 << 16];
    size_t len = chance(90) ? UIP_MAX_VALUE + 1 + below(40) : between(100, sizeof words);
    random_bytes(words, 128);
    unsigned long no_number = chance(50) ? UIP_VALUES : UIP_VALUES + random_next();
    call_value(t, no_number, words, below(UIP_MAX_VALUE + 1));
    call_value(t, chance(80) ? below(UIP_VALUES) : no_number, words, len);
    (void)call_row(t, chance(50) ? UIP_SLOTS : UIP_SLOTS + random_next());
    words[0] = (byte)below('/');
    WANT(call_hits(t, words, chance(20) ? len : below(70)) == 0, "uip_hits counts what is no name");
    query none = call_query(t, words, below(70), UIP_MAX_QUERY + below(300));
    WANT(none.hit == 0 && none.len == 0, "a query of what is no name");
    (void)call_query(t, words, below(70), below(UIP_MAX_QUERY));
    if (t->is_open) return;
    call_value(t, below(UIP_VALUES), words, below(UIP_MAX_VALUE + 1));
    WANT(call_row(t, below(UIP_SLOTS)).state == UIP_CLOSED && !call_idle(t), "a row without a device");
}

void refused_counter(tested *t) {
    size_t number = chance(50) ? 0 : UIP_COUNTERS + 1 + random_next();
    uip_number read = uip_counter(&t->handle, number);
    WANT(read.status == UIP_BAD_ARGUMENT && read.number == 0, "uip_counter of %zu answers %u", number, read.status);
    counts.calls++;
}

// A counter of a device, which is read at any time.
unsigned numbers_of(tested *t, unsigned number) {
    (void)begin_call(t, 0);
    uip_number read = number ? uip_counter(&t->handle, number) : uip_ticks(&t->handle);
    counts.calls++;
    WANT(heap_calls == heap_before, "a read called the heap");
    WANT(read.status == (t->is_open ? UIP_OK : UIP_NO_DEVICE), "a read answers %u", read.status);
    return read.number;
}

#ifndef BOTH
static void reads_guard(tested *t, const model *least, const model *most) {
    size_t number = chance(90) ? between(1, 2) : chance(50) ? 0 : 3 + random_next();
    int is_bad = number == 0 || number > 2;
    (void)begin_call(t, 0);
    uip_number read = uip_guard_counter(&t->handle, number);
    told(t, read.status, is_bad, "uip_guard_counter");
    if (read.status != UIP_OK) { WANT(read.number == 0, "uip_guard_counter was refused and has %u", read.number); return; }
    unsigned low = least->guard[number], high = most->guard[number];
    WANT(read.number - low <= high - low, "the guard counts %u, and %u to %u was foretold", read.number, low, high);
}
#endif

// Reads the ticks or a counter, which lies between what the model counted before and after what is being heard. 19 and 20 it does not
// count.
void reads(tested *t, const model *least, const model *most) {
#ifndef BOTH    // the library of uip_both.h has no such call
    if (chance(20)) { reads_guard(t, least, most); return; }
#endif
    unsigned number = below(19), told = numbers_of(t, number);
    unsigned low = number ? least->numbers[number] : least->ticks, high = number ? most->numbers[number] : most->ticks;
    if (t->is_open) WANT(told - low <= high - low, "counter %u is %u, and %u to %u was foretold", number, told, low, high);
}
