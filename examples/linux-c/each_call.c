// Makes each call of the library once, successful and refused, and compares its result. The status is 0 if each was as expected.
// It is C99 and C++ alike, as a program of either may use the library.
//
// What an addition to the library needs in its header:
// [add: counter] include/uip.h: a name in enum uip_counter_id, and UIP_COUNTERS
// [add: state] include/uip.h: a name in enum uip_state
// [add: c-call] include/uip.h: a declaration with its comment; here: the call, successful and refused
// [add: c-application] include/uip.h: a call that opens a device with it
#include <stdio.h>
#include <string.h>
#include "uip.h"

#ifdef __cplusplus
extern "C" size_t heap_blocks;
#else
extern size_t heap_blocks;    // of the heap: how many blocks are not freed
#endif

// An echo request from 10.0.0.2 to 10.0.0.1 and its reply (RFC 791, RFC 792), as datagrams and on the line (RFC 1055).
#define REQUEST "E\0\0\x1e\0\0\0\0\x40\1\x66\xdd\x0a\0\0\2\x0a\0\0\1\x08\0\x37\x1c\0\7\0\1"
#define REPLY "E\0\0\x1e\0\0\0\0\x40\1\x66\xdd\x0a\0\0\1\x0a\0\0\2\0\0\x3f\x1c\0\7\0\1"
static const unsigned char request[] = REQUEST "\xc0\xdb", reply[] = REPLY "\xc0\xdb";
static const unsigned char request_text[] = "\xc0" REQUEST "\xdb\xdc\xdb\xdd\xc0", reply_text[] = "\xc0" REPLY "\xdb\xdc\xdb\xdd\xc0";
static const unsigned char image[] = "UIPSITE1\0", own[4] = {10, 0, 0, 1}, secret[16] = {7, 1, 250, 33, 98, 4, 71, 180};
// Frames between 02:00:00:00:00:02, which has 10.0.0.2, and 02:00:00:00:00:01, which has 10.0.0.1 (RFC 894, RFC 826): an ARP request and
// its reply, the echo request and its reply, and the ARP request for 10.0.0.2.
#define PEER "\2\0\0\0\0\2"
#define NODE "\2\0\0\0\0\1"
#define ARP "\x08\6\0\1\x08\0\6\4\0"
#define ALL_HOSTS "\xff\xff\xff\xff\xff\xff"
static const unsigned char mac[6] = {2, 0, 0, 0, 0, 1}, mask[4] = {255, 255, 255, 0}, router[4] = {10, 0, 0, 254};
static const unsigned char arp_request[] = ALL_HOSTS PEER ARP "\1" PEER "\x0a\0\0\2\0\0\0\0\0\0\x0a\0\0\1";
static const unsigned char arp_reply[] = PEER NODE ARP "\2" NODE "\x0a\0\0\1" PEER "\x0a\0\0\2";
static const unsigned char echo_frame[] = NODE PEER "\x08\0" REQUEST "\xc0\xdb", reply_frame[] = PEER NODE "\x08\0" REPLY "\xc0\xdb";
static const unsigned char arp_for_peer[] = ALL_HOSTS NODE ARP "\1" NODE "\x0a\0\0\1\0\0\0\0\0\0\x0a\0\0\2";
// The same with 192.168.7.1 by the router 02:00:00:00:00:09, which has 10.0.0.254: an echo request, the ARP request for the router, its
// reply, and the echo reply.
#define ROUTER "\2\0\0\0\0\x09"
#define FAR_REQUEST "E\0\0\x1c\0\1\0\0\x40\1\xa9\x36\xc0\xa8\7\1\x0a\0\0\1\x08\0\xf7\xfd\0\1\0"
#define FAR_REPLY "E\0\0\x1c\0\1\0\0\x40\1\xa9\x36\x0a\0\0\1\xc0\xa8\7\1\0\0\xff\xfd\0\1\0"
static const unsigned char far_frame[] = NODE ROUTER "\x08\0" FAR_REQUEST "\1", far_reply_frame[] = ROUTER NODE "\x08\0" FAR_REPLY "\1";
static const unsigned char arp_for_router[] = ALL_HOSTS NODE ARP "\1" NODE "\x0a\0\0\1\0\0\0\0\0\0\x0a\0\0\xfe";
static const unsigned char router_reply[] = NODE ROUTER ARP "\2" ROUTER "\x0a\0\0\xfe" NODE "\x0a\0\0\1";
// A page that shows value 3, and one that shows value 4 right after it. A client's SYN, its request of the page, and its acknowledgement of
// what is before the value (RFC 793).
static const unsigned char one_value[] = "UIPSITE1\0\1\x08/v.shtml\0\0\0\x0e" "a=%! value 3\n!";
static const unsigned char two_values[] = "UIPSITE1\0\1\x08/v.shtml\0\0\0\x19" "a=%! value 3\n%! value 4\n!";
#define TCP_OF(LEN, SUM) "E\0\0" LEN "\0\1\0\0\x40\6\x66" SUM "\x0a\0\0\2\x0a\0\0\1\4\1\0\x50\0\0"
static const unsigned char syn[] = TCP_OF("\x28", "\xcd") "\3\xe8\0\0\0\0\x50\2\x20\0\x73\xa7\0";
static const unsigned char get[] = TCP_OF("\x41", "\xb4") "\3\xe9\0\0\0\1\x50\x18\x20\0\x6a\x32\0\0GET /v.shtml HTTP/1.0\r\n\r\n";
static const unsigned char head_ack[] = TCP_OF("\x28", "\xcd") "\4\2\0\0\0\x53\x50\x10\x20\0\x73\x2c\0";
static uip_device device = UIP_INIT;
static unsigned char out[UIP_MAX_OUT];
static int wrong;

// What the inline functions pass to the sink.
typedef struct { unsigned char bytes[UIP_MAX_OUT]; size_t len; } text;

static void keep(void *to, const unsigned char *bytes, size_t len) {
    text *kept = (text *)to;
    memcpy(kept->bytes + kept->len, bytes, len);
    kept->len += len;
}

static void expect(int is_so, const char *what) {
    if (!is_so) printf("WRONG %s\n", what);
    wrong += !is_so;
}

static int is(uip_result done, unsigned status, size_t consumed, size_t written) {
    return done.status == status && done.consumed == consumed && done.written == written;
}

static void without_a_device(void) {
    expect(is(uip_feed(&device, request_text, 34, out, sizeof out), UIP_NO_DEVICE, 0, 0), "uip_feed without a device");
    expect(is(uip_periodic(&device, 0, out, sizeof out), UIP_NO_DEVICE, 0, 0), "uip_periodic without a device");
    expect(is(uip_input(&device, request, 30, out, sizeof out), UIP_NO_DEVICE, 0, 0), "uip_input without a device");
    expect(is(uip_periodic_datagram(&device, 0, out, sizeof out), UIP_NO_DEVICE, 0, 0), "uip_periodic_datagram without a device");
    expect(is(uip_drain(&device, out, sizeof out), UIP_NO_DEVICE, 0, 0), "uip_drain without a device");
    expect(is(uip_input_frame(&device, out, 60, sizeof out), UIP_NO_DEVICE, 0, 0), "uip_input_frame without a device");
    expect(is(uip_periodic_frame(&device, 0, out, sizeof out), UIP_NO_DEVICE, 0, 0), "uip_periodic_frame without a device");
    expect(uip_ticks(&device).status == UIP_NO_DEVICE, "uip_ticks without a device");
    expect(uip_counter(&device, UIP_DATAGRAMS_IN).status == UIP_NO_DEVICE, "uip_counter without a device");
    expect(uip_hits(&device, "/", 1).status == UIP_NO_DEVICE, "uip_hits without a device");
    expect(uip_query(&device, "/", 1, out, sizeof out).status == UIP_NO_DEVICE, "uip_query without a device");
    expect(uip_protect(&device, secret) == UIP_NO_DEVICE, "uip_protect without a device");
    expect(uip_guard_counter(&device, UIP_GUARD_DROPPED).status == UIP_NO_DEVICE, "uip_guard_counter without a device");
    expect(uip_is_idle(&device).status == UIP_NO_DEVICE, "uip_is_idle without a device");
    expect(uip_connection(&device, 0).status == UIP_NO_DEVICE, "uip_connection without a device");
    expect(uip_set_value(&device, 0, "7", 1) == UIP_NO_DEVICE, "uip_set_value without a device");
    expect(uip_close(&device) == UIP_NO_DEVICE, "uip_close without a device");
    expect(uip_feed_all(&device, request_text, 34, out, sizeof out, keep, out) == UIP_NO_DEVICE, "uip_feed_all without a device");
    expect(uip_tick_all(&device, out, sizeof out, keep, out) == UIP_NO_DEVICE, "uip_tick_all without a device");
}

static void opening(void) {
    uip_opened opened = uip_open(&device, (const unsigned char *)"UIPSITE1\0\1\2/", 12, own);
    expect(opened.status == UIP_BAD_IMAGE && opened.entry == 1 && !strcmp(opened.word, "cut"), "uip_open with a bad image");
    expect(heap_blocks == 0, "the heap after a bad image");
    expect(uip_open(&device, image, 10, own).status == UIP_OK, "uip_open");
    size_t blocks = heap_blocks;
    expect(uip_open(&device, image, 10, own).status == UIP_HAS_DEVICE, "uip_open twice");
    expect(uip_open_ether(&device, image, 10, own, mac, mask, router).status == UIP_HAS_DEVICE, "uip_open_ether after uip_open");
    expect(uip_protect(&device, secret) == UIP_OK, "uip_protect");
    expect(uip_protect(&device, secret) == UIP_BAD_ARGUMENT, "uip_protect twice");
    expect(blocks > 0 && heap_blocks == blocks, "the heap while a device is open");
}

static void bad_calls(void) {
    expect(is(uip_feed(&device, request_text, 34, out, UIP_MIN_OUT - 1), UIP_BAD_ARGUMENT, 0, 0), "uip_feed with too little room");
    expect(is(uip_feed(&device, request_text, 0, out, sizeof out), UIP_BAD_ARGUMENT, 0, 0), "uip_feed with no bytes");
    expect(is(uip_periodic(&device, 10, out, sizeof out), UIP_BAD_ARGUMENT, 0, 0), "uip_periodic of slot 10");
    expect(is(uip_input(&device, request, UIP_MAX_DATAGRAM + 1, out, sizeof out), UIP_BAD_ARGUMENT, 0, 0), "uip_input, long");
    expect(is(uip_periodic_datagram(&device, 0, out, UIP_MAX_DATAGRAM - 1), UIP_BAD_ARGUMENT, 0, 0), "uip_periodic_datagram with too little room");
    expect(is(uip_input_frame(&device, out, 60, sizeof out), UIP_WRONG_LINK, 0, 0), "uip_input_frame on a line");
    expect(is(uip_periodic_frame(&device, 0, out, sizeof out), UIP_WRONG_LINK, 0, 0), "uip_periodic_frame on a line");
    expect(uip_counter(&device, 0).status == UIP_BAD_ARGUMENT && uip_counter(&device, 21).status == UIP_BAD_ARGUMENT, "uip_counter of none");
    expect(uip_guard_counter(&device, 0).status == UIP_BAD_ARGUMENT && uip_guard_counter(&device, 3).status == UIP_BAD_ARGUMENT,
           "uip_guard_counter of none");
    expect(uip_connection(&device, UIP_SLOTS).status == UIP_BAD_ARGUMENT, "uip_connection of slot 10");
    expect(uip_query(&device, "/", 1, out, UIP_MAX_QUERY - 1).status == UIP_BAD_ARGUMENT, "uip_query with too little room");
    expect(uip_set_value(&device, UIP_VALUES, "7", 1) == UIP_BAD_ARGUMENT, "uip_set_value of no number");
    expect(uip_set_value(&device, 0, out, UIP_MAX_VALUE + 1) == UIP_BAD_ARGUMENT, "uip_set_value, long");
    expect(uip_feed_all(&device, request_text, 34, out, 1, keep, out) == UIP_BAD_ARGUMENT, "uip_feed_all with too little room");
}

static void successful_calls(void) {
    expect(is(uip_feed(&device, request_text, 34, out, sizeof out), UIP_OK, 34, 34) && !memcmp(out, reply_text, 34), "uip_feed");
    for (size_t slot = 0; slot < UIP_SLOTS; slot++) expect(is(uip_periodic(&device, slot, out, sizeof out), UIP_OK, 0, 0), "uip_periodic");
    uip_result whole = uip_input(&device, request, 30, out, UIP_MAX_DATAGRAM);
    expect(is(whole, UIP_OK, 30, 30) && !memcmp(out, reply, 30), "uip_input");
    expect(is(uip_periodic_datagram(&device, 0, out, UIP_MAX_DATAGRAM), UIP_OK, 0, 0), "uip_periodic_datagram");
    unsigned before = uip_ticks(&device).number;
    expect(uip_tick_datagrams(&device, out, UIP_MAX_DATAGRAM, keep, 0) == UIP_OK, "uip_tick_datagrams");
    expect(uip_ticks(&device).number == before + 1, "uip_tick_datagrams makes one tick");
    expect(uip_tick_datagrams(&device, out, UIP_MAX_DATAGRAM - 1, keep, 0) == UIP_BAD_ARGUMENT, "uip_tick_datagrams with too little room");
    expect(uip_tick_frames(&device, out, sizeof out, keep, 0) == UIP_WRONG_LINK, "uip_tick_frames on a device without Ethernet");
    uip_result part = uip_feed(&device, request_text, 34, out, 20);
    expect(part.status == UIP_OK && part.pending == 1 && part.consumed == 34 && part.written == 19, "uip_feed with little room");
    expect(is(uip_feed(&device, request_text, 34, out + 19, 15), UIP_OUTPUT_PENDING, 0, 0), "uip_feed while output is pending");
    expect(is(uip_periodic(&device, 0, out + 19, 15), UIP_OUTPUT_PENDING, 0, 0), "uip_periodic while output is pending");
    expect(uip_set_value(&device, UIP_VALUES - 1, out, UIP_MAX_VALUE) == UIP_OK, "uip_set_value while output is pending");
    expect(uip_set_value(&device, 0, "", 0) == UIP_OK, "uip_set_value, empty");
    part = uip_drain(&device, out + 19, 15);
    expect(is(part, UIP_OK, 0, 15) && part.pending == 0 && !memcmp(out, reply_text, 34), "uip_drain");
    uip_number ticks = uip_ticks(&device), replies = uip_counter(&device, UIP_ECHO_REPLIES_OUT);
    expect(ticks.status == UIP_OK && ticks.number == 3, "uip_ticks");
    expect(replies.status == UIP_OK && replies.number == 3, "uip_counter");
    uip_number dropped = uip_guard_counter(&device, UIP_GUARD_DROPPED), gave_up = uip_guard_counter(&device, UIP_GUARD_GAVE_UP);
    expect(dropped.status == UIP_OK && dropped.number == 0 && gave_up.status == UIP_OK && gave_up.number == 0, "uip_guard_counter");
    uip_number idle = uip_is_idle(&device);
    expect(idle.status == UIP_OK && idle.number == 1, "uip_is_idle");
    uip_row row = uip_connection(&device, UIP_SLOTS - 1);
    expect(row.status == UIP_OK && row.state == UIP_CLOSED, "uip_connection");
    uip_number hits = uip_hits(&device, "/lamp-on.html", 13);
    expect(hits.status == UIP_OK && hits.number == 0, "uip_hits of no file");
    uip_query_text query = uip_query(&device, "/set.html", 9, out, UIP_MAX_QUERY);
    expect(query.status == UIP_OK && query.hit == 0 && query.len == 0, "uip_query of no file");
}

// Two requests in turn on the line, in the least room.
static void whole_lines(void) {
    static text kept;
    unsigned char line[68];
    memcpy(line, request_text, 34);
    memcpy(line + 34, request_text, 34);
    expect(uip_feed_all(&device, line, 68, out, UIP_MIN_OUT, keep, &kept) == UIP_OK, "uip_feed_all");
    expect(kept.len == 68, "how much uip_feed_all passed to the sink");
    expect(!memcmp(kept.bytes, reply_text, 34) && !memcmp(kept.bytes + 34, reply_text, 34), "what uip_feed_all passed to the sink");
    unsigned before = uip_ticks(&device).number;
    expect(uip_tick_all(&device, out, UIP_MIN_OUT, keep, &kept) == UIP_OK && kept.len == 68, "uip_tick_all");
    expect(uip_ticks(&device).number == before + 1, "uip_tick_all makes one tick");
}

static void opening_on_ethernet(void) {
    uip_opened opened = uip_open_ether(&device, (const unsigned char *)"UIPSITE1\0\1\2/", 12, own, mac, mask, router);
    expect(opened.status == UIP_BAD_IMAGE && opened.entry == 1 && !strcmp(opened.word, "cut"), "uip_open_ether with a bad image");
    expect(heap_blocks == 0 && device.is_open == 0, "the heap after a bad image on Ethernet");
    opened = uip_open_ether(&device, image, 10, own, mac, mask, router);
    expect(opened.status == UIP_OK && opened.entry == 0 && device.is_open == 2, "uip_open_ether");
    expect(uip_open_ether(&device, image, 10, own, mac, mask, router).status == UIP_HAS_DEVICE, "uip_open_ether twice");
    expect(uip_open(&device, image, 10, own).status == UIP_HAS_DEVICE, "uip_open after uip_open_ether");
    expect(uip_protect(&device, secret) == UIP_OK, "uip_protect on Ethernet");
}

static void bad_calls_on_ethernet(void) {
    expect(is(uip_input_frame(&device, out, 60, UIP_MAX_FRAME - 1), UIP_BAD_ARGUMENT, 0, 0), "uip_input_frame with too little room");
    expect(is(uip_input_frame(&device, out, UIP_MAX_FRAME + 1, UIP_MAX_FRAME), UIP_BAD_ARGUMENT, 0, 0), "uip_input_frame, too long");
    expect(is(uip_input_frame(&device, out, UIP_MAX_FRAME, 60), UIP_BAD_ARGUMENT, 0, 0), "uip_input_frame, len and room exchanged");
    expect(is(uip_periodic_frame(&device, UIP_SLOTS, out, sizeof out), UIP_BAD_ARGUMENT, 0, 0), "uip_periodic_frame of slot 10");
    expect(is(uip_periodic_frame(&device, 0, out, UIP_MAX_FRAME - 1), UIP_BAD_ARGUMENT, 0, 0), "uip_periodic_frame with too little room");
    expect(is(uip_feed(&device, request_text, 34, out, sizeof out), UIP_WRONG_LINK, 0, 0), "uip_feed on Ethernet");
    expect(is(uip_periodic(&device, 0, out, sizeof out), UIP_WRONG_LINK, 0, 0), "uip_periodic on Ethernet");
    expect(is(uip_drain(&device, out, sizeof out), UIP_WRONG_LINK, 0, 0), "uip_drain on Ethernet");
    expect(is(uip_input(&device, request, 30, out, sizeof out), UIP_WRONG_LINK, 0, 0), "uip_input on Ethernet");
    expect(is(uip_periodic_datagram(&device, 0, out, sizeof out), UIP_WRONG_LINK, 0, 0), "uip_periodic_datagram on Ethernet");
    expect(uip_feed_all(&device, request_text, 34, out, sizeof out, keep, out) == UIP_WRONG_LINK, "uip_feed_all on Ethernet");
    expect(uip_tick_all(&device, out, sizeof out, keep, out) == UIP_WRONG_LINK, "uip_tick_all on Ethernet");
    expect(uip_tick_datagrams(&device, out, sizeof out, keep, 0) == UIP_WRONG_LINK, "uip_tick_datagrams on Ethernet");
    unsigned ticks = uip_ticks(&device).number;
    expect(uip_tick_frames(&device, out, sizeof out, keep, 0) == UIP_OK, "uip_tick_frames");
    expect(uip_ticks(&device).number == ticks + 1, "uip_tick_frames makes one tick");
    expect(uip_tick_frames(&device, out, UIP_MAX_FRAME - 1, keep, 0) == UIP_BAD_ARGUMENT, "uip_tick_frames with too little room");
}

// Passes a frame to the device, and compares what it sends.
static void exchange(const unsigned char *sent, size_t len, const unsigned char *expected, size_t expected_len, const char *what) {
    memcpy(out, sent, len);
    uip_result done = uip_input_frame(&device, out, len, UIP_MAX_FRAME);
    expect(is(done, UIP_OK, len, expected_len) && done.pending == 0 && !memcmp(out, expected, expected_len), what);
}

static void successful_calls_on_ethernet(void) {
    exchange(echo_frame, 44, arp_for_peer, 42, "uip_input_frame, from an address that is not known");
    exchange(arp_request, 42, arp_reply, 42, "uip_input_frame, an ARP request");
    exchange(echo_frame, 44, reply_frame, 44, "uip_input_frame, an echo request");
    exchange(far_frame, 42, arp_for_router, 42, "uip_input_frame, from another network");
    exchange(router_reply, 42, router_reply, 0, "uip_input_frame, the reply of the router");
    exchange(far_frame, 42, far_reply_frame, 42, "uip_input_frame, an echo request by the router");
    exchange(echo_frame, 13, echo_frame, 0, "uip_input_frame, a short frame");
    exchange(echo_frame, 0, echo_frame, 0, "uip_input_frame, no bytes");
    exchange(reply_frame, 44, reply_frame, 0, "uip_input_frame, for another host");
    unsigned before = uip_ticks(&device).number;
    for (size_t slot = 0; slot < UIP_SLOTS; slot++) {
        expect(is(uip_periodic_frame(&device, slot, out, UIP_MAX_FRAME), UIP_OK, 0, 0), "uip_periodic_frame");
    }
    uip_number ticks = uip_ticks(&device), replies = uip_counter(&device, UIP_ECHO_REPLIES_OUT), idle = uip_is_idle(&device);
    expect(ticks.status == UIP_OK && ticks.number == before + 1, "uip_ticks on Ethernet");
    expect(replies.status == UIP_OK && replies.number == 4, "uip_counter on Ethernet");
    expect(idle.status == UIP_OK && idle.number == 1, "uip_is_idle on Ethernet");
    expect(uip_protect(&device, secret) == UIP_BAD_ARGUMENT, "uip_protect too late");
    expect(uip_guard_counter(&device, UIP_GUARD_DROPPED).status == UIP_OK, "uip_guard_counter on Ethernet");
    uip_row row = uip_connection(&device, 0);
    expect(row.status == UIP_OK && row.state == UIP_CLOSED, "uip_connection on Ethernet");
    uip_number hits = uip_hits(&device, "/lamp-on.html", 13);
    expect(hits.status == UIP_OK && hits.number == 0, "uip_hits on Ethernet");
    expect(uip_set_value(&device, 3, "21 C", 4) == UIP_OK, "uip_set_value on Ethernet");
}

static void on_ethernet(void) {
    opening_on_ethernet();
    size_t blocks = heap_blocks;
    bad_calls_on_ethernet();
    successful_calls_on_ethernet();
    expect(blocks > 0 && heap_blocks == blocks, "the heap while a device on Ethernet is open");
    expect(uip_close(&device) == UIP_OK && heap_blocks == 0 && device.is_open == 0, "uip_close on Ethernet");
}

// A page is requested while its values are empty. An empty value is passed over at once if text follows it (docs/PAGES.md), else at the
// next tick.
static void empty_values(const unsigned char *site, size_t len, size_t at_once, size_t at_tick) {
    expect(uip_open(&device, site, len, own).status == UIP_OK, "uip_open with a value");
    expect(is(uip_input(&device, syn, 40, out, sizeof out), UIP_OK, 40, 44), "a SYN");
    expect(is(uip_input(&device, get, 65, out, sizeof out), UIP_OK, 65, 122), "a request of a page with an empty value");
    expect(is(uip_input(&device, head_ack, 40, out, sizeof out), UIP_OK, 40, at_once), "what follows an empty value");
    if (!at_once) expect(is(uip_periodic_datagram(&device, 0, out, sizeof out), UIP_OK, 0, at_tick), "what follows two empty values");
    expect(out[40] == '!', "the text after an empty value");
    expect(uip_close(&device) == UIP_OK && heap_blocks == 0, "uip_close with a value");
}

int main(void) {
    without_a_device();
    opening();
    bad_calls();
    successful_calls();
    whole_lines();
    expect(uip_close(&device) == UIP_OK && heap_blocks == 0 && uip_close(&device) == UIP_NO_DEVICE, "uip_close");
    on_ethernet();
    empty_values(one_value, sizeof one_value - 1, 41, 0);
    empty_values(two_values, sizeof two_values - 1, 0, 41);
    expect(uip_open(&device, image, 10, own).status == UIP_OK, "uip_open again");
    expect(uip_close(&device) == UIP_OK && heap_blocks == 0, "uip_close again");
    if (!wrong) puts("each call has the expected result");
    return wrong != 0;
}
