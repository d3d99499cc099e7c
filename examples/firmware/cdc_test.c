/*
 * A test of port_cdc.c with a fake USB device, and with a host that takes packets, or does not. On x86-64 with Linux an interrupt also
 * comes after each single instruction. The test prints nothing and returns 0 if all is as it should be.
 *
 * SPDX-License-Identifier: MIT OR Apache-2.0
 * Copyright 2026 The Lowunbisa authors
 */
#define _DEFAULT_SOURCE                        /* else a handler of glibc runs once */
#include <signal.h>
#include <stdio.h>
#include <string.h>
#include "../../support/step.h"
#include "port.h"
#include "port_cdc.h"

static int is_right = 1;
static unsigned now;                           /* the time in milliseconds */

static const unsigned char *lent;              /* what waits for the host, if is_begun */
static size_t lent_len;
static int is_begun;
static volatile int is_in_stack;               /* the stack holds its interrupts back */
static int takes_at_once;                      /* the host takes a packet before cdc_send returns */
static unsigned aborts, begins;
static unsigned char came[2048];               /* what the host has taken, and in which packets */
static size_t came_len, packets, packet_lens[64];

static int is_armed = 1;                       /* at configuration the stack arms the OUT endpoint */
static unsigned arms;
static const char *next_packet;                /* it arrives before cdc_receive returns, if it is not NULL */
static int opens_next;                         /* and after it the host closes the port, and opens it again */

static void expect(int is_so, const char *what) {
    if (!is_so) printf("port_cdc.c: %s\n", what);
    is_right &= is_so;
}

/* The host takes what waits for it. */
static void host_takes(void) {
    expect(is_begun, "nothing waits for the host");
    if (!is_begun || packets == 64 || came_len + lent_len > sizeof came) return;
    memcpy(came + came_len, lent, lent_len);
    came_len += lent_len;
    packet_lens[packets++] = lent_len;
    is_begun = 0;
    on_cdc_sent();
}

/* The host sends a packet. Returns 0 if the endpoint refuses it (NAK). */
static int host_sends(const char *text) {
    unsigned char once[CDC_PACKET];
    if (!is_armed) return 0;
    is_armed = 0;
    memcpy(once, text, strlen(text));
    on_cdc_received(once, strlen(text));
    memset(once, '?', sizeof once);            /* the stack uses its area again */
    return 1;
}

void cdc_send(const unsigned char *bytes, size_t len) {
    is_in_stack++;
    expect(!is_begun, "two packets at one time");
    expect(len <= CDC_SEND, "a packet is too long");
    lent = bytes;
    lent_len = len;
    is_begun = 1;
    begins++;
    if (takes_at_once) host_takes();
    is_in_stack--;
}

void cdc_abort(void) {
    is_in_stack++;
    is_begun = 0;
    aborts++;
    is_in_stack--;
}

void cdc_receive(void) {
    const char *text = next_packet;
    is_in_stack++;
    expect(!is_armed, "the endpoint is armed twice");
    is_armed = 1;
    arms++;
    next_packet = NULL;
    if (text) host_sends(text);
    if (text && opens_next) {
        on_cdc_opened(0);
        on_cdc_opened(1);
    }
    is_in_stack--;
}

/* Whether read_serial returns these bytes, and then no more. */
static int is_read(size_t room, const char *bytes, size_t len) {
    unsigned char got[300];
    size_t count = 0, more;
    while (count + room <= sizeof got && (more = read_serial(got + count, room)) > 0) count += more;
    return count == len && memcmp(got, bytes, len) == 0;
}

static void clear_host(void) {
    came_len = packets = 0;
    aborts = begins = 0;
}

/* A reset, and then a host opens the port, which read_serial reports. */
static void start(void) {
    unsigned char got[64];
    on_cdc_reset();
    cdc_work(now);
    while (read_serial(got, sizeof got) > 0) continue;
    is_begun = 0;
    is_armed = 1;
    takes_at_once = 0;
    on_cdc_opened(1);
    expect(is_read(64, "\xC0", 1), "no END after the host has opened");
    clear_host();
}

static void test_closed(void) {
    static const unsigned char bytes[100];
    unsigned before;
    on_cdc_opened(0);
    expect(is_read(64, "", 0), "bytes before the host has opened");
    before = events;
    dma_send(bytes, sizeof bytes);
    expect(!dma_is_busy() && begins == 0, "a piece begins while the port is closed");
    cdc_work(now);
    expect(!dma_is_busy() && begins == 0 && aborts == 0, "the port works while it is closed");
    expect(host_sends("a") && is_read(64, "a", 1), "a host that does not open");
    expect(events == before + 1 && bytes_received == 1, "a packet does not wake the loop");
    on_cdc_opened(1);
    expect(events == before + 2, "an opening does not wake the loop");
    expect(is_read(64, "\xC0", 1), "no END after the first opening");
    on_cdc_opened(1);
    expect(is_read(64, "", 0), "an END although the port was open");
    dma_send(bytes, sizeof bytes);
    expect(dma_is_busy() && begins == 1, "a piece does not begin after the opening");
    before = events;
    on_cdc_opened(1);                          /* RTS has changed */
    cdc_work(now);
    expect(dma_is_busy() && aborts == 0, "a change of RTS ends a piece");
    on_cdc_opened(0);
    expect(events == before + 2, "a closing does not wake the loop");
    expect(dma_is_busy(), "not busy before the abort");
    cdc_work(now);
    expect(!dma_is_busy() && aborts == 1 && !is_begun, "a piece does not end with the closing");
}

static void test_receive(void) {
    char text[CDC_PACKET + 1];
    unsigned before;
    size_t k;
    start();
    for (k = 0; k < CDC_PACKET; k++) text[k] = (char)('A' + k % 26);
    text[CDC_PACKET] = 0;
    before = arms;
    expect(host_sends(text), "a full packet is refused");
    expect(!host_sends("x"), "no NAK while a packet waits");
    expect(is_read(7, text, CDC_PACKET) && arms == before + 1, "the endpoint is not armed after the last byte");
    expect(host_sends(text) && is_read(7, text, CDC_PACKET), "parts of a packet");
    expect(host_sends(text) && is_read(64, text, CDC_PACKET), "a whole packet");
    expect(host_sends("abc"), "a packet after one that was read whole");
    next_packet = "defg";
    expect(is_read(2, "abcdefg", 7), "a packet that arrives at once");
    before = arms;
    expect(host_sends("") && is_read(64, "", 0) && arms == before + 1, "after an empty packet the endpoint is not armed");
    expect(host_sends("h") && is_read(1, "h", 1), "a packet after an empty one");
}

/* Nothing is armed while one byte is left, and a read that fills `room` with the last byte arms. */
static void test_nak(void) {
    unsigned char got[64];
    unsigned before;
    start();
    before = arms;
    host_sends("abcd");
    expect(read_serial(got, 3) == 3 && arms == before && !host_sends("x"), "no NAK while a byte waits");
    expect(read_serial(got, 1) == 1 && got[0] == 'd' && arms == before + 1, "the last byte does not arm");
    expect(read_serial(got, 64) == 0 && arms == before + 1, "an empty read arms");
}

/* Bytes of the earlier opening, END, bytes of the new one. */
static void test_end(void) {
    unsigned char got[64];
    start();
    host_sends("abc");
    expect(read_serial(got, 1) == 1, "one byte");
    on_cdc_opened(0);
    on_cdc_opened(1);
    next_packet = "de";
    expect(is_read(64, "bc\xC0" "de", 5), "END between two openings");
    host_sends("f");
    next_packet = "g";                         /* it arrives while read_serial runs, and then a host opens again */
    opens_next = 1;
    expect(is_read(64, "fg\xC0", 3), "an opening while read_serial runs");
    opens_next = 0;
    on_cdc_opened(0);
    on_cdc_opened(1);
    host_sends("h");
    expect(read_serial(got, 1) == 1 && got[0] == 0xC0, "END alone");
    expect(is_read(1, "h", 1), "a byte after END");
    host_sends("ij");
    on_cdc_opened(0);
    on_cdc_opened(1);
    got[2] = 0;
    expect(read_serial(got, 2) == 2 && got[2] == 0, "an END that has no room");
    expect(is_read(1, "\xC0", 1), "an END that had no room");
}

/* A packet that is longer than CDC_PACKET is a fault of the stack. It is cut. */
static void test_overlong(void) {
    static unsigned char bytes[CDC_PACKET + 9];
    start();
    on_cdc_received(bytes, sizeof bytes);
    is_armed = 0;
    expect(is_read(CDC_PACKET + 9, (const char *)bytes, CDC_PACKET), "a packet that is too long");
}

/* A piece of `len` bytes: its packets, of which the last is shorter than the others. */
static void send_piece(size_t len) {
    static unsigned char bytes[256];
    unsigned passes = 0;
    size_t k;
    clear_host();
    for (k = 0; k < len; k++) bytes[k] = (unsigned char)(k * 7 + len);
    dma_send(bytes, len);
    for (; dma_is_busy() && passes < 20; passes++) {
        unsigned before = events;
        if (!takes_at_once) host_takes();
        expect(takes_at_once || events == before + 1, "a packet that was taken does not wake the loop");
        cdc_work(now);
    }
    expect(!dma_is_busy() && !is_begun && aborts == 0, "a piece does not end");
    expect(packets == len / CDC_PACKET + 1 && begins == packets, "another number of packets");
    expect(came_len == len && memcmp(came, bytes, len) == 0, "the host has other bytes than the piece");
    for (k = 0; k < packets; k++) expect(packet_lens[k] == (k + 1 < packets ? CDC_PACKET : len % CDC_PACKET), "a packet of another length");
}

static void test_send(void) {
    static const size_t lens[] = {1, 63, 64, 65, 128, 255, 256};
    size_t k;
    start();
    for (k = 0; k < sizeof lens / sizeof *lens; k++) send_piece(lens[k]);
    takes_at_once = 1;
    for (k = 0; k < sizeof lens / sizeof *lens; k++) send_piece(lens[k]);
    takes_at_once = 0;
}

static void work_until(unsigned time) {
    for (; now != time; now++) cdc_work(now);
}

static void test_timeout(void) {
    static const unsigned char bytes[256] = {1, 2, 3};
    unsigned before;
    start();
    now = 0xFFFFFF00u;                         /* the time passes 2^32 */
    dma_send(bytes, sizeof bytes);
    cdc_work(now);
    work_until(now + 199);
    expect(dma_is_busy() && aborts == 0, "given up too early");
    host_takes();                              /* the first packet: the time begins again */
    cdc_work(now);
    work_until(now + 199);
    expect(dma_is_busy() && aborts == 0 && begins == 2, "given up although the host takes packets");
    work_until(now + 3);
    expect(!dma_is_busy() && aborts == 1, "not given up after 0.2 s");
    expect(is_begun && lent_len == 1 && lent[0] == 0xC0 && lent != bytes, "no END waits for the host");
    dma_send(bytes, sizeof bytes);
    work_until(now + 1000);
    expect(!dma_is_busy() && aborts == 1 && begins == 3, "a piece is not dropped while the host takes nothing");
    before = events;
    host_takes();                              /* the host comes back */
    expect(events == before + 1, "the host that comes back does not wake the loop");
    cdc_work(now);
    expect(!dma_is_busy() && begins == 3, "more than END for the host that comes back");
    send_piece(256);
    dma_send(bytes, sizeof bytes);             /* the loop is late, and not the host */
    now += 5000;
    cdc_work(now);
    expect(dma_is_busy() && aborts == 0, "given up since the loop was late");
    host_takes();
    now += 5000;
    cdc_work(now);
    expect(dma_is_busy() && aborts == 0, "given up although the host has taken a packet");
}

/* In the middle of a piece, and while pieces are dropped. */
static void test_reset(void) {
    static const unsigned char bytes[256] = {4, 5, 6};
    start();
    dma_send(bytes, sizeof bytes);
    host_takes();
    cdc_work(now);
    on_cdc_reset();
    is_begun = 0;                              /* the reset ends what was under way */
    cdc_work(now);
    expect(!dma_is_busy() && begins == 2, "a piece continues after a reset");
    dma_send(bytes, sizeof bytes);
    expect(!dma_is_busy() && begins == 2, "a piece begins after a reset");
    start();
    send_piece(65);
    dma_send(bytes, sizeof bytes);             /* a reset and an opening that the loop sees at one time */
    on_cdc_reset();
    is_begun = 0;
    on_cdc_opened(1);
    cdc_work(now);
    expect(!dma_is_busy() && begins == packets + 1, "a piece of the earlier opening continues");
    send_piece(64);
    dma_send(bytes, sizeof bytes);
    cdc_work(now);
    work_until(now + 300);
    expect(!dma_is_busy() && is_begun, "not given up");
    on_cdc_reset();
    is_begun = 0;
    cdc_work(now);
    on_cdc_opened(1);
    send_piece(63);
}

/* A packet that comes after a reset, while an earlier one waits, is lost. The endpoint is armed again. */
static void test_reset_receive(void) {
    start();
    host_sends("abc");
    on_cdc_reset();
    is_armed = 1;
    host_sends("x");
    expect(is_read(64, "abc", 3), "the packet before a reset");
    expect(host_sends("d") && is_read(64, "d", 1), "a packet after the one that was lost");
}

/* ---- An interrupt, or another task, after each single instruction ---- */

static void (*interrupt)(void);                /* it has not come yet */
static volatile unsigned left;                 /* after this number of instructions */
static char stream[16];                        /* what read_serial has returned */
static size_t stream_len;
static unsigned char piece[65];

static void on_instruction(int number) {
    void (*it)(void) = interrupt;
    (void)number;
    if (left > 0) left--;
    if (left > 0 || !it || is_in_stack) return;
    interrupt = NULL;
    it();
}

static void trace(int is_on) {
#if defined(__x86_64__) && defined(__linux__)
    if (is_on) __asm__ volatile("lea -128(%%rsp), %%rsp; pushfq; orl $0x100, (%%rsp); popfq; lea 128(%%rsp), %%rsp" ::: "memory", "cc");
    else __asm__ volatile("lea -128(%%rsp), %%rsp; pushfq; andl $0xFFFFFEFF, (%%rsp); popfq; lea 128(%%rsp), %%rsp" ::: "memory", "cc");
#else
    (void)is_on;
#endif
}

/* Runs `code` again and again. In each run `it` comes one instruction later. `before` and `after` prepare and look. */
static void in_each_place(void before(void), void code(void), void it(void), void after(void)) {
    unsigned place;
    for (place = 1; interrupt == NULL; place++) {
        start();
        stream_len = 0;
        before();
        left = place;
        interrupt = it;
        trace(1);
        code();
        trace(0);
        after();
    }
    interrupt = NULL;
}

static void nothing(void) {}
static void read_all(void) { stream_len += read_serial((unsigned char *)stream + stream_len, sizeof stream - stream_len); }

/* The stream is this one. If the interrupt has not come, it came too late for the code, and nothing is to be seen. */
static void look(const char *text) {
    size_t len = strlen(text);
    if (interrupt) return;
    read_all();
    read_all();
    if (host_sends("z")) read_all();
    expect(stream_len == len + 1 && memcmp(stream, text, len) == 0 && stream[len] == 'z', text);
}

static void reopen(void) {
    on_cdc_opened(0);
    on_cdc_opened(1);
}

static void packet_waits(void) { host_sends("ab"); }
static void packet_and_reopen(void) { host_sends("c"), reopen(); }
static void reopen_and_packet(void) { reopen(), host_sends("d"); }
static void look_reopened(void) { look("ab\xC0"); }
static void look_packet_first(void) { look("c\xC0"); }
static void look_packet_last(void) { look("\xC0" "d"); }
static void look_packet(void) { look("ab"); }

static void test_read_places(void) {
    in_each_place(packet_waits, read_all, reopen, look_reopened);
    in_each_place(nothing, read_all, packet_and_reopen, look_packet_first);
    in_each_place(nothing, read_all, reopen_and_packet, look_packet_last);
    in_each_place(nothing, packet_waits, read_all, look_packet);    /* the loop preempts the task of USB */
}

static void send_one(void) { dma_send(piece, sizeof piece); }

static void work_once(void) { cdc_work(now); }
static void taken_if_begun(void) { if (is_begun) host_takes(); }
static void send_and_work(void) { send_one(), work_once(), work_once(); }
static void open_only(void) { on_cdc_opened(1); }

static void closed_before(void) {
    on_cdc_opened(0);
    work_once();
}

static void sent_late(void) {
    send_one();
    work_once();
    now += 200;
}

static void host_takes_all(void) {
    unsigned passes;
    for (passes = 0; passes < 10; passes++) {
        taken_if_begun();
        work_once();
    }
}

/* A further piece goes out whole. */
static void look_sends(void) {
    host_takes_all();
    expect(!dma_is_busy() && !is_begun, "a piece does not end after an interrupt in some place");
    send_piece(64);
}

/* Nothing is given up, and the host has the whole piece, or nothing of it. */
static void look_whole(void) {
    host_takes_all();
    expect(aborts == 0, "an abort after an interrupt in some place");
    expect(came_len == 0 || (came_len == sizeof piece && memcmp(came, piece, came_len) == 0), "a part of a piece");
    look_sends();
}

static void look_reset(void) {
    is_begun = 0;
    start();
    send_piece(64);
}

static void test_send_places(void) {
    size_t k;
    for (k = 0; k < sizeof piece; k++) piece[k] = (unsigned char)(k + 1);
    in_each_place(nothing, send_and_work, taken_if_begun, look_whole);
    in_each_place(sent_late, work_once, taken_if_begun, look_sends);
    in_each_place(sent_late, work_once, on_cdc_reset, look_reset);
    in_each_place(nothing, send_and_work, on_cdc_reset, look_reset);
    in_each_place(closed_before, open_only, send_and_work, look_whole);    /* the loop preempts the task of USB */
}

int main(void) {
    signal(SIGTRAP, on_instruction);
    test_closed();
    test_receive();
    test_nak();
    test_end();
    test_overlong();
    test_send();
    test_timeout();
    test_reset();
    test_reset_receive();
    test_read_places();
    test_send_places();
    return !is_right;
}
