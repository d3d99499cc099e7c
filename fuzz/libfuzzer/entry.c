// An entry for libFuzzer, over the C file: a device on a serial line, with datagrams or on Ethernet, with a secret or without one, by the
// first byte of the input.
//
//     clang -g -O1 -fsanitize=fuzzer,address,undefined fuzz/libfuzzer/entry.c dist/uip.c -o out/libfuzzer
//     out/libfuzzer -max_len=2048 -len_control=10 out/corpus
//
// The rest of the input is a row of pieces: two bytes with a length, and that number of bytes. A piece without bytes is a tick. Else, if
// the length is odd, its bytes are fed or received as they are; if it is even, they are a datagram for this node, whose version, lengths
// and checksums are set right first, so that most of them reach TCP.
#include <stdint.h>
#include <stdlib.h>
#include <string.h>
#include "../../dist/uip.h"
#ifndef UIP_HEAP_SIZE
#define UIP_HEAP_SIZE UIP_MEMORY_ETHER(2)
#endif
#include "../../dist/heap.c"

// A site of /index.html and of a script: docs/FORMATS.md.
static const unsigned char image[] = "UIPSITE1\0\2"
    "\013/index.html\0\0\0\2hi"
    "\010/v.shtml\0\0\0\023<p>%! value 3\n</p>\n";
static const unsigned char own[4] = {10, 0, 0, 1}, mac[6] = {2, 0, 0, 0, 0, 1}, mask[4] = {255, 255, 255, 0}, router[4] = {10, 0, 0, 254};
static const unsigned char secret[16] = {7, 1, 250, 33, 98, 4, 71, 180, 26, 9, 222, 61, 140, 17, 88, 203};
static unsigned char out[UIP_MAX_OUT], frame[UIP_MAX_FRAME];

static void must(int is_so) {
    if (!is_so) abort();
}

// Each piece of output has bytes; reading them shows each that was not written to a checker of memory.
static void sink(void *to, const unsigned char *bytes, size_t len) {
    unsigned *sum = to;
    must(len >= 1 && len <= UIP_MAX_OUT);
    while (len) *sum += bytes[--len];
}

static unsigned sum_of(const unsigned char *bytes, size_t len, unsigned sum) {
    for (size_t at = 0; at < len; at++) sum += at % 2 ? bytes[at] : (unsigned)bytes[at] << 8;
    while (sum >> 16) sum = (sum & 0xffff) + (sum >> 16);
    return sum;
}

static void put_sum(unsigned char *at, unsigned sum) {
    at[0] = (unsigned char)(~sum >> 8), at[1] = (unsigned char)~sum;
}

// Makes a datagram of at least 28 bytes one without options for this node, of TCP or ICMP, with right checksums (RFC 791, 793, 792).
static void mend(unsigned char *datagram, size_t len) {
    unsigned char *rest = datagram + 20;
    int is_tcp = datagram[9] % 4 != 1 && len >= 40;
    datagram[0] = 0x45, datagram[2] = (unsigned char)(len >> 8), datagram[3] = (unsigned char)len;
    datagram[6] = datagram[7] = 0, datagram[9] = is_tcp ? 6 : 1;
    memcpy(datagram + 16, own, 4);
    datagram[10] = datagram[11] = 0;
    put_sum(datagram + 10, sum_of(datagram, 20, 0));
    if (is_tcp) rest[2] = 0, rest[3] = 80;
    rest[is_tcp ? 16 : 2] = rest[is_tcp ? 17 : 3] = 0;
    put_sum(rest + (is_tcp ? 16 : 2), sum_of(rest, len - 20, is_tcp ? sum_of(datagram + 12, 8, 6 + (unsigned)len - 20) : 0));
}

// A datagram in SLIP (RFC 1055); returns its length.
static size_t slip(unsigned char *to, const unsigned char *from, size_t len) {
    size_t at = 0;
    for (; len; from++, len--) {
        int is_end = *from == 0xc0, is_esc = *from == 0xdb;
        if (is_end || is_esc) to[at++] = 0xdb;
        to[at++] = is_end ? 0xdc : is_esc ? 0xdd : *from;
    }
    to[at++] = 0xc0;
    return at;
}

static void take_serial(uip_device *device, const unsigned char *bytes, size_t len, unsigned *sum) {
    size_t room = UIP_MIN_OUT + len % 64;
    must((len ? uip_feed_all(device, bytes, len, out, room, sink, sum) : uip_tick_all(device, out, room, sink, sum)) == UIP_OK);
}

static void take_datagram(uip_device *device, const unsigned char *bytes, size_t len, unsigned *sum) {
    uip_result done;
    if (len == 0) { must(uip_tick_datagrams(device, out, sizeof out, sink, sum) == UIP_OK); return; }
    done = uip_input(device, bytes, len, out, sizeof out);
    must(done.status == (len <= UIP_MAX_DATAGRAM ? UIP_OK : UIP_BAD_ARGUMENT));
    if (done.written) sink(sum, out, done.written);
}

static void take_frame(uip_device *device, const unsigned char *bytes, size_t len, unsigned *sum) {
    uip_result done;
    if (len == 0) { must(uip_tick_frames(device, frame, sizeof frame, sink, sum) == UIP_OK); return; }
    if (len > sizeof frame) len = sizeof frame;
    memcpy(frame, bytes, len);
    done = uip_input_frame(device, frame, len, sizeof frame);
    must(done.status == UIP_OK);
    if (done.written) sink(sum, frame, done.written);
}

static void take(uip_device *device, int kind, const unsigned char *bytes, size_t len, unsigned *sum) {
    static unsigned char line[2 * UIP_MAX_DATAGRAM + 1], area[UIP_MAX_FRAME] = {2, 0, 0, 0, 0, 1, 2, 0, 0, 0, 0, 2, 8, 0};
    if (len % 2 == 0 && len >= 28 && len <= UIP_MAX_DATAGRAM) {
        memcpy(area + 14, bytes, len);
        mend(area + 14, len);
        bytes = kind == 0 ? line : kind == 1 ? area + 14 : area;
        len = kind == 0 ? slip(line, area + 14, len) : kind == 1 ? len : len + 14;
    }
    (kind == 0 ? take_serial : kind == 1 ? take_datagram : take_frame)(device, bytes, len, sum);
}

int LLVMFuzzerTestOneInput(const uint8_t *data, size_t size);
int LLVMFuzzerTestOneInput(const uint8_t *data, size_t size) {
    uip_device device = UIP_INIT;
    unsigned sum = 0;
    int kind = size ? data[0] % 3 : 0, is_protected = size && data[0] / 3 % 2;
    uip_opened opened = kind < 2 ? uip_open(&device, image, sizeof image - 1, own) :
                                   uip_open_ether(&device, image, sizeof image - 1, own, mac, mask, router);
    must(opened.status == UIP_OK);
    if (is_protected) must(uip_protect(&device, secret) == UIP_OK);
    if (size) data++, size--;
    while (size >= 2) {
        size_t len = (size_t)data[0] << 8 | data[1];
        data += 2, size -= 2;
        if (len > size) len = size;
        take(&device, kind, data, len, &sum);
        data += len, size -= len;
        must(uip_set_value(&device, 3, &sum, sizeof sum) == UIP_OK);
    }
    must(uip_close(&device) == UIP_OK && heap_blocks == 0);
    return 0;
}
