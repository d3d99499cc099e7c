// Datagrams by RFC 791, 792 and 793, and the line by RFC 1055, apart from the library's own reading of them.
#include <string.h>
#include "parts.h"

static void put2(byte *to, unsigned n) { to[0] = (byte)(n >> 8), to[1] = (byte)n; }
static void put4(byte *to, unsigned n) { put2(to, n >> 16), put2(to + 2, n); }
static unsigned get2(const byte *from) { return (unsigned)from[0] << 8 | from[1]; }
static unsigned get4(const byte *from) { return get2(from) << 16 | get2(from + 2); }

unsigned sum_of(const byte *bytes, size_t len, unsigned before) {
    unsigned long sum = before;
    for (size_t at = 0; at + 1 < len; at += 2) sum += get2(bytes + at);
    if (len % 2) sum += (unsigned)bytes[len - 1] << 8;
    while (sum >> 16) sum = (sum & 0xffff) + (sum >> 16);
    return (unsigned)sum;
}

// What is summed before a TCP segment: the addresses, the protocol and the length.
static unsigned pseudo_sum(const byte *datagram, size_t len) { return sum_of(datagram + 12, 8, (unsigned)(6 + len)); }

void repair_sums(byte *datagram, size_t len) {
    if (len < 20) return;
    put2(datagram + 10, 0);
    put2(datagram + 10, ~sum_of(datagram, 20, 0));
    if (datagram[9] == 6 && len >= 40) {
        put2(datagram + 36, 0);
        put2(datagram + 36, ~sum_of(datagram + 20, len - 20, pseudo_sum(datagram, len - 20)));
    }
    if (datagram[9] == 1 && len >= 28) {
        put2(datagram + 22, 0);
        put2(datagram + 22, ~sum_of(datagram + 20, len - 20, 0));
    }
}

static void write_head(byte *to, size_t len, unsigned protocol, const byte *source, const byte *target) {
    memset(to, 0, 20);
    to[0] = 0x45;
    put2(to + 2, (unsigned)len);
    put2(to + 4, (unsigned)random_next());
    to[8] = 64;
    to[9] = (byte)protocol;
    memcpy(to + 12, source, 4);
    memcpy(to + 16, target, 4);
}

size_t write_segment(byte *to, const segment *s) {
    size_t head = s->mss ? 24 : 20, len = 20 + head + s->len;
    write_head(to, len, 6, s->source, s->target);
    put2(to + 20, s->from), put2(to + 22, s->to), put4(to + 24, s->seq), put4(to + 28, s->ack);
    to[32] = (byte)(head * 4), to[33] = (byte)s->flags;
    put2(to + 34, s->window), put4(to + 36, 0);
    if (s->mss) put2(to + 40, 0x204), put2(to + 42, s->mss);
    if (s->len) memcpy(to + 20 + head, s->text, s->len);
    repair_sums(to, len);
    return len;
}

size_t write_ping(byte *to, const byte *source, const byte *target, size_t len) {
    write_head(to, 28 + len, 1, source, target);
    to[20] = 8, to[21] = 0;
    random_bytes(to + 24, 4 + len);
    repair_sums(to, 28 + len);
    return 28 + len;
}

static int is_sound(const byte *datagram, size_t len, unsigned protocol) {
    return len >= 20 && len <= LARGEST && datagram[0] == 0x45 && get2(datagram + 2) == len && sum_of(datagram, 20, 0) == 0xffff
        && datagram[9] == protocol;
}

int read_segment(const byte *datagram, size_t len, segment *s) {
    if (!is_sound(datagram, len, 6) || len < 40) return 0;
    size_t head = (size_t)(datagram[32] >> 4) * 4;
    if (head < 20 || len < 20 + head || sum_of(datagram + 20, len - 20, pseudo_sum(datagram, len - 20)) != 0xffff) return 0;
    memcpy(s->source, datagram + 12, 4), memcpy(s->target, datagram + 16, 4);
    s->from = get2(datagram + 20), s->to = get2(datagram + 22), s->seq = get4(datagram + 24), s->ack = get4(datagram + 28);
    s->flags = datagram[33], s->window = get2(datagram + 34), s->mss = 0;
    s->text = datagram + 20 + head, s->len = len - 20 - head;
    return 1;
}

int is_sound_reply(const byte *datagram, size_t len) {
    return is_sound(datagram, len, 1) && len >= 28 && datagram[20] == 0 && datagram[21] == 0
        && sum_of(datagram + 20, len - 20, 0) == 0xffff;
}

size_t write_frame(byte *to, const byte *datagram, size_t len) {
    size_t at = 0;
    to[at++] = 0xc0;
    for (size_t k = 0; k < len; k++) {
        int is_mark = datagram[k] == 0xc0 || datagram[k] == 0xdb;
        if (is_mark) to[at++] = 0xdb;
        to[at++] = is_mark ? (datagram[k] == 0xc0 ? 0xdc : 0xdd) : datagram[k];
    }
    to[at++] = 0xc0;
    return at;
}

int decode(decoder *d, byte b) {
    if (b == 0xc0) {
        int ended = d->is_over ? -1 : d->len > 0;
        d->is_escaped = d->is_over = 0;
        return ended;
    }
    if (b == 0xdb && !d->is_escaped) {
        d->is_escaped = 1;
        return 0;
    }
    if (d->is_escaped) b = b == 0xdc ? 0xc0 : b == 0xdd ? 0xdb : b;
    d->is_escaped = 0;
    if (d->len == LARGEST) d->is_over = 1;
    else d->bytes[d->len++] = b;
    return 0;
}
