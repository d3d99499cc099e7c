// What a node counts of the datagrams that come and go, by the order of its checks: docs/FORMATS.md, counters 1 to 18.
// [add: counter] the datagrams by which the counter rises
#include <string.h>
#include "pages.h"

static unsigned get2(const byte *from) { return (unsigned)from[0] << 8 | from[1]; }

// The counter of the check of IP that a datagram fails, or 0.
static unsigned ip_fault(const byte *own, const byte *d, size_t len) {
    if (len < 20) return UIP_IP_SHORT;
    if (d[0] != 0x45) return UIP_IP_VERSION;
    if (get2(d + 2) < 20 || get2(d + 2) > len) return UIP_IP_LENGTH;
    if (get2(d + 6) & 0x3fff) return UIP_IP_FRAGMENT;
    if (sum_of(d, 20, 0) != 0xffff) return UIP_IP_CHECKSUM;
    if (memcmp(d + 16, own, 4)) return UIP_IP_NOT_OURS;
    return d[9] == 1 || d[9] == 6 ? 0 : UIP_IP_PROTOCOL;
}

static unsigned icmp_fault(const byte *message, size_t len) {
    if (len < 8) return UIP_ICMP_DROPPED;
    if (sum_of(message, len, 0) != 0xffff) return UIP_ICMP_CHECKSUM;
    return message[0] == 8 && message[1] == 0 ? 0 : UIP_ICMP_DROPPED;
}

static unsigned tcp_fault(const byte *d, const byte *s, size_t len) {
    if (len < 20) return UIP_TCP_DROPPED;
    size_t head = (size_t)(s[12] >> 4) * 4;
    if (head < 20 || head > len) return UIP_TCP_DROPPED;
    return sum_of(s, len, sum_of(d + 12, 8, (unsigned)(6 + len))) != 0xffff ? UIP_TCP_CHECKSUM : 0;
}

unsigned fault_of(const byte *own, const byte *datagram, size_t len) {
    unsigned fault = ip_fault(own, datagram, len);
    if (fault) return fault;
    size_t rest = get2(datagram + 2) - 20;
    return datagram[9] == 1 ? icmp_fault(datagram + 20, rest) : tcp_fault(datagram, datagram + 20, rest);
}

void model_hears(model *m, const byte *datagram, size_t len) {
    unsigned fault = fault_of(m->own, datagram, len);
    m->numbers[UIP_DATAGRAMS_IN]++;
    if (!fault || fault >= UIP_ICMP_IN) m->numbers[datagram[9] == 1 ? UIP_ICMP_IN : UIP_TCP_IN]++;
    if (fault) m->numbers[fault]++;
}

void model_judged(model *m, judgement by_guard) {
    m->guard[UIP_GUARD_DROPPED] += by_guard.what == DROPS;
    if (by_guard.what != GIVES_UP) return;
    m->guard[UIP_GUARD_GAVE_UP]++, m->numbers[UIP_DATAGRAMS_IN]++, m->numbers[UIP_TCP_IN]++;
}

void model_sends(model *m, const byte *datagram, size_t len) {
    segment s;
    m->numbers[UIP_DATAGRAMS_OUT]++;
    if (read_segment(datagram, len, &s)) {
        m->numbers[UIP_TCP_OUT]++;
        WANT(!memcmp(s.source, m->own, 4), "a segment was sent from another address");
    } else {
        WANT(is_sound_reply(datagram, len), "what was sent is neither a sound segment nor a sound echo reply");
        m->numbers[UIP_ECHO_REPLIES_OUT]++;
    }
}
