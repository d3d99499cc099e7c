// A cable with faults between two TAP interfaces of Linux: each frame that leaves one arrives at the other.
//
//     cable NEAR FAR PERCENT SEED [PLANT]    until SIGTERM; then it prints what passed
//
// By the numbers of a generator with this seed, PERCENT of the frames in each direction are lost. Of the others, PERCENT are repeated,
// exchanged with the next one, or a byte of their datagram is changed. A frame that is held for the next one waits at most 20 ms. PLANT is
// a fault that TCP cannot notice, in every fortieth text that leaves NEAR, with right checksums: `byte` changes a byte, `cut` ends the
// stream in the middle of the text, `more` adds a byte, and `reset` resets the connection.
#include <fcntl.h>
#include <linux/if.h>
#include <linux/if_tun.h>
#include <poll.h>
#include <signal.h>
#include <stdio.h>
#include <stdlib.h>
#include <string.h>
#include <sys/ioctl.h>
#include <unistd.h>

enum { ROOM = 2048, HEAD = 14, NEAR = 0, FAR = 1 };
typedef struct { unsigned char bytes[ROOM]; size_t len; } frame;

static int taps[2];
static frame held[2];    // what waits to arrive at each
static unsigned percent, generator;
static const char *plant = "";
static unsigned long passed, lost, repeated, exchanged, damaged, texts, planted;
static volatile sig_atomic_t is_stopped;

static void stop(int number) {
    (void)number;
    is_stopped = 1;
}

static void fail(const char *what) {
    perror(what);
    exit(1);
}

static int open_tap(const char *name) {
    struct ifreq request;
    int descriptor = open("/dev/net/tun", O_RDWR);
    if (descriptor < 0) fail("/dev/net/tun");
    memset(&request, 0, sizeof request);
    strncpy(request.ifr_name, name, IFNAMSIZ - 1);
    request.ifr_flags = IFF_TAP | IFF_NO_PI;
    if (ioctl(descriptor, TUNSETIFF, &request) < 0) fail(name);
    return descriptor;
}

static unsigned random_below(unsigned limit) {
    generator = generator * 1103515245u + 12345u;
    return (generator >> 16) % limit;
}

// ---- planted faults

static unsigned get2(const unsigned char *from) { return (unsigned)from[0] << 8 | from[1]; }

static void put2(unsigned char *to, unsigned n) {
    to[0] = (unsigned char)(n >> 8);
    to[1] = (unsigned char)n;
}

static unsigned sum_of(const unsigned char *bytes, size_t len, unsigned long sum) {
    for (size_t at = 0; at < len; at++) sum += at % 2 ? bytes[at] : (unsigned)bytes[at] << 8;
    while (sum >> 16) sum = (sum & 0xffff) + (sum >> 16);
    return (unsigned)sum;
}

// Writes the length and both checksums of a datagram without options.
static void repair(unsigned char *datagram, size_t len) {
    put2(datagram + 2, (unsigned)len);
    put2(datagram + 10, 0);
    put2(datagram + 10, ~sum_of(datagram, 20, 0));
    put2(datagram + 36, 0);
    put2(datagram + 36, ~sum_of(datagram + 20, len - 20, sum_of(datagram + 12, 8, 6 + (unsigned long)len - 20)));
}

static void plant_in(frame *f) {
    unsigned char *datagram = f->bytes + HEAD;
    if (f->len < HEAD + 40 || get2(f->bytes + 12) != 0x800 || datagram[0] != 0x45 || datagram[9] != 6) return;
    size_t len = get2(datagram + 2), head = 20 + (size_t)(datagram[32] >> 4) * 4;
    if (head < 40 || len > f->len - HEAD || len < head + 2 || ++texts % 40) return;
    planted++;
    if (!strcmp(plant, "byte")) datagram[head + random_below((unsigned)(len - head))] ^= 0x20;
    if (!strcmp(plant, "cut")) len = head + (len - head) / 2, datagram[33] |= 1;
    if (!strcmp(plant, "more")) datagram[len++] = 'x';
    if (!strcmp(plant, "reset")) len = head, datagram[33] = 0x14;
    repair(datagram, len);
    f->len = HEAD + len;
}

// ---- the cable

static void arrive(int at, const frame *f) {
    if (write(taps[at], f->bytes, f->len) != (ssize_t)f->len) fail("write");
}

static void release(int at) {
    if (held[at].len) arrive(at, &held[at]);
    held[at].len = 0;
}

static void pass(int to, frame *f) {
    size_t was_held = held[to].len;
    int is_hit = random_below(100) < percent;
    unsigned fault = is_hit ? random_below(3) : 3;
    passed++;
    if (random_below(100) < percent) { lost++; return; }
    if (fault == 0) repeated++, arrive(to, f);
    if (fault == 1 && !was_held) { exchanged++; held[to] = *f; return; }
    if (fault == 2 && f->len > HEAD && get2(f->bytes + 12) == 0x800) {
        damaged++;
        f->bytes[HEAD + random_below((unsigned)f->len - HEAD)] ^= (unsigned char)(1 + random_below(255));
    }
    arrive(to, f);
    if (was_held) release(to);
}

static void take(int from) {
    static frame f;
    ssize_t len = read(taps[from], f.bytes, sizeof f.bytes - 1);
    if (len < 0) fail("read");
    f.len = (size_t)len;
    if (from == NEAR && *plant) plant_in(&f);
    pass(1 - from, &f);
}

int main(int argc, char **argv) {
    if (argc < 5) fail("cable NEAR FAR PERCENT SEED [PLANT]");
    for (int k = 0; k < 2; k++) taps[k] = open_tap(argv[1 + k]);
    percent = (unsigned)atoi(argv[3]), generator = (unsigned)atoi(argv[4]);
    if (argc > 5) plant = argv[5];
    signal(SIGTERM, stop);
    struct pollfd ready[2] = {{taps[NEAR], POLLIN, 0}, {taps[FAR], POLLIN, 0}};
    while (!is_stopped) {
        int count = poll(ready, 2, 20);
        if (count == 0) release(NEAR), release(FAR);
        for (int k = 0; k < 2 && count > 0; k++) if (ready[k].revents & POLLIN) take(k);
    }
    printf("cable: %lu frames: %lu lost, %lu repeated, %lu exchanged, %lu damaged%s%s", passed, lost, repeated, exchanged, damaged,
           *plant ? "; planted: " : "", plant);
    printf(*plant ? " in %lu texts\n" : "\n", planted);
    return 0;
}
