// A device of the library over a TUN interface of Linux, for flood.py: datagrams come and go by uip_input.
//
//     tun IMAGE INTERFACE SECONDS DELAY     serves the site at 10.0.0.1 for that many seconds or until SIGTERM, with a secret, and prints its
//                                           counters. A datagram reaches the device DELAY milliseconds after it arrived
#include <fcntl.h>
#include <linux/if.h>
#include <linux/if_tun.h>
#include <poll.h>
#include <signal.h>
#include <stdio.h>
#include <stdlib.h>
#include <string.h>
#include <sys/ioctl.h>
#include <sys/random.h>
#include <time.h>
#include <unistd.h>
#include "uip.h"

enum { TICK = 500, MOST = 512 };    // milliseconds; datagrams on their way

static unsigned char image[1 << 21], out[UIP_MAX_DATAGRAM];
static struct { long long due; size_t len; unsigned char bytes[UIP_MAX_DATAGRAM]; } on_way[MOST];
static unsigned first, count;
static long long delay;
static uip_device device = UIP_INIT;
static int tun;
static volatile sig_atomic_t is_stopped;

static void stop(int number) { (void)number, is_stopped = 1; }

static void fail(const char *what) { perror(what), exit(1); }

static long long milliseconds(void) {
    struct timespec now;
    clock_gettime(CLOCK_MONOTONIC, &now);
    return now.tv_sec * 1000LL + now.tv_nsec / 1000000;
}

static void open_tun(const char *name) {
    struct ifreq request;
    memset(&request, 0, sizeof request);
    strncpy(request.ifr_name, name, IFNAMSIZ - 1);
    request.ifr_flags = IFF_TUN | IFF_NO_PI;
    tun = open("/dev/net/tun", O_RDWR);
    if (tun < 0 || ioctl(tun, TUNSETIFF, &request) < 0) fail(name);
}

static void open_device(const char *path) {
    static const unsigned char own[4] = {10, 0, 0, 1};
    unsigned char secret[16];
    FILE *file = fopen(path, "rb");
    if (!file) fail(path);
    size_t len = fread(image, 1, sizeof image, file);
    fclose(file);
    if (uip_open(&device, image, len, own).status != UIP_OK) fail("uip_open");
    if (getrandom(secret, sizeof secret, 0) != sizeof secret || uip_protect(&device, secret) != UIP_OK) fail("uip_protect");
}

// What a call wrote goes to the interface, if it wrote something: a uip_sink.
static void transmit(void *to, const unsigned char *bytes, size_t len) {
    (void)to;
    if (len && write(tun, bytes, len) != (ssize_t)len) fail("write");
}

static void arrive(void) {
    unsigned at = (first + count) % MOST;
    ssize_t len = read(tun, on_way[at].bytes, UIP_MAX_DATAGRAM);
    if (len <= 0) return;
    on_way[at].len = (size_t)len, on_way[at].due = milliseconds() + delay, count++;
}

static void receive(void) {
    for (; count && on_way[first].due <= milliseconds(); first = (first + 1) % MOST, count--) {
        uip_result done = uip_input(&device, on_way[first].bytes, on_way[first].len, out, sizeof out);
        if (done.status != UIP_OK) fail("uip_input");
        transmit(0, out, done.written);
    }
}

// Waits for a datagram until something is due.
static void wait_until(long long due) {
    struct pollfd ready = {tun, POLLIN, 0};
    if (count && on_way[first].due < due) due = on_way[first].due;
    long long left = due - milliseconds();
    if (count == MOST) usleep(1000);
    else if (poll(&ready, 1, left > 0 ? (int)left : 0) > 0) arrive();
}

int main(int argc, char **argv) {
    if (argc != 5) fail("tun IMAGE INTERFACE SECONDS DELAY");
    delay = atoi(argv[4]);
    open_device(argv[1]);
    open_tun(argv[2]);
    signal(SIGTERM, stop);
    long long due = milliseconds() + TICK, end = milliseconds() + 1000LL * atoi(argv[3]);
    while (!is_stopped && milliseconds() < end) {
        wait_until(due);
        receive();
        if (milliseconds() < due) continue;
        due += TICK;
        if (uip_tick_datagrams(&device, out, sizeof out, transmit, 0) != UIP_OK) fail("uip_tick_datagrams");
    }
    printf("device: %u datagrams in, %u dropped by the guard, %u connections given up, %u SYNs without a slot\n",
           uip_counter(&device, UIP_DATAGRAMS_IN).number, uip_guard_counter(&device, UIP_GUARD_DROPPED).number,
           uip_guard_counter(&device, UIP_GUARD_GAVE_UP).number, uip_counter(&device, UIP_SYN_DROPPED).number);
    return uip_close(&device) != UIP_OK;
}
