// A site on Ethernet: a TAP interface of Linux in place of a network card. The frames come and go as a controller has them.
//
//     uip_tap IMAGE INTERFACE SECONDS      serves the site at 10.0.0.1 for that many seconds or until SIGTERM, and prints what passed.
//                                          10.0.0.2 leads to all addresses but 10.0.0.0 to 10.0.0.255
#include <fcntl.h>
#include <linux/if.h>
#include <linux/if_tun.h>
#include <poll.h>
#include <signal.h>
#include <stdio.h>
#include <stdlib.h>
#include <string.h>
#include <sys/ioctl.h>
#include <sys/random.h>
#include <time.h>
#include <unistd.h>
#include "uip.h"

extern size_t heap_blocks;    // of the heap: how many blocks are not freed

static unsigned char image[1 << 20], frame[UIP_MAX_FRAME];
static uip_device device = UIP_INIT;
static unsigned long received, sent;
static int tap;
static volatile sig_atomic_t is_stopped;    // SIGTERM came

static void stop(int number) {
    (void)number;
    is_stopped = 1;
}

static void fail(const char *what) {
    perror(what);
    exit(1);
}

static double seconds(void) {
    struct timespec now;
    clock_gettime(CLOCK_MONOTONIC, &now);
    return (double)now.tv_sec + (double)now.tv_nsec / 1e9;
}

// Attaches this program to the interface.
static int open_tap(const char *name) {
    struct ifreq request;
    int descriptor = open("/dev/net/tun", O_RDWR);
    if (descriptor < 0) fail("/dev/net/tun");
    memset(&request, 0, sizeof request);
    strncpy(request.ifr_name, name, IFNAMSIZ - 1);
    request.ifr_flags = IFF_TAP | IFF_NO_PI;
    if (ioctl(descriptor, TUNSETIFF, &request) < 0) fail(name);
    return descriptor;
}

static void expect_ok(unsigned status) {
    if (status == UIP_OK) return;
    fprintf(stderr, "a call returned status %u\n", status);
    exit(1);
}

// Sends a frame that a call wrote: a uip_sink.
static void send_frame(void *to, const unsigned char *bytes, size_t len) {
    (void)to;
    if (write(tap, bytes, len) != (ssize_t)len) fail("write");
    sent++;
}

// Waits for a frame until this time, and passes it to the device.
static void receive_until(double time) {
    struct pollfd ready = {tap, POLLIN, 0};
    double left = time - seconds();
    if (poll(&ready, 1, left > 0 ? (int)(left * 1000) + 1 : 0) <= 0) return;
    ssize_t len = read(tap, frame, sizeof frame);
    if (len < 0) fail("read");
    received++;
    uip_result done = uip_input_frame(&device, frame, (size_t)len, sizeof frame);
    expect_ok(done.status);
    if (done.written) send_frame(0, frame, done.written);
}

int main(int argc, char **argv) {
    static const unsigned char own[4] = {10, 0, 0, 1}, mac[6] = {2, 0, 0, 0, 0, 1}, mask[4] = {255, 255, 255, 0}, router[4] = {10, 0, 0, 2};
    unsigned char secret[16];
    FILE *file = argc == 4 ? fopen(argv[1], "rb") : 0;
    if (!file) fail("uip_tap IMAGE INTERFACE SECONDS");
    size_t len = fread(image, 1, sizeof image, file);
    uip_opened opened = uip_open_ether(&device, image, len, own, mac, mask, router);
    if (opened.status != UIP_OK) {
        fprintf(stderr, "uip_open_ether returned status %u %s %u\n", opened.status, opened.word, opened.entry);
        return 1;
    }
    if (getrandom(secret, sizeof secret, 0) != sizeof secret) fail("getrandom");
    expect_ok(uip_protect(&device, secret));
    size_t blocks = heap_blocks;
    signal(SIGTERM, stop);
    tap = open_tap(argv[2]);
    double tick = seconds() + 0.5, end = seconds() + atof(argv[3]);
    while (!is_stopped && seconds() < end) {
        receive_until(tick);
        double now = seconds();
        if (now < tick) continue;
        tick = (now < tick + 1 ? tick : now) + 0.5;    // three or more are due after a stall: only one is made
        expect_ok(uip_tick_frames(&device, frame, sizeof frame, send_frame, 0));
    }
    unsigned again = uip_counter(&device, UIP_RETRANSMISSIONS).number;
    if (heap_blocks != blocks) fprintf(stderr, "a call allocated memory\n");
    printf("frames received: %lu, sent: %lu; retransmissions: %u; blocks: %zu\n", received, sent, again, blocks);
    return uip_close(&device) != UIP_OK || heap_blocks != 0;
}
