// A TAP interface of Linux in the place of an Ethernet controller, and its clock in the place of a timer.
#include <fcntl.h>
#include <linux/if.h>
#include <linux/if_tun.h>
#include <poll.h>
#include <signal.h>
#include <stdio.h>
#include <stdlib.h>
#include <string.h>
#include <sys/ioctl.h>
#include <sys/random.h>
#include <time.h>
#include <unistd.h>
#include "driver.h"

unsigned long received, sent;
static int tap;
static double due;    // when the next tick is due
static volatile sig_atomic_t is_stopped;    // a signal came

static void stop(int number) {
    (void)number;
    is_stopped = 1;
}

static void fail(const char *what) {
    perror(what);
    exit(1);
}

static double seconds_now(void) {
    struct timespec now;
    clock_gettime(CLOCK_MONOTONIC, &now);
    return (double)now.tv_sec + (double)now.tv_nsec / 1e9;
}

void open_driver(const char *interface, unsigned seconds) {
    struct ifreq request;
    tap = open("/dev/net/tun", O_RDWR);
    if (tap < 0) fail("/dev/net/tun");
    memset(&request, 0, sizeof request);
    strncpy(request.ifr_name, interface, IFNAMSIZ - 1);
    request.ifr_flags = IFF_TAP | IFF_NO_PI;
    if (ioctl(tap, TUNSETIFF, &request) < 0) fail(interface);
    signal(SIGTERM, stop);
    signal(SIGALRM, stop);
    alarm(seconds);
    due = seconds_now() + 0.5;
}

void random_bytes(unsigned char *to, size_t len) {
    if (getrandom(to, len, 0) != (ssize_t)len) fail("getrandom");
}

int is_running(void) {
    return !is_stopped;
}

// Whether a frame arrives within this time. A signal ends the wait.
static int has_frame(double seconds) {
    struct pollfd ready = {tap, POLLIN, 0};
    return poll(&ready, 1, seconds > 0 ? (int)(seconds * 1000) + 1 : 0) > 0;
}

void wait_for_work(void) {
    has_frame(due - seconds_now());
}

size_t mac_receive(unsigned char *frame, size_t room) {
    if (!has_frame(0)) return 0;
    ssize_t len = read(tap, frame, room);
    if (len < 0) fail("read");
    received++;
    return (size_t)len;
}

void mac_send(void *to, const unsigned char *frame, size_t len) {
    (void)to;
    if (write(tap, frame, len) != (ssize_t)len) fail("write");
    sent++;
}

int half_a_second_passed(void) {
    double now = seconds_now();
    if (now < due) return 0;
    due = (now < due + 1 ? due : now) + 0.5;    // three or more are due after a stall: only one is made
    return 1;
}
