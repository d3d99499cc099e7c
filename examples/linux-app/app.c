// A console at port 5025 and a Modbus/TCP server at port 502 on one device, over a TAP interface of Linux in place of a network card.
//
//     uip_app INTERFACE SECONDS [PERCENT SEED]
//
// It runs at 10.0.0.1 for that many seconds or until SIGTERM, and prints what passed. 10.0.0.2 leads to all addresses but 10.0.0.0 to
// 10.0.0.255. With PERCENT of the frames, in each direction, one of four faults happens, by the numbers of a generator with this seed: the
// frame is lost, repeated, exchanged with the next one, or a byte of its datagram is changed.
#include <fcntl.h>
#include <linux/if.h>
#include <linux/if_tun.h>
#include <poll.h>
#include <signal.h>
#include <stdio.h>
#include <stdlib.h>
#include <string.h>
#include <sys/ioctl.h>
#include <sys/random.h>
#include <time.h>
#include <unistd.h>
#include "uip_app.h"

size_t answer_line(char *line, char *reply, unsigned *last);                  // console.c
size_t answer_frame(const unsigned char *bytes, size_t len, unsigned char *reply, size_t *taken, unsigned *last);    // modbus.c

enum { CONSOLE_PORT = 5025, MODBUS_PORT = 502 };

extern size_t heap_blocks;    // of the heap: how many blocks are not freed

typedef struct { unsigned char bytes[UIP_MAX_FRAME]; size_t len; } held_frame;

static unsigned char frame[UIP_MAX_FRAME];
static uip_app device = UIP_APP_INIT;
static unsigned long received, sent, lines, frames, faults;
static unsigned percent, generator;
static int tap;
static volatile sig_atomic_t is_stopped;    // SIGTERM came

static void stop(int number) {
    (void)number;
    is_stopped = 1;
}

static void fail(const char *what) {
    perror(what);
    exit(1);
}

static double seconds(void) {
    struct timespec now;
    clock_gettime(CLOCK_MONOTONIC, &now);
    return (double)now.tv_sec + (double)now.tv_nsec / 1e9;
}

// Attaches this program to the interface.
static int open_tap(const char *name) {
    struct ifreq request;
    int descriptor = open("/dev/net/tun", O_RDWR);
    if (descriptor < 0) fail("/dev/net/tun");
    memset(&request, 0, sizeof request);
    strncpy(request.ifr_name, name, IFNAMSIZ - 1);
    request.ifr_flags = IFF_TAP | IFF_NO_PI;
    if (ioctl(descriptor, TUNSETIFF, &request) < 0) fail(name);
    return descriptor;
}

static unsigned random_below(unsigned limit) {
    generator = generator * 1103515245u + 12345u;
    return (generator >> 16) % limit;
}

// ---- the faults of a line

// Passes a frame on, perhaps with a fault. A frame that is held is passed on after the next one.
static void pass(held_frame *held, const unsigned char *bytes, size_t len, void (*on)(const unsigned char *, size_t)) {
    unsigned char copy[UIP_MAX_FRAME];
    size_t before = held->len;
    unsigned fault = random_below(100) < percent ? 1 + random_below(bytes[12] == 8 && bytes[13] == 0 ? 4 : 3) : 0;
    faults += fault != 0;
    memcpy(copy, bytes, len);
    if (fault == 4) copy[14 + random_below((unsigned)len - 14)] ^= (unsigned char)(1 + random_below(255));
    if (fault == 3 && !before) {
        memcpy(held->bytes, copy, held->len = len);
        return;
    }
    if (fault != 1) on(copy, len);
    if (fault == 2) on(copy, len);
    if (before) {
        held->len = 0;
        on(held->bytes, before);
    }
}

static void transmit(const unsigned char *bytes, size_t len) {
    if (write(tap, bytes, len) != (ssize_t)len) fail("write");
}

// Sends the frame that a call wrote.
static void send_frame(uip_result done) {
    static held_frame held;
    if (done.status != UIP_OK) {
        fprintf(stderr, "a call returned status %u\n", done.status);
        exit(1);
    }
    if (!done.written) return;
    sent++;
    pass(&held, frame, done.written, transmit);
}

// ---- the application

// Answers the line or the frame that a connection has received, if it is whole.
static int answer(size_t slot) {
    unsigned char bytes[UIP_MAX_RECEIVED], reply[UIP_MAX_MESSAGE], *end;
    unsigned last = 0;
    size_t taken = 0, len = 0;
    uip_received it = uip_app_read(&device, slot, bytes, sizeof bytes);
    if (it.status != UIP_OK) fail("uip_app_read");
    if (!it.ready || !it.len) return 0;
    if (it.port == MODBUS_PORT) {
        len = answer_frame(bytes, it.len, reply, &taken, &last);
        if (!taken) return 0;
        frames++;
    } else {
        end = memchr(bytes, '\n', it.len);
        if (!end) return 0;
        *end = 0;
        taken = (size_t)(end - bytes) + 1;
        len = answer_line((char *)bytes, (char *)reply, &last);
        lines++;
    }
    send_frame(uip_app_write(&device, slot, taken, reply, len, last, frame, sizeof frame));
    return 1;
}

static void serve(void) {
    for (size_t slot = 0; slot < UIP_SLOTS; slot++)
        while (answer(slot)) {}
}

static void receive(const unsigned char *bytes, size_t len) {
    memcpy(frame, bytes, len);
    send_frame(uip_app_input_frame(&device, frame, len, sizeof frame));
    serve();
}

// Waits for a frame until this time, and passes it to the device.
static void receive_until(double time) {
    static held_frame held;
    unsigned char bytes[UIP_MAX_FRAME];
    struct pollfd ready = {tap, POLLIN, 0};
    double left = time - seconds();
    if (poll(&ready, 1, left > 0 ? (int)(left * 1000) + 1 : 0) <= 0) return;
    ssize_t len = read(tap, bytes, sizeof bytes);
    if (len < 0) fail("read");
    received++;
    if (len >= 15) pass(&held, bytes, (size_t)len, receive);
}

int main(int argc, char **argv) {
    static const unsigned char own[4] = {10, 0, 0, 1}, mac[6] = {2, 0, 0, 0, 0, 1}, mask[4] = {255, 255, 255, 0}, router[4] = {10, 0, 0, 2};
    unsigned char secret[16];
    if (argc != 3 && argc != 5) fail("uip_app INTERFACE SECONDS [PERCENT SEED]");
    if (argc == 5) percent = (unsigned)atoi(argv[3]), generator = (unsigned)atoi(argv[4]);
    if (uip_app_open(&device, own, mac, mask, router) != UIP_OK) fail("uip_app_open");
    if (getrandom(secret, sizeof secret, 0) != sizeof secret || uip_app_protect(&device, secret) != UIP_OK) fail("uip_app_protect");
    if (uip_app_listen(&device, CONSOLE_PORT) != UIP_OK || uip_app_listen(&device, MODBUS_PORT) != UIP_OK) fail("uip_app_listen");
    size_t blocks = heap_blocks;
    signal(SIGTERM, stop);
    tap = open_tap(argv[1]);
    double tick = seconds() + 0.5, end = seconds() + atof(argv[2]);
    while (!is_stopped && seconds() < end) {
        receive_until(tick);
        double now = seconds();
        if (now < tick) continue;
        tick = (now < tick + 1 ? tick : now) + 0.5;    // three or more are due after a stall: only one is made
        for (size_t slot = 0; slot < UIP_SLOTS; slot++) send_frame(uip_app_periodic_frame(&device, slot, frame, sizeof frame));
        serve();
    }
    if (heap_blocks != blocks) fprintf(stderr, "a call allocated memory\n");
    printf("frames received: %lu, sent: %lu, with a fault: %lu; lines: %lu, Modbus frames: %lu; blocks: %zu\n", received, sent, faults, lines,
           frames, blocks);
    return uip_app_close(&device) != UIP_OK || heap_blocks != 0;
}
