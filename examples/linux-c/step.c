// Serves a serial line on standard input and output by the loop of support/step.c, as examples/serve.c does by its own:
//     uip_step serve SITE ADDRESS            makes a tick each half second, until the input ends
//     uip_step serve SITE ADDRESS SEED       makes no tick. The sizes of reads and how long a piece is sent are random, by SEED
#include <fcntl.h>
#include <poll.h>
#include <stdio.h>
#include <stdlib.h>
#include <string.h>
#include <time.h>
#include <unistd.h>
#include "../../support/step.h"

uip_device device = UIP_INIT;
volatile unsigned events;
static unsigned generator;        // 0 without a SEED
static unsigned busy;             // for how many looks the port still sends
static int has_ended;             // whether the input has ended

static void stop(int status, const char *why) {
    fprintf(stderr, "uip_step: %s\n", why);
    exit(status);
}

static unsigned below(unsigned bound) {
    generator = generator * 1664525u + 1013904223u;
    return (generator >> 8) % bound;
}

static long long milliseconds(void) {
    struct timespec now;
    clock_gettime(CLOCK_MONOTONIC, &now);
    return now.tv_sec * 1000ll + now.tv_nsec / 1000000;
}

static int is_ready(int wait) {
    struct pollfd line = {0, POLLIN, 0};
    return poll(&line, 1, wait) > 0;
}

int half_a_second_passed(void) {
    static long long last;
    long long now = milliseconds();
    if (!last) last = now;
    if (generator || now - last < 500) return 0;
    last = now - last < 1500 ? last + 500 : now;
    return 1;
}

size_t read_serial(unsigned char *bytes, size_t room) {
    if (has_ended || !is_ready(0)) return 0;
    ssize_t count = read(0, bytes, generator ? 1 + below((unsigned)room) : room);
    if (count <= 0) has_ended = 1;
    return count > 0 ? (size_t)count : 0;
}

int dma_is_busy(void) { return busy && busy--; }

void dma_send(const unsigned char *bytes, size_t len) {
    for (size_t at = 0; at < len;) {
        ssize_t count = write(1, bytes + at, len - at);
        if (count <= 0) stop(4, "a write failed");
        at += (size_t)count;
    }
    if (generator) busy = below(4);
}

void work(void) {}
void interrupts_off(void) {}
void interrupts_on(void) {}

void wfi(void) {
    if (!busy && has_ended) exit(uip_close(&device) == UIP_OK ? 0 : 3);
    if (!busy && !is_ready(generator ? -1 : 20)) return;
    events++;
}

int main(int argc, char **argv) {
    static unsigned char image[1 << 20];
    unsigned char own[4];
    if (argc < 4 || strcmp(argv[1], "serve")) stop(2, "serve SITE ADDRESS [SEED]");
    if (sscanf(argv[3], "%hhu.%hhu.%hhu.%hhu", &own[0], &own[1], &own[2], &own[3]) != 4) stop(2, "no such address");
    if (argc > 4) generator = (unsigned)strtoul(argv[4], 0, 10) | 1;
    int file = open(argv[2], O_RDONLY);
    ssize_t len = file < 0 ? -1 : read(file, image, sizeof image);
    if (len < 0) stop(3, "no such image");
    if (uip_open(&device, image, (size_t)len, own).status != UIP_OK) stop(3, "no device was opened");
    serve();
    stop(3, "a call was refused");
}
