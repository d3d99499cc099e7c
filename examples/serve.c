/*
 * Serves a site over a serial line (SLIP), with the stack as one C file. To build it:
 *
 *     cc -O2 examples/serve.c dist/uip.c -o out/uip
 *
 *     out/uip serve SITE ADDRESS                     on standard input and output
 *     out/uip serve SITE ADDRESS port DEVICE RATE    on a serial port, such as /dev/ttyUSB0 115200
 *     out/uip serve SITE ADDRESS pty                 on a new pseudo terminal, whose name it prints
 *
 * SITE is an image that tools/pack.py makes; - is the site without files. ADDRESS is an IPv4 address. A tick is made each half second, but
 * none while standard input is a file, in which no time passes. After ADDRESS two further words of uipd are allowed:
 *
 *     pace K    each K-th byte makes a tick, in place of the clock; 0: no tick
 *     tty       with a pace also each half second in which nothing arrives makes a tick
 *
 * Status   0 the line ended    1 command line    2 no such file    3 a read failed    4 a write failed    6 bad image    8 out of memory
 *
 * SPDX-License-Identifier: MIT OR Apache-2.0
 */
#define _GNU_SOURCE
#define _DARWIN_C_SOURCE
#include <errno.h>
#include <fcntl.h>
#include <poll.h>
#include <signal.h>
#include <stdio.h>
#include <stdlib.h>
#include <string.h>
#include <sys/stat.h>
#include <termios.h>
#include <time.h>
#include <unistd.h>
#include "../dist/uip.h"

enum { BAD_WORDS = 1, NO_FILE, BAD_READ, BAD_WRITE, BAD_IMAGE = 6, NO_MEMORY = 8 };
enum { TICK = 500 };                        /* milliseconds */

static uip_device device = UIP_INIT;
static unsigned char out[256];              /* a long output leaves in pieces of this size */
static int line_in = 0, line_out = 1;
static int is_file, is_tty;                 /* whether the input is a file; whether the word tty was there */
static int has_pace;
static size_t pace;

static void stop(int status, const char *why) {
    fprintf(stderr, "serve: %s\n", why);
    exit(status);
}

/* ---- the line */

static void write_line(void *to, const unsigned char *bytes, size_t len) {
    size_t at = 0;
    (void)to;
    while (at < len) {
        ssize_t count = write(line_out, bytes + at, len - at);
        if (count > 0) at += (size_t)count;
        else if (count < 0 && errno != EINTR) stop(BAD_WRITE, strerror(errno));
    }
}

/* Eight bits, no parity, and no byte that means something to the terminal. */
static void make_raw(int line, speed_t speed) {
    struct termios mode;
    if (tcgetattr(line, &mode)) stop(NO_FILE, "it is no serial port");
    cfmakeraw(&mode);
    mode.c_cflag |= CLOCAL | CREAD;
    mode.c_cc[VMIN] = 1, mode.c_cc[VTIME] = 0;
    if (speed != B0) cfsetispeed(&mode, speed), cfsetospeed(&mode, speed);
    if (tcsetattr(line, TCSANOW, &mode)) stop(NO_FILE, strerror(errno));
}

static void open_port(const char *name, const char *rate) {
    static const struct { const char *rate; speed_t speed; } speeds[] = {
        {"9600", B9600}, {"19200", B19200}, {"38400", B38400}, {"57600", B57600}, {"115200", B115200}, {"230400", B230400},
#ifdef B921600
        {"460800", B460800}, {"921600", B921600},
#endif
    };
    size_t at = 0;
    while (at < sizeof speeds / sizeof *speeds && strcmp(speeds[at].rate, rate)) at++;
    if (at == sizeof speeds / sizeof *speeds) stop(BAD_WORDS, "this rate is not one of 9600, 19200 .. 921600");
    line_in = line_out = open(name, O_RDWR | O_NOCTTY | O_NONBLOCK);         /* without waiting for a modem */
    if (line_in < 0) stop(NO_FILE, strerror(errno));
    fcntl(line_in, F_SETFL, 0);
    make_raw(line_in, speeds[at].speed);
}

/* It keeps the other end open too, so that the line survives a program which opens and closes it. */
static void open_pty(void) {
    const char *name;
    int other;
    line_in = line_out = posix_openpt(O_RDWR | O_NOCTTY);
    if (line_in < 0 || grantpt(line_in) || unlockpt(line_in) || !(name = ptsname(line_in))) stop(NO_FILE, "no pseudo terminal is free");
    other = open(name, O_RDWR | O_NOCTTY);
    if (other < 0) stop(NO_FILE, strerror(errno));
    make_raw(other, B0);
    printf("%s\n", name);
    fflush(stdout);
}

/* ---- the device */

static void tick(void) {
    if (uip_tick_all(&device, out, sizeof out, write_line, NULL) != UIP_OK) stop(BAD_READ, "a call was refused");
}

/* Passes bytes to the device, with a tick after each K-th one. */
static void hear(const unsigned char *bytes, size_t len) {
    static size_t since;
    while (len) {
        size_t part = pace && pace - since < len ? pace - since : len;
        if (uip_feed_all(&device, bytes, part, out, sizeof out, write_line, NULL) != UIP_OK) stop(BAD_READ, "a call was refused");
        bytes += part, len -= part, since += part;
        if (pace && since == pace) tick(), since = 0;
    }
}

static unsigned char *image;                /* the device reads it in place, so it stays until the end */

/* The bytes of an image. */
static unsigned char *read_image(const char *path, size_t *len) {
    static unsigned char none[] = {'U', 'I', 'P', 'S', 'I', 'T', 'E', '1', 0, 0};
    struct stat about;
    FILE *file;
    *len = sizeof none;
    if (!strcmp(path, "-")) return none;
    file = fopen(path, "rb");
    if (!file || fstat(fileno(file), &about)) stop(NO_FILE, strerror(errno));
    *len = (size_t)about.st_size;
    image = malloc(*len + 1);
    if (!image) stop(NO_MEMORY, "the image is too long");
    if (fread(image, 1, *len, file) != *len) stop(NO_FILE, "the image could not be read");
    fclose(file);
    return image;
}

static void open_site(const char *path, const char *address) {
    unsigned char own[4];
    uip_opened opened;
    size_t len;
    char rest;
    unsigned char *site = read_image(path, &len);
    if (sscanf(address, "%hhu.%hhu.%hhu.%hhu%c", own, own + 1, own + 2, own + 3, &rest) != 4) stop(BAD_WORDS, "ADDRESS is not as 10.0.0.1");
    opened = uip_open(&device, site, len, own);
    if (opened.status == UIP_BAD_IMAGE) fprintf(stderr, "bad site %s %u\n", opened.word, opened.entry);
    if (opened.status != UIP_OK) stop(opened.status == UIP_BAD_IMAGE ? BAD_IMAGE : NO_MEMORY, "no device was opened");
}

/* ---- the loop */

static long long milliseconds(void) {
    struct timespec now;
    clock_gettime(CLOCK_MONOTONIC, &now);
    return now.tv_sec * 1000LL + now.tv_nsec / 1000000;
}

/* Makes the ticks that are due, and returns 1 as soon as the line has bytes or has ended. After a stall one tick is made, not all. */
static int wait_line(void) {
    static long long due;
    struct pollfd line = {0, POLLIN, 0};
    long long now = milliseconds(), wait = has_pace ? is_tty ? TICK : -1 : 0;
    int ready;
    if (is_file) return 1;
    if (!has_pace && now >= due) {
        if (due) tick();
        due = due && now < due + TICK ? due + TICK : now + TICK;
    }
    line.fd = line_in;
    ready = poll(&line, 1, (int)(has_pace ? wait : due - now));
    if (has_pace && ready == 0) tick();
    return ready > 0;
}

static void read_words(int argc, char **argv) {
    int at = 4;
    while (at < argc) {
        const char *word = argv[at++];
        if (!strcmp(word, "pace") && at < argc) has_pace = 1, pace = strtoull(argv[at++], NULL, 10);
        else if (!strcmp(word, "tty")) is_tty = 1;
        else if (!strcmp(word, "pty")) open_pty();
        else if (!strcmp(word, "port") && at + 1 < argc) open_port(argv[at], argv[at + 1]), at += 2;
        else stop(BAD_WORDS, "serve SITE ADDRESS [port DEVICE RATE | pty] [pace K] [tty]");
    }
}

int main(int argc, char **argv) {
    static unsigned char bytes[4096];
    struct stat about;
    ssize_t count;
    if (argc < 4 || strcmp(argv[1], "serve")) stop(BAD_WORDS, "serve SITE ADDRESS [port DEVICE RATE | pty] [pace K] [tty]");
    signal(SIGPIPE, SIG_IGN);
    open_site(argv[2], argv[3]);
    read_words(argc, argv);
    is_file = !fstat(line_in, &about) && S_ISREG(about.st_mode);
    for (;;) {
        if (!wait_line()) continue;
        count = read(line_in, bytes, sizeof bytes);
        if (count > 0) hear(bytes, (size_t)count);
        else if (count == 0 || errno == EIO) break;                 /* EIO: the other end of a terminal was closed */
        else if (errno != EINTR && errno != EAGAIN) stop(BAD_READ, strerror(errno));
    }
    if (uip_close(&device) != UIP_OK) return BAD_READ;
    free(image);
    return 0;
}
