// Serves a serial line on standard input and output as a device with a state: the load of this machine, and a lamp. A request of a page
// of the lamp turns it on or off. Before each tick the program sets both as values, which the pages of examples/state show. A form sets
// the alarm level (../board/alarm.h): the pages show whether the load is above it.
//     uip_state serve SITE ADDRESS
// Further words are ignored: a tick is half a second of this machine's clock.
#include <fcntl.h>
#include <poll.h>
#include <stdio.h>
#include <stdlib.h>
#include <string.h>
#include <time.h>
#include <unistd.h>
#include "../board/alarm.h"
#include "uip.h"

enum { NAME, SECONDS, LEVEL, NOTE, LAMP, LIMIT, ALARM };    // the numbers of the values

static uip_device device = UIP_INIT;
static unsigned char out[256];
static unsigned level, limit = 80, limit_shown;

static void stop(int status, const char *why) {
    fprintf(stderr, "uip_state: %s\n", why);
    exit(status);
}

static void need(unsigned status) {
    if (status != UIP_OK) stop(3, "a call was refused");
}

// A uip_sink: writes a piece of output.
static void write_line(void *to, const unsigned char *bytes, size_t len) {
    (void)to;
    for (size_t at = 0; at < len;) {
        ssize_t count = write(1, bytes + at, len - at);
        if (count <= 0) stop(4, "a write failed");
        at += (size_t)count;
    }
}

// A uip_sink for what arrives: reads the form of a request, whose reply begins with this piece, and writes the piece.
static void write_piece(void *to, const unsigned char *bytes, size_t len) {
    read_form(&device, &limit);
    write_line(to, bytes, len);
}

// Milliseconds since the first call.
static long long clock_now(void) {
    static long long start;
    struct timespec time;
    clock_gettime(CLOCK_MONOTONIC, &time);
    long long now = time.tv_sec * 1000ll + time.tv_nsec / 1000000;
    if (!start) start = now;
    return now - start;
}

// Sets a value to a text, or to its first 32 bytes.
static void give(size_t number, const char *value) {
    size_t len = strlen(value);
    need(uip_set_value(&device, number, value, len < UIP_MAX_VALUE ? len : UIP_MAX_VALUE));
}

static void give_name(void) {
    char host[64] = "", value[100];
    gethostname(host, sizeof host - 1);
    snprintf(value, sizeof value, "Lamp & load of \"%s\"", host);
    give(NAME, value);
}

// Sets the seconds since the start, the load of the last minute in per cent of what the processors can do, and all three loads.
static void give_load(unsigned ticks) {
    char value[100];
    double load[3] = {0, 0, 0}, processors = (double)sysconf(_SC_NPROCESSORS_ONLN);
    getloadavg(load, 3);
    snprintf(value, sizeof value, "%u.%u", ticks / 2, ticks % 2 * 5);
    give(SECONDS, value);
    double per_cent = load[0] / processors * 100;
    level = per_cent < 100 ? (unsigned)per_cent : 100;
    snprintf(value, sizeof value, "%u", level);
    give(LEVEL, value);
    snprintf(value, sizeof value, "load %.2f, %.2f, %.2f of %.0f", load[0], load[1], load[2], processors);
    give(NOTE, value);
}

// Returns how often a file was requested.
static unsigned hits(const char *name) {
    uip_number number = uip_hits(&device, name, strlen(name));
    need(number.status);
    return number.number;
}

static void give_lamp(void) {
    static unsigned asked_on, asked_off;
    static int is_on;
    unsigned now_on = hits("/lamp-on.html"), now_off = hits("/lamp-off.html");
    if (now_on != asked_on) is_on = 1;
    if (now_off != asked_off) is_on = 0;
    asked_on = now_on;
    asked_off = now_off;
    give(LAMP, is_on ? "on" : "off");
}

// Sets the alarm level, and whether the level is above it.
static void give_alarm(void) {
    char value[100];
    snprintf(value, sizeof value, "%u", limit);
    give(LIMIT, value);
    snprintf(value, sizeof value, "%u is %sabove %u", level, level > limit ? "" : "not ", limit);
    give(ALARM, value);
    limit_shown = limit;
}

static void give_state(unsigned ticks) {
    give_load(ticks);
    give_lamp();
    give_alarm();
}

// Opens the device with the site of a file at an address. `image` stays in place: the library reads it there.
static void open_site(const char *path, const char *address) {
    static unsigned char image[1 << 20];
    unsigned char own[4];
    if (sscanf(address, "%hhu.%hhu.%hhu.%hhu", &own[0], &own[1], &own[2], &own[3]) != 4) stop(2, "no such address");
    int file = open(path, O_RDONLY);
    ssize_t len = file < 0 ? -1 : read(file, image, sizeof image);
    if (len < 0) stop(3, "no such image");
    if (uip_open(&device, image, (size_t)len, own).status != UIP_OK) stop(3, "no device was opened");
}

int main(int argc, char **argv) {
    if (argc < 4 || strcmp(argv[1], "serve")) stop(2, "serve SITE ADDRESS");
    open_site(argv[2], argv[3]);
    give_name();
    give_state(0);
    for (unsigned ticks = 0;;) {
        static unsigned char bytes[4096];
        struct pollfd line = {0, POLLIN, 0};
        long long left = (ticks + 1) * 500ll - clock_now();
        if (poll(&line, 1, left > 0 ? (int)left : 0) > 0) {
            ssize_t count = read(0, bytes, sizeof bytes);
            if (count <= 0) break;
            need(uip_feed_all(&device, bytes, (size_t)count, out, sizeof out, write_piece, 0));
            if (limit != limit_shown) give_alarm();
        }
        unsigned passed = (unsigned)(clock_now() / 500), due = passed - ticks;
        if (due == 0) continue;
        ticks = due < 3 ? ticks + 1 : passed;    // three or more are due after a stall: all count, and only one is made
        give_state(ticks);
        need(uip_tick_all(&device, out, sizeof out, write_line, 0));
    }
    return uip_close(&device) == UIP_OK ? 0 : 3;
}
