/*
 * The drivers of this folder on a PC, so that its programs can be tried and tested: standard input and output in the place of a
 * serial port, threads in the place of interrupts and tasks, and an interface of Linux in the place of an Ethernet controller (tap0)
 * or a link of datagrams (tun0). PC_SERIAL, PC_SLEEP, PC_RTOS_SERIAL, PC_DATAGRAMS, PC_ETHER, PC_ETHER_DMA or PC_RTOS names the program;
 * gate.c has PC_RTOS and PC_GATE, and rtos_dma.c PC_ETHER_DMA and PC_RTOS_DMA. With PC_RTOS_SERIAL also PC_DMA and PC_CDC name the port.
 *
 * SPDX-License-Identifier: MIT OR Apache-2.0
 * Copyright 2026 The Lowunbisa authors
 */
#define _GNU_SOURCE
#include <fcntl.h>
#include <linux/if.h>
#include <linux/if_tun.h>
#include <poll.h>
#include <pthread.h>
#include <semaphore.h>
#include <stdio.h>
#include <stdlib.h>
#include <string.h>
#include <sys/ioctl.h>
#include <time.h>
#include <unistd.h>
#include "drivers.h"

static void report(const char *text, unsigned number) { fprintf(stderr, "%s %u\n", text, number); }

void lamp(unsigned percent) { report("lamp", percent); }
int temperature(void) { return -55; }
unsigned start_number(void) { return (unsigned)getpid(); }

void fail(unsigned status, unsigned entry, const char *word) {
    fprintf(stderr, "no device was opened: %u %u %s\n", status, entry, word);
    exit(1);
}

void stop(unsigned status) {
    report("stopped", status);
    exit(status ? 1 : 0);
}

unsigned milliseconds(void) {
    struct timespec now;
    clock_gettime(CLOCK_MONOTONIC, &now);
    return (unsigned)(now.tv_sec * 1000 + now.tv_nsec / 1000000);
}

#if defined(PC_RTOS_SERIAL) || defined(PC_ETHER_DMA) || defined(PC_GATE)

static struct timespec after_milliseconds(unsigned limit) {
    struct timespec end;
    clock_gettime(CLOCK_REALTIME, &end);
    end.tv_nsec += (long)limit * 1000000;
    if (end.tv_nsec >= 1000000000) end.tv_sec++, end.tv_nsec -= 1000000000;
    return end;
}

#endif
#if defined(PC_RTOS_SERIAL) || defined(PC_RTOS_DMA)

#include "rtos.h"

static sem_t semaphore;
static int is_semaphore_made;

void make_semaphore(void) { is_semaphore_made = sem_init(&semaphore, 0, 0) == 0; }

void give(void) {
    if (!is_semaphore_made) {
        fprintf(stderr, "broken: the semaphore was given before it was made\n");
        abort();
    }
    sem_post(&semaphore);
}

void give_from_interrupt(void) { give(); }

/* A binary semaphore counts no further than 1: one take takes all that was given. */
void take_for(unsigned limit) {
    struct timespec end = after_milliseconds(limit);
    if (sem_timedwait(&semaphore, &end) == 0)
        while (sem_trywait(&semaphore) == 0) continue;
}

#endif
#if !defined(PC_SLEEP) && !defined(PC_RTOS_SERIAL) && !defined(PC_ETHER_DMA)

static int has_input(int descriptor, int wait) {
    struct pollfd line = {descriptor, POLLIN, 0};
    return poll(&line, 1, wait) > 0;
}

#endif

#if defined(PC_SERIAL) || defined(PC_SLEEP) || defined(PC_RTOS_SERIAL)

static void send_all(const unsigned char *bytes, size_t len) {
    while (len > 0) {
        ssize_t count = write(1, bytes, len);
        if (count <= 0) exit(2);
        bytes += count;
        len -= (size_t)count;
    }
}

#endif
#ifdef PC_SERIAL

void board_start(void) {}

size_t read_serial(unsigned char *bytes, size_t room) {
    if (!has_input(0, 20)) return 0;
    ssize_t count = read(0, bytes, room);
    if (count <= 0) exit(2);
    return (size_t)count;
}

void write_serial(void *to, const unsigned char *bytes, size_t len) {
    (void)to;
    send_all(bytes, len);
}

#endif
#if defined(PC_SLEEP) || defined(PC_RTOS_SERIAL)

static pthread_mutex_t interrupts = PTHREAD_MUTEX_INITIALIZER;    /* an interrupt holds it, and interrupts_off of sleep.c */
static pthread_cond_t interrupt = PTHREAD_COND_INITIALIZER, begun = PTHREAD_COND_INITIALIZER;
static unsigned char byte;
static const unsigned char *piece;
static size_t piece_len;

unsigned char port_read(void) { return byte; }

static void interrupt_by(void handler(void)) {
    pthread_mutex_lock(&interrupts);
    handler();
    pthread_cond_signal(&interrupt);
    pthread_mutex_unlock(&interrupts);
}

#ifdef PC_SLEEP

#include "port.h"

void on_half_second(void);

static int timer_runs = 1;
static unsigned deep_sleeps;

void timer_start(void) { timer_runs = 1; }
void interrupts_off(void) { pthread_mutex_lock(&interrupts); }
void interrupts_on(void) { pthread_mutex_unlock(&interrupts); }
void sleep_until_interrupt(int is_deep) {
    (void)is_deep;
    pthread_cond_wait(&interrupt, &interrupts);
}


void timer_stop(void) {
    timer_runs = 0;
    if (++deep_sleeps == 1) report("the timer stopped", 1);
}

static void *timer(void *unused) {
    for (;; usleep(500000))
        if (timer_runs) interrupt_by(on_half_second);
    return unused;
}

#else

void interrupt_received(void);
void interrupt_sent(void);

#if !defined(PC_DMA) && !defined(PC_CDC)
static void on_received(void) { interrupt_received(); }
#endif
#ifndef PC_CDC
static void on_sent(void) { interrupt_sent(); }
#endif

#endif

#ifdef PC_DMA

#include "port_dma.h"

static volatile unsigned place;

unsigned dma_place(void) { return place; }

static void on_end(void) {
    place = 0;
    on_dma(1);
    give_from_interrupt();
}

static void on_idle(void) {
    on_dma(0);
    give_from_interrupt();
}

static void *receiver(void *unused) {
    static unsigned char bytes[RING];
    ssize_t count, k;
    while ((count = read(0, bytes, RING - place)) > 0) {
        for (k = 0; k < count; k++) dma_ring[place + (unsigned)k] = bytes[k];
        if (place + (unsigned)count == RING) {
            interrupt_by(on_end);
        } else {
            place += (unsigned)count;
            interrupt_by(on_idle);
        }
    }
    (void)unused;
    exit(2);
}

#elif defined(PC_CDC)

#include "port_cdc.h"

static pthread_cond_t armed = PTHREAD_COND_INITIALIZER;
static int is_armed = 1;                       /* whether the OUT endpoint takes a packet */
static int is_taking;                          /* whether the host takes a packet that was not aborted */
static unsigned char from_host[CDC_PACKET];
static size_t from_host_len;

static void on_packet(void) {
    on_cdc_received(from_host, from_host_len);
    give_from_interrupt();
}

static void on_taken(void) {
    if (is_taking) on_cdc_sent();
    is_taking = 0;
    give_from_interrupt();
}

static void on_host(void) {
    on_cdc_opened(1);
    give_from_interrupt();
}

static void on_reset(void) {
    piece = NULL;
    is_taking = 0;
    on_cdc_reset();
    give_from_interrupt();
}

void cdc_receive(void) {
    pthread_mutex_lock(&interrupts);
    is_armed = 1;
    pthread_cond_signal(&armed);
    pthread_mutex_unlock(&interrupts);
}

void cdc_send(const unsigned char *bytes, size_t len) {
    pthread_mutex_lock(&interrupts);
    piece = bytes;
    piece_len = len;
    pthread_cond_signal(&begun);
    pthread_mutex_unlock(&interrupts);
}

void cdc_abort(void) {
    pthread_mutex_lock(&interrupts);
    piece = NULL;
    is_taking = 0;
    pthread_mutex_unlock(&interrupts);
}

static void *receiver(void *unused) {
    for (;;) {
        pthread_mutex_lock(&interrupts);
        while (!is_armed) pthread_cond_wait(&armed, &interrupts);
        is_armed = 0;
        pthread_mutex_unlock(&interrupts);
        ssize_t count = read(0, from_host, sizeof from_host);
        if (count <= 0) exit(2);
        from_host_len = (size_t)count;
        interrupt_by(on_packet);
    }
    return unused;
}

/* What the host does before it takes a packet. Once it takes nothing for half a second; later there is a bus reset. */
static void host_behaves(unsigned packets) {
    if (packets == 40) {
        usleep(500000);
        pthread_mutex_lock(&interrupts);
        if (piece && piece_len == 1 && *piece == 0xC0) report("the piece was given up", packets);
        pthread_mutex_unlock(&interrupts);
    } else if (packets == 80) {
        interrupt_by(on_reset);
        usleep(50000);
        interrupt_by(on_host);
        report("the bus was reset", packets);
    }
}

static void *sender(void *unused) {
    unsigned char bytes[CDC_SEND];
    unsigned packets = 0;
    interrupt_by(on_host);
    for (;;) {
        pthread_mutex_lock(&interrupts);
        while (!piece) pthread_cond_wait(&begun, &interrupts);
        pthread_mutex_unlock(&interrupts);
        host_behaves(++packets);
        pthread_mutex_lock(&interrupts);
        size_t len = piece ? piece_len : 0;
        if (piece) memcpy(bytes, piece, len), is_taking = 1;
        piece = NULL;
        pthread_mutex_unlock(&interrupts);
        send_all(bytes, len);
        interrupt_by(on_taken);
    }
    return unused;
}

#else

static void *receiver(void *unused) {
    while (read(0, &byte, 1) == 1) interrupt_by(on_received);
    (void)unused;
    exit(2);
}

#endif
#ifndef PC_CDC

static void *sender(void *unused) {
    for (;;) {
        pthread_mutex_lock(&interrupts);
        while (!piece) pthread_cond_wait(&begun, &interrupts);
        pthread_mutex_unlock(&interrupts);
        send_all(piece, piece_len);
        piece = NULL;
        interrupt_by(on_sent);
    }
    return unused;
}

void port_start(const unsigned char *bytes, size_t len) {
    pthread_mutex_lock(&interrupts);
    piece = bytes;
    piece_len = len;
    pthread_cond_signal(&begun);
    pthread_mutex_unlock(&interrupts);
}

#endif

static void begin(void *work(void *)) {
    pthread_t thread;
    if (pthread_create(&thread, NULL, work, NULL) != 0) exit(2);
}

#ifdef PC_SLEEP

void board_start(void) {
    begin(timer);
    begin(receiver);
    begin(sender);
}

#else

void board_start(void) {}

void port_interrupts_on(void) {
    begin(receiver);
    begin(sender);
}

#endif

#endif
#if defined(PC_ETHER) || defined(PC_ETHER_DMA) || defined(PC_RTOS) || defined(PC_DATAGRAMS)

#ifdef PC_DATAGRAMS
#define INTERFACE "tun0"
#define KIND IFF_TUN
#define RECEIVE datagram_receive
#define SEND datagram_send
#else
const unsigned char mac[6] = {2, 0, 0, 0, 0, 1};
#define INTERFACE "tap0"
#define KIND IFF_TAP
#define RECEIVE mac_receive
#define SEND mac_send
#endif

static int interface;

#ifdef PC_DATAGRAMS

static unsigned last_received, downs;

void link_wait(unsigned char own[4]) {
    static const unsigned char address[4] = {10, 0, 0, 1};
    memcpy(own, address, sizeof address);
}

/* The link goes down once, after two seconds without a datagram of IPv4. */
int link_is_up(void) {
    if (!last_received || downs || milliseconds() - last_received < 2000) return 1;
    downs++;
    report("the link was down", downs);
    return 0;
}

#endif

static void interface_open(void) {
    struct ifreq request;
    interface = open("/dev/net/tun", O_RDWR);
    memset(&request, 0, sizeof request);
    strcpy(request.ifr_name, INTERFACE);
    request.ifr_flags = KIND | IFF_NO_PI;
    if (interface < 0 || ioctl(interface, TUNSETIFF, &request) < 0) {
        perror(INTERFACE);
        exit(2);
    }
}

#endif
#if defined(PC_ETHER) || defined(PC_RTOS) || defined(PC_DATAGRAMS)

void board_start(void) { interface_open(); }

#ifdef PC_GATE
static void frame_by_test(const unsigned char *frame, ssize_t len);
static size_t frame_again(unsigned char *frame);
#endif

size_t RECEIVE(unsigned char *bytes, size_t room) {
#ifdef PC_GATE
    size_t again = frame_again(bytes);
    if (again) return again;
#endif
    if (!has_input(interface, 20)) return 0;
    ssize_t len = read(interface, bytes, room);
#ifdef PC_GATE
    frame_by_test(bytes, len);
#endif
#ifdef PC_DATAGRAMS
    if (len > 0 && bytes[0] >> 4 == 4) last_received = milliseconds();    /* Linux sends IPv6 of its own */
#endif
    return len > 0 ? (size_t)len : 0;
}

void SEND(void *to, const unsigned char *bytes, size_t len) {
    (void)to;
    if (write(interface, bytes, len) != (ssize_t)len) report("one was lost, of bytes", (unsigned)len);
}

#endif
#ifdef PC_ETHER_DMA

/* The controller: two threads are its DMA. Each buffer is in one line, or the program owns it. If the program owns it, each byte is its
 * own. Else `kept` has what the buffer must contain: a byte that differs was written by the program, and ends the test. A buffer that the
 * program gives back, or whose frame is sent, is overwritten at once: if the program still uses it, it reads and sends nonsense.
 */
enum { RECEIVE_BUFFERS = 4, BUFFERS = RECEIVE_BUFFERS + 1, PATTERN = 0xA5 };    /* one is spare */

static struct buffer {
    _Alignas(32) unsigned char bytes[MAC_ROOM];
    unsigned char kept[MAC_ROOM];
    size_t len;
    struct line *in;                           /* NULL if the program owns the buffer */
    int is_spare;
} buffers[BUFFERS];

static struct line {
    struct buffer *at[BUFFERS];
    unsigned first, count;
} ring, received, to_send, spares;

static pthread_mutex_t interrupts = PTHREAD_MUTEX_INITIALIZER;    /* an interrupt holds it, each mac_.., and interrupts_off */
static pthread_cond_t begun = PTHREAD_COND_INITIALIZER;

static void broken(const char *rule) {
    fprintf(stderr, "broken: %s\n", rule);
    abort();
}

static void put(struct line *to, struct buffer *it) {
    memcpy(it->kept, it->bytes, MAC_ROOM);
    it->in = to;
    to->at[(to->first + to->count++) % BUFFERS] = it;
}

/* The oldest buffer of a line, or NULL. */
static struct buffer *get(struct line *from) {
    if (from->count == 0) return NULL;
    struct buffer *it = from->at[from->first++ % BUFFERS];
    from->count--;
    it->in = NULL;
    if (memcmp(it->kept, it->bytes, MAC_ROOM) != 0) broken("the program wrote a buffer that it did not own");
    return it;
}

/* Overwrites a buffer that is no longer used, and returns it to its line. */
static void put_empty(struct buffer *it) {
    memset(it->bytes, PATTERN, MAC_ROOM);
    put(it->is_spare ? &spares : &ring, it);
}

static unsigned char *take(struct line *from, int is_spare, size_t *len) {
    unsigned k;
    pthread_mutex_lock(&interrupts);
    struct buffer *it = get(from);
    for (k = 0; k < BUFFERS; k++)              /* ether_loop.c takes one only if it has none of that kind */
        if (&buffers[k] != it && !buffers[k].in && buffers[k].is_spare == is_spare) broken("the program lost a buffer");
    if (it && len) *len = it->len;
    pthread_mutex_unlock(&interrupts);
    return it ? it->bytes : NULL;
}

/* The buffer that the program gives away. */
static struct buffer *given(const unsigned char *bytes, int is_spare) {
    unsigned k;
    for (k = 0; k < BUFFERS; k++) {
        if (buffers[k].bytes != bytes) continue;
        if (buffers[k].in) broken(buffers[k].in == &to_send ? "a buffer was given away while it is sent" : "a buffer was given away twice");
        if (buffers[k].is_spare != is_spare) broken("a buffer was given away by the call of the other kind");
        return &buffers[k];
    }
    broken("no buffer begins there");
    return NULL;
}

/* The link goes down for a second at the first page, and at a later one: then a tick sends the page again. */
static int is_link_down(size_t len) {
    static unsigned pages, down_since;
    static int has_been_down;
    if (len > 200 && (++pages == 1 || pages == 12)) {
        down_since = milliseconds();
        has_been_down = 1;
        report("the link was down", pages);
    }
    return has_been_down && milliseconds() - down_since < 1000;
}

static void send_from(unsigned char *bytes, size_t len, int is_spare) {
    static unsigned ticks;
    pthread_mutex_lock(&interrupts);
    struct buffer *it = given(bytes, is_spare);
    if (len == 0 || len > 1514) broken("a frame has a wrong length");
    for (; len < 60; len++) bytes[len] = 0;
    it->len = len;
    if (is_link_down(len)) {
        put_empty(it);
    } else {
        put(&to_send, it);
        pthread_cond_signal(&begun);
        if (is_spare && ++ticks == 1) report("a tick sent", ticks);
    }
    pthread_mutex_unlock(&interrupts);
}

unsigned char *mac_take_received(size_t *len) { return take(&received, 0, len); }
unsigned char *mac_take_spare(void) { return take(&spares, 1, NULL); }
void mac_reply(unsigned char *bytes, size_t len) { send_from(bytes, len, 0); }
void mac_send_spare(unsigned char *bytes, size_t len) { send_from(bytes, len, 1); }

void mac_give_back(unsigned char *bytes) {
    pthread_mutex_lock(&interrupts);
    put_empty(given(bytes, 0));
    pthread_mutex_unlock(&interrupts);
}

#ifdef PC_RTOS_DMA

/* FreeRTOS masks interrupts from make_semaphore to start_tasks. One that comes meanwhile is held back. */
static int are_masked, are_on, is_held_back;

static void interrupt_of_controller(void) {
    is_held_back = are_masked || !are_on;
    if (!is_held_back) give_from_interrupt();
}

/* A frame may have come already: then its interrupt comes when nothing holds it back any longer. */
void mac_interrupts_on(void) {
    pthread_mutex_lock(&interrupts);
    are_masked = is_semaphore_made;
    are_on = 1;
    interrupt_of_controller();
    pthread_mutex_unlock(&interrupts);
}

static void scheduler_starts(void) {
    pthread_mutex_lock(&interrupts);
    if (!are_on) broken("the scheduler starts, and the interrupts of the controller are off");
    are_masked = 0;
    if (is_held_back) interrupt_of_controller();
    pthread_mutex_unlock(&interrupts);
}

#else

static pthread_cond_t interrupt = PTHREAD_COND_INITIALIZER;

static void interrupt_of_controller(void) {
    events++;
    pthread_cond_signal(&interrupt);
}

void interrupts_off(void) { pthread_mutex_lock(&interrupts); }
void interrupts_on(void) { pthread_mutex_unlock(&interrupts); }

/* A clock ends the sleep after 20 ms. */
void sleep_until_interrupt(int is_deep) {
    struct timespec end = after_milliseconds(20);
    pthread_cond_timedwait(&interrupt, &interrupts, &end);
    (void)is_deep;
}

#endif

static void *receiver(void *unused) {
    static unsigned char frame[MAC_ROOM];
    ssize_t len;
    while ((len = read(interface, frame, sizeof frame)) > 0) {
        pthread_mutex_lock(&interrupts);
        struct buffer *it = len > 1514 || is_link_down(0) ? NULL : get(&ring);    /* if the ring is empty, the frame is lost */
        if (it) {
            memcpy(it->bytes, frame, (size_t)len);
            it->len = len < 60 ? 60 : (size_t)len;
            put(&received, it);
            interrupt_of_controller();
        }
        pthread_mutex_unlock(&interrupts);
    }
    (void)unused;
    exit(2);
}

/* Sends from the buffer, and late, so that a program which uses it meanwhile is noticed. */
static void *sender(void *unused) {
    for (;;) {
        pthread_mutex_lock(&interrupts);
        while (to_send.count == 0) pthread_cond_wait(&begun, &interrupts);
        struct buffer *it = to_send.at[to_send.first % BUFFERS];
        pthread_mutex_unlock(&interrupts);
        usleep(2000);
        if (write(interface, it->bytes, it->len) != (ssize_t)it->len) report("one was lost, of bytes", (unsigned)it->len);
        pthread_mutex_lock(&interrupts);
        put_empty(get(&to_send));
        interrupt_of_controller();
        pthread_mutex_unlock(&interrupts);
    }
    return unused;
}

void board_start(void) {
    pthread_t thread;
    unsigned k;
#ifdef PC_RTOS_DMA
    if (is_semaphore_made) broken("board_start may wait for an interrupt, which is masked after make_semaphore");
#endif
    interface_open();
    for (k = 0; k < BUFFERS; k++) {
        buffers[k].is_spare = k >= RECEIVE_BUFFERS;
        put_empty(&buffers[k]);
    }
    if (pthread_create(&thread, NULL, receiver, NULL) != 0 || pthread_create(&thread, NULL, sender, NULL) != 0) exit(2);
}

#endif
#if defined(PC_RTOS) || defined(PC_RTOS_SERIAL) || defined(PC_RTOS_DMA)

#include "rtos.h"

static void (*second_task)(void *);

void sleep_one_second(void) { sleep(1); }

static void *run_second(void *unused) {
    second_task(unused);
    return unused;
}

void start_tasks(void (*first)(void *), void (*second)(void *)) {
    pthread_t thread;
    second_task = second;
    if (pthread_create(&thread, NULL, run_second, NULL) != 0) exit(2);
#ifdef PC_RTOS_DMA
    scheduler_starts();
#endif
    first(NULL);
}

#endif
#if defined(PC_GATE) || defined(PC_SETTINGS) || defined(PC_DOOR)

#include <sys/random.h>

unsigned random_bits(void) {
    unsigned bits;
    if (getrandom(&bits, sizeof bits, 0) != sizeof bits) exit(2);
    return bits;
}

#endif
#ifdef PC_GATE

struct queue {
    pthread_mutex_t lock;
    pthread_cond_t put;
    size_t size;
    int is_full;
    unsigned char item[32];
};

queue queue_make(size_t size) {
    static struct queue queues[2];
    static unsigned count;
    queue made = &queues[count++];
    if (count > 2 || size > sizeof made->item) exit(2);
    pthread_mutex_init(&made->lock, NULL);
    pthread_cond_init(&made->put, NULL);
    made->size = size;
    return made;
}

static int put(queue to, const void *item, int overwrites) {
    pthread_mutex_lock(&to->lock);
    int fits = overwrites || !to->is_full;
    if (fits) memcpy(to->item, item, to->size);
    to->is_full = 1;
    pthread_cond_signal(&to->put);
    pthread_mutex_unlock(&to->lock);
    return fits;
}

int queue_put(queue to, const void *item) { return put(to, item, 0); }
void queue_overwrite(queue to, const void *item) { put(to, item, 1); }

int queue_get(queue from, void *item, unsigned limit) {
    struct timespec end = after_milliseconds(limit);
    pthread_mutex_lock(&from->lock);
    while (!from->is_full && limit > 0)
        if (pthread_cond_timedwait(&from->put, &from->lock, &end) != 0) break;
    int has_item = from->is_full;
    if (has_item) memcpy(item, from->item, from->size);
    from->is_full = 0;
    pthread_mutex_unlock(&from->lock);
    return has_item;
}

/* gate.py is the gate, and holds the tasks: it writes these files in the present folder. If there is none, the number is `other`. */
static long number_of(const char *file, long other) {
    FILE *from = fopen(file, "r");
    long number = other;
    if (from && fscanf(from, "%ld", &number) != 1) number = other;
    if (from) fclose(from);
    return number;
}

/* While the file `hold` has a number that is less than *passes, the task waits, and `held` has *passes. The passes are counted since
 * the file was written first.
 */
static void hold(const char *hold, const char *held, unsigned *passes) {
    if (number_of(hold, -1) < 0) {
        *passes = 0;
        return;
    }
    ++*passes;
    for (int is_first = 1; number_of(hold, (long)*passes) < (long)*passes; usleep(2000)) {
        FILE *to = is_first ? fopen(held, "w") : NULL;
        if (to) fprintf(to, "%u", *passes), fclose(to);
        is_first = 0;
    }
}

void gate_motor(int direction) { fprintf(stderr, "motor %d\n", direction); }
int gate_position(void) { return (int)number_of("position", 0); }

int gate_is_blocked(void) {
    static unsigned passes;
    hold("hold-control", "control-held", &passes);
    return number_of("blocked", 0) == 1;
}

static unsigned char last_frame[1514];
static size_t last_len;

/* Holds the task that makes the calls, after some segments of TCP. If the file `twice` is 1, each one comes twice. */
static void frame_by_test(const unsigned char *frame, ssize_t len) {
    static unsigned passes;
    if (len < 34 || frame[12] != 8 || frame[13] != 0 || frame[23] != 6) return;
    hold("hold-network", "network-held", &passes);
    if (number_of("twice", 0) != 1) return;
    memcpy(last_frame, frame, (size_t)len);
    last_len = (size_t)len;
}

static size_t frame_again(unsigned char *frame) {
    size_t len = last_len;
    memcpy(frame, last_frame, len);
    last_len = 0;
    return len;
}

#endif
#ifdef PC_SETTINGS

/* settings_pages.c, with ether.c and PC_ETHER. settings.py holds the button by the file `button`, and wears the flash out by the file
 * `worn`. The record is the file `settings`.
 */
#include "pages.h"

struct record { struct addresses at; unsigned sum; };

int button_is_held(void) { return access("button", F_OK) == 0; }

static unsigned sum_of(const struct addresses *at) {
    unsigned k, sum = 1;
    for (k = 0; k < sizeof *at; k++) sum = sum * 31 + ((const unsigned char *)at)[k];
    return sum;
}

int load_settings(struct addresses *to) {
    struct record record;
    FILE *from = fopen("settings", "r");
    int is_whole = from && fread(&record, sizeof record, 1, from) == 1 && record.sum == sum_of(&record.at);
    if (from) fclose(from);
    if (is_whole) *to = record.at;
    return is_whole;
}

/* `rename` keeps the old file or has the new one, whole. */
int store_settings(const struct addresses *from) {
    struct record record = {*from, sum_of(from)};
    if (access("worn", F_OK) == 0) return 0;
    FILE *to = fopen("settings.new", "w");
    int is_written = to && fwrite(&record, sizeof record, 1, to) == 1 && fflush(to) == 0 && fsync(fileno(to)) == 0;
    if (to) fclose(to);
    if (!is_written || rename("settings.new", "settings") != 0) return 0;
    report("stored, with the last byte", from->own[3]);
    return 1;
}

#endif
#ifdef PC_DOOR

/* door_pages.c, with ether.c and PC_ETHER. door.py wears the flash out by the file `worn`. The record is the file `seconds`. */
struct seconds_record { unsigned seconds, sum; };

void door_unlock(int is_on) { fprintf(stderr, "door %d %u\n", is_on, milliseconds()); }

int load_seconds(unsigned *seconds) {
    struct seconds_record record;
    FILE *from = fopen("seconds", "r");
    int is_whole = from && fread(&record, sizeof record, 1, from) == 1 && record.sum == ~record.seconds;
    if (from) fclose(from);
    if (is_whole) *seconds = record.seconds;
    return is_whole;
}

/* `rename` keeps the old file or has the new one, whole. */
int store_seconds(unsigned seconds) {
    struct seconds_record record = {seconds, ~seconds};
    if (access("worn", F_OK) == 0) return 0;
    FILE *to = fopen("seconds.new", "w");
    int is_written = to && fwrite(&record, sizeof record, 1, to) == 1 && fflush(to) == 0 && fsync(fileno(to)) == 0;
    if (to) fclose(to);
    if (!is_written || rename("seconds.new", "seconds") != 0) return 0;
    report("stored", seconds);
    return 1;
}

#endif
