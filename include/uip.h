/*
 * uip.h - the C interface of Lowunbisa, a TCP/IP node with a small web server
 *
 * A node has one IPv4 address, answers ping, and serves a folder of files over HTTP at port 80. Its pages can show
 * values that your program sets, and their links and forms reach your program. The library has no driver, no task and
 * no clock, and no call waits: you pass in what has arrived, and send what a call has written. Each half second you
 * make a tick, which runs the timers of TCP.
 *
 *    5 Open         uip_open, uip_open_ether       open a device: for a serial line or datagrams, or on Ethernet
 *                   uip_protect, uip_close         give it a secret; close it
 *    6 Serial line  uip_feed_all, uip_tick_all     take bytes, make a tick; a function of yours sends the output
 *                   uip_feed, uip_periodic         the same step by step, so that the loop never waits
 *                   uip_drain, uip_drain_all       write what is pending
 *    7 Datagrams    uip_input, uip_tick_datagrams, uip_periodic_datagram
 *    8 Ethernet     uip_input_frame, uip_tick_frames, uip_periodic_frame
 *    9 Pages        uip_set_value                  sets a value that pages show
 *                   uip_hits, uip_query            how often a file was requested; what a form or a button has sent
 *   10 State        uip_connection, uip_counter, uip_guard_counter, uip_ticks, uip_is_idle
 *                   uip_needs_ticks                0: you may sleep until something arrives
 *   11 Heap         UIP_MEMORY, UIP_MEMORY_ETHER   the bytes that a device needs
 *   Before these: 1 Rules, 2 Statuses, 3 Constants, 4 Types.
 *
 * The shortest loop, for a serial line. It waits while it sends; for a product take one of docs/FIRMWARE.md.
 *
 *     static uip_device device = UIP_INIT;
 *     unsigned status = uip_open(&device, site_image, SITE_IMAGE_LEN, own).status;
 *     while (status == UIP_OK) {
 *         status = uip_feed_all(&device, in, read_serial(in, sizeof in), out, sizeof out, write_serial, NULL);
 *         if (status == UIP_OK && tick_is_due_at(milliseconds()))             // support/ticks.h
 *             status = uip_tick_all(&device, out, sizeof out, write_serial, NULL);
 *     }
 *
 * docs/FIRMWARE.md is the guide: whole programs, how to build them, loops that never wait, DMA, RTOS. docs/PAGES.md
 * is the guide to pages, and docs/LIMITS.md has what the node does not do. uip_app.h and uip_both.h have TCP
 * connections that your program answers. Whoever reaches the node can read its pages, press its buttons and occupy
 * its ten connections: use it only on a network that you control.
 *
 * Proved of the source, if you keep the ten rules: memory safety, and the exact output of each call. So what a client
 * receives is right, and under stated conditions its whole page arrives (docs/GUARANTEE.md). Tested, and not proved:
 * the machine code, and the inline functions. Not proved: stack, heap and time.
 *
 * SPDX-License-Identifier: MIT OR Apache-2.0
 * Copyright 2026 The Lowunbisa authors; see LICENSE on the run-time library in each binary
 */

#ifndef LOWUNBISA_UIP_H
#define LOWUNBISA_UIP_H

#if defined(__UIP_H__) || defined(UIP_H_) || defined(UIP_H)
#error "the uip.h of uIP or Contiki was included before: this one is Lowunbisa's, and the names of both clash"
#endif

#include <stddef.h>

#ifdef __cplusplus
extern "C" {
#endif

/* The version. Header and library are of one version: compile your program anew for each one, since sizes such as
 * UIP_MEMORY may change. UIP_INTERFACE rises only if a program may have to change. CHANGELOG.md has what changed.
 */
#define UIP_VERSION_MAJOR 1
#define UIP_VERSION_MINOR 1
#define UIP_VERSION_PATCH 0
#define UIP_VERSION_NUMBER 10100    /* all three in one number, for #if */
#define UIP_INTERFACE 4

/* What the compiler and the processor have to offer. The first three are of the compiled libraries. */
#ifndef UIP_SOURCE
#if defined(__BYTE_ORDER__) && defined(__ORDER_BIG_ENDIAN__) && __BYTE_ORDER__ == __ORDER_BIG_ENDIAN__
#error "there is no library for big-endian targets"
#endif
#if defined(__ARM_PCS_VFP) && !defined(UIP_HARD_FLOAT)
#error "the library is soft-float: compile with -mfloat-abi=softfp, or see UIP_HARD_FLOAT in FIRMWARE.md"
#endif
#if defined(__riscv_float_abi_single) || defined(__riscv_float_abi_double) || defined(__riscv_abi_rve)
#error "the library has the ABI ilp32 or lp64"
#endif
#endif
typedef char uip_needs_32_or_64_bits[
    (sizeof(size_t) == 4 || sizeof(size_t) == 8) && sizeof(void *) == sizeof(size_t) ? 1 : -1];
typedef char uip_needs_unsigned_of_32_bits[sizeof(unsigned) == 4 ? 1 : -1];

/* ---- 1 Rules -----------------------------------------------------------------------------------
 *   device     a node: its address, connections and values; a variable of type uip_device
 *   image      the array of bytes that tools/pack.py makes of a site, which is a folder of files
 *   slot       one of the ten places for a TCP connection, 0 to 9
 *   tick       one periodic call for each of the ten slots, in any order
 *   sink       a function of yours that sends output
 *   pending    output is pending if it did not fit into the area `out` of the call (serial line only)
 *
 * The library cannot check these ten rules. If you break one, the behaviour is undefined. Every other mistake is safe
 * for memory: a bad argument, or a call in a wrong state, returns a status. An unknown name of a file, a wrong
 * address and a wrong rate of ticks are not noticed. More on the rules: docs/FIRMWARE.md.
 *
 *  1 INIT       Before its first call a device is UIP_INIT, or all 0. Your start-up code initialises .data and .bss
 *               at each reset. If it does not, set both members of the device to 0, and empty the heap.
 *  2 DEVICE     While a device is open, do not copy it, and do not write its members.
 *  3 ONE CALL   Two calls with one device never overlap, also if they only read. An inline function counts as one
 *               call: while it runs, only its sink may use the device. Make no call in an interrupt. Under an RTOS
 *               let one task make all calls, or hold a mutex over each. Each call and each sink returns: no longjmp
 *               out of it, no exception, no deleted task.
 *  4 POINTERS   Only `to` may be null. Each area has at least the length that you pass; `own`, `mask` and `router`
 *               have 4 bytes, `mac` 6 and `secret` 16. No alignment is needed. On 32 bits a length is below 2^31.
 *  5 OUTPUT     During a call nothing else uses `out` or `frame`, except the sink of an inline function. They overlap
 *               no other argument, and not the device. The library may write up to `room` bytes, whatever it reports.
 *  6 IMAGE      Until uip_close the image stays at its address, unchanged. It may lie in flash. The library reads it
 *               only during a call.
 *  7 INPUT      During a call everything else that you pass stays unchanged. After the call it is yours again.
 *  8 LINK       The program has the three functions of section 11, and memcpy, memmove and memset. On 32 bits it
 *               links libgcc or compiler-rt. Header and library are of one version. Do not compile with
 *               -fpcc-struct-return or -freg-struct-return.
 *  9 STACK      There is room for the stack of each call, below that of its caller: more than the 1 kB of many
 *               start-up files. Reserve 3 kB, and 8 kB where Ethernet is opened; ports/README.md, "Figures", has what
 *               each call takes. Add your interrupts if they share the stack. A sink adds nothing: the library has
 *               returned.
 * 10 PROCESSOR  The stack is aligned as the ABI demands. A compiled library, unlike uip.c, demands more of processor
 *               and memory: docs/FIRMWARE.md, "What does a compiled library need?".
 *
 * TICKS. If one or two ticks are due, make them. If more are due, after a stall, make only one: a burst of ticks
 * would time out live connections. A late tick does no harm. Without ticks nothing is sent again, and no connection
 * times out. support/ticks.h keeps these rules.
 *
 * TIME. No call waits, masks interrupts or needs privilege, and only opening allocates memory. An inline function
 * waits if its sink waits. No bound on the time of a call is known; ports/README.md has what was counted. A task with
 * a deadline makes no call: it exchanges values and commands by queues with the task that does (gate.c).
 */

/* ---- 2 Statuses --------------------------------------------------------------------------------
 * uip_protect, uip_set_value, uip_close and the functions that take a sink return a status. uip_needs_ticks returns 0
 * or 1. Each other call returns a struct with a status in it. If the status is not UIP_OK, the call has changed
 * nothing and written nothing, and the other fields are 0. (uip_opened also names the fault of an image, and
 * uip_drain_all may have called its sink.) Each call lists its statuses in the order in which it checks for them.
 *
 * Nothing that arrives causes an error, if your driver drops what the call would refuse. So after opening treat any
 * status but UIP_OK as a failed assertion: record it, and reset or make no more calls.
 */
enum uip_status {
    UIP_OK = 0,
    UIP_NO_DEVICE = 1,         /* the device is not open */
    UIP_BAD_ARGUMENT = 2,      /* a length, room, slot or number is out of its range; of uip_protect: it comes too late */
    /* Only of uip_open and uip_open_ether: */
    UIP_HAS_DEVICE = 3,        /* the device is already open; it stays open, unchanged */
    UIP_BAD_IMAGE = 4,         /* the image is bad: `word` and `entry` name its first fault. The device is closed */
    UIP_NO_MEMORY = 5,         /* the heap is too small. The device is closed */
    /* Only of calls that may send: */
    UIP_OUTPUT_PENDING = 6,    /* output is pending: your loop has to call uip_drain first, until none is */
    UIP_WRONG_LINK = 7         /* the device is on Ethernet and the call is not, or the other way round */
};

/* ---- 3 Constants -------------------------------------------------------------------------------
 * Nothing can be configured. "Sizes and timers" in docs/FIRMWARE.md has the limits of a site, and the time-outs.
 */
#define UIP_MAX_OUT 3002        /* bytes of the longest frame in SLIP: with this room nothing is ever pending */
#define UIP_MIN_OUT 2           /* the least room of a call for a serial line */
#define UIP_MAX_DATAGRAM 1500   /* bytes of the longest datagram; the least room of a call for datagrams */
#define UIP_MAX_FRAME 1514      /* bytes of the longest Ethernet frame; the least room of a call for frames */
#define UIP_SLOTS 10            /* the slots are 0 to 9 */
#define UIP_COUNTERS 20         /* the counters are 1 to 20 */
#define UIP_VALUES 16           /* the values are 0 to 15 */
#define UIP_MAX_VALUE 32        /* bytes of the longest value */
#define UIP_MAX_QUERY 64        /* bytes of the longest query; the least room of uip_query */

/* The numbers for uip_counter. Each counts since opening, modulo 2^32. */
enum uip_counter_id {
    UIP_DATAGRAMS_IN = 1,      /* reached IP, also if they were dropped later; and one for each connection given up */
    UIP_DATAGRAMS_OUT = 2,
    UIP_OVERLONG_FRAMES = 3,   /* SLIP frames of more than 1500 bytes, dropped; and those lost to a call that sent within them */
    /* 4 to 10: dropped by IP */
    UIP_IP_SHORT = 4,          /* shorter than a header */
    UIP_IP_VERSION = 5,        /* another version, or with options */
    UIP_IP_LENGTH = 6,         /* a wrong length */
    UIP_IP_FRAGMENT = 7,       /* a fragment */
    UIP_IP_CHECKSUM = 8,       /* a wrong header checksum */
    UIP_IP_NOT_OURS = 9,       /* for another address */
    UIP_IP_PROTOCOL = 10,      /* neither ICMP nor TCP */
    UIP_ICMP_IN = 11,          /* received, also if they were dropped later */
    UIP_ECHO_REPLIES_OUT = 12,
    UIP_ICMP_DROPPED = 13,     /* too short, or no echo request */
    UIP_ICMP_CHECKSUM = 14,    /* a wrong checksum, dropped */
    UIP_TCP_IN = 15,           /* received, also if they were dropped later; and one for each connection given up */
    UIP_TCP_OUT = 16,          /* sent, also again, and resets */
    UIP_TCP_DROPPED = 17,      /* too short, or a wrong data offset */
    UIP_TCP_CHECKSUM = 18,     /* a wrong checksum, dropped */
    UIP_RETRANSMISSIONS = 19,  /* SYN-ACKs, data and FINs that a timer sent again */
    UIP_SYN_DROPPED = 20       /* SYNs to port 80 that found no slot in CLOSED or TIME_WAIT */
};

/* The numbers for uip_guard_counter. Each counts since opening, modulo 2^32. */
enum uip_guard_counter_id {
    UIP_GUARD_DROPPED = 1,     /* datagrams that the guard dropped. No other counter counts them */
    UIP_GUARD_GAVE_UP = 2      /* connections that it gave up for the SYN of another */
};

/* The states of a connection (RFC 793, section 3.2). */
enum uip_state {
    UIP_CLOSED = 0, UIP_SYN_RCVD = 1, UIP_ESTABLISHED = 2, UIP_CLOSE_WAIT = 3, UIP_FIN_WAIT_1 = 4, UIP_FIN_WAIT_2 = 5,
    UIP_CLOSING = 6, UIP_TIME_WAIT = 7, UIP_LAST_ACK = 8
};

/* ---- 4 Types ----------------------------------------------------------------------------------- */

/* A device. Its members are private. */
typedef struct uip_device { unsigned is_open; void *at; } uip_device;
#define UIP_INIT {0, NULL}

/* The result of opening.
 *   status    an enum uip_status
 *   entry     if the image is bad: the number of the faulty file, from 1, or 0 for the image as a whole
 *   word      if the image is bad: a word for the fault, as a string (docs/FORMATS.md). Else empty
 */
typedef struct uip_opened { unsigned status; unsigned entry; char word[8]; } uip_opened;

/* The result of a call that may send.
 *   pending     1 if output is left that did not fit into `out`, else 0
 *   consumed    how many bytes of the input the call used
 *   written     how many bytes it wrote to the start of `out` or `frame`: send them. 0 if there is nothing to send
 */
typedef struct uip_result { unsigned status, pending; size_t consumed, written; } uip_result;

/* The result of a call that returns a number. */
typedef struct uip_number { unsigned status; unsigned number; } uip_number;

/* The result of uip_query.
 *   hit    what uip_hits was just after the request that brought the query; 0 if there is no query. If uip_hits is
 *          still the same, the latest request brought it
 *   len    the length of its text in bytes; it may be 0
 */
typedef struct uip_query_text { unsigned status; unsigned hit; size_t len; } uip_query_text;

/* The result of uip_connection. In CLOSED all fields but the status are 0.
 *   state      an enum uip_state
 *   peer       the IPv4 address of the peer, first byte first
 *   port       the TCP port of the peer
 *   waiting    1 if a segment is sent and not yet acknowledged
 *   tries      how often this segment was sent again
 *   count      if `waiting` is 1: how many ticks pass before the one at which this segment is sent again, or given
 *              up. Else, in FIN_WAIT_2 and TIME_WAIT: the ticks spent there, of 120. Else 0
 */
typedef struct uip_row { unsigned status, state; unsigned char peer[4]; unsigned port, tries, count, waiting; } uip_row;

/* A sink: a function of yours that sends output. An inline function calls it for each piece, in order.
 *   to       the pointer that you passed to the inline function; it may be null
 *   bytes    on a serial line a piece of the output, else a whole datagram or frame. It is valid until the sink
 *            returns
 *   len      the length of the piece, 1 or more
 *
 * A sink may wait. If it starts a DMA, it waits for the end of it, or copies the piece first. If it cannot send, it
 * drops the piece: TCP sends the data again. With this device it may make the calls of sections 9 and 10, and no
 * other.
 */
typedef void (*uip_sink)(void *to, const unsigned char *bytes, size_t len);

/* What makes a function of this header inline. You may define it before the header, with `static`. */
#ifndef UIP_INLINE
#if defined(__cplusplus) || (defined(__STDC_VERSION__) && __STDC_VERSION__ >= 199901L)
#define UIP_INLINE static inline
#elif defined(__GNUC__)
#define UIP_INLINE static __inline__
#else
#define UIP_INLINE static
#endif
#endif

/* ---- 5 Open and close -------------------------------------------------------------------------- */

/* Opens a device for a serial line or a link of datagrams: allocates its memory, and sends nothing. Your port may be
 * started before or after it.
 *   image, len    the image of the site (rule 6)
 *   own           the IPv4 address, first byte first: {10, 0, 0, 1}. It is copied, and not checked
 *   Status        UIP_HAS_DEVICE; UIP_BAD_IMAGE or UIP_NO_MEMORY; UIP_OK
 */
uip_opened uip_open(uip_device *device, const unsigned char *image, size_t len, const unsigned char own[4]);

/* Opens a device on Ethernet. It announces nothing. Your controller may be started before or after it.
 *   image, len    as for uip_open
 *   own           the IPv4 address. It is copied, and so are the next three
 *   mac           the hardware address; its first byte is even (it is not checked)
 *   mask          the mask of the network: {255, 255, 255, 0}
 *   router        the router for other networks. If there is none, {0, 0, 0, 0}: then the device takes every address
 *                 for one of its network, as with a mask of 0.0.0.0
 *   Status        as of uip_open
 *
 * The device learns eight hardware addresses by ARP, from requests too. A ninth replaces the oldest; all hosts beyond
 * the router count as one. It forgets each after 20 minutes, also one in use, and then asks anew (uip_input_frame).
 */
uip_opened uip_open_ether(uip_device *device, const unsigned char *image, size_t len, const unsigned char own[4],
                          const unsigned char mac[6], const unsigned char mask[4], const unsigned char router[4]);

/* Gives a device a secret, so that no host can predict its sequence numbers (RFC 6528). Call it once, after opening
 * and before the first input and the first tick.
 *   secret    16 random bytes, new ones at each start if you can: with the same ones the numbers repeat after a
 *             reset. Never the same for two devices ("A secret" in docs/FIRMWARE.md). They are copied
 *   Status    UIP_NO_DEVICE; UIP_BAD_ARGUMENT (it has a secret already, or its node took a datagram, or slot 0 was
 *             called; on Ethernet: or it took a frame, or any slot was called. Nothing changes); UIP_OK
 *
 * Also without a secret a device has a guard ("Connections and attacks" in docs/LIMITS.md). It drops a RST that is not
 * at RCV.NXT, segments that could not be accepted, and a source that no host may have. If a SYN finds no slot, it gives
 * up a connection: one in FIN_WAIT_2, else one in SYN_RCVD, else one of another host that has four slots or more. The
 * peer of that connection is sent nothing; its next segment is answered by a RST.
 */
unsigned uip_protect(uip_device *device, const unsigned char secret[16]);

/* Closes a device and frees its memory. It sends nothing: connections, pending output, values, counts and the ARP
 * table are lost. Status: UIP_NO_DEVICE; UIP_OK.
 *
 * If you open again, set all values again, and set to 0 what your program remembers of uip_hits, uip_query, uip_ticks
 * and uip_counter. With support/step.c call reset_step between the two calls, and with ether_loop.c reset_ether_loop.
 */
unsigned uip_close(uip_device *device);

/* ---- 6 Serial line -----------------------------------------------------------------------------
 * The line carries SLIP (RFC 1055, not CSLIP), 8 data bits, no parity, without XON and XOFF, in full duplex. The
 * other end is a host, or a gateway to other networks, with an MTU of at most 1,500; never another node.
 *
 * For a trial uip_feed_all and uip_tick_all suffice. They wait while their sink waits. For a product take
 * support/step.c, which makes all calls of this section and never waits. No call reads the port: while your program
 * sends, an interrupt or a DMA stores in a ring what arrives ("The ring" in docs/FIRMWARE.md). If bytes are lost,
 * clear the error of the port and continue: TCP repairs it.
 */

/* Feeds bytes up to the end of the first complete frame, handles that frame, and writes the start of the reply.
 *   bytes, len    received bytes, cut in any way; `len` is 1 or more
 *   out, room     where the reply goes; `room` is UIP_MIN_OUT or more
 *   Result        `consumed` is 1 to `len`. While `pending` is 1, send and call uip_drain. Then feed the bytes that
 *                 were not consumed
 *   Status        UIP_BAD_ARGUMENT; UIP_NO_DEVICE; UIP_WRONG_LINK; UIP_OUTPUT_PENDING; UIP_OK
 */
uip_result uip_feed(uip_device *device, const unsigned char *bytes, size_t len, unsigned char *out, size_t room);

/* Runs the timers of one slot, 0 to 9, and may write the start of a frame. A tick is one call for each slot, in any
 * order; other calls may come between them. `out`, `room` and the status are as for uip_feed.
 *   Result    `consumed` is 0. While `pending` is 1, send and call uip_drain. The device has one packet for both
 *             directions: if `written` is not 0 and a frame is partly fed, that frame is lost, as if by noise on the
 *             line, and counted as UIP_OVERLONG_FRAMES; TCP sends its data again
 */
uip_result uip_periodic(uip_device *device, size_t slot, unsigned char *out, size_t room);

/* Writes more of the pending output, or nothing if none is pending. `out` and `room` are as for uip_feed.
 *   Result    `consumed` is 0. `pending` is 1 if there is still more
 *   Status    UIP_BAD_ARGUMENT; UIP_NO_DEVICE; UIP_WRONG_LINK; UIP_OK
 */
uip_result uip_drain(uip_device *device, unsigned char *out, size_t room);

/* Passes to `sink` what a uip_feed or uip_periodic has written, and then all that is pending.
 *   done                   the result of that call
 *   out, room, sink, to    as for uip_feed_all; `out` and `room` are the area of that call
 *   Status                 done.status if it is not UIP_OK; else that of a uip_drain that fails; else UIP_OK
 */
UIP_INLINE unsigned uip_drain_all(uip_device *device, uip_result done, unsigned char *out, size_t room, uip_sink sink,
                                  void *to) {
    while (done.status == UIP_OK) {
        if (done.written) sink(to, out, done.written);
        if (!done.pending) break;
        done = uip_drain(device, out, room);
    }
    return done.status;
}

/* Feeds all bytes to the device, and passes all output to `sink`.
 *   bytes, len    received bytes, cut in any way. If `len` is 0, the call does nothing, and returns UIP_OK
 *   out, room     an area for the output. `room` is UIP_MIN_OUT or more; a larger area makes longer pieces
 *   sink, to      the sink is called with `to` and each piece. Each frame that ends in `bytes` has at most one frame
 *                 of output
 *   Status        UIP_BAD_ARGUMENT; UIP_NO_DEVICE; UIP_WRONG_LINK; UIP_OUTPUT_PENDING; UIP_OK
 */
UIP_INLINE unsigned uip_feed_all(uip_device *device, const unsigned char *bytes, size_t len,
                                 unsigned char *out, size_t room, uip_sink sink, void *to) {
    uip_result done = {UIP_OK, 0, 0, 0};
    size_t at = 0;
    while (done.status == UIP_OK && (done.pending || at < len)) {
        done = done.pending ? uip_drain(device, out, room) : uip_feed(device, bytes + at, len - at, out, room);
        at += done.consumed;
        if (done.written) sink(to, out, done.written);
    }
    return done.status;
}

/* Makes a tick, and passes all output to `sink`: at most ten frames. The rest is as for uip_feed_all. */
UIP_INLINE unsigned uip_tick_all(uip_device *device, unsigned char *out, size_t room, uip_sink sink, void *to) {
    uip_result done = {UIP_OK, 0, 0, 0};
    size_t slot = 0;
    while (done.status == UIP_OK && (done.pending || slot < UIP_SLOTS)) {
        done = done.pending ? uip_drain(device, out, room) : uip_periodic(device, slot++, out, room);
        if (done.written) sink(to, out, done.written);
    }
    return done.status;
}

/* ---- 7 Datagrams -------------------------------------------------------------------------------
 * For a link that carries IPv4 datagrams, such as a tunnel, or a PPP of yours. It may lose some. Your driver passes
 * each datagram whole, without compressed headers (VJ), and drops one of 0 bytes or of more than UIP_MAX_DATAGRAM.
 * The MTU is 1,500: if that of the link is smaller, the MSS in the SYNs of both directions must be at most the MTU
 * less 40. The node drops fragments, and does not set DF.
 */

/* Receives one datagram, and writes the datagram of the reply, if there is one.
 *   datagram, len    the datagram, from the first byte of its IP header; `len` is 1 to UIP_MAX_DATAGRAM
 *   out, room        where the reply goes; `room` is UIP_MAX_DATAGRAM or more
 *   Result           `consumed` is `len`; `pending` is 0
 *   Status           UIP_BAD_ARGUMENT; UIP_NO_DEVICE; UIP_WRONG_LINK; UIP_OUTPUT_PENDING (of a serial line); UIP_OK
 */
uip_result uip_input(uip_device *device, const unsigned char *datagram, size_t len, unsigned char *out, size_t room);

/* Runs the timers of one slot, 0 to 9, and may write a datagram. `consumed` is 0; the rest is as for uip_input. */
uip_result uip_periodic_datagram(uip_device *device, size_t slot, unsigned char *out, size_t room);

/* Makes a tick, and passes each datagram to `sink`, with `to`: at most ten. The rest is as for uip_input. */
UIP_INLINE unsigned uip_tick_datagrams(uip_device *device, unsigned char *out, size_t room, uip_sink sink, void *to) {
    uip_result done = {UIP_OK, 0, 0, 0};
    size_t slot;
    for (slot = 0; slot < UIP_SLOTS && done.status == UIP_OK; slot++) {
        done = uip_periodic_datagram(device, slot, out, room);
        if (done.written) sink(to, out, done.written);
    }
    return done.status;
}

/* ---- 8 Ethernet --------------------------------------------------------------------------------
 * One area has the received frame, and in its place the reply. A frame is that of RFC 894, from the destination
 * address to the end of its data, without preamble and check sequence. Your driver
 *   - passes on the frames for `mac` and the broadcasts, and drops damaged ones and those longer than `room`
 *   - takes the check sequence off what it receives, and adds it to what it sends
 *   - pads what it sends to 60 bytes, with 0
 *   - does not insert checksums of IP, ICMP or TCP: the library has written them
 *   - may lose frames. While the link is down it drops what is to be sent, and makes its ticks.
 *
 * If a frame begins two bytes after a multiple of 4, the library copies by words. "The Ethernet controller" in
 * docs/FIRMWARE.md has DMA, caches and barriers.
 */

/* Of the library, for uip_input_frame alone: its language passes the size of an area after its address. */
uip_result uip_input_frame_area(uip_device *device, unsigned char *frame, size_t room, size_t len);

/* Receives one frame, and writes the frame to send in its place, if there is one.
 *   frame, len    an area with the received frame at its start, and the length of that frame, padding included: 0 to
 *                 `room`
 *   room          the size of the area, UIP_MAX_FRAME or more
 *   Result        `consumed` is `len`; `pending` is 0
 *   Status        UIP_BAD_ARGUMENT; UIP_NO_DEVICE; UIP_WRONG_LINK; UIP_OK
 *
 * If the hardware address for the reply is not known, the call writes an ARP request in place of the reply, and so
 * does uip_periodic_frame. TCP sends its data again, after 4 ticks; a ping gets no reply. The node drops all but ARP
 * and IPv4, such as frames with VLAN tags.
 */
UIP_INLINE uip_result uip_input_frame(uip_device *device, unsigned char *frame, size_t len, size_t room) {
    return uip_input_frame_area(device, frame, room, len);
}

/* Runs the timers of one slot, 0 to 9, and may write a frame. `consumed` is 0; the rest is as for uip_input_frame. */
uip_result uip_periodic_frame(uip_device *device, size_t slot, unsigned char *frame, size_t room);

/* Makes a tick, and passes each frame to `sink`, with `to`: at most ten. The rest is as for uip_periodic_frame. */
UIP_INLINE unsigned uip_tick_frames(uip_device *device, unsigned char *frame, size_t room, uip_sink sink, void *to) {
    uip_result done = {UIP_OK, 0, 0, 0};
    size_t slot;
    for (slot = 0; slot < UIP_SLOTS && done.status == UIP_OK; slot++) {
        done = uip_periodic_frame(device, slot, frame, room);
        if (done.written) sink(to, frame, done.written);
    }
    return done.status;
}

/* ---- 9 Pages -----------------------------------------------------------------------------------
 * A line `%! value-html 3` of a file NAME.shtml is replaced by value 3. A link or a form requests a file: uip_hits
 * counts the requests, and uip_query has what came after the `?`. A later query replaces the one before, so look
 * after each request. A pass that takes one datagram, one frame or at most 42 bytes of a serial line takes at most one
 * request: look once in each. docs/PAGES.md is the guide: when to look, and why a browser also requests files that
 * nobody clicked.
 */

/* A string literal, and nothing else, as two arguments: its text and its length without the 0 at its end. */
#define UIP_TEXT(literal) ("" literal), sizeof("" literal) - 1

/* Sets a value that pages show. Before it is set, and if `len` is 0, it is empty.
 *   number       0 to 15
 *   text, len    any bytes; `len` is 0 to UIP_MAX_VALUE. They are copied
 *   Status       UIP_BAD_ARGUMENT (the old value stays); UIP_NO_DEVICE; UIP_OK
 *
 * The node reads a value of a page when the peer has acknowledged all bytes of the reply that come before it, the
 * HTTP header included. So if you see a request, and set a value before the next call that takes input, the reply has
 * it. Each value of a page costs a round trip, and two values, also the same number twice, may be of two moments:
 * make one value of what belongs together. A segment that is sent again has the same bytes, also if the value has
 * changed. Between two empty values without text between them the reply waits for a tick.
 */
unsigned uip_set_value(uip_device *device, size_t number, const void *text, size_t len);

/* Returns how often a file was requested since opening, modulo 2^32. It is 0 for a name that the site does not have.
 *   name, len    the name of the file, with its slash: UIP_TEXT("/on.html")
 *   Status       UIP_NO_DEVICE; UIP_OK
 *
 * A request for / or /?d=1 counts for /index.html, and /on.html?d=1 for /on.html. An include counts none. A segment
 * that is sent again counts once.
 */
uip_number uip_hits(uip_device *device, const void *name, size_t len);

/* Copies the last query, if it was for this file: level=21 of a request for /set.html?level=21.
 *   name, len    the name of the file, with its slash
 *   out, room    where the text goes, without a 0 at its end; `room` is UIP_MAX_QUERY or more
 *   Result       `hit` and `len` (section 4); both are 0 if no query was kept, or the last one is of another file
 *   Status       UIP_BAD_ARGUMENT; UIP_NO_DEVICE; UIP_OK
 *
 * If `hit` is equal to uip_hits of the file, its latest request brought this query. The device keeps one query in
 * all: the last one for a file of the site that has at most 64 bytes, each a letter, a digit or one of -_.~%&=+, and
 * that arrives in the first segment of its request. Any other one is ignored, and its request served. Nothing is
 * decoded: text_in of support/text.h does that.
 */
uip_query_text uip_query(uip_device *device, const void *name, size_t len, void *out, size_t room);

/* ---- 10 State ---------------------------------------------------------------------------------- */

/* Returns the connection of a slot, 0 to 9. Status: UIP_BAD_ARGUMENT; UIP_NO_DEVICE; UIP_OK. */
uip_row uip_connection(uip_device *device, size_t slot);

/* Returns 1 if a connection needs ticks: one that is neither CLOSED nor in TIME_WAIT. Else it returns 0, also if the
 * device is not open.
 *
 * While it returns 0 and no output is pending, you may leave out ticks, and sleep until something arrives. That
 * prolongs TIME_WAIT. All new connections have one and the same initial sequence number until the next tick.
 * uip_ticks does not rise, and on Ethernet ARP entries do not age. ("Sleep" in docs/FIRMWARE.md.)
 */
UIP_INLINE int uip_needs_ticks(uip_device *device) {
    size_t slot;
    for (slot = 0; slot < UIP_SLOTS; slot++) {
        unsigned state = uip_connection(device, slot).state;
        if (state != UIP_CLOSED && state != UIP_TIME_WAIT) return 1;
    }
    return 0;
}

/* Returns whether every connection is CLOSED: `number` is 1 if so, else 0. After a page it stays 0 for 60 s
 * (TIME_WAIT), unless the peer closed first. Status: UIP_NO_DEVICE; UIP_OK.
 */
uip_number uip_is_idle(uip_device *device);

/* Returns the number of ticks since opening, modulo 2^32: the periodic calls of slot 0. It does not rise while you
 * leave ticks out, so it is no clock. Status: UIP_NO_DEVICE; UIP_OK.
 */
uip_number uip_ticks(uip_device *device);

/* Returns a counter, by its enum uip_counter_id, 1 to 20. Status: UIP_BAD_ARGUMENT; UIP_NO_DEVICE; UIP_OK. */
uip_number uip_counter(uip_device *device, size_t number);

/* Returns a counter of the guard, by its enum uip_guard_counter_id. Status: UIP_BAD_ARGUMENT; UIP_NO_DEVICE; UIP_OK. */
uip_number uip_guard_counter(uip_device *device, size_t number);

/* ---- 11 Heap -----------------------------------------------------------------------------------
 * Your program defines these three functions: take heap.c of support/ or dist/, which has them over one array, or
 * write them. On Linux and macOS, or compiled with UIP_MALLOC, uip.c defines them itself, over malloc. Opening
 * allocates six blocks, and uip_close frees them. No other call allocates (tested, not proved). The functions call
 * nothing of the library. They must be thread-safe only if two devices may be opened or closed at one time.
 *   rattle_alloc      `ok` is 1, and `block` a block of `len` bytes (of `align` bytes if `len` is 0), at a multiple
 *                     of `align`, which is 1, 2, 4 or 8. If there is no room, `ok` is 0, and `block` is any address
 *                     but null. Never return a null block: that is undefined behaviour
 *   rattle_realloc    is never called, but the linker needs it. It may return `ok` 0 and any address but null
 *   rattle_dealloc    frees a block
 */
typedef struct uip_block { size_t ok; void *block; } uip_block;
uip_block rattle_alloc(size_t len, size_t align);
uip_block rattle_realloc(void *block, size_t kept, size_t len, size_t align);
void rattle_dealloc(void *block);

/* The bytes of heap that one device needs, for an image of `files` files, on every target. Add what your allocator
 * needs for each block (heap.c: nothing). Do not use them in #if.
 */
#define UIP_ROUNDED(len) (((size_t)(len) + 15) / 16 * 16)
#define UIP_MEMORY(files) \
    (UIP_ROUNDED(28 * (size_t)(files)) + UIP_ROUNDED(2 * (size_t)(files)) + UIP_ROUNDED(4 * (size_t)(files)) + 4032)
#define UIP_MEMORY_ETHER(files) (UIP_MEMORY(files) + 96)

#ifdef __cplusplus
}
#endif

#endif
