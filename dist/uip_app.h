/*
 * uip_app.h - the C interface of a Lowunbisa node on Ethernet whose TCP connections your program answers
 *
 * A node has one IPv4 address. It answers ping and ARP, and your program answers its connections: for a
 * console, SCPI, G-code or Modbus over TCP. It has no web server; for both on one device see uip_both.h.
 * Rules, statuses, frames and ticks are those of uip.h.
 *
 *   uip_app_open(device, own, mac, mask, router)             opens a device on Ethernet
 *   uip_app_protect(device, secret)                          gives it a secret, before the first frame
 *   uip_app_listen(device, port)                             opens a port, one of at most four
 *   uip_app_input_frame(device, frame, len, room)            takes a frame, writes the reply in its place
 *   uip_app_periodic_frame(device, slot, frame, room)        runs the timers of one slot
 *   uip_app_read(device, slot, bytes, room)                  copies what a connection has received
 *   uip_app_write(device, slot, taken, text, len, last, frame, room)      answers it by one message
 *   uip_app_guard_counter(device, number)                    what the guard dropped and gave up
 *   uip_app_close(device)                                    frees its memory
 *   UIP_APP_MEMORY                                           the bytes of heap that a device needs
 *
 *   Library     libuip_app_c.a, or uip.c compiled with UIP_APP. It has the calls of this header, and none of
 *               uip.h. A program links one library of Lowunbisa.
 *   Programs    examples/firmware/lines.c answers lines; examples/linux-app/ is a console and Modbus/TCP for
 *               Linux, and examples/board/app.c a firmware for qemu.
 *   Proved      Of the source, if you keep the rules: memory safety, and that each call writes exactly the
 *               frame that the definition of the node and of ARP gives. For fewer than 2^32 calls and 2^30
 *               bytes to a connection, what its peer receives is a prefix of your messages, in order
 *               (docs/GUARANTEE.md). Not proved: that a message arrives.
 *
 * SPDX-License-Identifier: MIT OR Apache-2.0
 * Copyright 2026 The Lowunbisa authors; see LICENSE on the run-time library in each binary
 */
#ifndef UIP_APP_H
#define UIP_APP_H

#include "uip.h"

#ifdef __cplusplus
extern "C" {
#endif

/* ---- How a connection is answered ---------------------------------------------------------------
 *
 * RULES: 1 to 5 and 7 to 10 of uip.h. Rule 5 holds for `bytes` of uip_app_read as for `out`. For rule 9
 * ports/README.md, "Figures", has the stack.
 *
 * STATUSES: as in uip.h. If the status is not UIP_OK, the call has changed nothing, and the other fields
 * are 0. Each call lists its statuses in the order in which it checks for them.
 *
 * ANSWERS. A connection stores what it receives, up to UIP_MAX_RECEIVED bytes. uip_app_read copies these
 * bytes and takes none. uip_app_write takes the first `taken` of them and sends one message. The next message
 * can be written when the peer has acknowledged this one: then `ready` is 1. A program that writes without
 * being asked passes `taken` 0.
 *
 * What the peer receives is a prefix of the messages, in the order in which they were written. A segment
 * that is sent again has the same bytes. If a connection ends before its last message, the peer sees a
 * reset, or nothing more.
 *
 * PORTS. After uip_app_open no port is open. The node drops a TCP segment to a port that is not open, and
 * sends no reset: there a client's connect() ends by its time limit, and not with "connection refused".
 *
 * LIMITS. If a peer sends more than UIP_MAX_RECEIVED bytes before the program takes some, it is reset: the
 * window stays 1460. If a peer closes before it has its reply, it is reset too: `echo get | nc -N` has no
 * reply, while telnet and a socket that stays open have one. Each message costs a round trip. A connection
 * that neither receives nor sends for 1,200 ticks (ten minutes) is reset. docs/LIMITS.md has what holds for
 * every node.
 */

/* The status of uip_app_write beside those of uip.h: the connection cannot send a message now, or fewer than
 * `taken` bytes are there.
 */
enum { UIP_NOT_READY = 8 };

enum {
    UIP_MAX_RECEIVED = 128,    /* the received bytes that a connection stores */
    UIP_MAX_MESSAGE = 260,     /* bytes of the longest message: the longest frame of Modbus/TCP */
    UIP_MAX_PORTS = 4          /* the ports that can be open */
};

/* A device. Its members are private. */
typedef struct uip_app { unsigned is_open; void *at; } uip_app;
#define UIP_APP_INIT {0, NULL}

/* The bytes of heap that one device needs: three blocks, of 1500, 4720 and 640 bytes, each rounded up to a
 * multiple of 16 (measured on x86-64, m4, rv32 and wasm).
 */
#define UIP_APP_MEMORY 6864

/* The result of uip_app_read.
 *   ready    1 if uip_app_write can send a message on this connection now, else 0
 *   port     the port of the node at which the connection was opened; 0 if the connection is not open
 *   len      how many received bytes wait; the area has as many of them as it has room for
 */
typedef struct uip_received { unsigned status, ready, port; size_t len; } uip_received;

/* ---- Calls ------------------------------------------------------------------------------------- */

/* Opens a device. It allocates the memory of the device, and sends nothing. All arguments are copied.
 *
 *   own       the IPv4 address, first byte first: {10, 0, 0, 1}; it is not checked
 *   mac       the hardware address; its first byte is even
 *   mask      the mask of the network: {255, 255, 255, 0}
 *   router    the address of the router. If there is none, pass {0, 0, 0, 0}
 *
 *   Status    UIP_HAS_DEVICE; UIP_NO_MEMORY; UIP_OK
 *
 * The device sends frames for addresses outside of its network to the router. If mask or router is 0.0.0.0,
 * it takes every address for one of its network.
 */
unsigned uip_app_open(uip_app *device, const unsigned char own[4], const unsigned char mac[6],
                      const unsigned char mask[4], const unsigned char router[4]);

/* Gives a device a secret, so that no host can predict its sequence numbers (RFC 6528). Call it once, after
 * opening and before the first frame and the first call of a slot.
 *
 *   secret    16 random bytes, new ones at each start if you can: with the same ones the numbers repeat after
 *             a reset. Never the same for two devices ("A secret" in docs/FIRMWARE.md). They are copied
 *
 *   Status    UIP_NO_DEVICE; UIP_BAD_ARGUMENT (it has a secret already, or a frame was received or a slot was
 *             called: nothing changes); UIP_OK
 *
 * A device has a guard, also without a secret. It drops a datagram from an address that no host may
 * have, a RST that is not at RCV.NXT, and segments that could not be accepted. If a SYN finds no slot, the guard gives up a connection for it: one in FIN_WAIT_2, else one in SYN_RCVD. No
 * connection of yours is given up while it is open. The peer of one that is given up is sent nothing; its
 * next segment is answered by a RST.
 *
 * In the guarantee (docs/GUARANTEE.md) such a connection received a RST that is of no host, and what was
 * dropped did not arrive.
 */
unsigned uip_app_protect(uip_app *device, const unsigned char secret[16]);

/* Opens a port: connections to it are accepted from now on, until uip_app_close. If it is open already,
 * nothing changes. The call may come at any time, also while there are connections.
 *
 *   port    1 to 65535, except 80, which is the port of the pages in uip_both.h
 *
 *   Status    UIP_BAD_ARGUMENT (no such port); UIP_NO_DEVICE; UIP_BAD_ARGUMENT (UIP_MAX_PORTS others are
 *             open); UIP_OK
 */
unsigned uip_app_listen(uip_app *device, unsigned port);

/* Receives one frame, and writes the frame to send in its place, if there is one: as uip_input_frame of
 * uip.h. It is inline. After it look at each connection: the frame may have brought bytes, or an
 * acknowledgement.
 *
 *   frame, len    an area with the received frame at its start, and the length of that frame, 0 to `room`
 *   room          the size of the area, UIP_MAX_FRAME or more
 *
 *   Result    `consumed` is `len`; `pending` is 0
 *   Status    UIP_BAD_ARGUMENT; UIP_NO_DEVICE; UIP_OK
 */
UIP_INLINE uip_result uip_app_input_frame(uip_app *device, unsigned char *frame, size_t len, size_t room);

/* Runs the timers of one slot, and may write a frame: as uip_periodic_frame of uip.h. A tick is one call for
 * each slot.
 *
 *   slot           0 to 9
 *   frame, room    where the frame goes; `room` is UIP_MAX_FRAME or more
 *
 *   Result    `consumed` and `pending` are 0
 *   Status    UIP_BAD_ARGUMENT; UIP_NO_DEVICE; UIP_OK
 */
uip_result uip_app_periodic_frame(uip_app *device, size_t slot, unsigned char *frame, size_t room);

/* Copies the received bytes of a connection that no message has answered. It changes nothing.
 *
 *   slot           0 to 9
 *   bytes, room    where the bytes go: as many as there is room for. UIP_MAX_RECEIVED bytes have room for all
 *
 *   Result    `ready`, `port` and `len` (above)
 *   Status    UIP_BAD_ARGUMENT; UIP_NO_DEVICE; UIP_OK
 */
uip_received uip_app_read(uip_app *device, size_t slot, void *bytes, size_t room);

/* Writes a message to a connection, and makes the periodic call of its slot, which sends it.
 *
 *   slot           0 to 9
 *   taken          how many of the received bytes the message answers: they are dropped
 *   text, len      the message; `len` is 0 to UIP_MAX_MESSAGE. With 0 the bytes are only dropped
 *   last           1 if the connection closes after this message, else 0
 *   frame, room    where the frame goes; `room` is UIP_MAX_FRAME or more
 *
 *   Result    `written` is the length of the frame; `consumed` and `pending` are 0
 *   Status    UIP_BAD_ARGUMENT; UIP_NO_DEVICE; UIP_NOT_READY; UIP_OK
 *
 * If the call is for slot 0, it counts as a tick, as uip_app_periodic_frame does. If the hardware address of
 * the peer, or of the router, is not known, the frame is an ARP request for it, and a later tick sends the
 * message.
 */
uip_result uip_app_write(uip_app *device, size_t slot, size_t taken, const void *text, size_t len, unsigned last,
                         unsigned char *frame, size_t room);

/* Returns a counter of the guard, by its enum uip_guard_counter_id of uip.h. Status: UIP_BAD_ARGUMENT;
 * UIP_NO_DEVICE; UIP_OK.
 */
uip_number uip_app_guard_counter(uip_app *device, size_t number);

/* Closes a device and frees its memory. It sends nothing: all connections are lost.
 *
 *   Status    UIP_NO_DEVICE; UIP_OK
 */
unsigned uip_app_close(uip_app *device);

/* ---- Body of the inline function --------------------------------------------------------------- */

/* Of the library, for uip_app_input_frame alone: its language passes the size of an area after its address. */
uip_result uip_app_input_frame_area(uip_app *device, unsigned char *frame, size_t room, size_t len);

UIP_INLINE uip_result uip_app_input_frame(uip_app *device, unsigned char *frame, size_t len, size_t room) {
    return uip_app_input_frame_area(device, frame, room, len);
}

#ifdef __cplusplus
}
#endif

#endif
