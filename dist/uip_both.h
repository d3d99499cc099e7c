/*
 * uip_both.h - the C interface of a Lowunbisa node on Ethernet with a web server, and with TCP connections that your
 * program answers
 *
 * It serves pages at port 80, as in uip.h. Your program answers the connections at up to four other ports, as in
 * uip_app.h. The two share the ten connections and the packet buffer, and nothing else. Beside the calls of uip.h:
 *
 *   uip_listen(device, port)                       opens a port
 *   uip_read(device, slot, bytes, room)            copies what a connection has received
 *   uip_write(device, slot, taken, text, len, last, frame, room)      answers it by one message
 *   UIP_BOTH_MEMORY(files)                         the bytes of heap that a device needs
 *
 *   Library     libuip_both_c.a, or uip.c with UIP_BOTH. It has these calls of uip.h: uip_open_ether, uip_protect,
 *               uip_input_frame, uip_periodic_frame, uip_tick_frames, uip_set_value, uip_hits, uip_query, uip_ticks,
 *               uip_is_idle, uip_needs_ticks, uip_counter, uip_guard_counter, uip_connection and uip_close. It has no
 *               call for a serial line or for datagrams, and none of uip_app.h.
 *   Programs    examples/linux-both/ for Linux: pages, a console, and Modbus/TCP. examples/board/both.c is a firmware
 *               for qemu.
 *   Proved      Of the source, if you keep the rules: memory safety, and that each call writes exactly the frame that
 *               the definition of the node and of ARP gives. A peer at port 80 receives a prefix of the reply to its
 *               request, and a peer at another port a prefix of your messages, for fewer than 2^32 calls and 2^30
 *               bytes (docs/GUARANTEE.md).
 *
 * SPDX-License-Identifier: MIT OR Apache-2.0
 * Copyright 2026 The Lowunbisa authors; see LICENSE on the run-time library in each binary
 */
#ifndef UIP_BOTH_H
#define UIP_BOTH_H

#include "uip.h"
#include "uip_app.h"

#ifdef __cplusplus
extern "C" {
#endif

/* ---- What is as in the other headers -----------------------------------------------------------------------------
 *
 * RULES: those of uip.h. Rule 5 holds for `bytes` of uip_read as for `out`. For rule 9 ports/README.md, "Figures",
 * has the stack. A sink may also call uip_read and uip_listen, and not uip_write.
 *
 * What uip_app.h states of connections, ports and limits holds for the connections at the ports that uip_listen
 * opened. Port 80 is open from the start, and its connections are those of uip.h: for them uip_read returns `ready`,
 * `port` and `len` 0, and uip_write returns UIP_NOT_READY. The node drops a TCP segment to a port that is neither 80
 * nor open. It sends no reset, and no counter counts the segment.
 */

/* The bytes of heap that one device needs, for an image of `files` files, 1 or more. They are the six blocks of
 * uip_open_ether, with 4800 bytes in the place of 1600 and 1336 in the place of 1024, each rounded up to a multiple of
 * 16 (measured on x86-64; every target of ports has the same blocks).
 */
#define UIP_BOTH_MEMORY(files) (UIP_MEMORY_ETHER(files) + 3520)

/* ---- Calls ------------------------------------------------------------------------------------- */

/* Opens a port: connections to it are accepted from now on, until uip_close. If it is open already, nothing changes.
 *
 *   port    1 to 65535, except 80, which is the port of the pages
 *
 *   Status    UIP_BAD_ARGUMENT (no such port); UIP_NO_DEVICE; UIP_BAD_ARGUMENT (UIP_MAX_PORTS others are open); UIP_OK
 */
unsigned uip_listen(uip_device *device, unsigned port);

/* Copies the received bytes of a connection that no message has answered. It changes nothing.
 *
 *   slot           0 to 9
 *   bytes, room    where the bytes go: as many as there is room for. UIP_MAX_RECEIVED bytes have room for all
 *
 *   Result    `ready`, `port` and `len`, as in uip_app.h
 *   Status    UIP_BAD_ARGUMENT; UIP_NO_DEVICE; UIP_OK
 */
uip_received uip_read(uip_device *device, size_t slot, void *bytes, size_t room);

/* Writes a message to a connection, and makes the periodic call of its slot, which sends it: as uip_app_write of
 * uip_app.h.
 *
 *   slot           0 to 9
 *   taken          how many of the received bytes the message answers: they are dropped
 *   text, len      the message; `len` is 0 to UIP_MAX_MESSAGE. With 0 the bytes are only dropped
 *   last           1 if the connection closes after this message, else 0
 *   frame, room    where the frame goes; `room` is UIP_MAX_FRAME or more
 *
 *   Result    `written` is the length of the frame; `consumed` and `pending` are 0
 *   Status    UIP_BAD_ARGUMENT; UIP_NO_DEVICE; UIP_NOT_READY; UIP_OK
 */
uip_result uip_write(uip_device *device, size_t slot, size_t taken, const void *text, size_t len, unsigned last,
                     unsigned char *frame, size_t room);

#ifdef __cplusplus
}
#endif

#endif
