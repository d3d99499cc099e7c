/*
 * What you write for your board. Each program of this folder needs a part of it: README.md has the table.
 *
 * SPDX-License-Identifier: MIT OR Apache-2.0
 * Copyright 2026 The Lowunbisa authors
 */
#ifndef DRIVERS_H
#define DRIVERS_H

#include <stddef.h>

/* All programs; gate.c, settings_pages.c and door_pages.c have no lamp, no temperature and no start_number */
void board_start(void);                                   /* starts clock, sensor, and port or controller */
void lamp(unsigned percent);                              /* its brightness, 0 to 100 */
int temperature(void);                                    /* in tenths of a degree: -55 is -5.5 */
unsigned start_number(void);                              /* a number that no earlier start had: counted in flash, or random. It is
                                                             the same at each call until the next start */
void fail(unsigned status, unsigned entry, const char *word);    /* no device was opened: shows why, and never returns */
void stop(unsigned status);                               /* records the status, and resets the processor */

/* All programs but sleep.c, which needs it with door_pages.c: there it also counts in a sleep */
unsigned milliseconds(void);                              /* since the start, modulo 2^32 */

/* serial.c */
size_t read_serial(unsigned char *bytes, size_t room);    /* takes what has arrived from the ring that the interrupt fills.
                                                             Returns how many bytes, or 0. It does not wait */
void write_serial(void *to, const unsigned char *bytes, size_t len);    /* sends all bytes; it may wait */

/* datagrams.c */
void link_wait(unsigned char own[4]);                     /* waits until the link is up, and returns the address that it has given */
int link_is_up(void);
size_t datagram_receive(unsigned char *bytes, size_t room);    /* copies a received datagram, and returns its length, or 0 if there
                                                                  is none. It drops a longer one. It may wait, at most 20 ms */
void datagram_send(void *to, const unsigned char *bytes, size_t len);    /* sends a datagram; it may wait, or drop it */

/* ether.c, ether_dma.c, rtos.c, rtos_dma.c and gate.c */
extern const unsigned char mac[6];                        /* the hardware address */

/* ether.c, rtos.c and gate.c */
size_t mac_receive(unsigned char *frame, size_t room);    /* copies a received frame, and returns its length, or 0 if there is
                                                             none. It may wait for one, at most 20 ms */
void mac_send(void *to, const unsigned char *frame, size_t len);    /* sends a frame, padded to 60 bytes. When it returns,
                                                                       `frame` is no longer used */

/* ether_dma.c and rtos_dma.c
 *
 * No function waits or fails. The loop alone calls them, and no interrupt touches a buffer, a descriptor or a list of buffers.
 *
 * BUFFERS. Some, such as eight, are for the receive ring, and one or two are spare. One of each would do, with more losses. While a reply
 * is sent, its buffer is missing in the ring. If the ring is empty, the controller drops what arrives, and TCP repairs it. The transmit
 * ring has a descriptor for each buffer of both kinds: then it is never full.
 *
 * SENT BUFFERS. mac_take_received and mac_take_spare first look which frames are sent, and which are dropped. A receive buffer returns
 * to the receive ring, as by mac_give_back, and a spare one is free. If the controller stopped because the ring was empty, restart it.
 *
 * LINK. While it is down, mac_reply and mac_send_spare drop the frame, and the buffer returns at once. When the link goes down, stop the
 * transmit DMA, and take back the buffers of all its descriptors: a reply that is never sent keeps its buffer from the ring. The loop calls
 * mac_take_received in each pass: there ask the PHY, such as ten times a second, but let a later pass take what it answers.
 *
 * CACHE. If the core has a data cache, each buffer begins at a multiple of its line and fills whole lines (32 bytes on a Cortex-M7).
 * Invalidate: discard lines without writing them. Clean: write them to memory. The functions below have when to do which.
 *
 * BARRIERS. A DMB comes after the read of a descriptor which shows that the DMA has finished, before the buffer is used or passed on.
 * A DMB comes after the writes to the buffer and the descriptor, before the write that gives the descriptor to the DMA. A DSB comes after
 * that, before the write to a register that starts the DMA.
 */
#define MAC_ROOM 1536                                     /* bytes from the start of a frame to the end of its buffer: UIP_MAX_FRAME or
                                                             more, and 4 for the check sequence if the DMA writes it. If frames
                                                             begin two bytes after the start of the buffer, 1534 */
unsigned char *mac_take_received(size_t *len);            /* the oldest received frame and its length without the check sequence, or
                                                             NULL if there is none. The caller owns the buffer, all MAC_ROOM bytes,
                                                             until mac_reply or mac_give_back. The driver itself gives back what is
                                                             damaged, in several buffers, or longer than MAC_ROOM: the library would
                                                             refuse that length, and the loop would end. Invalidates the buffer
                                                             again, since the core may have read ahead while the DMA wrote */
void mac_reply(unsigned char *received, size_t len);      /* begins to send the first `len` bytes of a buffer of mac_take_received,
                                                             padded to 60 with 0, and adds the check sequence. The driver owns the
                                                             buffer: when the frame is sent, it returns to the ring. Cleans what is
                                                             sent, after the padding, and then starts the DMA */
void mac_give_back(unsigned char *received);              /* returns a buffer of mac_take_received to the ring, unsent. The driver owns
                                                             it. Invalidates it whole: the library may have written anywhere in it,
                                                             and a line that is written back later would destroy the next frame */
unsigned char *mac_take_spare(void);                      /* a free spare buffer, or NULL if all are being sent. The caller owns it, all
                                                             MAC_ROOM bytes with any contents, until mac_send_spare */
void mac_send_spare(unsigned char *spare, size_t len);    /* sends from a buffer of mac_take_spare, as mac_reply does. The driver owns
                                                             the buffer: when the frame is sent, it is free */
extern volatile unsigned events;                          /* of ether_dma.c. The interrupts of the controller, for a received frame and
                                                             for a sent one, clear their flag and add 1, and do nothing else. With
                                                             rtos_dma.c they call give_from_interrupt in place of adding */

/* rtos_dma.c */
void mac_interrupts_on(void);                             /* turns the interrupts of the controller on, which board_start leaves off. If
                                                             a frame has come meanwhile, its interrupt may come at once */

/* sleep.c and rtos_serial.c: what port.h, port_dma.h or port_cdc.h lists, too */

/* rtos_serial.c */
void port_interrupts_on(void);                            /* turns the interrupts of the port on, which board_start leaves off */

/* sleep.c and ether_dma.c */
void interrupts_off(void);                                /* Cortex-M: cpsid i, not BASEPRI; RISC-V: csrci mstatus, 8. As asm
                                                             volatile, with a "memory" clobber */
void interrupts_on(void);                                 /* cpsie i; csrsi mstatus, 8 */
void sleep_until_interrupt(int is_deep);                  /* dsb, wfi; an interrupt ends it that is held back, too. If it is deep,
                                                             all clocks may stop but that of the receiver, and with port_dma.c
                                                             those of its DMA and memory. ether_dma.c sleeps only lightly, and needs
                                                             a clock, such as that of `milliseconds`, that ends each sleep in 20 ms */

/* sleep.c */
void timer_start(void);                                   /* the timer of half a second, whose interrupt calls on_half_second, runs again
                                                             after timer_stop. board_start starts it first */
void timer_stop(void);

/* gate.c, settings_pages.c and door_pages.c */
unsigned random_bits(void);                               /* 32 bits of a true random generator, such as that of the processor. If it
                                                             fails, reset: no number may come again after a start */

/* gate.c */
void gate_motor(int direction);                           /* 1 opens, -1 closes, 0 stops */
int gate_position(void);                                  /* in tenths of a per cent: 0 is closed, 1000 is open */
int gate_is_blocked(void);

/* settings_pages.c
 *
 * If the power fails in store_settings, load_settings loads the old addresses or the new ones, whole. So take two sectors of flash.
 * store_settings erases the one that has not the newest record, writes a record there, and reads it again. A record has the addresses, a
 * count and a checksum. The newest one with a right checksum counts.
 *
 * An erasure may take a second: the node then misses frames, and TCP repairs it. If there is a watchdog, store_settings feeds it. For a
 * loop that must not wait, erase at the start: then store_settings only writes a record.
 */
struct addresses;                                         /* pages.h */
int store_settings(const struct addresses *from);         /* returns 0 if it failed: then load_settings loads the old ones */
int load_settings(struct addresses *to);                  /* those that were stored last. Returns 0, and changes nothing, if there are
                                                             none */
int button_is_held(void);                                 /* a button or a jumper that asks for the usual addresses, at the start */

/* door_pages.c
 *
 * store_seconds and load_seconds guarantee the same as store_settings and load_settings, with the number in the place of the addresses.
 *
 * pages_work locks the door at its time, so while the lock is on, each sleep of the loop ends within 0.1 s. With sleep.c door_unlock starts
 * a timer for that, which also runs in a deep sleep. If the loop waits longer, in an erasure or in link_wait, the door locks late.
 */
int store_seconds(unsigned seconds);                      /* returns 0 if it failed: then load_seconds loads the old number */
int load_seconds(unsigned *seconds);                      /* the number that was stored last. Returns 0, and changes nothing, if there is
                                                             none */
void door_unlock(int is_on);                              /* energises the lock, or ends that. It is off after a reset. A timer of the
                                                             driver also ends it 61 s after the last call, whatever the loop does */

#endif
