/*
 * The port of USB CDC-ACM for ../step.c: in the place of port.c. The interrupts only record what has happened. The loop makes all calls of
 * the USB stack, so no call of the stack meets another one.
 *
 * SPDX-License-Identifier: MIT OR Apache-2.0
 * Copyright 2026 The Lowunbisa authors
 */
#include "port_cdc.h"
#include "../../support/step.h"
#include "port.h"

#define LIMIT 200                              /* milliseconds that the host may take for a packet */
#define END 0xC0                               /* of SLIP: it ends a frame. Alone it is an empty frame, which both ends ignore */

volatile unsigned events;                      /* an interrupt that gives the loop something to do adds 1 */
volatile unsigned bytes_received;

/* The interrupts write these, and the loop clears has_packet, and sets is_waiting. */
static volatile int is_open;                   /* whether a host has the port open */
static volatile unsigned opens;                /* how often one opened it, modulo 2^32 */
static volatile unsigned char packet[CDC_PACKET];
static volatile size_t packet_len;
static volatile unsigned packet_opens;         /* `opens` when the packet arrived */
static volatile int has_packet;                /* 1: the loop reads the packet. 0: an interrupt may write it */
static volatile int is_waiting;                /* the host has not taken what the last cdc_send began */

/* The loop alone uses these. */
static size_t taken;                           /* how many bytes of the packet were read */
static unsigned opens_read;                    /* how many openings read_serial has reported, by an END each */
static const unsigned char *rest;              /* of the piece */
static size_t rest_len;
static int is_last;                            /* the last packet of the piece has begun */
static int is_sending;                         /* a piece */
static int is_dropping;                        /* all pieces, until the host takes `probe` */
static unsigned opens_sent;                    /* `opens` when the piece began */
static unsigned since;                         /* if is_timed: when cdc_work first saw that the host has not taken the packet */
static int is_timed;
static unsigned char probe[1] = {END};         /* not const: the DMA of some controllers does not reach flash */

void on_cdc_received(const unsigned char *bytes, size_t len) {
    size_t k;
    if (!has_packet) {                         /* else it is lost, which only a bus reset can cause: TCP sends the data again */
        for (k = 0; k < len && k < CDC_PACKET; k++) packet[k] = bytes[k];
        packet_len = k;
        packet_opens = opens;
        has_packet = 1;                        /* last: from here on the loop reads it */
    }
    bytes_received += (unsigned)len;
    events++;
}

void on_cdc_sent(void) {
    is_waiting = 0;
    events++;
}

void on_cdc_opened(int is_now_open) {
    if (is_now_open && !is_open) opens++;      /* first: a piece that finds the port open belongs to this opening */
    is_open = is_now_open;
    events++;
}

void on_cdc_reset(void) { on_cdc_opened(0); }

/* The bytes of an earlier opening come first, then an END, then those of this one. */
size_t read_serial(unsigned char *bytes, size_t room) {
    unsigned opened = opens;                   /* first: a packet that arrives later is not of an earlier opening */
    size_t len = 0;
    for (;;) {
        if (has_packet && packet_opens == opens_read) {
            while (len < room && taken < packet_len) bytes[len++] = packet[taken++];
            if (taken < packet_len) return len;
            taken = 0;
            has_packet = 0;                    /* before the endpoint is armed: the next packet may arrive at once */
            cdc_receive();
        } else if (opens_read != opened && len < room) {
            opens_read++;
            bytes[len++] = END;
        } else {
            return len;
        }
    }
}

static void begin(const unsigned char *bytes, size_t len) {
    is_timed = 0;
    is_waiting = 1;                            /* first: the host may take it at once */
    cdc_send(bytes, len);
}

/* A read of the host ends with a packet that is shorter than CDC_PACKET, or if its buffer is full. So the last packet of a piece is a
 * shorter one, if need be an empty one: else the host may keep the end of the piece until more arrives.
 */
static void begin_packet(void) {
    const unsigned char *bytes = rest;
    size_t len = rest_len < CDC_SEND ? rest_len : CDC_SEND;
    rest += len;
    rest_len -= len;
    is_last = len < CDC_SEND;
    begin(bytes, len);
}

int dma_is_busy(void) { return is_sending; }   /* not is_open: while the port closes, the stack may still read the piece */

void dma_send(const unsigned char *bytes, size_t len) {
    if (!is_open || is_dropping) return;       /* dropped: TCP sends the data again */
    opens_sent = opens;
    rest = bytes;
    rest_len = len;
    is_sending = 1;
    begin_packet();                            /* if the port has closed meanwhile, cdc_work ends it */
}

/* The host does not take the piece. The END is all that waits for the host from here on: if the host takes it, it takes data again. It also
 * ends the frame that was cut.
 */
static void give_up(void) {
    cdc_abort();                               /* first: is_waiting then belongs to the END */
    is_sending = 0;
    is_dropping = 1;
    begin(probe, sizeof probe);
}

void cdc_work(unsigned now) {
    if (!is_sending && !is_dropping) return;
    if (!is_open || opens != opens_sent) {     /* closed, perhaps opened again since */
        cdc_abort();
        is_sending = is_dropping = 0;
    } else if (!is_waiting) {
        is_dropping = 0;
        if (is_sending && !is_last) begin_packet();
        else is_sending = 0;
    } else if (!is_timed) {                    /* the time runs from here: what the loop did before counts not against the host */
        since = now;
        is_timed = 1;
    } else if (is_sending && now - since >= LIMIT) {
        give_up();
    }
}
