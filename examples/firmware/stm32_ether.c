/*
 * The driver functions of ether_dma.c and rtos_dma.c (drivers.h) over the descriptors of the Ethernet controller of an STM32F4 or F7.
 *
 * Not tried: a processor. On a PC threads served these descriptors, and Linux's TCP used 17 pages; run.sh checks that the file compiles,
 * with stubs for the names of CMSIS. stm32.h is yours: it includes the CMSIS header of your chip, and declares invalidate and clean, which
 * do what their names state for whole cache lines, or nothing on an F4.
 *
 * You write: the start of PHY, MAC and DMA, which sets DMABMR.EDFE to 0, so that a descriptor has 16 bytes, and MACCR.CSTF and APCS to 0,
 * so that its length counts the check sequence; board_start, which calls to_ring for each of the first RX areas; and what sets is_link_up. If
 * the link goes down, take back the frames that still wait in the transmit ring.
 *
 * SPDX-License-Identifier: MIT OR Apache-2.0
 * Copyright 2026 The Lowunbisa authors
 */
#include <stdint.h>

#include "drivers.h"
#include "rtos.h"
#include "stm32.h"

struct descriptor { volatile uint32_t status; uint32_t sizes, buffer, next; };
enum { RX = 8, SPARES = 2, TX = 16 };       /* TX >= RX + SPARES; RX and TX are powers of two */
static struct descriptor rx[RX], tx[TX];    /* rings by `next`; this memory is not cached */
static _Alignas(32) unsigned char areas[RX + SPARES][MAC_ROOM];    /* the last are spare */
static unsigned char *spares[SPARES];       /* the free ones: at the start all */
static unsigned spare_count = SPARES;
static unsigned filled, taken, begun, finished;    /* counts of descriptors, modulo 2^32 */
static volatile int is_link_up;
#define OWN 0x80000000u

/* At the start board_start calls it for each of the first RX areas. */
void to_ring(unsigned char *buffer) {
    struct descriptor *next = &rx[filled++ % RX];
    invalidate(buffer, MAC_ROOM);
    next->buffer = (uint32_t)buffer;
    next->sizes = 1u << 14 | MAC_ROOM;      /* RCH: `next` is an address */
    __DMB();
    next->status = OWN;
    __DSB();
    ETH->DMASR = ETH_DMASR_RBUS;            /* continues if it had found no buffer */
    ETH->DMARPDR = 0;
}

static void release(unsigned char *buffer) {
    if (buffer < areas[RX]) to_ring(buffer);
    else spares[spare_count++] = buffer;
}

static void release_sent(void) {
    for (; finished != begun && !(tx[finished % TX].status & OWN); finished++) {
        __DMB();
        release((unsigned char *)tx[finished % TX].buffer);
    }
}

unsigned char *mac_take_received(size_t *len) {
    release_sent();
    while (taken != filled && !(rx[taken % RX].status & OWN)) {
        struct descriptor *oldest = &rx[taken++ % RX];
        unsigned char *buffer = (unsigned char *)oldest->buffer;
        __DMB();
        if ((oldest->status & 0x8300) == 0x300) {      /* FS and LS: a whole frame; not ES */
            *len = (oldest->status >> 16 & 0x3FFF) - 4;    /* FL, less the check sequence */
            invalidate(buffer, MAC_ROOM);
            return buffer;
        }
        to_ring(buffer);
    }
    return NULL;
}

unsigned char *mac_take_spare(void) {
    release_sent();
    return spare_count > 0 ? spares[--spare_count] : NULL;
}

static void begin(unsigned char *buffer, size_t len) {
    struct descriptor *next = &tx[begun % TX];
    clean(buffer, len);                 /* the controller pads, and adds the check sequence */
    next->buffer = (uint32_t)buffer;
    next->sizes = (uint32_t)len;
    __DMB();
    next->status = OWN | 0x70100000;    /* IC, LS, FS, TCH; CIC 0: no checksum is inserted */
    begun++;
    __DSB();
    ETH->DMASR = ETH_DMASR_TBUS;
    ETH->DMATPDR = 0;
}

static void send_from(unsigned char *buffer, size_t len) {
    if (is_link_up) begin(buffer, len);
    else release(buffer);
}

void mac_reply(unsigned char *received, size_t len) { send_from(received, len); }
void mac_send_spare(unsigned char *spare, size_t len) { send_from(spare, len); }
void mac_give_back(unsigned char *received) { to_ring(received); }

void mac_interrupts_on(void) {
    ETH->DMAIER = ETH_DMAIER_NISE | ETH_DMAIER_RIE | ETH_DMAIER_TIE;
    NVIC_SetPriority(ETH_IRQn, configLIBRARY_LOWEST_INTERRUPT_PRIORITY);
    NVIC_EnableIRQ(ETH_IRQn);
}

void ETH_IRQHandler(void) {
    ETH->DMASR = ETH_DMASR_NIS | ETH_DMASR_RS | ETH_DMASR_TS;    /* clears the flags */
    give_from_interrupt();
}
