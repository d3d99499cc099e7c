/* The ring and the interrupt of port_dma.c, and what it needs.
 *
 * The interrupts of an STM32F4, with USART2 and stream 5 of DMA1 (not tried). If both flags of the DMA are set, both calls are right:
 *
 *     unsigned dma_place(void) { return (RING - DMA1_Stream5->NDTR) % RING; }
 *
 *     void DMA1_Stream5_IRQHandler(void) {
 *         unsigned flags = DMA1->HISR & (DMA_HISR_HTIF5 | DMA_HISR_TCIF5);
 *         DMA1->HIFCR = flags;                           // these flags have the same places in both registers
 *         if (flags & DMA_HISR_HTIF5) on_dma(0);
 *         if (flags & DMA_HISR_TCIF5) on_dma(1);
 *     }
 *
 *     void USART2_IRQHandler(void) {
 *         if (USART2->SR & USART_SR_IDLE) {
 *             (void)USART2->DR;                          // clears it
 *             on_dma(0);
 *         }
 *     }
 *
 * SPDX-License-Identifier: MIT OR Apache-2.0
 * Copyright 2026 The Lowunbisa authors
 */
#ifndef PORT_DMA_H
#define PORT_DMA_H

#ifndef RING
#define RING 16384                             /* a power of two; ../step.h has how to compute it */
#endif

#if (RING) & ((RING) - 1)
#error "RING is not a power of two"
#endif

extern volatile unsigned char dma_ring[RING];  /* the DMA writes it. On a core with a data cache it is not cached. To place it, link the
                                                  section .bss.dma_ring, which -fdata-sections makes */
void on_dma(int is_end);                       /* the interrupts of the receiver. 1 at the end of the ring: leave none out.
                                                  0 at its half, and if the line falls idle. They and
                                                  on_sent may preempt one another: a lost count of `events` does no harm */
void on_dma_restarted(void);                   /* the DMA has begun anew at the start of the ring, after an error stopped it (ST's HAL does
                                                  that; with DDRE 0 an STM32 does not). Call it with interrupts held back, before the next
                                                  byte: else old bytes are read again */
unsigned dma_place(void);                      /* yours: where the DMA writes next, 0 to RING - 1 (on an STM32
                                                  (RING - NDTR) % RING) */

#endif
