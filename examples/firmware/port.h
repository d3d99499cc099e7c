/* The port of a serial line for ../step.c: port.c, in which each byte interrupts, or port_dma.c, in which a circular DMA receives (port_dma.h
 * has what that needs besides). For USB CDC see port_cdc.h. Each port defines read_serial, events, dma_is_busy and dma_send of step.h.
 *
 * A UART with an interrupt for each byte in both directions, in the registers of an STM32 (not tried):
 *
 *     static const unsigned char *volatile next;         // the next byte to send
 *     static volatile size_t left;                       // how many are left
 *
 *     void port_start(const unsigned char *bytes, size_t len) {
 *         next = bytes;
 *         left = len;
 *         USART1->CR1 |= USART_CR1_TXEIE;                // last: the interrupt comes at once
 *     }
 *
 *     unsigned char port_read(void) { return (unsigned char)USART1->DR; }    // also ends an overrun
 *
 *     void USART1_IRQHandler(void) {
 *         if (USART1->SR & (USART_SR_RXNE | USART_SR_ORE)) on_received();
 *         if (!(USART1->CR1 & USART_CR1_TXEIE) || !(USART1->SR & USART_SR_TXE)) return;
 *         if (left > 0) {
 *             USART1->DR = *next++;
 *             left--;
 *         } else {
 *             USART1->CR1 &= ~USART_CR1_TXEIE;           // first: on_sent lets the loop begin the next piece
 *             on_sent();
 *         }
 *     }
 *
 * SPDX-License-Identifier: MIT OR Apache-2.0
 * Copyright 2026 The Lowunbisa authors
 */
#ifndef PORT_H
#define PORT_H

#include <stddef.h>

/* You write these. */
void port_start(const unsigned char *bytes, size_t len);  /* begins to send by DMA or interrupt; `bytes` stay as they are */
unsigned char port_read(void);                            /* port.c: the byte that the port has received */

/* Your interrupts call these. */
void on_received(void);                                   /* port.c: the port has received a byte */
void on_sent(void);                                       /* the port has read all that port_start began (the end of the DMA). If you
                                                             stop its clock in a sleep: it has sent the last bit */

void port_put(unsigned char byte);                        /* port.c and port_dma.c: read_serial returns this byte, too, END (0xC0) after a
                                                             sleep without the receiver: port.c as the newest one (call it while
                                                             interrupts are off), port_dma.c as the next one */
extern volatile unsigned bytes_received;                  /* modulo 2^32 */

#endif
