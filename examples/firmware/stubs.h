/*
 * The names of FreeRTOS and CMSIS that freertos.c and stm32_ether.c use, so that run.sh can check that these compile.
 *
 * SPDX-License-Identifier: MIT OR Apache-2.0
 * Copyright 2026 The Lowunbisa authors
 */
#ifndef STUBS_H
#define STUBS_H

#include <stddef.h>
#include <stdint.h>

typedef struct semaphore *SemaphoreHandle_t;
typedef long BaseType_t;
enum { pdFALSE = 0, pdPASS = 1, configMINIMAL_STACK_SIZE = 128, configLIBRARY_LOWEST_INTERRUPT_PRIORITY = 15 };
#define configASSERT(is_true) ((void)(is_true))
#define pdMS_TO_TICKS(milliseconds) (milliseconds)
#define portYIELD_FROM_ISR(is_woken) ((void)(is_woken))
SemaphoreHandle_t xSemaphoreCreateBinary(void);
BaseType_t xSemaphoreTake(SemaphoreHandle_t semaphore, unsigned ticks);
BaseType_t xSemaphoreGive(SemaphoreHandle_t semaphore);
BaseType_t xSemaphoreGiveFromISR(SemaphoreHandle_t semaphore, BaseType_t *is_woken);
BaseType_t xTaskCreate(void (*task)(void *), const char *name, unsigned words, void *to, unsigned priority, void *handle);
void vTaskDelay(unsigned ticks);
void vTaskStartScheduler(void);

struct eth { volatile uint32_t DMAIER, DMASR, DMARPDR, DMATPDR; };
extern struct eth *const ETH;
enum { ETH_IRQn = 61, ETH_DMAIER_NISE = 1 << 16, ETH_DMAIER_RIE = 1 << 6, ETH_DMAIER_TIE = 1,
       ETH_DMASR_NIS = 1 << 16, ETH_DMASR_RBUS = 1 << 7, ETH_DMASR_RS = 1 << 6, ETH_DMASR_TBUS = 1 << 2, ETH_DMASR_TS = 1 };
void NVIC_SetPriority(int interrupt, unsigned priority);
void NVIC_EnableIRQ(int interrupt);
void __DMB(void);
void __DSB(void);
void invalidate(void *at, size_t len);
void clean(const void *at, size_t len);

#endif
