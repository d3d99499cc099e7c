/*
 * The functions of rtos.h over FreeRTOS. Not tried under FreeRTOS: run.sh checks that it compiles, with stubs for the names of FreeRTOS.
 * Interrupts that give the semaphore have a priority that may call FreeRTOS: stm32_ether.c sets the lowest.
 *
 * SPDX-License-Identifier: MIT OR Apache-2.0
 * Copyright 2026 The Lowunbisa authors
 */
#include <FreeRTOS.h>
#include <semphr.h>
#include <task.h>

#include "rtos.h"

static SemaphoreHandle_t semaphore;

void make_semaphore(void) {
    semaphore = xSemaphoreCreateBinary();
    configASSERT(semaphore != NULL);
}

void take_for(unsigned limit) { xSemaphoreTake(semaphore, pdMS_TO_TICKS(limit)); }
void give(void) { xSemaphoreGive(semaphore); }
void sleep_one_second(void) { vTaskDelay(pdMS_TO_TICKS(1000)); }

void give_from_interrupt(void) {
    BaseType_t is_woken = pdFALSE;
    xSemaphoreGiveFromISR(semaphore, &is_woken);
    portYIELD_FROM_ISR(is_woken);
}

void start_tasks(void (*first)(void *), void (*second)(void *)) {
    /* 640 words are 2,560 bytes of stack */
    BaseType_t made = xTaskCreate(first, "network", 640, NULL, 1, NULL);
    configASSERT(made == pdPASS);
    made = xTaskCreate(second, "seconds", configMINIMAL_STACK_SIZE, NULL, 2, NULL);
    configASSERT(made == pdPASS);
    vTaskStartScheduler();
}
