/* What rtos.c, rtos_serial.c, rtos_dma.c and gate.c need of the RTOS. The stack of each task has room for its calls: rule 9 of uip.h.
 *
 * SPDX-License-Identifier: MIT OR Apache-2.0
 * Copyright 2026 The Lowunbisa authors
 */
#ifndef RTOS_H
#define RTOS_H

#include <stddef.h>

void network(void *);                  /* two tasks */
void count_seconds(void *);            /* the second one, but of gate.c */
void control(void *);                  /* that of gate.c */
void start_tasks(void (*first)(void *), void (*second)(void *));    /* creates both tasks, and starts the scheduler */
void sleep_one_second(void);           /* all but gate.c */

/* rtos_serial.c and rtos_dma.c: a binary semaphore */
void make_semaphore(void);             /* before the interrupts are on that give it. After it FreeRTOS masks interrupts until its scheduler
                                          runs, so board_start, which may wait for one, comes before it */
void take_for(unsigned limit);         /* waits until it is given, at most `limit` milliseconds:
                                          xSemaphoreTake(semaphore, pdMS_TO_TICKS(limit)) */
void give(void);                       /* by a task */
void give_from_interrupt(void);        /* under FreeRTOS on a Cortex-M the number of the priority of that interrupt is
                                          configLIBRARY_MAX_SYSCALL_INTERRUPT_PRIORITY or more; after a reset it is 0 */

/* gate.c: queues of one item, each with one task that puts and one that gets. Items are copied. FreeRTOS has each in one call. */
typedef struct queue *queue;
queue queue_make(size_t size);                           /* of an item of `size` bytes: xQueueCreate(1, size) */
int queue_put(queue to, const void *item);               /* returns 0 if the queue is full, and does not wait: xQueueSend(to, item, 0) */
void queue_overwrite(queue to, const void *item);        /* also if the queue is full: xQueueOverwrite(to, item) */
int queue_get(queue from, void *item, unsigned limit);   /* waits for at most `limit` milliseconds. Returns 0 if there is no item:
                                                            xQueueReceive(from, item, pdMS_TO_TICKS(limit)) */

#endif
