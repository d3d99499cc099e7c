/* The messages between the two tasks of gate.c. Each queue has one place.
 *
 * SPDX-License-Identifier: MIT OR Apache-2.0
 * Copyright 2026 The Lowunbisa authors
 */
#ifndef GATE_H
#define GATE_H

#include "rtos.h"

enum state { CLOSED, OPENING, OPEN, CLOSING, STOPPED, FAULT };
enum order { TO_OPEN, TO_STOP, TO_CLOSE };
enum answer { ACCEPTED, CHANGED, CANNOT };     /* CHANGED: the state is not the one that the page showed. CANNOT: not in this state */

/* From `control` to `network`. A newer report overwrites one that was not read. That loses nothing: the changes are counted, and the
 * last answer is in each later report.
 */
struct report {
    unsigned changes;                          /* counts the changes of the state, from 1; the position is no part of the state */
    unsigned state;
    int position;                              /* in tenths of a per cent: 0 is closed, 1000 is open */
    unsigned answered, answer;                 /* the number of the last command that was answered, 0 if none was, and the answer */
};

/* From `network` to `control`. It is never overwritten: the next command is sent only after the answer to this one has come. */
struct command {
    unsigned number;                           /* from 1 */
    unsigned order;
    unsigned shown;                            /* `changes` of the state that the page showed */
};

extern queue reports, commands;                /* made before the tasks start */

#endif
