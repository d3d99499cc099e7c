/*
 * The task that keeps the state of the gate. It makes no call of the library. It counts the changes of its state, and obeys a command
 * only if the page showed the present state.
 *
 * SPDX-License-Identifier: MIT OR Apache-2.0
 * Copyright 2026 The Lowunbisa authors
 */
#include "drivers.h"
#include "gate.h"

static struct report own = {1, STOPPED, 0, 0, ACCEPTED};

static void change(unsigned state, int direction) {
    gate_motor(direction);
    own.state = state;
    own.changes++;
}

/* What the gate does by itself. The position changes all the time, so it does not count: else each `stop` would come too late. */
static void look_at_gate(void) {
    int is_blocked = gate_is_blocked();
    own.position = gate_position();
    if (is_blocked) {
        if (own.state != FAULT) change(FAULT, 0);
    } else if (own.position <= 0) {
        if (own.state != CLOSED && own.state != OPENING) change(CLOSED, 0);
    } else if (own.position >= 1000) {
        if (own.state != OPEN && own.state != CLOSING) change(OPEN, 0);
    } else if (own.state == FAULT || own.state == CLOSED || own.state == OPEN) {
        change(STOPPED, 0);
    }
}

/* Returns 0 if the gate cannot do it in this state. */
static int obey(unsigned order) {
    int moves = own.state == OPENING || own.state == CLOSING;
    if (order == TO_STOP ? !moves : own.state == FAULT) return 0;
    if (order == TO_OPEN && (own.state == OPEN || own.state == OPENING)) return 0;
    if (order == TO_CLOSE && (own.state == CLOSED || own.state == CLOSING)) return 0;
    if (order == TO_STOP) change(STOPPED, 0);
    if (order == TO_OPEN) change(OPENING, 1);
    if (order == TO_CLOSE) change(CLOSING, -1);
    return 1;
}

/* The state may have changed since `network` sent the command: then the command is refused. */
static void answer(const struct command *command) {
    own.answered = command->number;
    if (command->shown != own.changes) own.answer = CHANGED;
    else own.answer = obey(command->order) ? ACCEPTED : CANNOT;
}

void control(void *unused) {
    (void)unused;
    for (;;) {
        struct command command;
        int has_command = queue_get(commands, &command, 100);
        look_at_gate();                        /* before the answer, so that the command meets the present state */
        if (has_command) answer(&command);
        queue_overwrite(reports, &own);
    }
}
