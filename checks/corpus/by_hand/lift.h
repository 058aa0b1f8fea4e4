/* tune/lift.strl written by hand as a state machine, with the calls of embedded C. */
#ifndef LIFT_H
#define LIFT_H

#include <stdbool.h>
#include <stdint.h>

typedef struct {
    uint8_t phase;
    uint8_t seconds;
    uint8_t wanted;
    uint8_t target;
} lift_t;

typedef struct {
    bool C_0;
    bool C_1;
    bool C_2;
    bool C_3;
    bool AT0;
    bool AT1;
    bool AT2;
    bool AT3;
    bool SEC;
    bool BLOCKED;
} lift_inputs_t;

typedef struct {
    bool UP;
    bool DOWN;
    bool OPEN;
    bool CLOSE;
} lift_outputs_t;

enum { LIFT_START, LIFT_REST, LIFT_CALLED, LIFT_UP, LIFT_DOWN, LIFT_THERE, LIFT_OPEN, LIFT_CLOSE, LIFT_AGAIN };

static inline void lift_reset(lift_t *self)
{
    self->phase = LIFT_START;
    self->seconds = 0;
    self->wanted = 0;
    self->target = 0;
}

/* Counts the seconds of a phase, and says whether this many are over. */
static inline bool lift_is_over(lift_t *self, const lift_inputs_t *in, uint8_t seconds)
{
    if (in->SEC) {
        self->seconds++;
    }
    return self->seconds == seconds;
}

static inline void lift_enter(lift_t *self, uint8_t phase)
{
    self->phase = phase;
    self->seconds = 0;
}

/* Goes to the lowest floor that is wanted. */
static inline void lift_choose(lift_t *self, uint8_t at)
{
    if ((self->wanted & 1u) != 0u) {
        self->target = 1;
        self->phase = LIFT_DOWN;
    } else if ((self->wanted & 2u) != 0u) {
        self->target = 2;
        self->phase = at == 1u ? LIFT_UP : LIFT_DOWN;
    } else if ((self->wanted & 4u) != 0u) {
        self->target = 4;
        self->phase = at == 8u ? LIFT_DOWN : LIFT_UP;
    } else {
        self->target = 8;
        self->phase = LIFT_UP;
    }
}

static inline bool lift_react(lift_t *self, const lift_inputs_t *in, lift_outputs_t *out)
{
    const uint8_t calls = (uint8_t)((in->C_0 ? 1u : 0u) | (in->C_1 ? 2u : 0u) | (in->C_2 ? 4u : 0u) | (in->C_3 ? 8u : 0u));
    const uint8_t at = (uint8_t)((in->AT0 ? 1u : 0u) | (in->AT1 ? 2u : 0u) | (in->AT2 ? 4u : 0u) | (in->AT3 ? 8u : 0u));
    const bool is_there = (self->phase == LIFT_UP || self->phase == LIFT_DOWN) && (at & self->target) != 0u;
    out->UP = false;
    out->DOWN = false;
    out->OPEN = false;
    out->CLOSE = false;
    if (self->phase == LIFT_START) {
        self->phase = LIFT_REST;
        return true;
    }
    /* A call that comes as the lift arrives at a floor that was wanted is one with it. */
    self->wanted = is_there ? (uint8_t)((self->wanted & (uint8_t)~at) | (calls & (uint8_t)~self->wanted)) : (uint8_t)(self->wanted | calls);
    switch (self->phase) {
    case LIFT_REST:
        if (self->wanted != 0u) {
            self->phase = LIFT_CALLED;
        }
        break;
    case LIFT_CALLED:
        lift_choose(self, at);
        break;
    case LIFT_UP:
    case LIFT_DOWN:
        if (is_there) {
            self->phase = LIFT_THERE;
        }
        break;
    case LIFT_THERE:
        lift_enter(self, LIFT_OPEN);
        break;
    case LIFT_OPEN:
        if (lift_is_over(self, in, 4)) {
            lift_enter(self, LIFT_CLOSE);
        }
        break;
    case LIFT_CLOSE:
        if (in->BLOCKED) {
            lift_enter(self, LIFT_AGAIN);
        } else if (lift_is_over(self, in, 3)) {
            self->phase = LIFT_REST;
        }
        break;
    default:
        if (lift_is_over(self, in, 2)) {
            lift_enter(self, LIFT_CLOSE);
        }
        break;
    }
    out->UP = self->phase == LIFT_UP;
    out->DOWN = self->phase == LIFT_DOWN;
    out->OPEN = self->phase == LIFT_OPEN || self->phase == LIFT_AGAIN;
    out->CLOSE = self->phase == LIFT_CLOSE;
    return true;
}

#endif
