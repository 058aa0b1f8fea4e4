/* tune/washing.strl written by hand as a state machine, with the calls of embedded C. */
#ifndef WASHING_H
#define WASHING_H

#include <stdbool.h>
#include <stdint.h>

typedef struct {
    uint8_t phase;
    uint8_t seconds;
    uint8_t turns;
    uint8_t rinses;
} washing_t;

typedef struct {
    bool START;
    bool STOP;
    bool CLOSED;
    bool SEC;
    bool FULL;
    bool EMPTY;
    bool HOT;
} washing_inputs_t;

typedef struct {
    bool LOCK;
    bool VALVE;
    bool HEAT;
    bool LEFT;
    bool RIGHT;
    bool PUMP;
    bool SPIN;
    bool BEEP;
    bool FAULT;
} washing_outputs_t;

enum {
    WASHING_START,
    WASHING_READY,
    WASHING_FILL,
    WASHING_HEAT,
    WASHING_LEFT,
    WASHING_LEFT_REST,
    WASHING_RIGHT,
    WASHING_RIGHT_REST,
    WASHING_DRAIN,
    WASHING_SPIN,
    WASHING_BEEP,
    WASHING_STOPPED,
    WASHING_FAILED
};

static inline void washing_reset(washing_t *self)
{
    self->phase = WASHING_START;
    self->seconds = 0;
    self->turns = 0;
    self->rinses = 0;
}

/* Counts the seconds of a phase, and says whether this many are over. */
static inline bool washing_is_over(washing_t *self, const washing_inputs_t *in, uint8_t seconds)
{
    if (in->SEC) {
        self->seconds++;
    }
    return self->seconds == seconds;
}

static inline void washing_enter(washing_t *self, uint8_t phase)
{
    self->phase = phase;
    self->seconds = 0;
}

static inline void washing_turn_left(washing_t *self, washing_outputs_t *out)
{
    washing_enter(self, WASHING_LEFT);
    out->LEFT = true;
}

/* The tub is full, or the water is late. The first water is heated. */
static inline void washing_filled(washing_t *self, const washing_inputs_t *in, washing_outputs_t *out)
{
    if (self->rinses == 0 && !in->HOT) {
        self->phase = WASHING_HEAT;
        out->HEAT = true;
    } else {
        washing_turn_left(self, out);
    }
}

static inline void washing_fill(washing_t *self, const washing_inputs_t *in, washing_outputs_t *out)
{
    if (in->FULL) {
        washing_filled(self, in, out);
    } else {
        washing_enter(self, WASHING_FILL);
        out->VALVE = true;
    }
}

/* Pumps until the tub is empty; then come two rinses, and the spin. */
static inline void washing_drain(washing_t *self, const washing_inputs_t *in, washing_outputs_t *out)
{
    if (!in->EMPTY) {
        self->phase = WASHING_DRAIN;
        out->PUMP = true;
    } else if (self->rinses < 2) {
        self->rinses++;
        self->turns = 2;
        washing_fill(self, in, out);
    } else {
        washing_enter(self, WASHING_SPIN);
        out->SPIN = true;
    }
}

/* An instant of the program, with the door locked. */
static inline void washing_run(washing_t *self, const washing_inputs_t *in, washing_outputs_t *out)
{
    switch (self->phase) {
    case WASHING_FILL:
        if (in->FULL) {
            washing_filled(self, in, out);
        } else if (washing_is_over(self, in, 12)) {
            out->FAULT = true;
            washing_filled(self, in, out);
        } else {
            out->VALVE = true;
        }
        break;
    case WASHING_HEAT:
        if (in->HOT) {
            washing_turn_left(self, out);
        } else {
            out->HEAT = true;
        }
        break;
    case WASHING_LEFT:
        if (washing_is_over(self, in, 3)) {
            self->phase = WASHING_LEFT_REST;
        } else {
            out->LEFT = true;
        }
        break;
    case WASHING_LEFT_REST:
        if (in->SEC) {
            washing_enter(self, WASHING_RIGHT);
            out->RIGHT = true;
        }
        break;
    case WASHING_RIGHT:
        if (washing_is_over(self, in, 3)) {
            self->phase = WASHING_RIGHT_REST;
        } else {
            out->RIGHT = true;
        }
        break;
    case WASHING_RIGHT_REST:
        if (in->SEC) {
            self->turns--;
            if (self->turns == 0) {
                washing_drain(self, in, out);
            } else {
                washing_turn_left(self, out);
            }
        }
        break;
    case WASHING_DRAIN:
        washing_drain(self, in, out);
        break;
    default:
        if (washing_is_over(self, in, 8)) {
            washing_enter(self, WASHING_BEEP);
            self->turns = 3;
            out->BEEP = true;
        } else {
            out->SPIN = true;
        }
        break;
    }
}

static inline bool washing_react(washing_t *self, const washing_inputs_t *in, washing_outputs_t *out)
{
    out->LOCK = false;
    out->VALVE = false;
    out->HEAT = false;
    out->LEFT = false;
    out->RIGHT = false;
    out->PUMP = false;
    out->SPIN = false;
    out->BEEP = false;
    out->FAULT = false;
    switch (self->phase) {
    case WASHING_START:
        self->phase = WASHING_READY;
        return true;
    case WASHING_READY:
        if (in->START) {
            out->LOCK = true;
            self->rinses = 0;
            self->turns = 4;
            washing_fill(self, in, out);
        }
        return true;
    case WASHING_FAILED:
        if (in->STOP) {
            self->phase = WASHING_READY;
        } else {
            out->FAULT = true;
        }
        return true;
    default:
        break;
    }
    if (in->STOP || self->phase == WASHING_STOPPED) {
        out->PUMP = !in->EMPTY;
        self->phase = in->EMPTY ? WASHING_READY : WASHING_STOPPED;
    } else if (self->phase == WASHING_BEEP) {
        if (washing_is_over(self, in, 2)) {
            self->seconds = 0;
            self->turns--;
            if (self->turns == 0) {
                self->phase = WASHING_READY;
            } else {
                out->BEEP = true;
            }
        }
    } else {
        out->LOCK = true;
        washing_run(self, in, out);
        if (!in->CLOSED) {
            self->phase = WASHING_FAILED;
            out->BEEP = false;
            out->FAULT = true;
        }
    }
    return true;
}

#endif
