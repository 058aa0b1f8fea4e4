/* tune/uart_receiver.strl written by hand as a state machine, with the calls of embedded C. */
#ifndef UART_RECEIVER_H
#define UART_RECEIVER_H

#include <stdbool.h>
#include <stdint.h>

typedef struct {
    uint8_t phase;
    uint8_t ticks;
    uint8_t bits;
} uart_receiver_t;

typedef struct {
    bool LINE;
    bool TICK16;
} uart_receiver_inputs_t;

typedef struct {
    bool BIT;
    bool VALID;
    bool BROKEN;
    bool BUSY;
} uart_receiver_outputs_t;

enum { UART_IDLE, UART_START, UART_BITS, UART_PARITY, UART_STOP, UART_GAP };

static inline void uart_receiver_reset(uart_receiver_t *self)
{
    self->phase = UART_IDLE;
    self->ticks = 0;
    self->bits = 0;
}

static inline bool uart_receiver_react(uart_receiver_t *self, const uart_receiver_inputs_t *in, uart_receiver_outputs_t *out)
{
    out->BIT = false;
    out->VALID = false;
    out->BROKEN = false;
    out->BUSY = false;
    if (self->phase != UART_IDLE) {
        if (!in->TICK16 || --self->ticks != 0) {
            return true;
        }
        self->ticks = 8;
        switch (self->phase) {
        case UART_START:
            if (in->LINE) {
                out->BROKEN = true;
                self->ticks = 1;
                self->phase = UART_GAP;
            } else {
                self->bits = 8;
                self->phase = UART_BITS;
            }
            return true;
        case UART_BITS:
            out->BIT = in->LINE;
            out->BUSY = true;
            if (--self->bits == 0) {
                self->phase = UART_PARITY;
            }
            return true;
        case UART_PARITY:
            self->phase = UART_STOP;
            return true;
        case UART_STOP:
            out->VALID = in->LINE;
            out->BROKEN = !in->LINE;
            self->ticks = 1;
            self->phase = UART_GAP;
            return true;
        default:
            self->phase = UART_IDLE;
            break;
        }
    }
    if (!in->LINE) {
        self->ticks = 4;
        self->phase = UART_START;
    }
    return true;
}

#endif
