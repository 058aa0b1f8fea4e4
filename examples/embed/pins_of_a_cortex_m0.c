/* Pins of a Cortex-M0: two words and a flag that an interrupt sets. On a board the words are those of its ports. */
#include "pins.h"

volatile unsigned input_pins, output_pins, is_tick;

int read_pins(unsigned *pins) {
    while (!is_tick) {
    }
    is_tick = 0;
    *pins = input_pins;
    return 1;
}

void write_pins(unsigned pins) {
    output_pins = pins;
}
