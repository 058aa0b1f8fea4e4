/* Pins of an ATmega328P: inputs at port B, outputs at port D, an instant at each overflow of timer 0. */
#include "pins.h"

#include <avr/io.h>

int read_pins(unsigned *pins) {
    TCCR0B = 1 << CS02;
    DDRD = 0xff;
    while (!(TIFR0 & 1 << TOV0)) {
    }
    TIFR0 = 1 << TOV0;
    *pins = PINB;
    return 1;
}

void write_pins(unsigned pins) {
    PORTD = (unsigned char)pins;
}
