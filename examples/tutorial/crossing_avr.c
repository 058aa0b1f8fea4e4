/* The pedestrian crossing on an ATmega328P: a button at pin D2, lamps at pins B0 (cars) and B1 (pedestrians), and a tick each
 * second from timer 1, with a clock of 16 MHz. There is one reaction every 10 milliseconds. */
#include <avr/io.h>
#include <stdint.h>

#include "crossing.h"

#define REACTIONS_OF_A_SECOND 100u

int main(void) {
    uint8_t reactions = 0;
    uint8_t was_pressed = 0;

    DDRB = 0x03;
    PORTD = 0x04;
    TCCR1B = (1 << WGM12) | (1 << CS11);
    OCR1A = 19999;
    crossing_reset();
    for (;;) {
        uint8_t is_pressed;
        while (!(TIFR1 & (1 << OCF1A))) {
        }
        TIFR1 = 1 << OCF1A;
        is_pressed = (PIND & 0x04) == 0;
        crossing_set_BUTTON(is_pressed && !was_pressed);
        was_pressed = is_pressed;
        reactions++;
        crossing_set_TICK(reactions == REACTIONS_OF_A_SECOND);
        if (reactions == REACTIONS_OF_A_SECOND) {
            reactions = 0;
        }
        (void)crossing_react();
        PORTB = (uint8_t)((crossing_get_CARS() ? 1 : 0) | (crossing_get_WALK() ? 2 : 0));
    }
}
