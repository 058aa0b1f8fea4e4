/* Measures a controller with the functions of abro.h on an ATmega328P: the least and the greatest number of clock cycles that a
 * reaction takes over 512 events, written to the serial line. Timer 1 counts the cycles. simavr runs it:
 *
 *   avr-gcc -mmcu=atmega328p -Os -std=c99 -I. examples/embed/cycles_of_an_avr.c abro_controller.c -o abro.elf
 *   simavr -m atmega328p -f 16000000 abro.elf */
#include "abro.h"

#include <avr/interrupt.h>
#include <avr/io.h>
#include <avr/sleep.h>

static void write_text(const char *text) {
    for (; *text; text++) {
        while (!(UCSR0A & 1 << UDRE0)) {
        }
        UDR0 = (unsigned char)*text;
    }
}

static void write_number(unsigned number) {
    char digits[6];
    char *first = digits + 5;
    *first = 0;
    do {
        *--first = (char)('0' + number % 10);
        number /= 10;
    } while (number);
    write_text(first);
}

int main(void) {
    unsigned least = 0xffff, greatest = 0, emitted = 0, event;
    unsigned draw = 1;
    UCSR0B = 1 << TXEN0;
    TCCR1B = 1 << CS10;
    abro_reset();
    for (event = 0; event < 512; event++) {
        unsigned start, cycles;
        draw = draw * 25173u + 13849u;
        abro_set_A((int)(draw >> 9 & 1u));
        abro_set_B((int)(draw >> 11 & 1u));
        abro_set_R((int)((draw >> 12 & 3u) == 0));
        start = TCNT1;
        (void)abro_react();
        cycles = TCNT1 - start;
        emitted += (unsigned)abro_get_O();
        if (cycles < least) least = cycles;
        if (cycles > greatest) greatest = cycles;
    }
    write_text("least ");
    write_number(least);
    write_text(" greatest ");
    write_number(greatest);
    write_text(" emitted ");
    write_number(emitted);
    write_text("\n");
    cli();
    sleep_enable();
    sleep_cpu();
    return 0;
}
