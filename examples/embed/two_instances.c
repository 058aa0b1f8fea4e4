/* Two instances of one component on an ATmega328P: abro.strl, whose text is proved to keep them apart. Each instance gets its own
 * events. The names of those that emit O go to the serial line, or `-` where none does. simavr runs it:
 *
 *   ./cec-opt c --embed abro --source examples/abro.strl > abro.h
 *   avr-gcc -mmcu=atmega328p -Os -std=c99 -I. examples/embed/two_instances.c -o two_instances.elf
 *   simavr -m atmega328p -f 16000000 two_instances.elf */
#include "abro.h"

#include <avr/interrupt.h>
#include <avr/io.h>
#include <avr/sleep.h>

#define INSTANTS 10

/* The signals that are present in each instant, for each instance. Before instant 6 the right one is reset, so it forgets its A. */
static const char *const left_events[INSTANTS] = {"", "A", "B", "R", "AB", "", "R", "A", "B", "A"};
static const char *const right_events[INSTANTS] = {"", "", "A", "B", "R", "A", "", "B", "A", ""};
#define RESET_OF_RIGHT 6

static void write_text(const char *text) {
    for (; *text; text++) {
        while (!(UCSR0A & 1 << UDRE0)) {
        }
        UDR0 = (uint8_t)*text;
    }
}

/* One reaction of an instance to the signals of these letters: whether O is present. */
static bool reacted(abro_t *instance, const char *letters) {
    abro_inputs_t in = {false, false, false};
    abro_outputs_t out;
    for (; *letters; letters++) {
        if (*letters == 'A') in.A = true;
        if (*letters == 'B') in.B = true;
        if (*letters == 'R') in.R = true;
    }
    (void)abro_react(instance, &in, &out);
    return out.O;
}

int main(void) {
    abro_t left, right;
    uint8_t instant;
    UCSR0B = 1 << TXEN0;
    abro_reset(&left);
    abro_reset(&right);
    for (instant = 0; instant < INSTANTS; instant++) {
        bool is_left, is_right;
        if (instant == RESET_OF_RIGHT) abro_reset(&right);
        is_left = reacted(&left, left_events[instant]);
        is_right = reacted(&right, right_events[instant]);
        if (is_left) write_text("left");
        if (is_left && is_right) write_text(" ");
        if (is_right) write_text("right");
        write_text(is_left || is_right ? "\n" : "-\n");
    }
    cli();
    sleep_enable();
    sleep_cpu();
    return 0;
}
