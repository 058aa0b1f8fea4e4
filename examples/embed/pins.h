/* The pins of two_controllers.c: a bit for each input that comes and for each output that is shown. */
#ifndef PINS_H
#define PINS_H

#define PIN_A 0x01u
#define PIN_B 0x02u
#define PIN_R 0x04u
#define PIN_CAR 0x08u
#define PIN_LONG 0x10u
#define PIN_SHORT 0x20u
#define PIN_RESET 0x40u

#define PIN_O 0x01u
#define PIN_START 0x02u
#define PIN_HIGHWAY_GREEN 0x04u
#define PIN_HIGHWAY_YELLOW 0x08u
#define PIN_HIGHWAY_RED 0x10u
#define PIN_FARM_GREEN 0x20u
#define PIN_FARM_YELLOW 0x40u
#define PIN_FARM_RED 0x80u

/* Waits for the next instant and reads its inputs; 0 where none comes any more. */
int read_pins(unsigned *pins);

/* Shows the outputs of an instant. */
void write_pins(unsigned pins);

#endif
