/* Pins that are letters: each line of standard input is an instant with a letter for each input, A, B, R, C for CAR, L for
 * LONG, S for SHORT and Z for a reset; each instant is answered by a line of names. */
#include "pins.h"

#include <stdio.h>
#include <string.h>

static const char letters[] = "ABRCLSZ";
static const char *const names[] = {
    "O", "START", "HIGHWAY_GREEN", "HIGHWAY_YELLOW", "HIGHWAY_RED", "FARM_GREEN", "FARM_YELLOW", "FARM_RED",
};

int read_pins(unsigned *pins) {
    char line[64];
    size_t number;
    if (!fgets(line, sizeof line, stdin)) return 0;
    *pins = 0;
    for (number = 0; letters[number]; number++)
        if (strchr(line, letters[number])) *pins |= 1u << number;
    return 1;
}

void write_pins(unsigned pins) {
    size_t number;
    const char *space = "";
    for (number = 0; number < sizeof names / sizeof *names; number++)
        if (pins >> number & 1u) {
            printf("%s%s", space, names[number]);
            space = " ";
        }
    puts(pins ? "" : "-");
}
