/* Two compiled controllers in one main loop: abro.strl and traffic_light.strl, each with its own names, states and reset.
 *
 *   ./cec blif --encode examples/abro.strl > abro.blif && ./cec-opt c abro.blif > abro.c
 *   ./cec blif --encode examples/traffic_light.strl > traffic_light.blif && ./cec-opt c traffic_light.blif > traffic_light.c
 *   tools/c_interface abro.c
 *   tools/c_interface traffic_light.c
 *   gcc -std=c99 -O2 -I. examples/embed/two_controllers.c examples/embed/pins_of_a_terminal.c \
 *       abro_controller.c traffic_light_controller.c -o two_controllers
 *   printf 'A\nB\nCL\nZ\nAB\n' | ./two_controllers
 *
 * The loop is what a firmware has: it reads the pins, lets both controllers react, and writes the pins. Which pins there are
 * is said by read_pins and write_pins: pins_of_a_terminal.c for a terminal, pins_of_an_avr.c for an ATmega328P,
 * pins_of_a_cortex_m0.c for words of memory. */
#include "abro.h"
#include "pins.h"
#include "traffic_light.h"

static void set_inputs(unsigned pins) {
    abro_set_A(pins & PIN_A);
    abro_set_B(pins & PIN_B);
    abro_set_R(pins & PIN_R);
    traffic_light_set_CAR(pins & PIN_CAR);
    traffic_light_set_LONG(pins & PIN_LONG);
    /* The two never come at once: the source has `relation LONG # SHORT`, and holds only where its events meet it. */
    traffic_light_set_SHORT(pins & PIN_SHORT && !(pins & PIN_LONG));
}

static unsigned outputs(void) {
    unsigned pins = 0;
    if (abro_get_O()) pins |= PIN_O;
    if (traffic_light_get_START()) pins |= PIN_START;
    if (traffic_light_get_HIGHWAY_GREEN()) pins |= PIN_HIGHWAY_GREEN;
    if (traffic_light_get_HIGHWAY_YELLOW()) pins |= PIN_HIGHWAY_YELLOW;
    if (traffic_light_get_HIGHWAY_RED()) pins |= PIN_HIGHWAY_RED;
    if (traffic_light_get_FARM_GREEN()) pins |= PIN_FARM_GREEN;
    if (traffic_light_get_FARM_YELLOW()) pins |= PIN_FARM_YELLOW;
    if (traffic_light_get_FARM_RED()) pins |= PIN_FARM_RED;
    return pins;
}

int main(void) {
    unsigned pins;
    abro_reset();
    traffic_light_reset();
    while (read_pins(&pins)) {
        if (pins & PIN_RESET) {
            abro_reset();
            traffic_light_reset();
            continue;
        }
        set_inputs(pins);
        (void)abro_react();
        (void)traffic_light_react();
        write_pins(outputs());
    }
    return 0;
}
