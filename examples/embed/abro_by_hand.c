/* abro.strl written by hand as a state machine, with the functions that c_interface makes: what the compiled one is measured
 * against. Four states: what is waited for, A and B, only B, only A, or the next R. */
#include "abro.h"

enum state { BOOT, WAIT_BOTH, WAIT_B, WAIT_A, DONE };

static enum state state = BOOT;
static unsigned char has_a, has_b, has_r, shows_o;

void abro_reset(void) {
    state = BOOT;
    has_a = has_b = has_r = shows_o = 0;
}

int abro_react(void) {
    shows_o = 0;
    if (state == BOOT || has_r) {
        state = WAIT_BOTH;
    } else if (state == WAIT_BOTH) {
        if (has_a && has_b) {
            shows_o = 1;
            state = DONE;
        } else if (has_a) {
            state = WAIT_B;
        } else if (has_b) {
            state = WAIT_A;
        }
    } else if ((state == WAIT_B && has_b) || (state == WAIT_A && has_a)) {
        shows_o = 1;
        state = DONE;
    }
    has_a = has_b = has_r = 0;
    return 1;
}

void abro_set_A(int is_present) {
    has_a = is_present != 0;
}

void abro_set_B(int is_present) {
    has_b = is_present != 0;
}

void abro_set_R(int is_present) {
    has_r = is_present != 0;
}

int abro_get_O(void) {
    return shows_o;
}
