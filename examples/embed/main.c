/* A program of one's own around a compiled controller, here abro.strl: each line of standard input is an instant,
 * with a letter for each input that is present, and each instant is answered by a line.
 *
 *   ./cec c examples/abro.strl > abro.c
 *   gcc -std=c99 -O2 examples/embed/main.c abro.c -o abro
 *   printf '\nA\nB\nR\nAB\n' | ./abro
 *
 * One call of react is one reaction. It reads the inputs I_*, sets the outputs O_*, and returns 0 once the program
 * has ended. The states are kept inside; there is no allocation, no loop and no recursion. */
#include <stdio.h>
#include <string.h>

extern int I_A, I_B, I_R, O_O;
int react(void);

int main(void) {
    char line[64];
    int running = 1;
    while (running && fgets(line, sizeof line, stdin)) {
        I_A = strchr(line, 'A') != NULL;
        I_B = strchr(line, 'B') != NULL;
        I_R = strchr(line, 'R') != NULL;
        running = react();
        puts(O_O ? "O" : "-");
    }
    return 0;
}
