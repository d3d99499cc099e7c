// In the place of main.c: asks the processor what its map says of a read and of a write at both ends of each block of 2 MB, and behind
// the last (AT S1E1R, AT S1E1W), and writes the answers (PAR_EL1) to the port, a line each, for map.py.
#include "board.h"

static void put_number(unsigned long number) {
    for (int at = 60; at >= 0; at -= 4) port_put((unsigned char)"0123456789abcdef"[number >> at & 15]);
}

static void put_line(char kind, unsigned long address, unsigned long answer) {
    port_put((unsigned char)kind);
    port_put(' ');
    put_number(address);
    port_put(' ');
    put_number(answer);
    port_put('\n');
}

static void ask(unsigned long address) {
    unsigned long answer;
    __asm__ volatile("at s1e1r, %1; isb; mrs %0, par_el1" : "=r"(answer) : "r"(address));
    put_line('r', address, answer);
    __asm__ volatile("at s1e1w, %1; isb; mrs %0, par_el1" : "=r"(answer) : "r"(address));
    put_line('w', address, answer);
}

int main(void) {
    board_start();
    for (unsigned long block = 0; block < 17; block++) {
        ask(block << 21);
        ask((block << 21) + 0x1ffff8);
    }
    put_line('e', 0, 0);
    return 0;
}
