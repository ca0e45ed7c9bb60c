/* The table of opcodes as the header has it, in the lines of the program `opcodes`. A number that is no byte has the row of an unknown opcode. */
#include "carderwheel.h"

#include <stdio.h>

int main(void) {
    static const uint64_t past[] = {256, 511, UINT64_MAX};
    for (unsigned b = 0; b < 256; b++) {
        carderwheel_opcode row = carderwheel_opcode_row((uint8_t)b);
        printf("%u %u %u %u\n", b, row.bytes, row.taken, row.pushed);
    }
    for (size_t i = 0; i < sizeof past / sizeof past[0]; i++) {
        carderwheel_row_ row = carderwheel_opcode_in(past[i]);
        if (row.bytes != CARDERWHEEL_UNKNOWN || row.taken != CARDERWHEEL_UNKNOWN || row.pushed != CARDERWHEEL_UNKNOWN) {
            fprintf(stderr, "opcodes.c: %lu is no byte, and has a row\n", (unsigned long)past[i]);
            return 1;
        }
    }
    return 0;
}
