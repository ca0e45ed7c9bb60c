/* Walks the code of a routine by the table of opcodes, as a tool does before it hands code to carderwheel_write_code: prints where each instruction is and how
   many operands stand behind it, and says where one is unknown, is cut off or takes too many. It follows no jump. */
#include "carderwheel.h"

#include <stdio.h>

enum { LOAD_CONST = 0, LOAD_GLOBAL = 3, MUL = 12, CALL = 50, HALT = 255 };

/* console(echo * 84), and the same with less in it: without the echo, and with a byte of the last operand missing. */
static const uint8_t whole[] = {LOAD_GLOBAL, 0, 0, LOAD_GLOBAL, 0, 1, LOAD_CONST, 0, 2, MUL, CALL, 1, HALT};
static const uint8_t short_of_one[] = {LOAD_CONST, 0, 2, MUL, HALT};
static const uint8_t cut_off[] = {LOAD_GLOBAL, 0, 0, LOAD_GLOBAL, 0};

/* An operand byte that is a count says how many are taken; a Call takes what it calls too. */
static unsigned taken(carderwheel_opcode row, const uint8_t *at) {
    return row.taken != CARDERWHEEL_COUNTED ? row.taken : at[1] + (at[0] == CALL ? 1u : 0u);
}

static void walk(const char *name, const uint8_t *code, size_t size) {
    size_t at = 0;
    unsigned operands = 0;
    printf("%s\n", name);
    while (at < size) {
        carderwheel_opcode row = carderwheel_opcode_row(code[at]);
        printf("%3u: opcode %u", (unsigned)at, code[at]);
        if (row.bytes == CARDERWHEEL_UNKNOWN) {
            printf(" is unknown: 13\n");
            return;
        }
        if (size - at - 1 < row.bytes) {
            printf(" has %u operand bytes, and %u follow: 14\n", row.bytes, (unsigned)(size - at - 1));
            return;
        }
        if (operands < taken(row, code + at)) {
            printf(" takes %u operands, and %u stand: 15\n", taken(row, code + at), operands);
            return;
        }
        operands = operands - taken(row, code + at) + row.pushed;
        printf(", then %u operands\n", operands);
        at += 1u + row.bytes;
    }
}

int main(void) {
    walk("whole", whole, sizeof whole);
    walk("short of one", short_of_one, sizeof short_of_one);
    walk("cut off", cut_off, sizeof cut_off);
    return 0;
}
