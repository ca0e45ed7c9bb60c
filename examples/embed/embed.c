/* Loads the survey routine that its argument names, sets a global that the routine reads, runs it, and prints its value and its lines. */
#include "carderwheel.h"

#include <stdio.h>

static carderwheel engine; /* all memory that the engine uses */
static uint8_t image[CARDERWHEEL_CODE_BYTES];
static uint8_t buffer[CARDERWHEEL_TEXT_BYTES];

static int refused(const char *call, uint64_t number) {
    fprintf(stderr, "%s is refused: %u\n", call, (unsigned)number);
    return 1;
}

/* A number of the engine: a signed count of 2^-32. */
static carderwheel_value number_of(double n) {
    carderwheel_value v = {CARDERWHEEL_NUMBER, (uint64_t)(int64_t)(n * 4294967296.0), 0};
    return v;
}

/* Prints what drain wrote: of each line its length in two bytes, then its bytes. */
static void print_lines(const uint8_t *lines, size_t size) {
    size_t at = 0;
    while (at < size) {
        size_t length = (size_t)lines[at] << 8 | lines[at + 1];
        printf("> %.*s\n", (int)length, (const char *)lines + at + 2);
        at += 2 + length;
    }
}

int main(int argc, char **argv) {
    FILE *file = argc == 2 ? fopen(argv[1], "rb") : NULL;
    carderwheel_value spacing;
    carderwheel_ran ran;
    uint64_t loaded, q;
    size_t size, written;

    if (file == NULL) {
        fprintf(stderr, "usage: embed IMAGE\n");
        return 1;
    }
    size = fread(image, 1, sizeof image, file);
    fclose(file);

    if ((q = carderwheel_clear(&engine)) != 0) return refused("clear", q);
    if ((q = carderwheel_load(&engine, image, size, &loaded)) != 0) return refused("load", q);
    if ((q = carderwheel_set_global(&engine, (const uint8_t *)"volts", 5, number_of(12.25))) != 0) return refused("set global", q);

    ran = carderwheel_run(&engine, loaded);
    if (!ran.started) return refused("run", ran.number);
    if ((q = carderwheel_text(&engine, ran.value, buffer, sizeof buffer, &written)) != 0) return refused("text", q);
    printf("end %u steps %u value %.*s\n", (unsigned)ran.number, (unsigned)ran.steps, (int)written, (const char *)buffer);

    if ((q = carderwheel_read_global(&engine, (const uint8_t *)"spacing", 7, &spacing)) != 0) return refused("read global", q);
    if ((q = carderwheel_text(&engine, spacing, buffer, sizeof buffer, &written)) != 0) return refused("text", q);
    printf("spacing %.*s\n", (int)written, (const char *)buffer);

    if ((q = carderwheel_drain(&engine, buffer, sizeof buffer, &written)) != 0) return refused("drain", q);
    print_lines(buffer, written);
    return 0;
}
