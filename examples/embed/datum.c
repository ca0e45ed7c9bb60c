/* Heights below the datum: sets the surface's height for the routine that its argument names (examples/datum.img), runs it, and prints the height of the bed that
   the routine leaves, as the engine writes it and as the host computes it, and the lines. */
#include "carderwheel.h"

#include <stdio.h>

static carderwheel engine;
static uint8_t image[CARDERWHEEL_CODE_BYTES];
static uint8_t lines[CARDERWHEEL_OUTPUT_BYTES];

static int refused(const char *call, uint64_t number) {
    fprintf(stderr, "%s is refused: %u\n", call, (unsigned)number);
    return 1;
}

/* A number of the engine is a signed count of 2^-32; below zero, too. */
static carderwheel_value number_of(double n) {
    carderwheel_value v = {CARDERWHEEL_NUMBER, (uint64_t)(int64_t)(n * 4294967296.0), 0};
    return v;
}

static double double_of(carderwheel_value v) {
    return (double)(int64_t)v.first / 4294967296.0;
}

int main(int argc, char **argv) {
    FILE *file = argc == 2 ? fopen(argv[1], "rb") : NULL;
    uint8_t text[CARDERWHEEL_NUMBER_BYTES]; /* any number's text */
    carderwheel_value bed;
    carderwheel_ran ran;
    uint64_t loaded, q;
    size_t size, written, at;

    if (file == NULL) {
        fprintf(stderr, "usage: datum IMAGE\n");
        return 1;
    }
    size = fread(image, 1, sizeof image, file);
    fclose(file);

    if ((q = carderwheel_clear(&engine)) != 0) return refused("clear", q);
    if ((q = carderwheel_load(&engine, image, size, &loaded)) != 0) return refused("load", q);
    if ((q = carderwheel_set_global(&engine, (const uint8_t *)"surface", 7, number_of(-12.25))) != 0) return refused("set global", q);
    ran = carderwheel_run(&engine, loaded);
    if (!ran.started || ran.number != 0) return refused("run", ran.number);

    if ((q = carderwheel_read_global(&engine, (const uint8_t *)"bed", 3, &bed)) != 0) return refused("read global", q);
    if (bed.kind != CARDERWHEEL_NUMBER) return 1;
    if ((q = carderwheel_text(&engine, bed, text, sizeof text, &written)) != 0) return refused("text", q);
    printf("bed %.*s m, %.1f m\n", (int)written, (const char *)text, double_of(bed));

    if ((q = carderwheel_drain(&engine, lines, sizeof lines, &written)) != 0) return refused("drain", q);
    for (at = 0; at < written; at += 2 + size) {
        size = (size_t)lines[at] << 8 | lines[at + 1];
        printf("> %.*s\n", (int)size, (const char *)lines + at + 2);
    }
    return 0;
}
