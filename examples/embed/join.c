/* Joins two routines to one image, as a logger does that has no compiler with it: writes the image call by call, loads it, sets a global that it reads,
   runs it, and prints its value and its lines. */
#include "carderwheel.h"

#include <stdio.h>

static carderwheel engine; /* all memory that the engine uses */
static carderwheel_writer writer;
static uint8_t image[CARDERWHEEL_CODE_BYTES];
static uint8_t buffer[CARDERWHEEL_TEXT_BYTES];

/* The opcodes used below. The number of a constant or a local follows in two bytes, high byte first, how many arguments a call has in one. */
enum { LOAD_CONST = 0, LOAD_LOCAL = 1, LOAD_GLOBAL = 3, MUL = 12, CALL = 50, RETURN = 51, CREATE_CLOSURE = 52, POP = 80, HALT = 255 };

/* A function is pushed before its arguments; its call takes them all, and pushes what it returns. */
static const uint8_t entry_code[] = {
    CREATE_CLOSURE, 0, 1, /* log */
    CREATE_CLOSURE, 0, 0, /* depth */
    LOAD_GLOBAL, 0, 2,    /* echo */
    CALL, 1,              /* depth(echo) */
    CALL, 1,              /* log(depth(echo)) */
    HALT,
};

/* A function's arguments are its first locals. */
static const uint8_t depth_code[] = {
    LOAD_LOCAL, 0, 0, /* time */
    LOAD_CONST, 0, 0, /* 84 */
    MUL, RETURN,
};

static const uint8_t log_code[] = {
    LOAD_GLOBAL, 0, 0, /* console */
    LOAD_CONST, 0, 1,  /* bed at */
    LOAD_LOCAL, 0, 0,  /* metres */
    LOAD_CONST, 0, 2,  /* m */
    CALL, 3,           /* prints all three */
    POP,               /* what console returns */
    LOAD_LOCAL, 0, 0, RETURN,
};

/* The bits of a number: a signed count of 2^-32. */
static uint64_t number_of(double n) {
    return (uint64_t)(int64_t)(n * 4294967296.0);
}

/* Template 0, where a run starts: log(depth(echo)). */
static uint64_t write_entry(carderwheel_writer *w) {
    uint64_t q;
    if ((q = carderwheel_write_template(w, 0, 0)) != 0) return q;
    if ((q = carderwheel_write_function(w, 1)) != 0) return q; /* its constant 0: depth, by its template */
    if ((q = carderwheel_write_function(w, 2)) != 0) return q; /* 1: log */
    if ((q = carderwheel_write_text(w, (const uint8_t *)"echo", 4)) != 0) return q;
    return carderwheel_write_code(w, entry_code, sizeof entry_code);
}

/* Template 1, depth(time): half the two-way time in microseconds, at 168 metres a microsecond. */
static uint64_t write_depth(carderwheel_writer *w) {
    uint64_t q;
    if ((q = carderwheel_write_template(w, 1, 1)) != 0) return q;
    if ((q = carderwheel_write_number(w, number_of(84))) != 0) return q;
    return carderwheel_write_code(w, depth_code, sizeof depth_code);
}

/* Template 2, log(metres): prints them, and returns them. */
static uint64_t write_log(carderwheel_writer *w) {
    uint64_t q;
    if ((q = carderwheel_write_template(w, 1, 1)) != 0) return q;
    if ((q = carderwheel_write_text(w, (const uint8_t *)"console", 7)) != 0) return q;
    if ((q = carderwheel_write_text(w, (const uint8_t *)"bed at", 6)) != 0) return q;
    if ((q = carderwheel_write_text(w, (const uint8_t *)"m", 1)) != 0) return q;
    return carderwheel_write_code(w, log_code, sizeof log_code);
}

static int refused(const char *call, uint64_t number) {
    fprintf(stderr, "%s is refused: %u\n", call, (unsigned)number);
    return 1;
}

/* Prints what drain wrote: of each line its length in two bytes, then its bytes. */
static void print_lines(const uint8_t *lines, size_t size) {
    size_t at = 0;
    while (at < size) {
        size_t length = (size_t)lines[at] << 8 | lines[at + 1];
        printf("> %.*s\n", (int)length, (const char *)lines + at + 2);
        at += 2 + length;
    }
}

int main(void) {
    carderwheel_value echo = {CARDERWHEEL_NUMBER, number_of(12.5), 0}; /* a two-way time in microseconds, as measured */
    carderwheel_ran ran;
    uint64_t loaded, q;
    size_t size, written;

    if ((q = carderwheel_write_begin(&writer, image, sizeof image)) != 0) return refused("begin", q);
    if ((q = write_entry(&writer)) != 0) return refused("entry", q);
    if ((q = write_depth(&writer)) != 0) return refused("depth", q);
    if ((q = write_log(&writer)) != 0) return refused("log", q);
    if ((q = carderwheel_write_finish(&writer, &size)) != 0) return refused("finish", q);
    printf("image of %u bytes\n", (unsigned)size);

    if ((q = carderwheel_clear(&engine)) != 0) return refused("clear", q);
    if ((q = carderwheel_load(&engine, image, size, &loaded)) != 0) return refused("load", q);
    if ((q = carderwheel_set_global(&engine, (const uint8_t *)"echo", 4, echo)) != 0) return refused("set global", q);

    ran = carderwheel_run(&engine, loaded);
    if (!ran.started) return refused("run", ran.number);
    if ((q = carderwheel_text(&engine, ran.value, buffer, sizeof buffer, &written)) != 0) return refused("text", q);
    printf("end %u steps %u value %.*s\n", (unsigned)ran.number, (unsigned)ran.steps, (int)written, (const char *)buffer);

    if ((q = carderwheel_drain(&engine, buffer, sizeof buffer, &written)) != 0) return refused("drain", q);
    print_lines(buffer, written);
    return 0;
}
