/* What carderwheel_clear and carderwheel_write_begin, whose structs may be unwritten, hand to the library and take from it; and that the writer's calls
   hand over a pointer where there are no bytes, too. The library is this file's own, since the real one never refuses a struct's stores and does not tell
   what it was given. Prints nothing where all is well. */
#include "carderwheel.h"

#include <stdio.h>
#include <string.h>

static carderwheel engine, before;
static carderwheel_counts given, zeros, other;
static carderwheel_writer writer, writer_before;
static carderwheel_writer_state given_state, zero_state, other_state;
static const uint8_t *given_buffer;
static size_t given_size;
static uint8_t buffer[2];
static uint64_t number;
static int wrong;

#define RIGHT(a)                                                                                                       \
    do {                                                                                                               \
        if (!(a)) printf("clear.c:%d: not so: %s\n", __LINE__, #a), wrong = 1;                                         \
    } while (0)

#define HANDED(store) RIGHT(store == engine.store && store##_size * sizeof *store == sizeof engine.store)

carderwheel_answer_ carderwheel_clear_in(uint8_t *code, size_t code_size, uint16_t *places, size_t places_size, uint16_t *rows, size_t rows_size,
    uint16_t *starts, size_t starts_size, uint64_t *stacks, size_t stacks_size, uint64_t *heap, size_t heap_size, uint8_t *text, size_t text_size,
    uint8_t *output, size_t output_size, carderwheel_counts counts) {
    carderwheel_answer_ a;
    HANDED(code);
    HANDED(places);
    HANDED(rows);
    HANDED(starts);
    HANDED(stacks);
    HANDED(heap);
    HANDED(text);
    HANDED(output);
    given = counts;
    a.number = number;
    a.amount = 0;
    a.counts = other;
    return a;
}

carderwheel_wrote_ carderwheel_write_begin_in(uint8_t *lent, size_t size, carderwheel_writer_state state) {
    carderwheel_wrote_ a;
    given_buffer = lent;
    given_size = size;
    given_state = state;
    a.number = number;
    a.state = other_state;
    return a;
}

carderwheel_wrote_ carderwheel_write_text_in(uint8_t *lent, size_t size, carderwheel_writer_state state, const uint8_t *bytes, size_t bytes_size) {
    RIGHT(bytes != NULL && bytes_size == 0);
    return carderwheel_write_begin_in(lent, size, state);
}

carderwheel_wrote_ carderwheel_write_code_in(uint8_t *lent, size_t size, carderwheel_writer_state state, const uint8_t *bytes, size_t bytes_size) {
    return carderwheel_write_text_in(lent, size, state, bytes, bytes_size);
}

static void writes(void) {
    memset(&writer, 0xFF, sizeof writer);
    memset(&other_state, 0x5A, sizeof other_state);
    writer_before = writer;

    number = 31;
    given_state = other_state;
    RIGHT(carderwheel_write_begin(&writer, NULL, 0) == 31);
    RIGHT(given_buffer != NULL && given_size == 0);
    RIGHT(memcmp(&given_state, &zero_state, sizeof given_state) == 0);
    RIGHT(memcmp(&writer, &writer_before, sizeof writer) == 0);

    number = 0;
    given_state = other_state;
    RIGHT(carderwheel_write_begin(&writer, buffer, sizeof buffer) == 0);
    RIGHT(given_buffer == buffer && given_size == sizeof buffer);
    RIGHT(memcmp(&given_state, &zero_state, sizeof given_state) == 0);
    RIGHT(writer.buffer == buffer && writer.capacity == sizeof buffer);
    RIGHT(memcmp(&writer.state, &other_state, sizeof writer.state) == 0);

    memset(&writer, 0, sizeof writer);
    given_buffer = NULL;
    RIGHT(carderwheel_write_text(&writer, NULL, 0) == 0);
    RIGHT(given_buffer != NULL && given_size == 0);
    RIGHT(carderwheel_write_code(&writer, NULL, 0) == 0);
}

int main(void) {
    /* memory that nobody wrote, as far as a program can tell */
    memset(&engine, 0xFF, sizeof engine);
    memset(&other, 0x5A, sizeof other);
    before = engine;

    number = 33;
    given = other;
    RIGHT(carderwheel_clear(&engine) == 33);
    RIGHT(memcmp(&given, &zeros, sizeof given) == 0);
    RIGHT(memcmp(&engine, &before, sizeof engine) == 0);

    number = 0;
    given = other;
    RIGHT(carderwheel_clear(&engine) == 0);
    RIGHT(memcmp(&given, &zeros, sizeof given) == 0);
    before.counts = other;
    RIGHT(memcmp(&engine, &before, sizeof engine) == 0);

    writes();
    return wrong;
}
