/* The header's limits are the library's: a count at its limit is taken, one above it refused (33), a run makes so many steps, and the longest text of a number
   has so many bytes. Prints them and the engine's bytes, as limits.rs does; with an argument, what docs/EMBEDDING.md says of them. */
#include "carderwheel.h"

#include <stdio.h>

static carderwheel engine;
static int wrong;

static uint64_t read_global(void) {
    carderwheel_value v;
    return carderwheel_read_global(&engine, (const uint8_t *)"", 0, &v);
}

static void differs(const char *name) {
    fprintf(stderr, "limits.c: CARDERWHEEL_%s is not the library's\n", name);
    wrong = 1;
}

/* The library's limit of a count is this. */
static void limit(const char *name, uint64_t most, uint64_t *count) {
    uint64_t before = *count;
    printf("%s %lu\n", name, (unsigned long)most);
    *count = most;
    uint64_t at = read_global();
    *count = most + 1;
    uint64_t above = read_global();
    *count = before;
    if (at == 33 || above != 33) differs(name);
}

/* Of the least number but one, whose text is the longest (machine/proofs/NumberText, `longest`). */
static void number_bytes(void) {
    static const carderwheel_value least = {CARDERWHEEL_NUMBER, 0x8000000000000001, 0};
    uint8_t buffer[CARDERWHEEL_NUMBER_BYTES];
    size_t written = 0;
    if (carderwheel_text(&engine, least, buffer, sizeof buffer, &written) != 0 || written != sizeof buffer ||
        carderwheel_text(&engine, least, buffer, sizeof buffer - 1, &written) != 31)
        differs("NUMBER_BYTES");
    printf("NUMBER_BYTES %lu\n", (unsigned long)CARDERWHEEL_NUMBER_BYTES);
}

static void limits(void) {
    static const uint8_t jump[] = {0, 1, 0, 0, 0, 0, 0, 0, 0, 3, 0x28, 0, 0}; /* to itself */
    carderwheel_ran ran;
    uint64_t n = 0;
    if (carderwheel_clear(&engine) != 0 || carderwheel_load(&engine, jump, sizeof jump, &n) != 0) {
        differs("STACK_WORDS, or the size of another store,");
        return;
    }
    ran = carderwheel_run(&engine, n);
    if (ran.number != 12 || ran.steps != CARDERWHEEL_STEPS) differs("STEPS");
#define LIMIT(NAME, count) limit(#NAME, CARDERWHEEL_##NAME, &engine.counts.count)
    LIMIT(OPERANDS, operands);
    LIMIT(SLOTS, slots);
    LIMIT(FRAMES, frames);
    LIMIT(HANDLERS, handlers);
    LIMIT(FUNCTIONS, functions);
    LIMIT(OBJECTS, objects);
    LIMIT(PROPERTIES, properties);
    LIMIT(GLOBALS, globals);
    LIMIT(CODE_BYTES, code);
    LIMIT(IMAGES, images);
    LIMIT(TEXT_BYTES, text);
    LIMIT(OUTPUT_BYTES, output);
    number_bytes();
    printf("STEPS %lu\nbytes %lu\n", (unsigned long)CARDERWHEEL_STEPS, (unsigned long)sizeof engine);
}

/* A number as the documents write it: 12, 8,192. */
static const char *n(size_t k) {
    static char texts[16][32];
    static unsigned next;
    char *t = texts[next++ % 16];
    if (k < 1000)
        snprintf(t, 32, "%u", (unsigned)k);
    else
        snprintf(t, 32, "%u,%03u", (unsigned)(k / 1000), (unsigned)(k % 1000));
    return t;
}

/* docs/EMBEDDING.md has each of these lines, or begins one so. */
static void document(void) {
#define PART(name) n(sizeof engine.name / sizeof engine.name[0]), n(sizeof engine.name[0]), n(sizeof engine.name)
    printf("| stacks | %s of %s | %s | operands %s, local slots %s, frames %s, handlers %s |\n", PART(stacks), n(CARDERWHEEL_OPERANDS),
           n(CARDERWHEEL_SLOTS), n(CARDERWHEEL_FRAMES), n(CARDERWHEEL_HANDLERS));
    printf("| heap | %s of %s | %s | functions %s, objects %s, properties %s, globals %s |\n", PART(heap), n(CARDERWHEEL_FUNCTIONS),
           n(CARDERWHEEL_OBJECTS), n(CARDERWHEEL_PROPERTIES), n(CARDERWHEEL_GLOBALS));
    printf("| places | %s of %s | %s |\n", PART(places));
    printf("| rows | %s of %s | %s |\n", PART(rows));
    printf("| starts | %s of %s | %s |\n", PART(starts));
    printf("| code | %s of %s | %s |\n", PART(code));
    printf("| text | %s of %s | %s |\n", PART(text));
    printf("| output | %s of %s | %s |\n", PART(output));
    printf("| total lent | | %s | |\n", n(sizeof engine));
    printf("at most %s bytes for a drain, %s for a value's text (%s where it is a number)\n", n(CARDERWHEEL_OUTPUT_BYTES),
           n(CARDERWHEEL_TEXT_BYTES), n(CARDERWHEEL_NUMBER_BYTES));
    printf("Have %s bytes free for a call\n", n(CARDERWHEEL_CALL_STACK));
    printf("a run makes at most %s steps\n", n(CARDERWHEEL_STEPS));
    printf("After %s such runs the next is refused with 11.\n", n(CARDERWHEEL_FRAMES));
    printf("the next after %s ends with 22.\n", n(CARDERWHEEL_HANDLERS));
    printf("| 9 | load: %s images are loaded |\n", n(CARDERWHEEL_IMAGES));
    printf("| 11 | run, not started: %s frames stand |\n", n(CARDERWHEEL_FRAMES));
    printf("| 11 | run, started: %s calls deep |\n", n(CARDERWHEEL_FRAMES));
    printf("| 12 | %s steps were made |\n", n(CARDERWHEEL_STEPS));
    printf("| 16 | %s operands stand |\n", n(CARDERWHEEL_OPERANDS));
    printf("| 21 | %s local slots are in use |\n", n(CARDERWHEEL_SLOTS));
    printf("| 22 | %s handlers stand |\n", n(CARDERWHEEL_HANDLERS));
    printf("| 23 | %s functions were made |\n", n(CARDERWHEEL_FUNCTIONS));
    printf("| 24 | %s objects were made |\n", n(CARDERWHEEL_OBJECTS));
    printf("| 25 | %s properties are in use |\n", n(CARDERWHEEL_PROPERTIES));
    printf("| 26 | %s globals are in use |\n", n(CARDERWHEEL_GLOBALS));
    printf("| 27 | %s bytes of text are in use |\n", n(CARDERWHEEL_TEXT_BYTES));
    printf("| 28 | %s bytes of output are waiting |\n", n(CARDERWHEEL_OUTPUT_BYTES));
    printf("%s bytes always hold a drain, %s a text |\n", n(CARDERWHEEL_OUTPUT_BYTES), n(CARDERWHEEL_TEXT_BYTES));
}

int main(int count, char **words) {
    (void)words;
    if (count > 1)
        document();
    else
        limits();
    return wrong;
}
