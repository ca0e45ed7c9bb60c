/* Every call of the header, accepted and refused, with the numbers of documents 01 and 02; and that a refused call alters nothing. Prints nothing where
   all is well. */
#include "carderwheel.h"

#include <stdio.h>
#include <string.h>

/* what a call could alter: the engine, and what its other pointers name */
typedef struct world {
    carderwheel engine;
    uint8_t buffer[64];
    uint64_t n;
    size_t w;
    carderwheel_value v;
} world;

static world now, before;

/* the same of the writer's calls; the buffer has room for 65,536 templates, and no padding follows it */
typedef struct paper {
    carderwheel_writer writer;
    size_t size;
    uint8_t buffer[8 + 8 * 65536];
} paper;

static paper page, page_before;
static uint8_t many[65536]; /* zeros */
static uint64_t more[CARDERWHEEL_STACK_WORDS + 3]; /* stacks with room for a handler more */
static int wrong;

#define SAME(a, b)                                                                                                     \
    do {                                                                                                               \
        if ((a) != (b)) printf("calls.c:%d: %s is not %s\n", __LINE__, #a, #b), wrong = 1;                             \
    } while (0)

/* The call is refused with this number, and alters nothing. What its pointers name holds before it what no call would write. */
#define REFUSED(call, number)                                                                                          \
    do {                                                                                                               \
        memset(now.buffer, 0xA5, sizeof now.buffer);                                                                   \
        now.n = now.w = 99;                                                                                            \
        now.v = other;                                                                                                 \
        before = now;                                                                                                  \
        SAME(call, number);                                                                                            \
        SAME(memcmp(&now, &before, sizeof now), 0);                                                                    \
    } while (0)

/* The same of a call of the writer. */
#define UNWRITTEN(call, number)                                                                                        \
    do {                                                                                                               \
        page.size = 99;                                                                                                \
        page_before = page;                                                                                            \
        SAME(call, number);                                                                                            \
        SAME(memcmp(&page, &page_before, sizeof page), 0);                                                             \
    } while (0)

/* The image is these bytes so far, and those past them are as `begun` left them. */
#define HAS(...)                                                                                                       \
    do {                                                                                                               \
        const uint8_t bytes[] = {__VA_ARGS__};                                                                         \
        SAME(page.writer.state.size, sizeof bytes);                                                                    \
        SAME(memcmp(page.buffer, bytes, sizeof bytes), 0);                                                             \
        SAME(changed(sizeof bytes, sizeof page.buffer), 0);                                                            \
    } while (0)

/* The call takes so many bytes, behind the 10 of a first template. */
#define TAKES(count, call)                                                                                             \
    do {                                                                                                               \
        begun(10 + (count) - 1);                                                                                       \
        SAME(carderwheel_write_template(&page.writer, 0, 0), 0);                                                       \
        UNWRITTEN(call, 31);                                                                                           \
        begun(10 + (count));                                                                                           \
        SAME(carderwheel_write_template(&page.writer, 0, 0), 0);                                                       \
        SAME(call, 0);                                                                                                 \
        SAME(page.writer.state.size, 10 + (count));                                                                    \
        SAME(changed(10 + (count), sizeof page.buffer), 0);                                                            \
    } while (0)

#define TEXT(s) (const uint8_t *)(s), sizeof(s) - 1
#define BUFFER now.buffer, sizeof now.buffer

static const carderwheel_value other = {9, 9, 9}, seven = {CARDERWHEEL_NUMBER, 7ull << 32, 0};
static const carderwheel_value half_below = {CARDERWHEEL_NUMBER, 0xFFFFFFFF80000000, 0}; /* minus one half */
static const carderwheel_value outside = {CARDERWHEEL_CODE_TEXT, 0, CARDERWHEEL_CODE_BYTES};

/* Document 01's sample: a throw of 7 that is caught; a chunk whose only byte is no opcode, with an empty template after it; one that prints `ice`
   by a call of `console`, and ends; and one that enters a try for ever */
static const uint8_t sample[] = {0, 1, 0, 0, 0, 0, 0, 1, 0, 0, 0, 0, 7, 0, 0, 0, 0, 0, 9, 0x4B, 0, 8, 0, 0, 0, 0x4A, 0xFF, 0xFF};
static const uint8_t unknown[] = {0, 2, 0, 0, 0, 0, 0, 0, 0, 1, 0xEE, 0, 0, 0, 0, 0, 0, 0, 0};
static const uint8_t printing[] = {0, 1, 0, 0, 0, 0, 0, 2, 1, 0, 7, 'c', 'o', 'n', 's', 'o', 'l', 'e', 1, 0, 3, 'i', 'c', 'e', 0, 9, 3, 0, 0, 0, 0, 1, 0x32, 1, 0xFF};
static const uint8_t leak[] = {0, 1, 0, 0, 0, 0, 0, 0, 0, 6, 0x4B, 0, 0, 0x28, 0, 0};

static uint64_t refused_run(uint64_t image) {
    carderwheel_ran ran = carderwheel_run(&now.engine, image);
    SAME(ran.started, 0);
    SAME(ran.steps, 0);
    return ran.number;
}

/* All calls, from a clear on. */
static void calls(void) {
    carderwheel_answer_ a;
    carderwheel_ran ran;

    SAME(carderwheel_clear(&now.engine), 0);
    SAME(now.engine.counts.globals, 1);
    REFUSED(carderwheel_load(&now.engine, NULL, 0, &now.n), 1);
    SAME(carderwheel_load(&now.engine, sample, sizeof sample, &now.n), 0);
    SAME(now.n, 0);
    SAME(carderwheel_load(&now.engine, unknown, sizeof unknown, &now.n), 0);
    SAME(now.n, 1);
    SAME(carderwheel_load(&now.engine, printing, sizeof printing, &now.n), 0);
    SAME(now.n, 2);
    SAME(now.engine.counts.code, sizeof sample + sizeof unknown + sizeof printing);

    REFUSED(refused_run(3), 10);
    ran = carderwheel_run(&now.engine, 0);
    SAME(ran.started, 1);
    SAME(ran.number, 0);
    SAME(ran.steps, 4);
    SAME(ran.value.kind, seven.kind);
    SAME(ran.value.first, seven.first);
    SAME(now.engine.counts.frames, 1);
    /* a run that started is not refused, though its number is not 0: its frame stands */
    ran = carderwheel_run(&now.engine, 1);
    SAME(ran.started, 1);
    SAME(ran.number, 13);
    SAME(ran.opcode, 0xEE);
    SAME(now.engine.counts.frames, 2);
    SAME(now.engine.counts.ip, 1);

    SAME(carderwheel_text(&now.engine, seven, BUFFER, &now.w), 0);
    SAME(now.w, 1);
    SAME(now.buffer[0], '7');
    REFUSED(carderwheel_text(&now.engine, seven, NULL, 0, &now.w), 31);
    REFUSED(carderwheel_text(&now.engine, outside, BUFFER, &now.w), 30);
    SAME(carderwheel_text(&now.engine, half_below, now.buffer, 4, &now.w), 0);
    SAME(now.w, 4);
    SAME(memcmp(now.buffer, "-0.5", 4), 0);
    REFUSED(carderwheel_text(&now.engine, half_below, now.buffer, 3, &now.w), 31);
    SAME(carderwheel_text_bytes(&now.engine, TEXT("ice"), BUFFER, &now.w), 0);
    SAME(now.w, 3);
    SAME(memcmp(now.buffer, "ice", 3), 0);
    REFUSED(carderwheel_text_bytes(&now.engine, TEXT("\xE9"), BUFFER, &now.w), 29);
    REFUSED(carderwheel_text_bytes(&now.engine, TEXT("ice"), now.buffer, 2, &now.w), 31);

    REFUSED(carderwheel_register(&now.engine, 0, 1, &now.n), 32);
    REFUSED(carderwheel_register(&now.engine, 3, 1, &now.n), 10);
    SAME(carderwheel_register(&now.engine, 1, 1, &now.n), 0);
    SAME(now.n, 0);

    SAME(carderwheel_set_global(&now.engine, TEXT("depth"), seven), 0);
    SAME(carderwheel_read_global(&now.engine, TEXT("depth"), &now.v), 0);
    SAME(now.v.kind, seven.kind);
    SAME(now.v.first, seven.first);
    REFUSED(carderwheel_set_global(&now.engine, TEXT("depth"), outside), 30);
    REFUSED(carderwheel_set_global(&now.engine, TEXT("\x80"), seven), 29);
    SAME(carderwheel_set_global_text(&now.engine, TEXT("line"), TEXT("line 7")), 0);
    SAME(carderwheel_read_global(&now.engine, TEXT("line"), &now.v), 0);
    SAME(carderwheel_text(&now.engine, now.v, BUFFER, &now.w), 0);
    SAME(now.w, 6);
    SAME(memcmp(now.buffer, "line 7", 6), 0);
    REFUSED(carderwheel_set_global_text(&now.engine, TEXT("line"), TEXT("\x80")), 29);
    REFUSED(carderwheel_read_global(&now.engine, TEXT("\x80"), &now.v), 29);
    SAME(carderwheel_read_global(&now.engine, TEXT("nobody's"), &now.v), 0);
    SAME(now.v.kind, CARDERWHEEL_UNDEFINED);

    SAME(carderwheel_drain(&now.engine, NULL, 0, &now.w), 0);
    SAME(now.w, 0);
    SAME(carderwheel_run(&now.engine, 2).number, 0);
    REFUSED(carderwheel_drain(&now.engine, now.buffer, 4, &now.w), 31);
    SAME(carderwheel_drain(&now.engine, BUFFER, &now.w), 0);
    SAME(now.w, 5);
    SAME(memcmp(now.buffer, "\0\3ice", 5), 0);
    SAME(now.engine.counts.output, 0);

    /* one try too many: the run ends as it began the instruction */
    SAME(carderwheel_load(&now.engine, leak, sizeof leak, &now.n), 0);
    ran = carderwheel_run(&now.engine, now.n);
    SAME(ran.started, 1);
    SAME(ran.number, 22);
    SAME(ran.steps, 2 * CARDERWHEEL_HANDLERS + 1);
    SAME(now.engine.counts.handlers, CARDERWHEEL_HANDLERS);
    SAME(now.engine.counts.ip, 0);

    /* a store of another size */
    before = now;
    a = carderwheel_clear_in(now.engine.code, 1, now.engine.places, CARDERWHEEL_CODE_BYTES, now.engine.rows, CARDERWHEEL_CODE_BYTES, now.engine.starts,
                             CARDERWHEEL_IMAGES, now.engine.stacks, CARDERWHEEL_STACK_WORDS, now.engine.heap, CARDERWHEEL_HEAP_WORDS, now.engine.text,
                             CARDERWHEEL_TEXT_BYTES, now.engine.output, CARDERWHEEL_OUTPUT_BYTES, now.engine.counts);
    SAME(a.number, 33);
    SAME(a.counts.globals, 3);
    SAME(memcmp(&now, &before, sizeof now), 0);
    /* a larger one too, as that of an engine with more handlers */
    a = carderwheel_clear_in(now.engine.code, CARDERWHEEL_CODE_BYTES, now.engine.places, CARDERWHEEL_CODE_BYTES, now.engine.rows, CARDERWHEEL_CODE_BYTES,
                             now.engine.starts, CARDERWHEEL_IMAGES, more, sizeof more / 8, now.engine.heap, CARDERWHEEL_HEAP_WORDS, now.engine.text,
                             CARDERWHEEL_TEXT_BYTES, now.engine.output, CARDERWHEEL_OUTPUT_BYTES, now.engine.counts);
    SAME(a.number, 33);
    SAME(memcmp(&now, &before, sizeof now), 0);
    SAME(carderwheel_clear(&now.engine), 0);
    SAME(now.engine.counts.globals, 1);
    SAME(now.engine.counts.images, 0);
}

/* How many of the page's bytes from one place to another are not what `begun` left there. */
static size_t changed(size_t from, size_t to) {
    size_t n = 0;
    for (; from < to; from++) n += page.buffer[from] != 0xA5;
    return n;
}

/* An image is begun, in so many bytes. */
static void begun(size_t capacity) {
    memset(page.buffer, 0xA5, sizeof page.buffer);
    SAME(carderwheel_write_begin(&page.writer, page.buffer, capacity), 0);
}

/* No constant and no code is taken. */
static void no_item(void) {
    UNWRITTEN(carderwheel_write_number(&page.writer, 7), 34);
    UNWRITTEN(carderwheel_write_text(&page.writer, TEXT("ice")), 34);
    UNWRITTEN(carderwheel_write_text(&page.writer, NULL, 0), 34);
    UNWRITTEN(carderwheel_write_boolean(&page.writer, 1), 34);
    UNWRITTEN(carderwheel_write_null(&page.writer), 34);
    UNWRITTEN(carderwheel_write_undefined(&page.writer), 34);
    UNWRITTEN(carderwheel_write_function(&page.writer, 1), 34);
    UNWRITTEN(carderwheel_write_code(&page.writer, TEXT("\xFF")), 34);
    UNWRITTEN(carderwheel_write_code(&page.writer, NULL, 0), 34);
}

static void nothing_but_begin(void) {
    no_item();
    UNWRITTEN(carderwheel_write_template(&page.writer, 0, 0), 34);
    UNWRITTEN(carderwheel_write_finish(&page.writer, &page.size), 34);
}

/* Document 01's sample, from its number on. */
static void sample_from_number(void) {
    SAME(carderwheel_write_number(&page.writer, seven.first), 0);
    HAS(0, 1, 0, 0, 0, 0, 0, 1, 0, 0, 0, 0, 7, 0, 0, 0, 0, 0, 0);
    SAME(carderwheel_write_code(&page.writer, sample + 19, 9), 0);
    SAME(carderwheel_write_finish(&page.writer, &page.size), 0);
    SAME(page.size, sizeof sample);
    HAS(0, 1, 0, 0, 0, 0, 0, 1, 0, 0, 0, 0, 7, 0, 0, 0, 0, 0, 9, 0x4B, 0, 8, 0, 0, 0, 0x4A, 0xFF, 0xFF);
    SAME(memcmp(page.buffer, sample, sizeof sample), 0);
}

/* All calls of the writer. */
static void writes(void) {
    carderwheel_wrote_ a;
    uint64_t i;

    /* before a begin; a begin with too few bytes */
    memset(&page.writer, 0, sizeof page.writer);
    nothing_but_begin();
    memset(&page.writer, 0xFF, sizeof page.writer);
    UNWRITTEN(carderwheel_write_begin(&page.writer, NULL, 0), 31);
    UNWRITTEN(carderwheel_write_begin(&page.writer, page.buffer, 1), 31);

    begun(sizeof page.buffer);
    HAS(0, 0);
    no_item();
    SAME(carderwheel_write_template(&page.writer, 0, 0), 0);
    HAS(0, 1, 0, 0, 0, 0, 0, 0, 0, 0);
    sample_from_number();
    nothing_but_begin();
    SAME(carderwheel_clear(&now.engine), 0);
    SAME(carderwheel_load(&now.engine, page.buffer, page.writer.state.size, &now.n), 0);
    SAME(carderwheel_run(&now.engine, now.n).value.first, seven.first);

    /* each kind of constant, and no code */
    begun(sizeof page.buffer);
    SAME(carderwheel_write_template(&page.writer, 0x0102, 0x0304), 0);
    SAME(carderwheel_write_number(&page.writer, 0x8090A0B0C0D0E0F0), 0);
    SAME(carderwheel_write_text(&page.writer, TEXT("ice")), 0);
    SAME(carderwheel_write_text(&page.writer, NULL, 0), 0);
    SAME(carderwheel_write_boolean(&page.writer, -256), 0);
    SAME(carderwheel_write_boolean(&page.writer, 0), 0);
    SAME(carderwheel_write_null(&page.writer), 0);
    SAME(carderwheel_write_undefined(&page.writer), 0);
    SAME(carderwheel_write_function(&page.writer, 1), 0);
    SAME(carderwheel_write_template(&page.writer, 0, 0), 0);
    HAS(0, 2, 1, 2, 3, 4, 0, 8, 0, 0x80, 0x90, 0xA0, 0xB0, 0xC0, 0xD0, 0xE0, 0xF0, 1, 0, 3, 'i', 'c', 'e', 1, 0, 0, 2, 1, 2, 0, 3, 4, 5, 0, 1, 0, 0,
        0, 0, 0, 0, 0, 0, 0, 0);
    SAME(carderwheel_write_finish(&page.writer, &page.size), 0);
    SAME(carderwheel_load(&now.engine, page.buffer, page.size, &now.n), 0);

    /* after code, of no bytes too, only a template or the finish comes */
    begun(sizeof page.buffer);
    SAME(carderwheel_write_template(&page.writer, 0, 0), 0);
    SAME(carderwheel_write_code(&page.writer, NULL, 0), 0);
    no_item();
    SAME(carderwheel_write_template(&page.writer, 0, 0), 0);
    SAME(carderwheel_write_code(&page.writer, TEXT("\xFF")), 0);
    no_item();
    HAS(0, 2, 0, 0, 0, 0, 0, 0, 0, 0, 0, 0, 0, 0, 0, 0, 0, 1, 0xFF);

    /* what load refuses is not the writer's to judge */
    begun(2);
    SAME(carderwheel_write_finish(&page.writer, &page.size), 0);
    SAME(page.size, 2);
    HAS(0, 0);
    REFUSED(carderwheel_load(&now.engine, page.buffer, page.size, &now.n), 2);
    begun(sizeof page.buffer);
    SAME(carderwheel_write_template(&page.writer, 0, 0), 0);
    SAME(carderwheel_write_text(&page.writer, TEXT("\xC8")), 0);
    REFUSED(carderwheel_load(&now.engine, page.buffer, page.writer.state.size, &now.n), 5);
    begun(sizeof page.buffer);
    SAME(carderwheel_write_template(&page.writer, 0, 0), 0);
    SAME(carderwheel_write_function(&page.writer, 0), 0);
    REFUSED(carderwheel_load(&now.engine, page.buffer, page.writer.state.size, &now.n), 6);

    /* a begin that is refused leaves the image under way; one that is not starts anew, and the bytes past its two stay */
    begun(sizeof page.buffer);
    SAME(carderwheel_write_template(&page.writer, 0, 0), 0);
    UNWRITTEN(carderwheel_write_begin(&page.writer, NULL, 0), 31);
    UNWRITTEN(carderwheel_write_begin(&page.writer, page.buffer, 1), 31);
    a = carderwheel_write_begin_in(page.buffer, 1, page.writer.state);
    SAME(a.number, 31);
    SAME(memcmp(&a.state, &page.writer.state, sizeof a.state), 0);
    sample_from_number();
    begun(64);
    SAME(carderwheel_write_template(&page.writer, 5, 6), 0);
    SAME(carderwheel_write_text(&page.writer, TEXT("ice")), 0);
    page_before = page;
    SAME(carderwheel_write_begin(&page.writer, page.buffer, 64), 0);
    SAME(page.writer.state.size, 2);
    SAME(page.buffer[1], 0);
    SAME(memcmp(page.buffer + 2, page_before.buffer + 2, sizeof page.buffer - 2), 0);
    /* in another buffer */
    SAME(carderwheel_write_begin(&page.writer, page.buffer + 64, 10), 0);
    SAME(carderwheel_write_template(&page.writer, 0, 0), 0);
    UNWRITTEN(carderwheel_write_null(&page.writer), 31);
    SAME(page.buffer[65], 1);
    SAME(memcmp(page.buffer + 2, page_before.buffer + 2, 62), 0);
    SAME(changed(74, sizeof page.buffer), 0);

    /* the bytes that each call takes */
    begun(9);
    UNWRITTEN(carderwheel_write_template(&page.writer, 65535, 65535), 31);
    begun(10);
    SAME(carderwheel_write_template(&page.writer, 65535, 65535), 0);
    HAS(0, 1, 0xFF, 0xFF, 0xFF, 0xFF, 0, 0, 0, 0);
    TAKES(8, carderwheel_write_template(&page.writer, 0, 0));
    TAKES(9, carderwheel_write_number(&page.writer, seven.first));
    TAKES(6, carderwheel_write_text(&page.writer, TEXT("ice")));
    TAKES(3, carderwheel_write_text(&page.writer, NULL, 0));
    TAKES(2, carderwheel_write_boolean(&page.writer, 0));
    TAKES(1, carderwheel_write_null(&page.writer));
    TAKES(1, carderwheel_write_undefined(&page.writer));
    TAKES(3, carderwheel_write_function(&page.writer, 65535));
    TAKES(1, carderwheel_write_code(&page.writer, TEXT("\xFF")));
    TAKES(65538, carderwheel_write_text(&page.writer, many, 65535));
    TAKES(65535, carderwheel_write_code(&page.writer, many, 65535));
    begun(10);
    SAME(carderwheel_write_template(&page.writer, 0, 0), 0);
    SAME(carderwheel_write_code(&page.writer, NULL, 0), 0);

    /* numbers above 65,535: 34, with room and without */
    for (i = 0; i < 2; i++) {
        begun(i == 0 ? 2 : sizeof page.buffer);
        UNWRITTEN(carderwheel_write_template(&page.writer, 65536, 0), 34);
        UNWRITTEN(carderwheel_write_template(&page.writer, 0, 65536), 34);
        UNWRITTEN(carderwheel_write_template(&page.writer, 1ull << 32, 0), 34);
        UNWRITTEN(carderwheel_write_template(&page.writer, 0, 1ull << 32), 34);
        begun(i == 0 ? 10 : sizeof page.buffer);
        SAME(carderwheel_write_template(&page.writer, 0, 0), 0);
        UNWRITTEN(carderwheel_write_text(&page.writer, many, 65536), 34);
        UNWRITTEN(carderwheel_write_code(&page.writer, many, 65536), 34);
        UNWRITTEN(carderwheel_write_function(&page.writer, 65536), 34);
        UNWRITTEN(carderwheel_write_function(&page.writer, 1ull << 32), 34);
    }
    begun(sizeof page.buffer);
    for (i = 0; i < 65535; i++) SAME(carderwheel_write_template(&page.writer, 0, 0), 0);
    UNWRITTEN(carderwheel_write_template(&page.writer, 0, 0), 34);
    SAME(page.buffer[0] << 8 | page.buffer[1], 65535);
    SAME(carderwheel_write_finish(&page.writer, &page.size), 0);
    SAME(page.size, 2 + 8 * 65535);
    SAME(changed(page.size, sizeof page.buffer), 0);
    begun(sizeof page.buffer);
    SAME(carderwheel_write_template(&page.writer, 0, 0), 0);
    for (i = 0; i < 65535; i++) SAME(carderwheel_write_null(&page.writer), 0);
    UNWRITTEN(carderwheel_write_null(&page.writer), 34);
    SAME(page.buffer[6] << 8 | page.buffer[7], 65535);
    SAME(page.writer.state.size, 10 + 65535);
    SAME(changed(10 + 65535, sizeof page.buffer), 0);
}

/* States that no call left: whatever a call answers, it stays in its buffer. */
static void any_state(void) {
    static const uint64_t numbers[] = {0, 1, 2, 3, 7, 8, 10, 31, 32, 33, 65535, 65536, UINT64_MAX - 7, UINT64_MAX};
    enum { COUNT = sizeof numbers / sizeof *numbers };
    const carderwheel_writer_state zeros = {0, 0, 0, 0, 0};
    unsigned i, call;
    memset(page.buffer, 0xA5, sizeof page.buffer);
    page.writer.buffer = page.buffer + 32;
    page.writer.capacity = 32;
    for (i = 0; i < 5 * COUNT * COUNT * COUNT; i++) {
        for (call = 0; call < 10; call++) {
            carderwheel_writer *w = &page.writer;
            w->state = zeros;
            w->state.stage = i % 5;
            w->state.size = numbers[i / 5 % COUNT];
            w->state.at = numbers[i / 5 / COUNT % COUNT];
            w->state.templates = w->state.constants = numbers[i / 5 / COUNT / COUNT];
            if (call == 0) carderwheel_write_begin(w, w->buffer, w->capacity);
            if (call == 1) carderwheel_write_template(w, 1, 1);
            if (call == 2) carderwheel_write_number(w, seven.first);
            if (call == 3) carderwheel_write_text(w, TEXT("ice"));
            if (call == 4) carderwheel_write_boolean(w, 1);
            if (call == 5) carderwheel_write_null(w);
            if (call == 6) carderwheel_write_undefined(w);
            if (call == 7) carderwheel_write_function(w, 1);
            if (call == 8) carderwheel_write_code(w, TEXT("ice"));
            if (call == 9) carderwheel_write_finish(w, &page.size);
        }
    }
    SAME(changed(0, 32), 0);
    SAME(changed(64, sizeof page.buffer), 0);
}

int main(void) {
    /* memory of any contents: counts that pass their stores are refused by every call but clear, which makes a fresh engine of them */
    memset(&now, 0xFF, sizeof now);
    REFUSED(carderwheel_load(&now.engine, sample, sizeof sample, &now.n), 33);
    REFUSED(carderwheel_register(&now.engine, 0, 1, &now.n), 33);
    REFUSED(carderwheel_set_global(&now.engine, TEXT("depth"), seven), 33);
    REFUSED(carderwheel_set_global_text(&now.engine, TEXT("line"), TEXT("line 7")), 33);
    REFUSED(carderwheel_read_global(&now.engine, TEXT("depth"), &now.v), 33);
    REFUSED(refused_run(0), 33);
    REFUSED(carderwheel_text(&now.engine, seven, BUFFER, &now.w), 33);
    REFUSED(carderwheel_text_bytes(&now.engine, TEXT("ice"), BUFFER, &now.w), 33);
    REFUSED(carderwheel_drain(&now.engine, BUFFER, &now.w), 33);
    calls();

    memset(&now, 0, sizeof now);
    calls();

    writes();
    any_state();
    return wrong;
}
