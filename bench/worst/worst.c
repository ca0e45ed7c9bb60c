/* Times of calls, for bench/worst/run. `worst run TURNS IMAGE ..` prints of each image how its run ended, its steps, and the least nanoseconds of the run
   call among TURNS, each on a cleared engine. `worst calls TURNS IMAGE ..` prints the least of every other call, on arguments made to take long; the images
   are those to load, and of them the one that takes longest counts. Processor time, one thread. PAD bytes of code that is not run move the library. */
#include "carderwheel.h"

#include <stdio.h>
#include <stdlib.h>
#include <string.h>
#include <time.h>

#define QUOTED(x) #x
#define SKIP(x) __asm__(".text\n.skip " QUOTED(x) ", 0x90\n")
SKIP(PAD);

static carderwheel engine, before;
static uint8_t image[CARDERWHEEL_CODE_BYTES], buffer[CARDERWHEEL_TEXT_BYTES], long_name[CARDERWHEEL_TEXT_BYTES], digits[CARDERWHEEL_TEXT_BYTES];
static size_t image_size, written;
static uint64_t loaded, function;
static carderwheel_value long_text, read;
static carderwheel_writer writer, opened;

static double now(void) {
    struct timespec t;
    clock_gettime(CLOCK_THREAD_CPUTIME_ID, &t);
    return 1e9 * (double)t.tv_sec + (double)t.tv_nsec;
}

static void need(const char *what, uint64_t number, uint64_t wanted) {
    if (number == wanted) return;
    fprintf(stderr, "worst: %s answers %u, not %u\n", what, (unsigned)number, (unsigned)wanted);
    exit(1);
}

static void take(const char *path) {
    FILE *file = fopen(path, "rb");
    if (file == NULL) {
        perror(path);
        exit(1);
    }
    image_size = fread(image, 1, sizeof image, file);
    fclose(file);
}

static void fresh(void) {
    need("clear", carderwheel_clear(&engine), 0);
    need("load", carderwheel_load(&engine, image, image_size, &loaded), 0);
}

static void run(const char *path, int turns) {
    double least = 0;
    carderwheel_ran ran = {0};
    take(path);
    for (int i = 0; i < turns; i++) {
        double t;
        fresh();
        t = now();
        ran = carderwheel_run(&engine, loaded);
        t = now() - t;
        if (i == 0 || t < least) least = t;
    }
    printf("%u %u %.0f\n", (unsigned)ran.number, (unsigned)ran.steps, least);
}

/* The other calls. Each is made on the engine as `prepare` leaves it, and has to answer `number`. */

static void nothing(void) {}
static void cleared(void) { need("clear", carderwheel_clear(&engine), 0); }

/* A global whose name fills the text store, and a text constant that nearly fills the code store. */
static void long_global(void) {
    carderwheel_value none = {0};
    fresh();
    need("set global", carderwheel_set_global(&engine, long_name, sizeof long_name, none), 0);
}

/* The same with a name that fills half of it. */
static void half_global(void) {
    carderwheel_value none = {0};
    fresh();
    need("set global", carderwheel_set_global(&engine, long_name, sizeof long_name / 2, none), 0);
}

static void long_made(void) {
    fresh();
    need("set global", carderwheel_set_global_text(&engine, digits, 1, digits + 1, sizeof digits - 1), 0);
    need("read global", carderwheel_read_global(&engine, digits, 1, &long_text), 0);
}

static void full_output(void) {
    fresh();
    engine.counts.output = CARDERWHEEL_OUTPUT_BYTES; /* as printed lines leave it; what stands there is only copied */
}

/* The image writer, in a buffer of the code store's size: a template that is open; the same with a text that leaves room for a null. */
static void open_template(void) {
    need("begin", carderwheel_write_begin(&opened, image, sizeof image), 0);
    need("template", carderwheel_write_template(&opened, 0, 0), 0);
}

static void nearly_full(void) {
    open_template();
    need("text", carderwheel_write_text(&opened, digits, sizeof image - 14), 0);
}

static uint64_t nothing_(void) { return 0; }
static uint64_t clear_(void) { return carderwheel_clear(&engine); }
static uint64_t load_(void) { return carderwheel_load(&engine, image, image_size, &loaded); }
static uint64_t register_(void) { return carderwheel_register(&engine, 0, 1, &function); }
static uint64_t set_(void) { return carderwheel_set_global(&engine, long_name, sizeof long_name, long_text); }
static uint64_t half_(void) { return carderwheel_set_global_text(&engine, long_name, sizeof long_name / 2, digits, sizeof digits / 2); }
static uint64_t full_(void) { return carderwheel_set_global_text(&engine, long_name, sizeof long_name, digits, sizeof digits); }
static uint64_t read_(void) { return carderwheel_read_global(&engine, long_name, sizeof long_name, &read); }
static uint64_t text_(void) { return carderwheel_text(&engine, long_text, buffer, sizeof buffer, &written); }
static uint64_t bytes_(void) { return carderwheel_text_bytes(&engine, digits, sizeof digits, buffer, sizeof buffer, &written); }
static uint64_t drain_(void) { return carderwheel_drain(&engine, buffer, sizeof buffer, &written); }

static uint64_t write_text_(void) {
    writer = opened;
    return carderwheel_write_text(&writer, digits, sizeof image - 13);
}
static uint64_t write_code_(void) {
    writer = opened;
    return carderwheel_write_code(&writer, digits, sizeof image - 10);
}
static uint64_t write_null_(void) {
    writer = opened;
    return carderwheel_write_null(&writer);
}

static double least_of(const char *name, void (*prepare)(void), uint64_t (*call)(void), uint64_t number, int turns) {
    double least = 0;
    prepare();
    before = engine;
    for (int i = 0; i < turns; i++) {
        double t;
        uint64_t answer;
        engine = before;
        t = now();
        answer = call();
        t = now() - t;
        need(name, answer, number);
        if (i == 0 || t < least) least = t;
    }
    return least;
}

static void calls(int turns, char **images, int count) {
    double least = 0;
    memset(long_name, 'n', sizeof long_name);
    memset(digits, '1', sizeof digits);
    for (int i = 0; i < count; i++) {
        double t;
        take(images[i]);
        t = least_of("load", cleared, load_, 0, turns);
        if (least < t) least = t;
    }
    printf("clock %.0f\n", least_of("clock", cleared, nothing_, 0, turns));
    printf("load %.0f\n", least);
    /* an image of two templates, the first with one long text */
    memset(image, '1', sizeof image);
    memcpy(image, "\0\2\0\0\0\0\0\1\1", 9);
    image_size = sizeof image;
    image[9] = (uint8_t)((image_size - 21) >> 8);
    image[10] = (uint8_t)(image_size - 21);
    memset(image + image_size - 10, 0, 10);
    fresh();
    printf("register %.0f\n", least_of("register", fresh, register_, 0, turns));
    long_text = (carderwheel_value){CARDERWHEEL_CODE_TEXT, 11, image_size - 21};
    printf("set_global %.0f\n", least_of("set global", long_global, set_, 0, turns));
    printf("set_global_text %.0f\n", least_of("set global", half_global, half_, 0, turns));
    printf("set_global_text_refused %.0f\n", least_of("set global", long_global, full_, 27, turns));
    printf("read_global %.0f\n", least_of("read global", long_global, read_, 0, turns));
    printf("text %.0f\n", least_of("text", long_made, text_, 0, turns));
    printf("text_bytes %.0f\n", least_of("text", nothing, bytes_, 0, turns));
    printf("drain %.0f\n", least_of("drain", full_output, drain_, 0, turns));
    printf("clear %.0f\n", least_of("clear", long_made, clear_, 0, turns));
    printf("write_text %.0f\n", least_of("write text", open_template, write_text_, 0, turns));
    printf("write_code %.0f\n", least_of("write code", open_template, write_code_, 0, turns));
    printf("write_null_behind_text %.0f\n", least_of("write null", nearly_full, write_null_, 0, turns));
}

int main(int argc, char **argv) {
    int turns = argc > 2 ? atoi(argv[2]) : 0;
    if (turns < 1) return fprintf(stderr, "usage: worst run|calls TURNS IMAGE ..\n"), 1;
    if (strcmp(argv[1], "calls") == 0) calls(turns, argv + 3, argc - 3);
    else
        for (int i = 3; i < argc; i++) run(argv[i], turns);
    return 0;
}
