/* The stack that calls take over the images that its arguments name: a thread's stack is painted before each call and looked through after it. Prints
   for each call the most bytes, those of this program's wrapper included. tests/embed/deepest has what the compiled code can take at most. */
#include "carderwheel.h"

#include <pthread.h>
#include <stdio.h>

enum { STACK = 1 << 18, PAINT = 0xA5 };

static uint8_t stack[STACK] __attribute__((aligned(64)));
static carderwheel engine;
static uint8_t image[CARDERWHEEL_CODE_BYTES], buffer[CARDERWHEEL_TEXT_BYTES];
static size_t image_size, written, most[4];
static uint64_t loaded;
static carderwheel_ran ran;

static uint64_t clear_(void) { return carderwheel_clear(&engine); }
static uint64_t load_(void) { return carderwheel_load(&engine, image, image_size, &loaded); }
static uint64_t run_(void) { return ran = carderwheel_run(&engine, loaded), (uint64_t)!ran.started; }
static uint64_t text_(void) { return carderwheel_text(&engine, ran.value, buffer, sizeof buffer, &written); }

static const struct {
    const char *name;
    uint64_t (*call)(void);
} calls[] = {{"clear", clear_}, {"load", load_}, {"run", run_}, {"text", text_}};

static __attribute__((noinline)) void paint(void) {
    volatile uint8_t *end = (uint8_t *)__builtin_frame_address(0) - 256;
    for (volatile uint8_t *p = stack; p < end; p++) *p = PAINT;
}

static __attribute__((noinline)) size_t taken(const uint8_t *from) {
    const uint8_t *p = stack;
    while (*p == PAINT) p++;
    return (size_t)(from - p);
}

static void *measure(void *answer) {
    for (size_t i = 0; i < sizeof calls / sizeof *calls; i++) {
        size_t n;
        paint();
        *(uint64_t *)answer = calls[i].call();
        n = taken(__builtin_frame_address(0));
        if (most[i] < n) most[i] = n;
    }
    return NULL;
}

int main(int argc, char **argv) {
    for (int i = 1; i < argc; i++) {
        pthread_attr_t attributes;
        pthread_t thread;
        uint64_t answer;
        FILE *file = fopen(argv[i], "rb");
        if (file == NULL) return perror(argv[i]), 1;
        image_size = fread(image, 1, sizeof image, file);
        fclose(file);
        pthread_attr_init(&attributes);
        pthread_attr_setstack(&attributes, stack, STACK);
        if (pthread_create(&thread, &attributes, measure, &answer) != 0) return perror("thread"), 1;
        pthread_join(thread, NULL);
    }
    for (size_t i = 0; i < sizeof calls / sizeof *calls; i++) printf("%s %u\n", calls[i].name, (unsigned)most[i]);
    return 0;
}
