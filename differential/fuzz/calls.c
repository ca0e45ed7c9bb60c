/* A fuzz target over the C interface, for libFuzzer: raw bytes as a list of calls. The library is not instrumented, so every store, given text and buffer ends
   at a page that cannot be touched and begins behind bytes that are looked at afterwards; what comes of the calls is told to the fuzzer in counters.

   A call is a byte modulo 16, then its arguments (numbers high byte first; missing bytes are 0):
     0 clear  1 load: size 2, bytes  2 register: 1, 1  3 set global: size 1, name, value  4 set global text: size 1, name, size 2, bytes
     5 read global: size 1, name  6 run: 1  7 text: value, room 2  8 text of bytes: size 2, bytes, room 2  9 drain: room 2
     10 load an image whose code is: size 1, bytes  11 write into a store: 1, place 2, size 1, bytes  12 set a count: 1, 8
     13 lend the next call a store that is shorter: 1, by 2
     14 a call of the image writer, a byte modulo 10 (of size 65,535 no bytes follow, and 65,536 are given):
       0 begin: room 2  1 template: 3, 3  2 number: 8  3 text: size 2, bytes  4 boolean: 1  5 null  6 undefined  7 function: 3  8 code: size 2, bytes
       9 finish, and load what was written
     15 set a word of the writer: 1, 8
   A value is 1, 8, 8. After 11 or 12 the stores are nobody's: document 01 leaves the answers open until the next clear, and only asks that a call ends and
   does nothing undefined. After 15 the same holds of the writer until the next begin. */
#include <stdio.h>
#include <stdlib.h>
#include <string.h>
#include <sys/mman.h>
#include <unistd.h>

#include "carderwheel.h"

enum { STORES = 8, FRONT = 64, PATTERN = 0xa5 };

static const size_t listed[STORES] = {CARDERWHEEL_CODE_BYTES, CARDERWHEEL_CODE_BYTES, CARDERWHEEL_CODE_BYTES, CARDERWHEEL_IMAGES,
    CARDERWHEEL_STACK_WORDS, CARDERWHEEL_HEAP_WORDS, CARDERWHEEL_TEXT_BYTES, CARDERWHEEL_OUTPUT_BYTES};
static const size_t width[STORES] = {1, 2, 2, 2, 8, 8, 1, 1};
static const uint64_t most[13] = {CARDERWHEEL_OPERANDS, CARDERWHEEL_SLOTS, CARDERWHEEL_FRAMES, CARDERWHEEL_HANDLERS, 65535, CARDERWHEEL_FUNCTIONS,
    CARDERWHEEL_OBJECTS, CARDERWHEEL_PROPERTIES, CARDERWHEEL_GLOBALS, CARDERWHEEL_CODE_BYTES, CARDERWHEEL_IMAGES, CARDERWHEEL_TEXT_BYTES,
    CARDERWHEEL_OUTPUT_BYTES};

static uint8_t *store[STORES];
static size_t lent[STORES];
static carderwheel_counts counts;
static int owned; /* the stores are as calls left them */

__attribute__((used, section("__libfuzzer_extra_counters"))) static uint8_t met[4096];

static void wrong(const char *what) {
    fprintf(stderr, "calls: %s\n", what);
    abort();
}

/* Room for n bytes that ends where nothing may be touched; FRONT bytes before it have a pattern. */
static uint8_t *guarded(size_t n) {
    size_t page = (size_t)sysconf(_SC_PAGESIZE);
    size_t size = (n + FRONT + page - 1) / page * page;
    uint8_t *p = mmap(NULL, size + page, PROT_READ | PROT_WRITE, MAP_PRIVATE | MAP_ANONYMOUS, -1, 0);
    if (p == MAP_FAILED || mprotect(p + size, page, PROT_NONE) != 0) wrong("no memory");
    memset(p + size - n - FRONT, PATTERN, FRONT);
    return p + size - n;
}

static void look(const uint8_t *p) {
    for (int i = 1; i <= FRONT; i++)
        if (p[-i] != PATTERN) wrong("bytes before a store are changed");
}

/* The input, front to back. */
static const uint8_t *at, *end;

static uint64_t number(int bytes) {
    uint64_t n = 0;
    for (; bytes > 0; bytes--) n = n << 8 | (at < end ? *at++ : 0);
    return n;
}

/* Given bytes, in front of a page that cannot be touched; two at a time. */
static uint8_t *room[2];
enum { ROOM = 65536 };

static const uint8_t *bytes(int which, size_t size, size_t *n) {
    *n = (size_t)(end - at) < size ? (size_t)(end - at) : size;
    uint8_t *p = room[which] + ROOM - *n;
    memcpy(p, at, *n);
    at += *n;
    return p;
}

static carderwheel_value value(void) {
    carderwheel_value v;
    v.kind = number(1);
    v.first = number(8);
    v.second = number(8);
    return v;
}

static unsigned size_of(uint64_t n) {
    unsigned k = 0;
    for (; n != 0; n >>= 1) k++;
    return k;
}

/* A sum over all stores. */
__attribute__((no_sanitize("address", "undefined"))) static uint64_t sum(void) {
    uint64_t s = 1;
    for (int i = 0; i < STORES; i++)
        for (size_t k = 0; k < listed[i] * width[i]; k += 8) {
            uint64_t w;
            memcpy(&w, store[i] + k, 8);
            s = (s ^ w) * 1099511628211u;
        }
    return s;
}

/* Change 5: a pending handler saved at least its own frame, no more than stand, and no more than a newer one. */
static void handlers_within(carderwheel_counts now) {
    const uint64_t *handlers = (const uint64_t *)store[4] + 3 * CARDERWHEEL_OPERANDS + 3 * CARDERWHEEL_SLOTS + 5 * CARDERWHEEL_FRAMES;
    uint64_t older = 1;
    for (uint64_t i = 0; i < now.handlers; i++) {
        uint64_t saved = handlers[3 * i + 2];
        if (saved < older || saved > now.frames) wrong("a handler that outlives its function");
        older = saved;
    }
}

/* After a call: what it left in use, and, where a sum was made before it, that a refusal altered nothing. */
static void settle(unsigned call, uint64_t answer, carderwheel_counts now, uint64_t before) {
    if (answer > 33) wrong("a number that document 01 does not have");
    met[call * 64 + answer] = 1;
    for (int i = 0; i < STORES; i++) look(store[i]);
    const uint64_t *n = (const uint64_t *)&now;
    if (owned) {
        for (int i = 0; i < 13; i++) {
            if (n[i] > most[i]) wrong("a count beyond its store");
            met[1024 + i * 32 + size_of(n[i])] = 1;
        }
        handlers_within(now);
    }
    if (answer != 0 && before != 0) {
        if (memcmp(&now, &counts, sizeof now) != 0) wrong("a refusal that alters a count");
        if (sum() != before) wrong("a refusal that alters a store");
    }
    counts = now;
}

static void written(uint64_t answer, uint64_t amount, const uint8_t *buffer, size_t size) {
    size_t own = answer == 0 ? amount : 0;
    if (own > size) wrong("more bytes than the buffer has");
    for (size_t i = own; i < size; i++)
        if (buffer[i] != PATTERN) wrong("a buffer is changed behind the bytes written");
}

/* An image of two templates with these bytes for code, and constants of every kind. The first one's code begins at `code_at`. */
static size_t code_at;

static const uint8_t *image_of(const uint8_t *code, size_t size, size_t *n) {
    static const uint8_t constants[] = {0, 0, 0, 0, 7, 0, 0, 0, 0, 1, 0, 7, 'c', 'o', 'n', 's', 'o', 'l', 'e', 1, 0, 6, 'l', 'e', 'n', 'g', 't', 'h',
        1, 0, 1, 'f', 1, 0, 2, '+', '5', 2, 1, 3, 4, 0, 0xff, 0xff, 0xff, 0xff, 0x80, 0, 0, 0};
    uint8_t *p = room[0];
    size_t k = 0;
    p[k++] = 0, p[k++] = 2;
    for (int t = 0; t < 2; t++) {
        p[k++] = 0, p[k++] = (uint8_t)t, p[k++] = 0, p[k++] = (uint8_t)(2 * t);
        p[k++] = 0, p[k++] = (uint8_t)(t == 0 ? 10 : 9);
        memcpy(p + k, constants, sizeof constants);
        k += sizeof constants;
        if (t == 0) p[k++] = 5, p[k++] = 0, p[k++] = 1;
        size_t half = t == 0 ? size - size / 3 : size / 3;
        p[k++] = 0, p[k++] = (uint8_t)half;
        if (t == 0) code_at = k;
        memcpy(p + k, code, half);
        code += half;
        k += half;
    }
    *n = k;
    memmove(room[0] + ROOM - k, p, k);
    return room[0] + ROOM - k;
}

/* Of each image that is loaded, where the code of its first template is in the code store; with no bytes where that is not known. */
static struct {
    size_t at, size;
} first_code[CARDERWHEEL_IMAGES];

/* Change 6: the steps of a run up to its first jump, counted instruction or end, by the table of opcodes: none ends with 13, 14 or 15 but where its row says so. */
static void as_listed(uint64_t image, uint64_t operands, carderwheel_ran ran) {
    const uint8_t *code = store[0] + first_code[image].at;
    size_t size = first_code[image].size, at = 0;
    for (uint64_t step = 1; at < size; step++) {
        carderwheel_opcode row = carderwheel_opcode_row(code[at]);
        uint64_t number = row.bytes == CARDERWHEEL_UNKNOWN ? 13 : size - at - 1 < row.bytes ? 14 : row.taken != CARDERWHEEL_COUNTED && operands < row.taken ? 15 : 0;
        int last = step == ran.steps;
        if (number != 0 && (!last || ran.number != number)) wrong("an instruction that does not end as its row says");
        if (number != 0) met[2816 + (number - 13) * 64 + code[at] / 4] = 1;
        if (number != 0 || row.taken == CARDERWHEEL_COUNTED || (code[at] >= 40 && code[at] <= 42) || code[at] == 51 || code[at] == 74 || code[at] == 255) return;
        if (last && ran.number >= 13 && ran.number <= 15) wrong("an instruction that ends otherwise than its row says");
        if (last) return;
        operands = operands - row.taken + row.pushed;
        at += 1u + row.bytes;
    }
}

#define LENT                                                                                                                                          \
    store[0], lent[0], (uint16_t *)store[1], lent[1], (uint16_t *)store[2], lent[2], (uint16_t *)store[3], lent[3], (uint64_t *)store[4], lent[4],    \
        (uint64_t *)store[5], lent[5], store[6], lent[6], store[7], lent[7], counts

/* The text of a number by change 4's rule: how many bytes it has. */
static size_t number_text(uint64_t bits, char *text) {
    if (bits == 0x7fffffffffffffff) return (size_t)sprintf(text, "NaN");
    uint64_t size = bits >> 63 ? -bits : bits;
    unsigned whole = (unsigned)(size >> 32), digits = (unsigned)((size & 0xffffffff) * 1000000 >> 32);
    if (whole == 0 && digits == 0) return (size_t)sprintf(text, "0");
    int n = sprintf(text, "%s%u.%06u", bits >> 63 ? "-" : "", whole, digits);
    while (text[n - 1] == '0') n--;
    return (size_t)(text[n - 1] == '.' ? n - 1 : n);
}

/* The text call of a number, whatever the stores hold: its text, or 31 where the buffer is shorter. */
static void number_written(uint64_t bits, carderwheel_answer_ a, const uint8_t *buffer, size_t size) {
    char text[32];
    size_t n = number_text(bits, text);
    if (a.number == 33) return;
    if (n > CARDERWHEEL_NUMBER_BYTES) wrong("a number's text that is longer than the longest");
    if (a.number != (n <= size ? 0 : 31)) wrong("another answer for a number's text");
    if (a.number == 0 && (a.amount != n || memcmp(buffer, text, n) != 0)) wrong("another text of a number");
}

static void host_call(unsigned call) {
    static unsigned turn;
    size_t n, m;
    /* once in a while: a sum takes longer than most calls */
    uint64_t before = turn++ % 64 == 0 ? sum() : 0;
    carderwheel_answer_ a;
    switch (call) {
    case 0:
        a = carderwheel_clear_in(LENT);
        if (a.number == 0) owned = 1, memset(first_code, 0, sizeof first_code);
        break;
    case 1: {
        const uint8_t *image = bytes(0, number(2), &n);
        a = carderwheel_load_in(LENT, image, n);
        break;
    }
    case 2: {
        uint64_t image = number(1), t = number(1);
        a = carderwheel_register_in(LENT, image, t);
        break;
    }
    case 3: {
        const uint8_t *name = bytes(0, number(1), &n);
        carderwheel_value v = value();
        a = carderwheel_set_global_in(LENT, name, n, v);
        break;
    }
    case 4: {
        const uint8_t *name = bytes(0, number(1), &n), *given = bytes(1, number(2), &m);
        a = carderwheel_set_global_text_in(LENT, name, n, given, m);
        break;
    }
    case 5: {
        const uint8_t *name = bytes(0, number(1), &n);
        carderwheel_valued_ r = carderwheel_read_global_in(LENT, name, n);
        a.number = r.number, a.counts = counts;
        if (r.number == 0) met[2048 + r.value.kind % 64] = 1;
        break;
    }
    case 6: {
        uint64_t image = number(1), operands = counts.operands;
        carderwheel_told_ r = carderwheel_run_in(LENT, image);
        if (r.ran.steps > CARDERWHEEL_STEPS) wrong("more steps than a run makes");
        if (r.ran.started > 1 || (r.ran.started == 0 && (r.ran.number == 0 || r.ran.steps != 0))) wrong("a run that is neither begun nor refused");
        if (r.ran.started == 1) {
            before = 0;
            met[2176 + size_of(r.ran.steps)] = 1;
            met[2240 + r.ran.number * 8 + r.ran.value.kind % 8] = 1;
            if (owned) as_listed(image, operands, r.ran);
        }
        a.number = r.ran.number, a.counts = r.counts;
        break;
    }
    case 7:
    case 8:
    case 9: {
        const uint8_t *given = room[0] + ROOM;
        carderwheel_value v = {0, 0, 0};
        n = 0;
        if (call == 7) v = value();
        if (call == 8) given = bytes(0, number(2), &n);
        size_t size = number(2);
        uint8_t *buffer = room[1] + ROOM - size;
        memset(buffer, PATTERN, size);
        a = call == 7 ? carderwheel_text_in(LENT, v, buffer, size)
          : call == 8 ? carderwheel_text_bytes_in(LENT, given, n, buffer, size)
                      : carderwheel_drain_in(LENT, buffer, size);
        written(a.number, a.amount, buffer, size);
        if (call == 7 && v.kind == CARDERWHEEL_NUMBER) number_written(v.first, a, buffer, size);
        break;
    }
    default: {
        const uint8_t *code = bytes(1, number(1), &n), *image = image_of(code, n, &m);
        a = carderwheel_load_in(LENT, image, m);
        if (owned && a.number == 0) {
            first_code[a.amount].size = n - n / 3;
            first_code[a.amount].at = counts.code + code_at;
        }
        if (owned && a.number != 0 && a.number != 8 && a.number != 9 && a.number != 33) wrong("a good image is refused");
        break;
    }
    }
    settle(call, a.number, a.counts, before);
}

/* The image writer: its buffer is the end of `paper`, which ends at a page that cannot be touched. */
enum { PAPER = 4096 };
static uint8_t *paper;
static carderwheel_writer writer;
static int drafted; /* the writer is as calls left it */

/* A finished image: the loader finds nothing wrong with its form. */
static void load_written(size_t size) {
    int whole = owned;
    for (int i = 0; i < STORES; i++) whole &= lent[i] == listed[i];
    carderwheel_answer_ a = carderwheel_load_in(LENT, writer.buffer, size);
    uint64_t n = a.number;
    if (whole && n != 0 && n != 2 && n != 5 && n != 6 && n != 8 && n != 9) wrong("a written image is refused for its form");
    met[3904 + n % 64] = 1;
    settle(1, a.number, a.counts, 0);
}

static void writer_call(void) {
    static uint8_t old[PAPER];
    unsigned call = (unsigned)number(1) % 10;
    carderwheel_writer before = writer;
    memcpy(old, paper, PAPER);
    const uint8_t *given = NULL; /* where there are no bytes */
    size_t n = 0, size = SIZE_MAX;
    uint64_t own = 0, first, second, answer;
    if (call == 3 || call == 8) {
        n = number(2);
        if (n == 65535) given = room[0], n = ROOM;
        else if (n != 0) given = bytes(0, n, &n);
    }
    switch (call) {
    case 0:
        first = number(2), n = first < PAPER ? first : PAPER;
        answer = carderwheel_write_begin(&writer, paper + PAPER - n, n);
        break;
    case 1:
        own = 8, first = number(3), second = number(3);
        answer = carderwheel_write_template(&writer, first, second);
        break;
    case 2: own = 9, answer = carderwheel_write_number(&writer, number(8)); break;
    case 3: own = 3 + n, answer = carderwheel_write_text(&writer, given, n); break;
    case 4: own = 2, answer = carderwheel_write_boolean(&writer, (int)number(1)); break;
    case 5: own = 1, answer = carderwheel_write_null(&writer); break;
    case 6: own = 1, answer = carderwheel_write_undefined(&writer); break;
    case 7: own = 3, answer = carderwheel_write_function(&writer, number(3)); break;
    case 8: own = n, answer = carderwheel_write_code(&writer, given, n); break;
    default: answer = carderwheel_write_finish(&writer, &size); break;
    }
    if (answer != 0 && answer != 31 && answer != 34) wrong("a number that the image writer does not have");
    look(paper);
    size_t front = (size_t)(writer.buffer != NULL ? writer.buffer - paper : PAPER);
    if (memcmp(paper, old, front) != 0) wrong("bytes before the image writer's buffer are changed");
    met[3072 + call * 64 + answer] = 1;
    if (call == 0 && answer == 0) drafted = 1;
    if (!drafted) return;
    if (answer != 0) {
        if (memcmp(&writer, &before, sizeof writer) != 0 || size != SIZE_MAX) wrong("a refusal that alters the image writer");
        if (memcmp(paper, old, PAPER) != 0) wrong("a refusal that alters the image writer's buffer");
        return;
    }
    carderwheel_writer_state s = writer.state;
    if (s.size > writer.capacity || s.size != (call == 0 ? 2 : before.state.size + own)) wrong("other bytes written than the call's own");
    if (s.templates != (call == 0 ? 0 : before.state.templates + (call == 1))) wrong("a wrong number of templates");
    if ((uint64_t)(writer.buffer[0] << 8 | writer.buffer[1]) != s.templates) wrong("a wrong number of templates in the image");
    if (memcmp(writer.buffer + s.size, old + front + s.size, writer.capacity - s.size) != 0) wrong("bytes past those written are changed");
    if (s.templates != 0 && (uint64_t)(writer.buffer[s.at + 4] << 8 | writer.buffer[s.at + 5]) != s.constants) wrong("a wrong number of constants");
    met[3712 + size_of(s.size)] = met[3776 + size_of(s.templates)] = met[3840 + size_of(s.constants)] = 1;
    if (call == 9) {
        if (size != s.size) wrong("a finish that tells another size");
        load_written(size);
    }
}

int LLVMFuzzerTestOneInput(const uint8_t *data, size_t size) {
    if (store[0] == NULL) {
        for (int i = 0; i < STORES; i++) store[i] = guarded(listed[i] * width[i]);
        for (int i = 0; i < 2; i++) room[i] = guarded(ROOM);
        paper = guarded(PAPER);
    }
    at = data, end = data + size;
    memcpy(lent, listed, sizeof lent);
    owned = 0;
    host_call(0);
    memset(paper, PATTERN, PAPER);
    memset(&writer, 0, sizeof writer);
    drafted = 1; /* zeros are a writer before a begin */
    while (at < end) {
        unsigned call = (unsigned)number(1) % 16;
        if (call <= 10 || call == 14) {
            if (call == 14) writer_call();
            else host_call(call);
            memcpy(lent, listed, sizeof lent);
        } else if (call == 11) {
            size_t k = number(1) % STORES, place = number(2) * width[k], n, left;
            const uint8_t *b = bytes(0, number(1), &n);
            left = listed[k] * width[k] > place ? listed[k] * width[k] - place : 0;
            memcpy(store[k] + place - (left == 0 ? place : 0), b, n < left ? n : left);
            owned = 0;
        } else if (call == 12) {
            size_t k = number(1) % 13;
            ((uint64_t *)&counts)[k] = number(8);
            owned = 0;
        } else if (call == 15) {
            size_t k = number(1) % 5;
            ((uint64_t *)&writer.state)[k] = number(8);
            drafted = 0;
        } else {
            size_t k = number(1) % STORES, by = number(2);
            lent[k] -= by < lent[k] ? by : lent[k];
        }
    }
    return 0;
}
