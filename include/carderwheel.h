/* Carderwheel, the script engine of the ice-radar logger, for C and C++. docs/EMBEDDING.md has the calling order, the numbers and what to do about each.

   One `static carderwheel engine;` lends all stores; carderwheel_clear makes it fresh. Link with libcarderwheel.a (made by tools/library).
   No call allocates, uses a global variable, or keeps a pointer; only a carderwheel_writer, which is the host's, has that of its buffer. A call that is
   refused alters nothing. */
#ifndef CARDERWHEEL_H
#define CARDERWHEEL_H

#include <stddef.h>
#include <stdint.h>

#ifdef __cplusplus
extern "C" {
#endif

/* The library takes and gives sizes of 64 bits; elsewhere this does not compile. */
typedef char carderwheel_size_t_has_64_bits_[sizeof(size_t) == 8 ? 1 : -1];

/* How much of each store there is: the limits of documents 01 and 02. `counts` of an engine says how much is in use. */
enum {
    CARDERWHEEL_OPERANDS = 1024,
    CARDERWHEEL_SLOTS = 2048,
    CARDERWHEEL_FRAMES = 64,
    CARDERWHEEL_HANDLERS = 12,
    CARDERWHEEL_FUNCTIONS = 1024,
    CARDERWHEEL_OBJECTS = 512,
    CARDERWHEEL_PROPERTIES = 1024,
    CARDERWHEEL_GLOBALS = 128, /* `console` is one */
    CARDERWHEEL_CODE_BYTES = 32768,
    CARDERWHEEL_IMAGES = 16,
    CARDERWHEEL_TEXT_BYTES = 32768,  /* also the longest text of a value */
    CARDERWHEEL_OUTPUT_BYTES = 8192, /* also the most that carderwheel_drain writes */
    CARDERWHEEL_NUMBER_BYTES = 18,   /* the longest text of a number, -2147483647.999999 */
    CARDERWHEEL_STEPS = 100000       /* of a run */
};

/* What that takes, and the free stack that a call needs. */
enum {
    CARDERWHEEL_STACK_WORDS = 3 * CARDERWHEEL_OPERANDS + 3 * CARDERWHEEL_SLOTS + 5 * CARDERWHEEL_FRAMES + 3 * CARDERWHEEL_HANDLERS,
    CARDERWHEEL_HEAP_WORDS = 2 * CARDERWHEEL_FUNCTIONS + CARDERWHEEL_OBJECTS + 6 * CARDERWHEEL_PROPERTIES + 6 * CARDERWHEEL_GLOBALS,
    CARDERWHEEL_CALL_STACK = 8192 /* bytes, on x86-64: measured, docs/EMBEDDING.md */
};

/* A value. Any other kind counts as undefined. */
enum {
    CARDERWHEEL_UNDEFINED = 0,
    CARDERWHEEL_NULL = 1,
    CARDERWHEEL_BOOLEAN = 2,   /* first: 0 is false, anything else true */
    CARDERWHEEL_NUMBER = 3,    /* first: its 64 bits, a signed count of 2^-32 */
    CARDERWHEEL_CODE_TEXT = 4, /* a text of an image: first its place in `code`, second its bytes */
    CARDERWHEEL_MADE_TEXT = 5, /* a text of the text store: first its place in `text`, second its bytes */
    CARDERWHEEL_OBJECT = 6,    /* first: its number; all ones is `console` */
    CARDERWHEEL_FUNCTION = 7   /* first: its number */
};

typedef struct carderwheel_value {
    uint64_t kind, first, second;
} carderwheel_value;

/* How much of each store is in use. Only the calls write this. */
typedef struct carderwheel_counts {
    uint64_t operands, slots, frames, handlers, ip;   /* stacks; ip is the place of the newest frame */
    uint64_t functions, objects, properties, globals; /* heap */
    uint64_t code, images, text, output;
} carderwheel_counts;

/* All that an engine needs. */
typedef struct carderwheel {
    carderwheel_counts counts;
    uint64_t stacks[CARDERWHEEL_STACK_WORDS];
    uint64_t heap[CARDERWHEEL_HEAP_WORDS];
    uint16_t places[CARDERWHEEL_CODE_BYTES];
    uint16_t rows[CARDERWHEEL_CODE_BYTES];
    uint16_t starts[CARDERWHEEL_IMAGES];
    uint8_t code[CARDERWHEEL_CODE_BYTES];
    uint8_t text[CARDERWHEEL_TEXT_BYTES];
    uint8_t output[CARDERWHEEL_OUTPUT_BYTES];
} carderwheel;

/* What a run came to. started is 1 where steps were made: then number is how it ended; else it is 0, and number is the refused call's. */
typedef struct carderwheel_ran {
    uint64_t number;
    uint64_t started;
    uint64_t steps;
    uint64_t opcode;         /* the unknown byte of 13, else 0 */
    carderwheel_value value; /* the result of 0, the thrown value of 17, else undefined */
} carderwheel_ran;

/* What the library exports: every store as a pointer and a length, the counts by value. The functions below these call them. */
typedef struct carderwheel_answer_ {
    uint64_t number, amount;
    carderwheel_counts counts;
} carderwheel_answer_;

typedef struct carderwheel_valued_ {
    uint64_t number;
    carderwheel_value value;
} carderwheel_valued_;

typedef struct carderwheel_told_ {
    carderwheel_ran ran;
    carderwheel_counts counts;
} carderwheel_told_;

carderwheel_answer_ carderwheel_clear_in(uint8_t *code, size_t code_size, uint16_t *places, size_t places_size, uint16_t *rows, size_t rows_size,
    uint16_t *starts, size_t starts_size, uint64_t *stacks, size_t stacks_size, uint64_t *heap, size_t heap_size, uint8_t *text, size_t text_size,
    uint8_t *output, size_t output_size, carderwheel_counts counts);
carderwheel_answer_ carderwheel_load_in(uint8_t *code, size_t code_size, uint16_t *places, size_t places_size, uint16_t *rows, size_t rows_size,
    uint16_t *starts, size_t starts_size, const uint64_t *stacks, size_t stacks_size, const uint64_t *heap, size_t heap_size, const uint8_t *text,
    size_t text_size, const uint8_t *output, size_t output_size, carderwheel_counts counts, const uint8_t *image, size_t image_size);
carderwheel_answer_ carderwheel_register_in(const uint8_t *code, size_t code_size, const uint16_t *places, size_t places_size, const uint16_t *rows,
    size_t rows_size, const uint16_t *starts, size_t starts_size, const uint64_t *stacks, size_t stacks_size, uint64_t *heap, size_t heap_size,
    const uint8_t *text, size_t text_size, const uint8_t *output, size_t output_size, carderwheel_counts counts, uint64_t image, uint64_t template_);
carderwheel_answer_ carderwheel_set_global_in(const uint8_t *code, size_t code_size, const uint16_t *places, size_t places_size,
    const uint16_t *rows, size_t rows_size, const uint16_t *starts, size_t starts_size, const uint64_t *stacks, size_t stacks_size, uint64_t *heap,
    size_t heap_size, uint8_t *text, size_t text_size, const uint8_t *output, size_t output_size, carderwheel_counts counts, const uint8_t *name,
    size_t name_size, carderwheel_value value);
carderwheel_answer_ carderwheel_set_global_text_in(const uint8_t *code, size_t code_size, const uint16_t *places, size_t places_size,
    const uint16_t *rows, size_t rows_size, const uint16_t *starts, size_t starts_size, const uint64_t *stacks, size_t stacks_size, uint64_t *heap,
    size_t heap_size, uint8_t *text, size_t text_size, const uint8_t *output, size_t output_size, carderwheel_counts counts, const uint8_t *name,
    size_t name_size, const uint8_t *given, size_t given_size);
carderwheel_valued_ carderwheel_read_global_in(const uint8_t *code, size_t code_size, const uint16_t *places, size_t places_size,
    const uint16_t *rows, size_t rows_size, const uint16_t *starts, size_t starts_size, const uint64_t *stacks, size_t stacks_size,
    const uint64_t *heap, size_t heap_size, const uint8_t *text, size_t text_size, const uint8_t *output, size_t output_size,
    carderwheel_counts counts, const uint8_t *name, size_t name_size);
carderwheel_told_ carderwheel_run_in(const uint8_t *code, size_t code_size, const uint16_t *places, size_t places_size, const uint16_t *rows,
    size_t rows_size, const uint16_t *starts, size_t starts_size, uint64_t *stacks, size_t stacks_size, uint64_t *heap, size_t heap_size,
    uint8_t *text, size_t text_size, uint8_t *output, size_t output_size, carderwheel_counts counts, uint64_t image);
carderwheel_answer_ carderwheel_text_in(const uint8_t *code, size_t code_size, const uint16_t *places, size_t places_size, const uint16_t *rows,
    size_t rows_size, const uint16_t *starts, size_t starts_size, const uint64_t *stacks, size_t stacks_size, const uint64_t *heap, size_t heap_size,
    const uint8_t *text, size_t text_size, const uint8_t *output, size_t output_size, carderwheel_counts counts, carderwheel_value value,
    uint8_t *buffer, size_t buffer_size);
carderwheel_answer_ carderwheel_text_bytes_in(const uint8_t *code, size_t code_size, const uint16_t *places, size_t places_size,
    const uint16_t *rows, size_t rows_size, const uint16_t *starts, size_t starts_size, const uint64_t *stacks, size_t stacks_size,
    const uint64_t *heap, size_t heap_size, const uint8_t *text, size_t text_size, const uint8_t *output, size_t output_size,
    carderwheel_counts counts, const uint8_t *given, size_t given_size, uint8_t *buffer, size_t buffer_size);
carderwheel_answer_ carderwheel_drain_in(const uint8_t *code, size_t code_size, const uint16_t *places, size_t places_size, const uint16_t *rows,
    size_t rows_size, const uint16_t *starts, size_t starts_size, const uint64_t *stacks, size_t stacks_size, const uint64_t *heap, size_t heap_size,
    const uint8_t *text, size_t text_size, const uint8_t *output, size_t output_size, carderwheel_counts counts, uint8_t *buffer, size_t buffer_size);

#define CARDERWHEEL_LENT_(e)                                                                                                                \
    (e)->code, CARDERWHEEL_CODE_BYTES, (e)->places, CARDERWHEEL_CODE_BYTES, (e)->rows, CARDERWHEEL_CODE_BYTES, (e)->starts,                 \
        CARDERWHEEL_IMAGES, (e)->stacks, CARDERWHEEL_STACK_WORDS, (e)->heap, CARDERWHEEL_HEAP_WORDS, (e)->text, CARDERWHEEL_TEXT_BYTES,     \
        (e)->output, CARDERWHEEL_OUTPUT_BYTES

#define CARDERWHEEL_STORES_(e) CARDERWHEEL_LENT_(e), (e)->counts

/* The library wants a pointer where there are no bytes, too. */
static inline const uint8_t *carderwheel_bytes_(const uint8_t *bytes, size_t size) {
    return size != 0 ? bytes : (const uint8_t *)"";
}

/* The engine's calls. Each answers document 01's number: 0 is acceptance (of carderwheel_run: that the run finished). A refused call alters nothing,
   neither the engine nor what its other pointers name. A run that started was not refused, whatever its number: it leaves what it did up to its end.
   Bytes given to a call, and its buffer, lie outside the engine. */

/* The engine as new: no images, no texts, and `console` its only global. Also before the first use: the counts may be unwritten, and are not read. */
static inline uint64_t carderwheel_clear(carderwheel *e) {
    carderwheel_counts none = {0, 0, 0, 0, 0, 0, 0, 0, 0, 0, 0, 0, 0};
    carderwheel_answer_ a = carderwheel_clear_in(CARDERWHEEL_LENT_(e), none);
    if (a.number == 0) e->counts = a.counts;
    return a.number;
}

/* Images are numbered from 0 in the order of loading. */
static inline uint64_t carderwheel_load(carderwheel *e, const uint8_t *image, size_t size, uint64_t *number) {
    carderwheel_answer_ a = carderwheel_load_in(CARDERWHEEL_STORES_(e), carderwheel_bytes_(image, size), size);
    e->counts = a.counts;
    if (a.number == 0) *number = a.amount;
    return a.number;
}

/* A function value of an image's template, 1 or above. */
static inline uint64_t carderwheel_register(carderwheel *e, uint64_t image, uint64_t template_, uint64_t *function) {
    carderwheel_answer_ a = carderwheel_register_in(CARDERWHEEL_STORES_(e), image, template_);
    e->counts = a.counts;
    if (a.number == 0) *function = a.amount;
    return a.number;
}

static inline uint64_t carderwheel_set_global(carderwheel *e, const uint8_t *name, size_t size, carderwheel_value v) {
    carderwheel_answer_ a = carderwheel_set_global_in(CARDERWHEEL_STORES_(e), carderwheel_bytes_(name, size), size, v);
    e->counts = a.counts;
    return a.number;
}

/* The bytes are copied into the text store. */
static inline uint64_t carderwheel_set_global_text(carderwheel *e, const uint8_t *name, size_t size, const uint8_t *bytes, size_t count) {
    carderwheel_answer_ a = carderwheel_set_global_text_in(CARDERWHEEL_STORES_(e), carderwheel_bytes_(name, size), size,
                                                           carderwheel_bytes_(bytes, count), count);
    e->counts = a.counts;
    return a.number;
}

/* Undefined where there is no such global. */
static inline uint64_t carderwheel_read_global(const carderwheel *e, const uint8_t *name, size_t size, carderwheel_value *v) {
    carderwheel_valued_ a = carderwheel_read_global_in(CARDERWHEEL_STORES_(e), carderwheel_bytes_(name, size), size);
    if (a.number == 0) *v = a.value;
    return a.number;
}

/* At most CARDERWHEEL_STEPS steps. */
static inline carderwheel_ran carderwheel_run(carderwheel *e, uint64_t image) {
    carderwheel_told_ a = carderwheel_run_in(CARDERWHEEL_STORES_(e), image);
    e->counts = a.counts;
    return a.ran;
}

/* The value's text, as a script would print it: of minus one half `-0.5`. CARDERWHEEL_NUMBER_BYTES hold that of any number, CARDERWHEEL_TEXT_BYTES any. */
static inline uint64_t carderwheel_text(const carderwheel *e, carderwheel_value v, uint8_t *buffer, size_t size, size_t *written) {
    uint8_t none;
    carderwheel_answer_ a = carderwheel_text_in(CARDERWHEEL_STORES_(e), v, size != 0 ? buffer : &none, size);
    if (a.number == 0) *written = a.amount;
    return a.number;
}

/* The same of a text given as bytes. */
static inline uint64_t carderwheel_text_bytes(const carderwheel *e, const uint8_t *bytes, size_t count, uint8_t *buffer, size_t size,
                                              size_t *written) {
    uint8_t none;
    carderwheel_answer_ a =
        carderwheel_text_bytes_in(CARDERWHEEL_STORES_(e), carderwheel_bytes_(bytes, count), count, size != 0 ? buffer : &none, size);
    if (a.number == 0) *written = a.amount;
    return a.number;
}

/* The lines printed since the last drain, oldest first: of each its length in 2 bytes, high byte first, then its bytes. */
static inline uint64_t carderwheel_drain(carderwheel *e, uint8_t *buffer, size_t size, size_t *written) {
    uint8_t none;
    carderwheel_answer_ a = carderwheel_drain_in(CARDERWHEEL_STORES_(e), size != 0 ? buffer : &none, size);
    e->counts = a.counts;
    if (a.number == 0) *written = a.amount;
    return a.number;
}

/* The image writer. It needs no engine: an image comes into a buffer of the host's, call by call, and carderwheel_load takes it from there. */

/* How far an image is. Only the calls write this. */
typedef struct carderwheel_writer_state {
    uint64_t stage;     /* 0 before a begin, 1 without a template, 2 in a template, 3 behind its code, 4 finished */
    uint64_t size;      /* the bytes written */
    uint64_t templates;
    uint64_t at;        /* where the newest template starts */
    uint64_t constants; /* of the newest template */
} carderwheel_writer_state;

/* What the host keeps from begin to finish. A writer of zeros is one before a begin. */
typedef struct carderwheel_writer {
    uint8_t *buffer;
    size_t capacity;
    carderwheel_writer_state state;
} carderwheel_writer;

/* What the library exports for it. */
typedef struct carderwheel_wrote_ {
    uint64_t number;
    carderwheel_writer_state state;
} carderwheel_wrote_;

carderwheel_wrote_ carderwheel_write_begin_in(uint8_t *buffer, size_t buffer_size, carderwheel_writer_state state);
carderwheel_wrote_ carderwheel_write_template_in(uint8_t *buffer, size_t buffer_size, carderwheel_writer_state state, uint64_t parameters,
    uint64_t locals);
carderwheel_wrote_ carderwheel_write_number_in(uint8_t *buffer, size_t buffer_size, carderwheel_writer_state state, uint64_t bits);
carderwheel_wrote_ carderwheel_write_text_in(uint8_t *buffer, size_t buffer_size, carderwheel_writer_state state, const uint8_t *bytes,
    size_t bytes_size);
carderwheel_wrote_ carderwheel_write_boolean_in(uint8_t *buffer, size_t buffer_size, carderwheel_writer_state state, uint64_t value);
carderwheel_wrote_ carderwheel_write_null_in(uint8_t *buffer, size_t buffer_size, carderwheel_writer_state state);
carderwheel_wrote_ carderwheel_write_undefined_in(uint8_t *buffer, size_t buffer_size, carderwheel_writer_state state);
carderwheel_wrote_ carderwheel_write_function_in(uint8_t *buffer, size_t buffer_size, carderwheel_writer_state state, uint64_t template_);
carderwheel_wrote_ carderwheel_write_code_in(uint8_t *buffer, size_t buffer_size, carderwheel_writer_state state, const uint8_t *bytes,
    size_t bytes_size);
carderwheel_wrote_ carderwheel_write_finish_in(carderwheel_writer_state state);

#define CARDERWHEEL_WRITER_(w, none) (w)->capacity != 0 ? (w)->buffer : (none), (w)->capacity, (w)->state

static inline uint64_t carderwheel_settle_(carderwheel_writer *w, carderwheel_wrote_ a) {
    w->state = a.state;
    return a.number;
}

/* The writer's calls: begin, then of each template its counts, its constants and its code, then finish. Each answers 0 where it is accepted, else
   - 34 where it comes at the wrong time: anything but a begin before one or after the finish, a constant or code with no template open, a constant or
     a second code after a template's code; or where a count or a length would pass 65,535
   - 31 where the buffer is too short, which is asked after 34
   and has then altered neither the writer nor the buffer. A call other than begin comes on the writer and the buffer as the last one left them; on others
   its answer is open. The buffer's bytes past state.size stay as they were. Bytes given to a call lie outside the buffer.
   The writer also takes what carderwheel_load then refuses with 2, 5 or 6, and images larger than the code store. */

/* Starts an image, whatever the writer has: also before the first use, when it may be unwritten and is not read. Takes 2 bytes. Where it is refused, an
   image under way can go on. */
static inline uint64_t carderwheel_write_begin(carderwheel_writer *w, uint8_t *buffer, size_t capacity) {
    uint8_t none;
    carderwheel_writer_state zeros = {0, 0, 0, 0, 0};
    carderwheel_wrote_ a = carderwheel_write_begin_in(capacity != 0 ? buffer : &none, capacity, zeros);
    if (a.number == 0) {
        w->buffer = buffer;
        w->capacity = capacity;
        w->state = a.state;
    }
    return a.number;
}

/* Opens a template; templates are numbered from 0, which is the one that a run starts with. Takes 8 bytes. The numbers are wider than their places in
   the image, so that one above 65,535 is refused. */
static inline uint64_t carderwheel_write_template(carderwheel_writer *w, uint64_t parameters, uint64_t locals) {
    uint8_t none;
    return carderwheel_settle_(w, carderwheel_write_template_in(CARDERWHEEL_WRITER_(w, &none), parameters, locals));
}

/* The open template's constants are numbered from 0, in the order of these six calls. A number, by its 64 bits: 9 bytes. */
static inline uint64_t carderwheel_write_number(carderwheel_writer *w, uint64_t bits) {
    uint8_t none;
    return carderwheel_settle_(w, carderwheel_write_number_in(CARDERWHEEL_WRITER_(w, &none), bits));
}

/* A text: 3 bytes and its own. */
static inline uint64_t carderwheel_write_text(carderwheel_writer *w, const uint8_t *bytes, size_t size) {
    uint8_t none;
    return carderwheel_settle_(w, carderwheel_write_text_in(CARDERWHEEL_WRITER_(w, &none), carderwheel_bytes_(bytes, size), size));
}

/* A boolean, 0 for false, anything else for true: 2 bytes. */
static inline uint64_t carderwheel_write_boolean(carderwheel_writer *w, int value) {
    uint8_t none;
    return carderwheel_settle_(w, carderwheel_write_boolean_in(CARDERWHEEL_WRITER_(w, &none), value != 0));
}

/* null: 1 byte. */
static inline uint64_t carderwheel_write_null(carderwheel_writer *w) {
    uint8_t none;
    return carderwheel_settle_(w, carderwheel_write_null_in(CARDERWHEEL_WRITER_(w, &none)));
}

/* undefined: 1 byte. */
static inline uint64_t carderwheel_write_undefined(carderwheel_writer *w) {
    uint8_t none;
    return carderwheel_settle_(w, carderwheel_write_undefined_in(CARDERWHEEL_WRITER_(w, &none)));
}

/* The function of a template that comes later: 3 bytes. */
static inline uint64_t carderwheel_write_function(carderwheel_writer *w, uint64_t template_) {
    uint8_t none;
    return carderwheel_settle_(w, carderwheel_write_function_in(CARDERWHEEL_WRITER_(w, &none), template_));
}

/* The open template's code, whole and once; a template without has empty code. Takes its own bytes. */
static inline uint64_t carderwheel_write_code(carderwheel_writer *w, const uint8_t *bytes, size_t size) {
    uint8_t none;
    return carderwheel_settle_(w, carderwheel_write_code_in(CARDERWHEEL_WRITER_(w, &none), carderwheel_bytes_(bytes, size), size));
}

/* Where it is accepted, the image is *size bytes from the buffer's start on. Takes no bytes. */
static inline uint64_t carderwheel_write_finish(carderwheel_writer *w, size_t *size) {
    carderwheel_wrote_ a = carderwheel_write_finish_in(w->state);
    if (a.number == 0) *size = a.state.size;
    return carderwheel_settle_(w, a);
}

/* The table of opcodes, for those who write routines: docs/OPCODES.md has it with names. It needs no engine. */

/* Of an opcode byte. */
typedef struct carderwheel_opcode {
    uint8_t bytes;  /* operand bytes that follow; with fewer a run ends with 14 */
    uint8_t taken;  /* least operands taken, or CARDERWHEEL_COUNTED; past 14, with fewer it ends with 15 */
    uint8_t pushed; /* operands pushed; 0 where the instruction does not go on in its frame (Throw, Return, Halt) */
} carderwheel_opcode;

enum {
    CARDERWHEEL_UNKNOWN = 255, /* each number of an unknown opcode, with which a run ends with 13 */
    CARDERWHEEL_COUNTED = 254  /* as taken, of Call and CreateArray: the operand byte says how many */
};

/* What the library exports for it. */
typedef struct carderwheel_row_ {
    uint64_t bytes, taken, pushed;
} carderwheel_row_;

carderwheel_row_ carderwheel_opcode_in(uint64_t byte);

static inline carderwheel_opcode carderwheel_opcode_row(uint8_t byte) {
    carderwheel_row_ a = carderwheel_opcode_in(byte);
    carderwheel_opcode row = {(uint8_t)a.bytes, (uint8_t)a.taken, (uint8_t)a.pushed};
    return row;
}

#ifdef __cplusplus
}
#endif

#endif
