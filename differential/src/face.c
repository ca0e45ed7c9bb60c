/* The calls of carderwheel.h, which are inline there, for the harness to link; and each call over stores of other lengths. */
#include "carderwheel.h"

size_t face_size(void) {
    return sizeof(carderwheel);
}

uint64_t face_clear(carderwheel *e) {
    return carderwheel_clear(e);
}

uint64_t face_load(carderwheel *e, const uint8_t *image, size_t size, uint64_t *number) {
    return carderwheel_load(e, image, size, number);
}

uint64_t face_register(carderwheel *e, uint64_t image, uint64_t template_, uint64_t *function) {
    return carderwheel_register(e, image, template_, function);
}

uint64_t face_set_global(carderwheel *e, const uint8_t *name, size_t size, const carderwheel_value *v) {
    return carderwheel_set_global(e, name, size, *v);
}

uint64_t face_set_global_text(carderwheel *e, const uint8_t *name, size_t size, const uint8_t *bytes, size_t count) {
    return carderwheel_set_global_text(e, name, size, bytes, count);
}

uint64_t face_read_global(const carderwheel *e, const uint8_t *name, size_t size, carderwheel_value *v) {
    return carderwheel_read_global(e, name, size, v);
}

void face_run(carderwheel *e, uint64_t image, carderwheel_ran *ran) {
    *ran = carderwheel_run(e, image);
}

uint64_t face_text(const carderwheel *e, const carderwheel_value *v, uint8_t *buffer, size_t size, size_t *written) {
    return carderwheel_text(e, *v, buffer, size, written);
}

uint64_t face_text_bytes(const carderwheel *e, const uint8_t *bytes, size_t count, uint8_t *buffer, size_t size, size_t *written) {
    return carderwheel_text_bytes(e, bytes, count, buffer, size, written);
}

uint64_t face_drain(carderwheel *e, uint8_t *buffer, size_t size, size_t *written) {
    return carderwheel_drain(e, buffer, size, written);
}

size_t face_writer_size(void) {
    return sizeof(carderwheel_writer);
}

uint64_t face_write_begin(carderwheel_writer *w, uint8_t *buffer, size_t capacity) {
    return carderwheel_write_begin(w, buffer, capacity);
}

uint64_t face_write_template(carderwheel_writer *w, uint64_t parameters, uint64_t locals) {
    return carderwheel_write_template(w, parameters, locals);
}

uint64_t face_write_number(carderwheel_writer *w, uint64_t bits) {
    return carderwheel_write_number(w, bits);
}

uint64_t face_write_text(carderwheel_writer *w, const uint8_t *bytes, size_t size) {
    return carderwheel_write_text(w, bytes, size);
}

uint64_t face_write_boolean(carderwheel_writer *w, int value) {
    return carderwheel_write_boolean(w, value);
}

uint64_t face_write_null(carderwheel_writer *w) {
    return carderwheel_write_null(w);
}

uint64_t face_write_undefined(carderwheel_writer *w) {
    return carderwheel_write_undefined(w);
}

uint64_t face_write_function(carderwheel_writer *w, uint64_t template_) {
    return carderwheel_write_function(w, template_);
}

uint64_t face_write_code(carderwheel_writer *w, const uint8_t *bytes, size_t size) {
    return carderwheel_write_code(w, bytes, size);
}

uint64_t face_write_finish(carderwheel_writer *w, size_t *size) {
    return carderwheel_write_finish(w, size);
}

/* A call, by its place in NAMES of calls.rs, with these lengths of the eight stores. */
uint64_t face_sized(carderwheel *e, size_t call, const size_t *n) {
#define STORES e->code, n[0], e->places, n[1], e->rows, n[2], e->starts, n[3], e->stacks, n[4], e->heap, n[5], e->text, n[6], e->output, n[7], e->counts
    static const uint8_t bytes[1] = {97};
    uint8_t buffer[16];
    carderwheel_value v = {0, 0, 0};
    switch (call) {
    case 0: return carderwheel_clear_in(STORES).number;
    case 1: return carderwheel_load_in(STORES, bytes, 1).number;
    case 2: return carderwheel_register_in(STORES, 0, 1).number;
    case 3: return carderwheel_set_global_in(STORES, bytes, 1, v).number;
    case 4: return carderwheel_set_global_text_in(STORES, bytes, 1, bytes, 1).number;
    case 5: return carderwheel_read_global_in(STORES, bytes, 1).number;
    case 6: return carderwheel_run_in(STORES, 0).ran.number;
    case 7: return carderwheel_text_in(STORES, v, buffer, 16).number;
    case 8: return carderwheel_text_bytes_in(STORES, bytes, 1, buffer, 16).number;
    default: return carderwheel_drain_in(STORES, buffer, 16).number;
    }
}

uint32_t face_opcode(uint8_t byte) {
    carderwheel_opcode row = carderwheel_opcode_row(byte);
    return (uint32_t)row.bytes << 16 | (uint32_t)row.taken << 8 | row.pushed;
}
