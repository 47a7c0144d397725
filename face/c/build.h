/* Builds images for the tests: ##TX and ##CC blocks in a row, in one buffer. */
#ifndef MDF_BUILD_H
#define MDF_BUILD_H

#include <stddef.h>
#include <stdint.h>
#include <string.h>

static uint8_t *built;   /* the image */
static size_t built_len; /* its bytes so far; the first blocks stand behind byte 64, since no link leads to 0 */

/* The low bytes of a word, at most 8. */
static inline void put(uint64_t word, size_t bytes) {
    for (size_t i = 0; i < bytes; i++) built[built_len++] = (uint8_t)(word >> (8 * i));
}

/* The same at a place that was built before. */
static inline void put_at(uint64_t place, uint64_t word, size_t bytes) {
    size_t end = built_len;
    built_len = place;
    put(word, bytes);
    built_len = end;
}

static inline void put_header(const char *id, uint64_t length, uint64_t links) {
    memcpy(built + built_len, id, 4);
    memset(built + built_len + 4, 0, 4);
    built_len += 8;
    put(length, 8);
    put(links, 8);
}

/* A ##TX block of `length` bytes, each of them `byte`, which run to its end. Answers its address. */
static inline uint64_t text_of(uint8_t byte, size_t length) {
    uint64_t address = built_len;
    put_header("##TX", 24 + length, 0);
    memset(built + built_len, byte, length);
    built_len += length;
    return address;
}

/* The front of a ##CC block; its references are put next. */
static inline uint64_t open_block(uint64_t name, size_t refs, size_t values) {
    uint64_t address = built_len;
    put_header("##CC", 64 + 8 * (refs + values), 4 + refs);
    put(name, 8);
    for (int i = 0; i < 3; i++) put(0, 8);
    return address;
}

/* What stands between the references and the values. */
static inline void put_kind(uint8_t kind, size_t refs, size_t values) {
    put(kind, 2);
    put(0, 2);
    put(refs, 2);
    put(values, 2);
}

/* A block of `refs` references and as many values, all of them `value`: `first` and `last` lead the references, all others are `other`. */
static inline uint64_t block_of(uint8_t kind, uint64_t first, uint64_t other, uint64_t last, size_t refs, size_t values, uint64_t value) {
    uint64_t address = open_block(0, refs, values);
    for (size_t i = 0; i < refs; i++) put(i + 1 == refs ? last : i == 0 ? first : other, 8);
    put_kind(kind, refs, values);
    for (size_t i = 0; i < values; i++) put(value, 8);
    return address;
}

/* A block with one reference, none where it is 0, no values, and a name. */
static inline uint64_t small_block(uint8_t kind, uint64_t name, uint64_t ref) {
    uint64_t address = open_block(name, ref != 0, 0);
    if (ref != 0) put(ref, 8);
    put_kind(kind, ref != 0, 0);
    return address;
}

#endif
