/* Calls each function of mdf_conversion.h: every line of document 01's "Cases", every refusal from 1 to 9, 11 to 16, 18 and 21 to 23.
 *
 * The images are built here byte by byte. Each call gets its image in a block of the heap of exactly its length, so that valgrind sees a read past
 * its end, and an output buffer between guard bytes. After each call every byte that should be as it was is compared. */
#include "mdf_conversion.h"

#include <math.h>
#include <stdbool.h>
#include <stdio.h>
#include <stdlib.h>
#include <string.h>

#define LIMIT 4096 /* visits, where a case names no limit */
#define ROOM 64    /* bytes of output, where a case names no room */
#define GUARD 32
#define FILL 0xa5

/* ---- counting ---- */

/* What C programs that were compiled apart rely on. */
_Static_assert(sizeof(mdf_mode) == 8 && offsetof(mdf_mode, edition) == 4, "mdf_mode has 8 bytes, and `edition` at 4");
_Static_assert(sizeof(mdf_applied) == 48 && offsetof(mdf_applied, malformed) == 40, "mdf_applied has 48 bytes, and `malformed` at 40");
_Static_assert(sizeof(mdf_block) == 104 && offsetof(mdf_block, excess) == 80 && offsetof(mdf_block, reserved) == 88,
               "mdf_block has 104 bytes, `excess` at 80 and `reserved` at 88");
_Static_assert(sizeof(mdf_text) == 32 && offsetof(mdf_text, id) == 4 && offsetof(mdf_text, start) == 16 && offsetof(mdf_text, length) == 24,
               "mdf_text has 32 bytes, `id` at 4, `start` at 16 and `length` at 24");
_Static_assert(sizeof(mdf_inverted) == 24 && offsetof(mdf_inverted, index) == 4 && offsetof(mdf_inverted, address) == 8 &&
                   offsetof(mdf_inverted, length) == 16,
               "mdf_inverted has 24 bytes, `index` at 4, `address` at 8 and `length` at 16");

static int passed, failed;

static void expect(bool holds, const char *name) {
    if (holds) {
        passed++;
    } else {
        failed++;
        printf("failed: %s\n", name);
    }
}

static bool same_double(double a, double b) {
    return (isnan(a) && isnan(b)) || memcmp(&a, &b, sizeof a) == 0;
}

/* ---- building an image ---- */

static uint8_t built[1 << 17];
static size_t built_len;

static void begin(void) {
    memset(built, 0, sizeof built);
    built_len = 64; /* so that no block stands at 0, where no link leads */
}

/* The low bytes of a word, at most 8. */
static void put(uint64_t word, size_t bytes) {
    for (size_t i = 0; i < bytes; i++) built[built_len++] = (uint8_t)(word >> (8 * i));
}

/* The same at a place that was built before. */
static void put_at(uint64_t place, uint64_t word, size_t bytes) {
    size_t end = built_len;
    built_len = place;
    put(word, bytes);
    built_len = end;
}

static void put_header(const char *id, uint64_t length, uint64_t links) {
    memcpy(built + built_len, id, 4);
    built_len += 8;
    put(length, 8);
    put(links, 8);
}

static uint64_t bits(double x) {
    uint64_t word;
    memcpy(&word, &x, sizeof word);
    return word;
}

/* A ##TX block with zeros up to a multiple of 8. Answers its address. */
static uint64_t text(const char *words) {
    uint64_t address = built_len;
    size_t size = (strlen(words) + 8) / 8 * 8;
    put_header("##TX", 24 + size, 0);
    memcpy(built + built_len, words, strlen(words));
    built_len += size;
    return address;
}

/* What a case says of a ##CC block; links and length are the true ones where they are 0. */
typedef struct {
    uint8_t kind;
    uint64_t name;
    const uint64_t *refs;
    size_t ref_count;
    const uint64_t *words;
    size_t word_count;
    uint64_t links, length;
} plan;

/* Answers the block's address. */
static uint64_t block(plan p) {
    uint64_t address = built_len;
    uint64_t length = 64 + 8 * (p.ref_count + p.word_count);
    put_header("##CC", p.length ? p.length : length, p.links ? p.links : 4 + p.ref_count);
    put(p.name, 8);
    for (int i = 0; i < 3; i++) put(0, 8);
    for (size_t i = 0; i < p.ref_count; i++) put(p.refs[i], 8);
    put(p.kind, 2);
    put(0, 2);
    put(p.ref_count, 2);
    put(p.word_count, 2);
    for (size_t i = 0; i < p.word_count; i++) put(p.words[i], 8);
    return address;
}

#define COUNT_OF(a) (sizeof(a) / sizeof *(a))

static uint64_t of_words(uint8_t kind, const uint64_t *refs, size_t ref_count, const uint64_t *words, size_t word_count) {
    plan p = {.kind = kind, .refs = refs, .ref_count = ref_count, .words = words, .word_count = word_count};
    return block(p);
}

/* A block with these references and float values. */
static uint64_t of_values(uint8_t kind, const uint64_t *refs, size_t ref_count, const double *values, size_t value_count) {
    uint64_t words[16];
    for (size_t i = 0; i < value_count; i++) words[i] = bits(values[i]);
    return of_words(kind, refs, ref_count, words, value_count);
}

static uint64_t of_numbers(uint8_t kind, const double *values, size_t value_count) {
    return of_values(kind, NULL, 0, values, value_count);
}

/* A block with these references and no values. */
static uint64_t of_refs(uint8_t kind, const uint64_t *refs, size_t ref_count) {
    return of_words(kind, refs, ref_count, NULL, 0);
}

/* ---- lending buffers ---- */

static void *taken(size_t bytes) {
    void *block_of_heap = malloc(bytes ? bytes : 1);
    if (block_of_heap == NULL) abort();
    return block_of_heap;
}

/* What was built, in a block of the heap of its own length. */
static uint8_t *lent_image(void) {
    uint8_t *image = taken(built_len);
    memcpy(image, built, built_len);
    return image;
}

/* The bytes of a text without the zero at its end, in the same way. */
static uint8_t *lent_text(const char *words) {
    uint8_t *text_of_heap = taken(strlen(words));
    memcpy(text_of_heap, words, strlen(words));
    return text_of_heap;
}

static void give_back_image(uint8_t *image, const char *name) {
    if (memcmp(image, built, built_len) != 0) expect(false, name);
    free(image);
}

/* `room` bytes of output between two guards. */
static uint8_t *lent_out(size_t room) {
    uint8_t *all = taken(room + 2 * GUARD);
    memset(all, FILL, room + 2 * GUARD);
    return all + GUARD;
}

/* Whether the output has these bytes, and is untouched behind them and in both guards. */
static bool holds(const uint8_t *out, size_t room, const void *bytes, size_t length) {
    const uint8_t *all = out - GUARD;
    if (length > room || (length > 0 && memcmp(out, bytes, length) != 0)) return false;
    for (size_t i = 0; i < room + 2 * GUARD; i++) {
        if ((i < GUARD || i >= GUARD + length) && all[i] != FILL) return false;
    }
    return true;
}

static void give_back_out(uint8_t *out) {
    free(out - GUARD);
}

/* ---- one application ---- */

typedef enum { UNSIGNED, SIGNED, FLOAT, TEXT, OTHER } sort;

typedef struct {
    sort sort;
    uint64_t number;
    double real;
    const char *text;
} value;

static value of_unsigned(uint64_t n) {
    value v = {.sort = UNSIGNED, .number = n};
    return v;
}

static value of_signed(int64_t n) {
    value v = {.sort = SIGNED, .number = (uint64_t)n};
    return v;
}

static value of_float(double x) {
    value v = {.sort = FLOAT, .real = x};
    return v;
}

static value of_text(const char *words) {
    value v = {.sort = TEXT, .text = words};
    return v;
}

static const value other = {.sort = OTHER};

/* The functions without a mode where it is NULL, else those with one. */
static mdf_applied apply_text(const uint8_t *image, uint64_t address, uint32_t limit, const mdf_mode *mode, const char *words, uint8_t *out,
                              size_t room) {
    uint8_t *lent = lent_text(words);
    mdf_applied a = mode ? mdf_apply_mode_text(image, built_len, address, limit, *mode, lent, strlen(words), out, room)
                         : mdf_apply_text(image, built_len, address, limit, lent, strlen(words), out, room);
    free(lent);
    return a;
}

static mdf_applied apply_plain(const uint8_t *image, uint64_t address, uint32_t limit, value v, uint8_t *out, size_t room) {
    switch (v.sort) {
    case UNSIGNED: return mdf_apply_unsigned(image, built_len, address, limit, v.number, out, room);
    case SIGNED: return mdf_apply_signed(image, built_len, address, limit, (int64_t)v.number, out, room);
    case FLOAT: return mdf_apply_float(image, built_len, address, limit, v.real, out, room);
    case TEXT: return apply_text(image, address, limit, NULL, v.text, out, room);
    default: return mdf_apply_other(image, built_len, address, limit, out, room);
    }
}

static mdf_applied apply_moded(const uint8_t *image, uint64_t address, uint32_t limit, mdf_mode mode, value v, uint8_t *out, size_t room) {
    switch (v.sort) {
    case UNSIGNED: return mdf_apply_mode_unsigned(image, built_len, address, limit, mode, v.number, out, room);
    case SIGNED: return mdf_apply_mode_signed(image, built_len, address, limit, mode, (int64_t)v.number, out, room);
    case FLOAT: return mdf_apply_mode_float(image, built_len, address, limit, mode, v.real, out, room);
    case TEXT: return apply_text(image, address, limit, &mode, v.text, out, room);
    default: return mdf_apply_mode_other(image, built_len, address, limit, mode, out, room);
    }
}

static mdf_applied apply(const uint8_t *image, uint64_t address, uint32_t limit, const mdf_mode *mode, value v, uint8_t *out, size_t room) {
    return mode ? apply_moded(image, address, limit, *mode, v, out, room) : apply_plain(image, address, limit, v, out, room);
}

static bool same_answer(mdf_applied a, mdf_applied b) {
    return a.refusal == b.refusal && a.kind == b.kind && same_double(a.number, b.number) && a.length == b.length && a.address == b.address &&
           a.checked == b.checked && a.applied == b.applied && a.malformed == b.malformed;
}

/* Applies, and compares every field of the answer and every byte of the output, which is to have `words`. */
static void applies_in(const char *name, uint64_t address, uint32_t limit, const mdf_mode *mode, size_t room, value v, mdf_applied wanted,
                       const char *words) {
    uint8_t *image = lent_image(), *out = lent_out(room);
    mdf_applied a = apply(image, address, limit, mode, v, out, room);
    expect(same_answer(a, wanted) && holds(out, room, words, strlen(words)), name);
    give_back_image(image, name);
    give_back_out(out);
}

static void applies_moded(const char *name, uint64_t address, uint32_t limit, uint32_t edition, uint32_t width, size_t room, value v,
                          mdf_applied wanted, const char *words) {
    mdf_mode mode = {.width = width, .edition = edition};
    applies_in(name, address, limit, &mode, room, v, wanted, words);
}

static void applies_at_width(const char *name, uint64_t address, uint32_t limit, uint32_t width, size_t room, value v, mdf_applied wanted,
                             const char *words) {
    applies_moded(name, address, limit, MDF_EDITION_420, width, room, v, wanted, words);
}

static const uint32_t wrong_widths[] = {0, 65, UINT32_MAX};
static const uint32_t wrong_editions[] = {0, 400, 409, 411, 419, 421, UINT32_MAX};

/* 11 in both editions, whatever else the call asks. */
static void is_no_width(const char *name, uint64_t address, uint32_t limit, size_t room, value v) {
    static const mdf_applied refused = {.refusal = MDF_REFUSED_WIDTH, .kind = MDF_KIND_REFUSED};
    for (size_t i = 0; i < COUNT_OF(wrong_widths); i++) {
        applies_moded(name, address, limit, MDF_EDITION_410, wrong_widths[i], room, v, refused, "");
        applies_moded(name, address, limit, MDF_EDITION_420, wrong_widths[i], room, v, refused, "");
    }
}

/* 16, whatever else the call asks: with a right width, and before 11 with a wrong one. */
static void is_no_edition(const char *name, uint64_t address, uint32_t limit, size_t room, value v) {
    static const mdf_applied refused = {.refusal = MDF_REFUSED_EDITION, .kind = MDF_KIND_REFUSED};
    for (size_t i = 0; i < COUNT_OF(wrong_editions); i++) {
        applies_moded(name, address, limit, wrong_editions[i], 64, room, v, refused, "");
        applies_moded(name, address, limit, wrong_editions[i], wrong_widths[i % COUNT_OF(wrong_widths)], room, v, refused, "");
    }
}

/* Every case is asked without a mode, at width 64 in edition 4.20, where the answer is the same, and at widths and in editions that are refused before
 * anything else. */
static void applies_within(const char *name, uint64_t address, uint32_t limit, size_t room, value v, mdf_applied wanted, const char *words) {
    applies_in(name, address, limit, NULL, room, v, wanted, words);
    applies_at_width(name, address, limit, 64, room, v, wanted, words);
    is_no_width(name, address, limit, room, v);
    is_no_edition(name, address, limit, room, v);
}

static void applies(const char *name, uint64_t address, value v, mdf_applied wanted, const char *words) {
    applies_within(name, address, LIMIT, ROOM, v, wanted, words);
}

static void gives_number(const char *name, uint64_t address, value v, double number) {
    mdf_applied wanted = {.kind = MDF_KIND_NUMBER, .number = number, .checked = 1, .applied = 1};
    applies(name, address, v, wanted, "");
}

static void gives_text(const char *name, uint64_t address, value v, const char *words, uint32_t n, uint32_t m) {
    mdf_applied wanted = {.kind = MDF_KIND_TEXT, .length = strlen(words), .checked = n, .applied = m};
    applies(name, address, v, wanted, words);
}

static void is_unchanged(const char *name, uint64_t address, value v) {
    mdf_applied wanted = {.kind = MDF_KIND_UNCHANGED, .checked = 1, .applied = 1};
    applies(name, address, v, wanted, "");
}

static void is_unknown(const char *name, uint64_t address, value v) {
    mdf_applied wanted = {.kind = MDF_KIND_UNKNOWN, .checked = 1, .applied = 1};
    applies(name, address, v, wanted, "");
}

/* A refusal of the check, which has an address and no visits. The check knows no mode: it is the same in edition 4.10. */
static void is_refused_at(const char *name, uint64_t address, uint32_t limit, value v, uint32_t refusal, uint64_t at) {
    mdf_applied wanted = {.refusal = refusal, .kind = MDF_KIND_REFUSED, .address = at};
    applies_within(name, address, limit, ROOM, v, wanted, "");
    applies_moded(name, address, limit, MDF_EDITION_410, 4, ROOM, v, wanted, "");
}

/* A refusal of applying, which has visits and no address. */
static void is_refused(const char *name, uint64_t address, size_t room, value v, uint32_t refusal, uint32_t n, uint32_t m) {
    mdf_applied wanted = {.refusal = refusal, .kind = MDF_KIND_REFUSED, .checked = n, .applied = m};
    applies_within(name, address, LIMIT, room, v, wanted, "");
}

/* ---- one check ---- */

static void checks(const char *name, uint64_t address, uint32_t limit, mdf_checked wanted) {
    uint8_t *image = lent_image();
    mdf_checked c = mdf_check(image, built_len, address, limit);
    expect(c.refusal == wanted.refusal && c.visits == wanted.visits && c.address == wanted.address, name);
    give_back_image(image, name);
}

static void is_accepted(const char *name, uint64_t address, uint32_t limit, uint32_t visits) {
    mdf_checked wanted = {.visits = visits};
    checks(name, address, limit, wanted);
}

/* The check refuses, and applying any value refuses alike. */
static void is_unsound(const char *name, uint64_t address, uint32_t limit, uint32_t refusal, uint64_t at) {
    mdf_checked wanted = {.refusal = refusal, .address = at};
    checks(name, address, limit, wanted);
    is_refused_at(name, address, limit, of_unsigned(1), refusal, at);
    is_refused_at(name, address, limit, of_signed(-1), refusal, at);
    is_refused_at(name, address, limit, of_float(0.5), refusal, at);
    is_refused_at(name, address, limit, of_text("x"), refusal, at);
    is_refused_at(name, address, limit, other, refusal, at);
}

/* ---- document 01's cases ---- */

static const double zero_and_eighth[] = {0, 0.125};
static const double pairs[] = {0, 10, 10, 20, 20, 60};

static void linear_cases(void) {
    begin();
    uint64_t torque = of_numbers(1, zero_and_eighth, 2);
    gives_number("linear [0, 0.125], signed -3", torque, of_signed(-3), -0.375);
    gives_number("linear, float 2.5", torque, of_float(2.5), 0.3125);
    is_unchanged("linear, a text", torque, of_text("no signal"));
    is_unchanged("linear, a value of kind other", torque, other);
    begin();
    uint64_t one = of_numbers(1, zero_and_eighth, 1);
    gives_number("linear with one value only, integer 7", one, of_unsigned(7), 7);
}

static void rounding_cases(void) {
    begin();
    uint64_t as_it_is = of_numbers(1, zero_and_eighth, 1);
    gives_number("integer 9007199254740993", as_it_is, of_unsigned(9007199254740993), 9007199254740992.0);
    gives_number("integer 9007199254740995", as_it_is, of_unsigned(9007199254740995), 9007199254740996.0);
    gives_number("signed -9007199254740993", as_it_is, of_signed(-9007199254740993), -9007199254740992.0);
    gives_number("largest unsigned", as_it_is, of_unsigned(UINT64_MAX), 18446744073709551616.0);
    gives_number("smallest signed", as_it_is, of_signed(INT64_MIN), -9223372036854775808.0);
}

static void rational_cases(void) {
    static const double parameters[] = {0, 1, 0, 0, 0, 0};
    begin();
    uint64_t rational = of_numbers(2, parameters, 6);
    gives_number("rational (0,1,0,0,0,0), x = 4", rational, of_unsigned(4), INFINITY);
    gives_number("rational (0,1,0,0,0,0), x = 0", rational, of_unsigned(0), NAN);
}

static void table_cases(void) {
    begin();
    uint64_t interpolated = of_numbers(4, pairs, 6), nearest = of_numbers(5, pairs, 6);
    gives_number("pairs, x = 15 interpolated", interpolated, of_unsigned(15), 40);
    gives_number("pairs, x = 15 nearest", nearest, of_unsigned(15), 20);
    gives_number("pairs, x = 16 nearest", nearest, of_unsigned(16), 60);
    gives_number("pairs, x = -1 interpolated", interpolated, of_signed(-1), 10);
    gives_number("pairs, x = -1 nearest", nearest, of_signed(-1), 10);
}

static void range_to_text_cases(void) {
    static const double ranges[] = {0, 10, 10, 20};
    begin();
    uint64_t texts[] = {text("index 0"), text("index 1"), text("index 2")};
    uint64_t two = of_values(8, texts, 3, ranges, 4);
    gives_text("ranges [0,10],[10,20], integer 10", two, of_unsigned(10), "index 0", 1, 1);
    gives_text("ranges [0,10],[10,20], float 10", two, of_float(10), "index 1", 1, 1);
    gives_text("ranges [0,10],[10,20], float 20", two, of_float(20), "index 2", 1, 1);
    gives_text("ranges [0,10],[10,20], NaN", two, of_float(NAN), "index 2", 1, 1);
}

/* The same answer, where a malformed table was consulted. */
static mdf_applied consulted(mdf_applied a) {
    a.malformed = 1;
    return a;
}

static mdf_applied a_text(const char *words, uint32_t n, uint32_t m) {
    mdf_applied a = {.kind = MDF_KIND_TEXT, .length = strlen(words), .checked = n, .applied = m};
    return a;
}

static void odd_range_cases(void) {
    static const double bounds[] = {0, 10, 10, 20, 20};
    begin();
    const mdf_applied unchanged = {.kind = MDF_KIND_UNCHANGED, .checked = 1, .applied = 1};
    uint64_t nil = 0, first = text("index 0");
    for (size_t n = 0; n <= 5; n++) {
        uint64_t named = of_values(8, &first, 1, bounds, n), unnamed = of_values(8, &nil, 1, bounds, n);
        bool odd = n == 0 || n % 2 == 1;
        mdf_applied t = a_text("index 0", 1, 1), empty = a_text("", 1, 1);
        applies("lengths 0 to 5: 5 has index 0", named, of_unsigned(5), odd ? consulted(t) : t, "index 0");
        applies("lengths 0 to 5: NaN has index 0 in a malformed table", named, of_float(NAN), odd ? consulted(t) : unchanged, odd ? "index 0" : "");
        applies("lengths 0 to 5: matched from 2 on, so NIL is the empty text", unnamed, of_signed(5),
                n < 2 ? consulted(unchanged) : odd ? consulted(empty) : empty, "");
        is_unchanged("lengths 0 to 5: a text consults no table", named, of_text("index 0"));
        is_unchanged("lengths 0 to 5: nor does a value of kind other", named, other);
    }
}

/* A malformed table, a table that is not, and a formula, below other blocks. */
static void odd_range_below_cases(void) {
    static const double bounds[] = {0, 10, 10};
    static const uint64_t masks[] = {15, 15};
    begin();
    uint64_t none = text("odd"), some = text("even");
    uint64_t odd = of_values(8, &none, 1, bounds, 3), even = of_values(8, &some, 1, bounds, 2), formula = of_refs(3, NULL, 0);
    uint64_t key = bits(5);
    uint64_t under_key = of_words(7, &odd, 1, &key, 1);
    applies("under a value to text", under_key, of_unsigned(5), consulted(a_text("odd", 2, 2)), "odd");
    mdf_applied not_reached = {.kind = MDF_KIND_UNCHANGED, .checked = 2, .applied = 1};
    applies("under a value to text, not reached", under_key, of_unsigned(6), not_reached, "");
    uint64_t last[] = {some, 0, odd};
    uint64_t under_default = of_values(8, last, 3, bounds, 2);
    applies("under a default conversion", under_default, of_unsigned(11), consulted(a_text("odd", 2, 2)), "odd");
    gives_text("under a default conversion, not reached", under_default, of_unsigned(5), "even", 2, 1);
    uint64_t pairs_of[][2] = {{even, odd}, {odd, even}, {even, even}, {formula, odd}, {odd, formula}};
    uint64_t groups[5];
    for (size_t i = 0; i < 5; i++) groups[i] = of_words(11, pairs_of[i], 2, masks, 2);
    applies("the second of two groups", groups[0], of_unsigned(5), consulted(a_text("even|odd", 3, 3)), "even|odd");
    applies("the first of two groups", groups[1], of_signed(-1), consulted(a_text("odd", 3, 3)), "odd");
    gives_text("no group", groups[2], of_unsigned(5), "even|even", 3, 3);
    is_refused("behind a formula: not consulted", groups[3], ROOM, of_unsigned(5), MDF_REFUSED_FORMULA, 3, 2);
    mdf_applied stopped = {.refusal = MDF_REFUSED_FORMULA, .kind = MDF_KIND_REFUSED, .checked = 3, .applied = 3};
    applies("before a formula: refusal 7 says it", groups[4], of_unsigned(5), consulted(stopped), "");
    mdf_applied too_long = {.refusal = MDF_REFUSED_ROOM, .kind = MDF_KIND_REFUSED, .checked = 3, .applied = 3};
    applies_within("refusal 8 says it, of a text of groups", groups[0], LIMIT, 7, of_unsigned(5), consulted(too_long), "");
    is_refused("refusal 8 of tables that are not malformed", groups[2], 8, of_unsigned(5), MDF_REFUSED_ROOM, 3, 3);
    mdf_applied short_of = {.refusal = MDF_REFUSED_ROOM, .kind = MDF_KIND_REFUSED, .checked = 1, .applied = 1};
    applies_within("refusal 8 says it, of a text in the image", odd, LIMIT, 2, of_unsigned(5), consulted(short_of), "");
    is_unsound("a refusal of the check has consulted none", under_key, 1, MDF_REFUSED_LIMIT, odd);
}

static void range_to_value_cases(void) {
    static const double ranges[] = {0, 10, 1, 10, 20, 2, 9};
    begin();
    uint64_t hitch = of_numbers(6, ranges, 7);
    gives_number("range to value, integer 10", hitch, of_unsigned(10), 1);
    gives_number("range to value, float 10", hitch, of_float(10), 2);
    gives_number("range to value, float 20", hitch, of_float(20), 9);
}

static void parses_with_range(const char *name, uint64_t length, bool ranged) {
    begin();
    const uint64_t words[] = {bits(0.5), bits(8), bits(2), bits(3)};
    plan p = {.kind = 1, .words = words, .word_count = 4, .length = length};
    uint64_t address = block(p);
    built[address + 62] = 2; /* two values, and two words that may be a range */
    uint8_t *image = lent_image();
    mdf_parsed parsed = mdf_parse(image, built_len, address);
    bool range_is_right = ranged ? parsed.block.range_min == 0.5 && parsed.block.range_max == 8
                                 : parsed.block.range_min == 0 && parsed.block.range_max == 0;
    expect(parsed.refusal == 0 && parsed.address == 0 && parsed.block.length == length && parsed.block.links == 4 &&
               parsed.block.val_count == 2 && parsed.block.ranged == ranged && range_is_right,
           name);
    give_back_image(image, name);
}

static void range_field_cases(void) {
    parses_with_range("4 links, 2 values: block length 95 has no range", 95, false);
    parses_with_range("4 links, 2 values: block length 96 has a range", 96, true);
}

static void bit_group_cases(void) {
    static const uint64_t masks[] = {3, 12};
    begin();
    uint64_t gear_name = text("Gear"), low = text("Low"), pto = text("PTO"), two = bits(2);
    plan gear = {.kind = 7, .name = gear_name, .refs = &low, .ref_count = 1, .words = &two, .word_count = 1};
    uint64_t groups_of[] = {block(gear), pto};
    uint64_t groups = of_words(11, groups_of, 2, masks, 2);
    mdf_applied wanted = {.kind = MDF_KIND_TEXT, .length = 14, .checked = 2, .applied = 2};
    gives_text("masks 3 and 12, integer 6", groups, of_unsigned(6), "Gear = Low|PTO", 2, 2);
    gives_text("masks 3 and 12, signed -2", groups, of_signed(-2), "Gear = Low|PTO", 2, 2);
    gives_text("masks 3 and 12, integer 0", groups, of_unsigned(0), "PTO", 2, 2);
    applies_within("14 bytes of room", groups, LIMIT, 14, of_unsigned(6), wanted, "Gear = Low|PTO");
    is_refused("13 bytes of room: 8 Room", groups, 13, of_unsigned(6), MDF_REFUSED_ROOM, 2, 2);
    is_refused("no room: 8 Room", groups, 0, of_unsigned(6), MDF_REFUSED_ROOM, 2, 2);
}

/* ---- request [2]: the width of a signal ---- */

static void shows(const char *name, uint64_t address, uint32_t width, value v, const char *words, uint32_t visits) {
    applies_at_width(name, address, LIMIT, width, ROOM, v, a_text(words, visits, visits), words);
}

/* Bit groups with a mask below a width, one across it and one above it. What a group gets it shows: the bit below, the bit above, both or none. */
static uint64_t masks_around(uint32_t width, const uint64_t *texts) {
    uint64_t below = UINT64_C(1) << (width - 1), above = width < 64 ? UINT64_C(1) << width : 0;
    const uint64_t masks[] = {below, below | above, above};
    const double keys[] = {0, (double)below, (double)below + (double)above, (double)above};
    uint64_t shown = of_values(7, texts, 4, keys, 4);
    const uint64_t refs[] = {shown, shown, shown};
    return of_words(11, refs, 3, masks, 3);
}

static void width_cases(void) {
    static const uint32_t widths[] = {1, 3, 4, 8, 31, 32, 33, 63};
    begin();
    const uint64_t texts[] = {text("none"), text("below"), text("both"), text("above")};
    for (size_t i = 0; i < COUNT_OF(widths); i++) {
        uint32_t width = widths[i];
        uint64_t groups = masks_around(width, texts), below = UINT64_C(1) << (width - 1);
        shows("a width: signed -1 has no bit above it", groups, width, of_signed(-1), "below|below|none", 4);
        shows("a width: nor has the largest unsigned", groups, width, of_unsigned(UINT64_MAX), "below|below|none", 4);
        shows("a width: the sign is not extended", groups, width, of_signed(-(int64_t)(below - 1) - 1), "below|below|none", 4);
        shows("a width: a bit above it is not there", groups, width, of_unsigned(below << 1), "none|none|none", 4);
        shows("a width: a bit below it is", groups, width, of_unsigned(below), "below|below|none", 4);
        shows("one bit more", groups, width + 1, of_signed(-1), "below|both|above", 4);
        shows("width 64: signed -1 has all bits", groups, 64, of_signed(-1), "below|both|above", 4);
    }
    uint64_t last = masks_around(64, texts);
    shows("width 64: the last bit is there", last, 64, of_signed(-1), "below|below|none", 4);
    shows("width 63: it is not", last, 63, of_signed(-1), "none|none|none", 4);
}

/* Where bit groups stand below other blocks: 7 hands on the value itself, bit groups what a mask left of it. */
static void width_below_cases(void) {
    static const double minus_one = -1;
    static const uint64_t all = UINT64_MAX;
    begin();
    const uint64_t texts[] = {text("none"), text("below"), text("both"), text("above")};
    uint64_t groups = masks_around(4, texts);
    uint64_t by_key = of_values(7, &groups, 1, &minus_one, 1), nested = of_words(11, &groups, 1, &all, 1);
    shows("a width under a value to text: the key is the whole value", by_key, 4, of_signed(-1), "below|below|none", 5);
    shows("width 64 under a value to text", by_key, 64, of_signed(-1), "below|both|above", 5);
    shows("a width under bit groups", nested, 4, of_signed(-1), "below|below|none", 5);
    shows("width 64 under bit groups", nested, 64, of_signed(-1), "below|both|above", 5);
    const mdf_applied unchanged = {.kind = MDF_KIND_UNCHANGED, .checked = 4, .applied = 1};
    applies_at_width("a width and a float", groups, LIMIT, 4, ROOM, of_float(-1), unchanged, "");
    applies_at_width("a width and a text", groups, LIMIT, 4, ROOM, of_text("-1"), unchanged, "");
    applies_at_width("a width and a value of kind other", groups, LIMIT, 4, ROOM, other, unchanged, "");
    const mdf_applied too_long = {.refusal = MDF_REFUSED_ROOM, .kind = MDF_KIND_REFUSED, .checked = 4, .applied = 4};
    applies_at_width("a width and no room", groups, LIMIT, 4, 15, of_signed(-1), too_long, "");
}

/* ---- request [8]: files older than 4.20 ---- */

/* In 4.10 every value is left unchanged, at any width, with N as in 4.20 and this M. */
static void stays_in_410(const char *name, uint64_t address, uint32_t n, uint32_t m) {
    static const uint32_t widths[] = {1, 4, 64};
    const value values[] = {of_unsigned(6), of_signed(-1), of_float(6), of_text("6"), other};
    for (size_t i = 0; i < COUNT_OF(values); i++) {
        /* a value that is no number begins the root alone */
        bool is_number = values[i].sort != TEXT && values[i].sort != OTHER;
        mdf_applied wanted = {.kind = MDF_KIND_UNCHANGED, .checked = n, .applied = is_number ? m : 1};
        for (size_t k = 0; k < COUNT_OF(widths); k++) {
            applies_moded(name, address, LIMIT, MDF_EDITION_410, widths[k], ROOM, values[i], wanted, "");
        }
        applies_moded(name, address, LIMIT, MDF_EDITION_410, 64, 0, values[i], wanted, "");
    }
    is_accepted(name, address, LIMIT, n);
}

/* Bit groups at the root, and under types 7, 8 and 11. */
static void edition_cases(void) {
    static const uint64_t masks[] = {3, 12}, all = UINT64_MAX;
    static const double key = 6, bounds[] = {-10, 10};
    begin();
    uint64_t gear_name = text("Gear"), low = text("Low"), pto = text("PTO"), two = bits(2);
    plan gear = {.kind = 7, .name = gear_name, .refs = &low, .ref_count = 1, .words = &two, .word_count = 1};
    const uint64_t groups_of[] = {block(gear), pto};
    uint64_t groups = of_words(11, groups_of, 2, masks, 2), nested = of_words(11, &groups, 1, &all, 1);
    const uint64_t both[] = {groups, groups};
    uint64_t by_key = of_values(7, both, 2, &key, 1), by_range = of_values(8, both, 2, bounds, 2);
    stays_in_410("4.10: bit groups at the root", groups, 2, 1);
    stays_in_410("4.10: bit groups under bit groups", nested, 3, 1);
    stays_in_410("4.10: bit groups under a value to text", by_key, 5, 2);
    stays_in_410("4.10: bit groups under a range to text", by_range, 5, 2);
    gives_text("4.20: bit groups at the root", groups, of_unsigned(6), "Gear = Low|PTO", 2, 2);
    gives_text("4.20: bit groups under bit groups", nested, of_unsigned(6), "Gear = Low|PTO", 3, 3);
    gives_text("4.20: bit groups under a value to text", by_key, of_unsigned(6), "Gear = Low|PTO", 5, 3);
    gives_text("4.20: bit groups under a range to text", by_range, of_unsigned(6), "Gear = Low|PTO", 5, 3);
}

/* No other type knows the edition. What lies below bit groups in 4.10 is not begun: a formula there refuses nothing, an odd table is not told of. */
static void edition_elsewhere_cases(void) {
    static const uint64_t all[] = {UINT64_MAX, UINT64_MAX};
    static const double odd[] = {0, 10, 10};
    begin();
    uint64_t slow = text("slow"), two = bits(2);
    uint64_t formula = of_refs(3, NULL, 0), table = of_values(8, &slow, 1, odd, 3), by_key = of_words(7, &slow, 1, &two, 1);
    uint64_t torque = of_numbers(1, zero_and_eighth, 2);
    const uint64_t below[] = {table, formula};
    uint64_t groups = of_words(11, below, 2, all, 2);
    const mdf_applied unchanged = {.kind = MDF_KIND_UNCHANGED, .checked = 3, .applied = 1};
    const mdf_applied stopped = {.refusal = MDF_REFUSED_FORMULA, .kind = MDF_KIND_REFUSED, .checked = 3, .applied = 3, .malformed = 1};
    const mdf_applied of_table = {.kind = MDF_KIND_TEXT, .length = 4, .checked = 1, .applied = 1, .malformed = 1};
    const mdf_applied number = {.kind = MDF_KIND_NUMBER, .number = -0.375, .checked = 1, .applied = 1};
    const mdf_applied refused = {.refusal = MDF_REFUSED_FORMULA, .kind = MDF_KIND_REFUSED, .checked = 1, .applied = 1};
    applies_moded("4.10: a formula and an odd table below", groups, LIMIT, MDF_EDITION_410, 64, ROOM, of_unsigned(5), unchanged, "");
    applies_moded("4.20: a formula and an odd table below", groups, LIMIT, MDF_EDITION_420, 64, ROOM, of_unsigned(5), stopped, "");
    applies_moded("4.10: an odd table", table, LIMIT, MDF_EDITION_410, 64, ROOM, of_unsigned(5), of_table, "slow");
    applies_moded("4.10: a value to text", by_key, LIMIT, MDF_EDITION_410, 1, ROOM, of_unsigned(2), a_text("slow", 1, 1), "slow");
    applies_moded("4.10: linear, signed -3", torque, LIMIT, MDF_EDITION_410, 1, ROOM, of_signed(-3), number, "");
    applies_moded("4.10: a formula", formula, LIMIT, MDF_EDITION_410, 64, ROOM, of_unsigned(5), refused, "");
}

static void visit_cases(void) {
    begin();
    uint64_t leaf = of_numbers(1, zero_and_eighth, 2);
    uint64_t twice[] = {leaf, leaf};
    uint64_t root = of_refs(8, twice, 2);
    is_accepted("two links to one leaf: 3 visits", root, LIMIT, 3);
    is_accepted("two links to one leaf, limit 3", root, 3, 3);
    is_unsound("two links to one leaf, limit 2: 3 Limit", root, 2, MDF_REFUSED_LIMIT, leaf);
}

/* A row of blocks, each but the last with so many links to the next. Answers the first, and in `last` the last. */
static uint64_t row(size_t count, size_t links, uint64_t *last) {
    begin();
    uint64_t next[2] = {0, 0};
    *last = next[0] = next[1] = of_refs(7, NULL, 0);
    for (size_t i = 1; i < count; i++) next[0] = next[1] = of_refs(7, next, links);
    return next[0];
}

static void deep_cases(void) {
    uint64_t last, root = row(21, 1, &last);
    is_accepted("a chain of 21", root, LIMIT, 21);
    root = row(22, 1, &last);
    is_unsound("a chain of 22: 5 Deep", root, LIMIT, MDF_REFUSED_DEEP, last);
    root = row(12, 2, &last);
    is_accepted("twelve blocks in a row, each linking twice to the next", root, LIMIT, 4095);
    is_accepted("twelve blocks in a row, limit 4095", root, 4095, 4095);
    is_unsound("twelve blocks in a row, limit 4094: 3 Limit", root, 4094, MDF_REFUSED_LIMIT, last);
}

/* ---- refusals that the cases do not have ---- */

static void outside_cases(void) {
    begin();
    uint64_t root = of_refs(0, NULL, 0);
    is_accepted("a root that ends with the image", root, LIMIT, 1);
    is_unsound("1 Outside: one byte too far", built_len - 23, LIMIT, MDF_REFUSED_OUTSIDE, built_len - 23);
    is_unsound("1 Outside: the largest address", UINT64_MAX, LIMIT, MDF_REFUSED_OUTSIDE, UINT64_MAX);
    is_unsound("1 before 3", UINT64_MAX, 0, MDF_REFUSED_OUTSIDE, UINT64_MAX);
    built_len = 0;
    is_unsound("1 Outside: an empty image", 0, LIMIT, MDF_REFUSED_OUTSIDE, 0);
}

static void other_block_cases(void) {
    begin();
    uint64_t words = text("no conversion");
    is_unsound("2 NotConversion", words, LIMIT, MDF_REFUSED_NOT_CONVERSION, words);
    is_unsound("2 before 3", words, 0, MDF_REFUSED_NOT_CONVERSION, words);
}

static void short_cases(void) {
    begin();
    plan damaged = {.kind = 1, .links = UINT64_C(1) << 60};
    uint64_t leaf = block(damaged);
    uint64_t root = of_refs(7, &leaf, 1);
    is_unsound("4 Short: a link count that no image holds", leaf, LIMIT, MDF_REFUSED_SHORT, leaf);
    is_unsound("4 Short: in a nested block", root, LIMIT, MDF_REFUSED_SHORT, leaf);
    is_unsound("3 before 4", leaf, 0, MDF_REFUSED_LIMIT, leaf);
    begin();
    uint64_t cut = of_numbers(1, zero_and_eighth, 2);
    built_len--;
    is_unsound("4 Short: the image ends inside the last value", cut, LIMIT, MDF_REFUSED_SHORT, cut);
}

static void loop_cases(void) {
    begin();
    uint64_t self = built_len;
    of_refs(7, &self, 1);
    is_unsound("6 Loop: a link to itself", self, LIMIT, MDF_REFUSED_LOOP, self);
    is_unsound("6 Loop: even with the limit used up", self, 1, MDF_REFUSED_LOOP, self);
}

static void formula_cases(void) {
    static const uint64_t masks[] = {3, 12};
    begin();
    uint64_t formula = of_refs(3, NULL, 0);
    is_refused("7 Formula", formula, ROOM, of_unsigned(5), MDF_REFUSED_FORMULA, 1, 1);
    is_refused("7 before 8", formula, 0, of_float(5), MDF_REFUSED_FORMULA, 1, 1);
    is_unchanged("a formula leaves a text unchanged", formula, of_text("no signal"));
    is_unchanged("a formula leaves a value of kind other unchanged", formula, other);
    uint64_t groups_of[] = {formula, formula};
    uint64_t groups = of_words(11, groups_of, 2, masks, 2);
    is_refused("7 Formula: M counts up to and with the formula", groups, ROOM, of_unsigned(6), MDF_REFUSED_FORMULA, 3, 2);
}

/* ---- text conversions ---- */

static void text_cases(void) {
    static const double numbers[] = {0, 1, -1};
    begin();
    uint64_t keys[] = {text("off"), text("on")};
    uint64_t lamp = of_values(9, keys, 2, numbers, 3), no_default = of_values(9, keys, 2, numbers, 1);
    gives_number("text to value, a text that is there", lamp, of_text("on"), 1);
    gives_number("text to value, the default", lamp, of_text("blink"), -1);
    is_unknown("text to value, no value for the text", no_default, of_text("on"));
    is_unknown("text to value, no default", no_default, of_text("blink"));
    is_unchanged("text to value, a number", lamp, of_unsigned(1));
    is_unchanged("text to value, a value of kind other", lamp, other);
    is_unchanged("an unknown type", of_refs(42, NULL, 0), of_unsigned(1));
    is_unchanged("identity", of_refs(0, NULL, 0), of_float(-0.0));
}

/* Translates, and compares the answer with a part of the image, or with the question where `from` is 0. */
static void translates(const char *name, uint64_t address, const char *question, uint64_t from, uint64_t length) {
    uint8_t *image = lent_image(), *lent = lent_text(question);
    mdf_shown shown = mdf_translate(image, built_len, address, LIMIT, lent, strlen(question));
    expect(shown.from_image == (from ? 1u : 0u) && shown.start == from && shown.length == length, name);
    free(lent);
    give_back_image(image, name);
}

static void translation_cases(void) {
    begin();
    uint64_t e1 = text("E1"), low = text("oil pressure low"), e2 = text("E2"), none = text(""), rest = text("fault not known");
    uint64_t with_default[] = {e1, low, e2, none, rest}, without[] = {e1, low, e2, none, 0};
    uint64_t fault = of_refs(10, with_default, 5), no_default = of_refs(10, without, 5);
    gives_text("text to text, a key", fault, of_text("E1"), "oil pressure low", 1, 1);
    gives_text("text to text, the default", fault, of_text("E9"), "fault not known", 1, 1);
    is_refused("text to text, no room", fault, 15, of_text("E1"), MDF_REFUSED_ROOM, 1, 1);
    translates("translate a key", fault, "E1", low + 24, 16);
    translates("translate a key to the empty text", fault, "E2", none + 24, 0);
    translates("translate by the default", fault, "E9", rest + 24, 15);
    translates("translate the empty question", fault, "", rest + 24, 15);
    translates("translate with no default", no_default, "E9", 0, 2);
    translates("translate by a root of another type", of_refs(9, with_default, 5), "E1", 0, 2);
    translates("translate where the check refuses", UINT64_MAX, "E1", 0, 2);
    translates("translate the empty question where the check refuses", UINT64_MAX, "", 0, 0);
}

/* ---- parsing and writing ---- */

static bool same_block(mdf_block a, mdf_block b) {
    return a.length == b.length && a.links == b.links && a.name == b.name && a.unit == b.unit && a.comment == b.comment &&
           a.inverse == b.inverse && same_double(a.range_min, b.range_min) && same_double(a.range_max, b.range_max) &&
           a.min_word == b.min_word && a.max_word == b.max_word && a.excess == b.excess && a.reserved == b.reserved && a.flags == b.flags &&
           a.ref_count == b.ref_count && a.val_count == b.val_count && a.kind == b.kind && a.precision == b.precision && a.ranged == b.ranged;
}

typedef mdf_parsed (*parser)(const uint8_t *image, size_t image_len, uint64_t address);

static void parses(const char *name, parser parse, uint64_t address, mdf_parsed wanted) {
    uint8_t *image = lent_image();
    mdf_parsed p = parse(image, built_len, address);
    expect(p.refusal == wanted.refusal && p.address == wanted.address && same_block(p.block, wanted.block), name);
    give_back_image(image, name);
}

/* Refused without the padding and with it. */
static void parse_is_refused(const char *name, uint64_t address, uint32_t refusal) {
    mdf_parsed wanted = {.refusal = refusal, .address = address};
    parses(name, mdf_parse, address, wanted);
    parses(name, mdf_parse_kept, address, wanted);
}

static void parse_refusals(void) {
    begin();
    plan damaged = {.kind = 1, .links = UINT64_MAX};
    uint64_t words = text("no conversion"), leaf = block(damaged);
    parse_is_refused("parse: 1 Outside", built_len, MDF_REFUSED_OUTSIDE);
    parse_is_refused("parse: 2 NotConversion", words, MDF_REFUSED_NOT_CONVERSION);
    parse_is_refused("parse: 4 Short", leaf, MDF_REFUSED_SHORT);
}

static const uint64_t some_refs[] = {0x1112131415161718, 0, UINT64_MAX};
static const uint64_t some_words[] = {0x7ff0000000000001, 0x3fe0000000000000};

/* A block with every field of its own. The first range bound is a NaN with a word of its own, the second has a word that does not count. */
static mdf_block all_fields(void) {
    mdf_block b = {.length = 1,
                   .links = 2,
                   .name = 0x0102030405060708,
                   .unit = 0x1112131415161718,
                   .comment = 0x2122232425262728,
                   .inverse = 0x3132333435363738,
                   .range_min = NAN,
                   .range_max = -2.5,
                   .min_word = 0xfff8000000000123,
                   .max_word = 3,
                   .flags = 0x4142,
                   .ref_count = 0x5152,
                   .val_count = 0x6162,
                   .kind = 8,
                   .precision = 9,
                   .ranged = 1};
    return b;
}

#define READ (64 + 8 * (COUNT_OF(some_refs) + COUNT_OF(some_words))) /* bytes of a block with these, but for a range and an excess */

/* The bytes of a block with some_refs and some_words, and of its range and its excess, if it has them. Answers its address. */
static uint64_t put_block(mdf_block b) {
    uint64_t address = built_len;
    put_header("##CC", READ + (b.ranged ? 16 : 0) + b.excess, 4 + COUNT_OF(some_refs));
    put_at(address + 4, b.reserved, 4);
    put(b.name, 8);
    put(b.unit, 8);
    put(b.comment, 8);
    put(b.inverse, 8);
    for (size_t i = 0; i < COUNT_OF(some_refs); i++) put(some_refs[i], 8);
    put(b.kind, 1);
    put(b.precision, 1);
    put(b.flags, 2);
    put(b.ref_count, 2);
    put(COUNT_OF(some_words), 2);
    if (b.ranged) put(b.min_word, 8);
    if (b.ranged) put(bits(b.range_max), 8);
    for (size_t i = 0; i < COUNT_OF(some_words); i++) put(some_words[i], 8);
    for (uint64_t i = 0; i < b.excess; i++) put(0, 1);
    return address;
}

/* The block alone, from byte 0 on. */
static void build_block(mdf_block b) {
    begin();
    built_len = 0;
    put_block(b);
}

static void build_all_fields(void) { build_block(all_fields()); }

/* With some_refs and some_words. What was built is what is to be written. */
static void writes(const char *name, mdf_block b, size_t room, uint32_t refusal) {
    uint8_t *out = lent_out(room);
    mdf_written w = mdf_write(b, some_refs, COUNT_OF(some_refs), some_words, COUNT_OF(some_words), out, room);
    size_t length = refusal ? 0 : built_len;
    expect(w.refusal == refusal && w.length == length && holds(out, room, built, length), name);
    give_back_out(out);
}

/* Any number but 0 says that there is a range. */
static void writes_with_ranged(const char *name, uint8_t ranged) {
    mdf_block b = all_fields();
    b.ranged = ranged;
    writes(name, b, built_len, 0);
}

/* What parsing such a block answers: every field, the two counts and the block length as written. The padding with them, where it is kept. */
static mdf_block as_written(mdf_block b) {
    b.length = READ + (b.ranged ? 16 : 0) + b.excess;
    b.links = 7;
    b.val_count = 2;
    b.max_word = bits(b.range_max);
    if (!b.ranged) b.range_min = b.range_max = 0;
    if (!b.ranged) b.min_word = b.max_word = 0;
    return b;
}

/* Parsed with its padding to this block, and without it to the same without. */
static void parses_to(const char *name, uint64_t address, mdf_block wanted) {
    mdf_parsed kept = {.block = wanted}, plain = kept;
    plain.block.reserved = 0;
    plain.block.excess = 0;
    parses(name, mdf_parse_kept, address, kept);
    parses(name, mdf_parse, address, plain);
}

/* Writes what was parsed with its padding, with the references and the words that are read by place: the block's bytes come back. */
static void comes_back(const char *name, uint64_t address, size_t length) {
    uint64_t refs[COUNT_OF(some_refs)], words[COUNT_OF(some_words)];
    uint8_t *image = lent_image(), *out = lent_out(length);
    mdf_parsed p = mdf_parse_kept(image, built_len, address);
    for (size_t i = 0; i < COUNT_OF(refs); i++) refs[i] = mdf_reference(image, built_len, address, i).word;
    for (size_t i = 0; i < COUNT_OF(words); i++) words[i] = mdf_value_word(image, built_len, address, i).word;
    mdf_written w = mdf_write(p.block, refs, COUNT_OF(refs), words, COUNT_OF(words), out, length);
    expect(p.refusal == 0 && w.refusal == 0 && w.length == length && holds(out, length, built + address, length), name);
    give_back_image(image, name);
    give_back_out(out);
}

static void write_cases(void) {
    build_all_fields();
    writes("write a block with every field, room to spare", all_fields(), built_len + 9, 0);
    writes("write a block with every field, just enough room", all_fields(), built_len, 0);
    writes("write: 8 Room, one byte short", all_fields(), built_len - 1, MDF_REFUSED_ROOM);
    writes("write: 8 Room, no room", all_fields(), 0, MDF_REFUSED_ROOM);
    writes_with_ranged("write: ranged 2 counts as 1", 2);
    writes_with_ranged("write: ranged 128 counts as 1", 128);
    writes_with_ranged("write: ranged 255 counts as 1", 255);
    parses_to("parse what was written", 0, as_written(all_fields()));
    comes_back("write what was parsed", 0, built_len);
}

/* No references, no values and no range: 64 bytes, with empty slices. */
static void write_smallest(void) {
    uint64_t nothing = 0;
    mdf_block b = {.range_min = 1, .range_max = 2, .min_word = 3, .max_word = 4, .ranged = 0};
    uint8_t *out = lent_out(ROOM);
    begin();
    uint64_t address = of_refs(0, NULL, 0);
    mdf_written w = mdf_write(b, &nothing, 0, &nothing, 0, out, ROOM);
    expect(w.refusal == 0 && w.length == 64 && holds(out, ROOM, built + address, 64), "write the smallest block");
    give_back_out(out);
}

static void *zeros(size_t bytes) {
    return memset(taken(bytes), 0, bytes);
}

/* Writes so many values, each of them 0, in a block of which only padding and range are given, this one of zeros too. */
static void writes_so_many(const char *name, mdf_block b, size_t values, size_t room, uint32_t refusal) {
    size_t length = refusal ? 0 : 64 + (b.ranged ? 16 : 0) + 8 * values + b.excess;
    uint64_t nothing = 0, *words = zeros(8 * values);
    uint8_t *out = lent_out(room), *wanted = zeros(length);
    if (!refusal) {
        begin();
        built_len = 0;
        put_header("##CC", length, 4);
        put_at(4, b.reserved, 4);
        put_at(62, values, 2);
        memcpy(wanted, built, 64);
    }
    mdf_written w = mdf_write(b, &nothing, 0, words, values, out, room);
    expect(w.refusal == refusal && w.length == length && holds(out, room, wanted, length), name);
    free(wanted);
    free(words);
    give_back_out(out);
}

static void write_counts(void) {
    static const mdf_block b;
    writes_so_many("write 65,535 values", b, 65535, 64 + 8 * 65535, 0);
    writes_so_many("write 65,536 values: 9 Count", b, 65536, 64 + 8 * 65536, MDF_REFUSED_COUNT);
    writes_so_many("9 before 8", b, 65536, 0, MDF_REFUSED_COUNT);
    writes_so_many("write 65,535 values: 8 Room", b, 65535, 64 + 8 * 65535 - 1, MDF_REFUSED_ROOM);
}

/* ---- reading by place ---- */

typedef mdf_word (*reader)(const uint8_t *image, size_t image_len, uint64_t address, uint64_t index);

static void reads(const char *name, reader read, uint64_t address, uint64_t index, mdf_word wanted) {
    uint8_t *image = lent_image();
    mdf_word w = read(image, built_len, address, index);
    expect(w.refusal == wanted.refusal && w.found == wanted.found && w.address == wanted.address && w.word == wanted.word, name);
    give_back_image(image, name);
}

static void finds(const char *name, reader read, uint64_t address, uint64_t index, uint64_t word) {
    mdf_word wanted = {.found = 1, .word = word};
    reads(name, read, address, index, wanted);
}

/* No place at `count`, nor further on: not at 2^61 either, which times 8 wraps to 0, the first place. */
static void ends_at(const char *name, reader read, uint64_t address, uint64_t count) {
    static const mdf_word none;
    reads(name, read, address, count, none);
    reads(name, read, address, count + 65536, none);
    reads(name, read, address, UINT64_C(1) << 61, none);
    reads(name, read, address, UINT64_MAX, none);
}

/* Refused alike for an index that the block would have and for one that no block has. */
static void reading_is_refused(const char *name, uint64_t address, uint32_t refusal) {
    mdf_word wanted = {.refusal = refusal, .address = address};
    reads(name, mdf_reference, address, 0, wanted);
    reads(name, mdf_reference, address, UINT64_MAX, wanted);
    reads(name, mdf_value_word, address, 0, wanted);
    reads(name, mdf_value_word, address, UINT64_MAX, wanted);
}

static void place_refusals(void) {
    begin();
    plan damaged = {.kind = 1, .links = UINT64_MAX};
    uint64_t words = text("no conversion"), leaf = block(damaged);
    reading_is_refused("by place: 1 Outside, one byte too far", built_len - 23, MDF_REFUSED_OUTSIDE);
    reading_is_refused("by place: 1 Outside, the largest address", UINT64_MAX, MDF_REFUSED_OUTSIDE);
    reading_is_refused("by place: 2 NotConversion", words, MDF_REFUSED_NOT_CONVERSION);
    reading_is_refused("by place: 4 Short, a link count that no image holds", leaf, MDF_REFUSED_SHORT);
    build_all_fields();
    built_len--;
    reading_is_refused("by place: 4 Short, the image ends inside the last value", 0, MDF_REFUSED_SHORT);
    built_len = 0;
    reading_is_refused("by place: 1 Outside, an empty image", 0, MDF_REFUSED_OUTSIDE);
}

/* The references and the values of a block that some_refs and some_words were built into. */
static void reads_all(const char *name, uint64_t address) {
    for (size_t i = 0; i < COUNT_OF(some_refs); i++) finds(name, mdf_reference, address, i, some_refs[i]);
    for (size_t i = 0; i < COUNT_OF(some_words); i++) finds(name, mdf_value_word, address, i, some_words[i]);
    ends_at(name, mdf_reference, address, COUNT_OF(some_refs));
    ends_at(name, mdf_value_word, address, COUNT_OF(some_words));
}

static void place_cases(void) {
    begin();
    uint64_t between = of_words(8, some_refs, COUNT_OF(some_refs), some_words, COUNT_OF(some_words));
    text("more of the image");
    reads_all("by place: a block with more behind it", between);
    uint64_t empty = of_refs(0, NULL, 0);
    ends_at("by place: no references", mdf_reference, empty, 0);
    ends_at("by place: no values", mdf_value_word, empty, 0);
    build_all_fields();
    reads_all("by place: the values stand behind the range, the count of links decides", 0);
}

/* ---- request [11]: fewer than four links ---- */

#define FEWEST 4 /* links that a block can have */

/* Sets the link count in a block's header, and nothing else. */
static void set_links(uint64_t address, uint64_t links) {
    put_at(address + 16, links, 8);
}

/* Refused by what reads the block alone, and by what checks it first: the type 10 entry then shows the question. */
static void is_refused_alone(const char *name, uint64_t address, uint32_t refusal) {
    parse_is_refused(name, address, refusal);
    reading_is_refused(name, address, refusal);
    is_unsound(name, address, LIMIT, refusal, address);
    translates(name, address, "E1", 0, 2);
}

/* A block of each type, the same bytes but for the link count. */
static void few_links_cases(void) {
    for (uint8_t kind = 0; kind <= 12; kind++) {
        begin();
        uint64_t address = of_numbers(kind, pairs, 6);
        for (uint64_t links = 0; links < FEWEST; links++) {
            set_links(address, links);
            is_refused_alone("18 FewLinks: 0 to 3 links, whatever the type", address, MDF_REFUSED_FEW_LINKS);
        }
        set_links(address, FEWEST);
        is_accepted("4 links are taken", address, LIMIT, 1);
        ends_at("4 links: no reference", mdf_reference, address, 0);
        finds("4 links: the last value", mdf_value_word, address, 5, bits(60));
    }
}

/* All 64 bits of the count decide, without a sign. */
static void enough_links_cases(void) {
    static const uint64_t nil = 0, top = UINT64_C(1) << 63;
    static const uint64_t large[] = {256, 259, 65536, 65539, UINT64_C(1) << 32, (UINT64_C(1) << 32) + 3, top, top + 3, UINT64_MAX - 3, UINT64_MAX};
    begin();
    uint64_t four = of_numbers(1, zero_and_eighth, 2), five = of_values(1, &nil, 1, zero_and_eighth, 2);
    gives_number("4 links: applied", four, of_signed(-3), -0.375);
    gives_number("5 links: applied", five, of_signed(-3), -0.375);
    finds("5 links: one reference", mdf_reference, five, 0, nil);
    ends_at("5 links: no more references", mdf_reference, five, 1);
    finds("5 links: the last value", mdf_value_word, five, 1, bits(0.125));
    for (size_t i = 0; i < COUNT_OF(large); i++) {
        set_links(four, large[i]);
        is_refused_alone("4 Short: a large link count, whatever its low bytes", four, MDF_REFUSED_SHORT);
    }
}

/* Below a root of each type, and two levels down: the check walks every reference, whatever the types are. */
static void few_links_below_cases(void) {
    static const uint8_t kinds[] = {0, 1, 3, 7, 8, 9, 10, 11, 42};
    for (size_t i = 0; i < COUNT_OF(kinds); i++) {
        begin();
        uint64_t leaf = of_numbers(1, zero_and_eighth, 2);
        uint64_t above = of_refs(kinds[i], &leaf, 1), top = of_refs(kinds[i], &above, 1);
        for (uint64_t links = 0; links < FEWEST; links++) {
            set_links(leaf, links);
            is_unsound("18 FewLinks: in a nested block", above, LIMIT, MDF_REFUSED_FEW_LINKS, leaf);
            is_unsound("18 FewLinks: two levels down", top, LIMIT, MDF_REFUSED_FEW_LINKS, leaf);
        }
        set_links(leaf, FEWEST);
        is_accepted("4 links in a nested block", above, LIMIT, 2);
        is_accepted("4 links two levels down", top, LIMIT, 3);
    }
}

/* A block that applying would not reach refuses all the same. */
static void few_links_before_applying_cases(void) {
    static const double key = 1;
    begin();
    uint64_t words = text("on"), leaf = of_refs(0, NULL, 0), formula = of_refs(3, &leaf, 1);
    uint64_t shown[] = {words, leaf}, stopped[] = {formula, leaf};
    uint64_t by_text = of_values(7, shown, 2, &key, 1), by_formula = of_values(7, stopped, 2, &key, 1);
    gives_text("a text beside a block with 4 links", by_text, of_unsigned(1), "on", 2, 1);
    is_refused("no room beside a block with 4 links", by_text, 1, of_unsigned(1), MDF_REFUSED_ROOM, 2, 1);
    is_refused("a formula beside a block with 4 links", by_formula, ROOM, of_unsigned(1), MDF_REFUSED_FORMULA, 4, 2);
    set_links(leaf, 3);
    is_unsound("18 where a text would be chosen", by_text, LIMIT, MDF_REFUSED_FEW_LINKS, leaf);
    is_unsound("18 before 7", by_formula, LIMIT, MDF_REFUSED_FEW_LINKS, leaf);
    const mdf_applied refused = {.refusal = MDF_REFUSED_FEW_LINKS, .kind = MDF_KIND_REFUSED, .address = leaf};
    applies_within("18 before 8", by_text, LIMIT, 1, of_unsigned(1), refused, "");
    applies_within("18 before 7 and 8", by_formula, LIMIT, 0, of_unsigned(1), refused, "");
}

/* The type 10 entry names no refusal: it shows the question. */
static void few_links_translation_cases(void) {
    begin();
    uint64_t e1 = text("E1"), low = text("oil pressure low"), leaf = of_refs(1, NULL, 0), middle = of_refs(7, &leaf, 1);
    uint64_t near[] = {e1, low, leaf}, far[] = {e1, low, middle};
    uint64_t above = of_refs(10, near, 3), top = of_refs(10, far, 3);
    translates("translate above a block with 4 links", above, "E1", low + 24, 16);
    translates("translate two levels above a block with 4 links", top, "E1", low + 24, 16);
    for (uint64_t links = 0; links < FEWEST; links++) {
        set_links(leaf, links);
        translates("translate above a block with fewer than 4 links", above, "E1", 0, 2);
        translates("translate two levels above a block with fewer than 4 links", top, "E1", 0, 2);
        is_unsound("18 two levels below a text to text", top, LIMIT, MDF_REFUSED_FEW_LINKS, leaf);
    }
    set_links(leaf, FEWEST);
    translates("translate with 7 links", above, "E1", low + 24, 16);
    set_links(above, 3);
    translates("translate with fewer than 4 links", above, "E1", 0, 2);
}

/* A visit is begun before the link count is looked at. */
static void few_links_limit_cases(void) {
    begin();
    uint64_t leaf = of_numbers(1, zero_and_eighth, 2), few = of_numbers(1, zero_and_eighth, 2);
    uint64_t middle = of_refs(7, &few, 1), root = of_refs(7, &middle, 1);
    set_links(few, 3);
    is_unsound("limit 0, the root has few links: 3 Limit", few, 0, MDF_REFUSED_LIMIT, few);
    is_unsound("limit 1, the root has few links: 18", few, 1, MDF_REFUSED_FEW_LINKS, few);
    is_unsound("limit used up before a nested block: 3 Limit", middle, 1, MDF_REFUSED_LIMIT, few);
    is_unsound("one visit more: 18", middle, 2, MDF_REFUSED_FEW_LINKS, few);
    is_unsound("limit used up two levels down: 3 Limit", root, 2, MDF_REFUSED_LIMIT, few);
    is_unsound("one visit more two levels down: 18", root, 3, MDF_REFUSED_FEW_LINKS, few);
    is_unsound("limit used up one block before: 3 Limit there", root, 1, MDF_REFUSED_LIMIT, middle);
    uint64_t twice[] = {leaf, leaf};
    uint64_t pair = of_refs(8, twice, 2);
    uint64_t behind[] = {pair, pair, few};
    uint64_t top = of_refs(8, behind, 3); /* 1 + 3 + 3 visits before the block with few links */
    is_unsound("limit 6, behind two pairs: 3 Limit in the second", top, 6, MDF_REFUSED_LIMIT, leaf);
    is_unsound("limit 7, behind two pairs: 3 Limit", top, 7, MDF_REFUSED_LIMIT, few);
    is_unsound("limit 8, behind two pairs: 18", top, 8, MDF_REFUSED_FEW_LINKS, few);
    is_unsound("the largest limit, behind two pairs: 18", top, UINT32_MAX, MDF_REFUSED_FEW_LINKS, few);
}

static void few_links_depth_cases(void) {
    uint64_t last, root = row(21, 1, &last);
    for (uint64_t links = 0; links < FEWEST; links++) {
        set_links(last, links);
        is_unsound("depth 20, few links: 18", root, LIMIT, MDF_REFUSED_FEW_LINKS, last);
    }
    is_unsound("depth 20, few links, the limit used up: 3 Limit", root, 20, MDF_REFUSED_LIMIT, last);
    is_unsound("depth 20, few links, one visit more: 18", root, 21, MDF_REFUSED_FEW_LINKS, last);
    root = row(22, 1, &last);
    is_unsound("depth 21, 4 links: 5 Deep", root, LIMIT, MDF_REFUSED_DEEP, last);
    for (uint64_t links = 0; links < FEWEST; links++) {
        set_links(last, links);
        is_unsound("depth 21, few links: 18 before 5", root, LIMIT, MDF_REFUSED_FEW_LINKS, last);
    }
    is_unsound("depth 21, few links, the limit used up: 3 Limit", root, 21, MDF_REFUSED_LIMIT, last);
    is_unsound("depth 21, few links, one visit more: 18", root, 22, MDF_REFUSED_FEW_LINKS, last);
    built[last + 63] = 0xff; /* more values than the image holds */
    is_unsound("depth 21, few links and short: 18 before 4 and 5", root, LIMIT, MDF_REFUSED_FEW_LINKS, last);
    set_links(last, FEWEST);
    is_unsound("depth 21, 4 links and short: 4 before 5", root, LIMIT, MDF_REFUSED_SHORT, last);
}

/* The last block of an image that ends inside it, behind the block that leads to it. */
static void few_links_short_cases(void) {
    static const size_t bytes[] = {24, 25, 31, 32, 55, 56, 62, 63, 64, 72, 79};
    begin();
    uint64_t cut = built_len + 72, root = of_refs(7, &cut, 1);
    of_numbers(1, zero_and_eighth, 2);
    for (size_t i = 0; i < COUNT_OF(bytes); i++) {
        built_len = cut + bytes[i];
        for (uint64_t links = 0; links < FEWEST; links++) {
            set_links(cut, links);
            is_refused_alone("few links and short: 18 before 4", cut, MDF_REFUSED_FEW_LINKS);
            is_unsound("few links and short, nested: 18 before 4", root, LIMIT, MDF_REFUSED_FEW_LINKS, cut);
        }
        set_links(cut, FEWEST);
        is_refused_alone("4 links and short: 4 Short", cut, MDF_REFUSED_SHORT);
        is_unsound("4 links and short, nested: 4 Short", root, LIMIT, MDF_REFUSED_SHORT, cut);
    }
    set_links(cut, 3);
    built_len = cut + 23;
    is_refused_alone("few links, the header passes the image: 1 Outside", cut, MDF_REFUSED_OUTSIDE);
    is_accepted("few links, the header passes the image, nested: no visit", root, LIMIT, 1);
}

/* Only a ##CC block that the check walks, or that is asked for, needs four links. */
static void few_links_elsewhere_cases(void) {
    static const uint64_t mask = 3;
    begin();
    uint64_t stranger = of_refs(1, NULL, 0), root = of_refs(7, &stranger, 1);
    built[stranger + 3] = 'D';
    set_links(stranger, 3);
    is_refused_alone("another id and few links: 2 NotConversion", stranger, MDF_REFUSED_NOT_CONVERSION);
    is_unsound("another id and few links, limit 0: 2 NotConversion", stranger, 0, MDF_REFUSED_NOT_CONVERSION, stranger);
    is_accepted("another id and few links, nested: no visit", root, LIMIT, 1);
    uint64_t few = of_refs(7, NULL, 0), on = text("on");
    set_links(few, 3);
    plan named = {.kind = 8, .name = few, .refs = &on, .ref_count = 1};
    uint64_t shown = block(named), groups = of_words(11, &shown, 1, &mask, 1);
    for (uint64_t place = shown + 32; place < shown + 56; place += 8) memcpy(built + place, built + shown + 24, 8); /* unit, comment, inverse */
    is_accepted("few links behind the fixed links: not walked", groups, LIMIT, 2);
    applies("few links behind the name link: no name", groups, of_unsigned(1), consulted(a_text("on", 2, 2)), "on");
}

/* Of two faults the first in walking order is given. */
static void few_links_order_cases(void) {
    uint64_t deepest, chain = row(21, 1, &deepest); /* one level too many below another block */
    uint64_t few = of_refs(7, NULL, 0), second = of_refs(7, NULL, 0), sound = of_refs(7, NULL, 0), words = text("on");
    plan damaged = {.kind = 1, .links = UINT64_C(1) << 60};
    uint64_t cut = block(damaged), inner = of_refs(7, &few, 1);
    set_links(few, 3);
    set_links(second, 0);
    const uint64_t faults[] = {cut, chain, second}, places[] = {cut, deepest, second};
    static const uint32_t refusals[] = {MDF_REFUSED_SHORT, MDF_REFUSED_DEEP, MDF_REFUSED_FEW_LINKS};
    for (size_t i = 0; i < COUNT_OF(faults); i++) {
        uint64_t before[] = {faults[i], inner}, behind[] = {inner, faults[i]};
        is_unsound("a fault before a block with few links: met first", of_refs(7, before, 2), LIMIT, refusals[i], places[i]);
        is_unsound("a fault behind a block with few links: not met", of_refs(7, behind, 2), LIMIT, MDF_REFUSED_FEW_LINKS, few);
    }
    uint64_t own = built_len, loop_first[] = {own, inner};
    is_unsound("a loop before a block with few links: 6 Loop", of_refs(7, loop_first, 2), LIMIT, MDF_REFUSED_LOOP, own);
    own = built_len;
    uint64_t loop_last[] = {inner, own}, harmless[] = {0, words, UINT64_MAX, sound, sound, few};
    is_unsound("a loop behind a block with few links: 18", of_refs(7, loop_last, 2), LIMIT, MDF_REFUSED_FEW_LINKS, few);
    is_unsound("no fault before a block with few links: 18", of_refs(7, harmless, 6), LIMIT, MDF_REFUSED_FEW_LINKS, few);
    own = built_len;
    of_refs(7, &own, 1);
    is_unsound("a link to itself, 5 links: 6 Loop", own, LIMIT, MDF_REFUSED_LOOP, own);
    set_links(own, 3);
    is_unsound("a link to itself, 3 links: 18, and no reference is looked at", own, LIMIT, MDF_REFUSED_FEW_LINKS, own);
}

/* ---- request [6]: the padding kept ---- */

static const uint64_t excesses[] = {0, 1, 7, 8, 15, 16, 17, 4096};
static const uint32_t reserved_bytes[] = {0, 1, 0x04030201, 0x80000000, 0xffffffff};

#define ENOUGH 16 /* bytes of excess that are read as a range, where there is none */

static mdf_block padded(uint32_t reserved, uint64_t excess, uint8_t ranged) {
    mdf_block b = all_fields();
    b.reserved = reserved;
    b.excess = excess;
    b.ranged = ranged;
    return b;
}

/* Asks of each block that can be padded: with and without a range, with each excess and with some reserved bytes. */
static void each_padded(void (*ask)(mdf_block)) {
    for (size_t i = 0; i < COUNT_OF(excesses); i++) {
        for (size_t k = 0; k < COUNT_OF(reserved_bytes); k++) {
            ask(padded(reserved_bytes[k], excesses[i], 1));
            if (excesses[i] < ENOUGH) ask(padded(reserved_bytes[k], excesses[i], 0));
        }
    }
}

/* Written with room enough and refused without, and parsed back to every field. */
static void is_written_and_parsed(mdf_block b) {
    build_block(b);
    writes("padding: just enough room", b, built_len, 0);
    writes("padding: room to spare", b, built_len + 40, 0);
    writes("padding: 8 Room, one byte short", b, built_len - 1, MDF_REFUSED_ROOM);
    if (b.excess) writes("padding: 8 Room, room for all but the excess", b, built_len - b.excess, MDF_REFUSED_ROOM);
    writes("padding: 8 Room, no room", b, 0, MDF_REFUSED_ROOM);
    parses_to("padding: parse what was written", 0, as_written(b));
    comes_back("padding: write what was parsed", 0, built_len);
    reads_all("padding: by place", 0);
}

/* Between other bytes, at an odd address. */
static void is_parsed_between(mdf_block b) {
    begin();
    text("before");
    built_len += 3;
    uint64_t address = put_block(b);
    size_t length = built_len - address;
    for (int i = 0; i < 24; i++) put(0xff, 1);
    parses_to("padding: between other bytes", address, as_written(b));
    comes_back("padding: between other bytes, written again", address, length);
    reads_all("padding: between other bytes, by place", address);
}

/* The image ends inside the excess: that matters to the mode that keeps it, and to no other call. */
static void ends_inside_excess(mdf_block b) {
    begin();
    uint64_t address = put_block(b);
    size_t end = built_len, read = end - b.excess;
    mdf_parsed plain = {.block = as_written(b)}, refused = {.refusal = MDF_REFUSED_SHORT, .address = address};
    plain.block.reserved = 0;
    plain.block.excess = 0;
    parses_to("excess up to the image end", address, as_written(b));
    for (size_t cut = 1; cut <= b.excess; cut += cut < 20 ? 1 : 97) {
        built_len = end - cut;
        parses("4 Short: the excess passes the image end", mdf_parse_kept, address, refused);
        parses("the excess passes the image end, without the padding", mdf_parse, address, plain);
        is_accepted("the excess passes the image end: the check", address, LIMIT, 1);
    }
    built_len = read;
    reads_all("the excess passes the image end: by place", address);
    built_len = read - 1;
    parse_is_refused("4 Short: the image ends inside the last value", address, MDF_REFUSED_SHORT);
}

/* What the excess bytes hold is not looked at, and is not kept: they are written as zeros. */
static void excess_is_not_zero(mdf_block b) {
    static const uint8_t fills[] = {1, 0x80, 0xff};
    for (size_t i = 0; i < COUNT_OF(fills); i++) {
        build_block(b);
        memset(built + built_len - b.excess, fills[i], b.excess);
        parses_to("excess bytes that are not zero", 0, as_written(b));
        memset(built + built_len - b.excess, 0, b.excess);
        writes("excess bytes that were not zero, written as zeros", as_written(b), built_len, 0);
    }
}

/* With room for it or without, 16 bytes or more without a range are refused. Any number but 0 says that there is one. */
static void padding_refusals(void) {
    static const uint8_t ranged[] = {2, 128, 255};
    for (size_t i = 0; i < COUNT_OF(excesses); i++) {
        if (excesses[i] < ENOUGH) continue;
        mdf_block b = padded(0xffffffff, excesses[i], 0);
        const size_t rooms[] = {0, READ - 1, READ, READ + 16, READ + excesses[i] - 1, READ + excesses[i], READ + excesses[i] + 17};
        for (size_t k = 0; k < COUNT_OF(rooms); k++) writes("23 Padding: no range", b, rooms[k], MDF_REFUSED_PADDING);
        build_block(padded(0xffffffff, excesses[i], 1));
        for (size_t k = 0; k < COUNT_OF(ranged); k++) {
            b.ranged = ranged[k];
            writes("padding: any number but 0 is a range", b, built_len, 0);
            writes("padding: any number but 0 is a range, 8 Room", b, built_len - 1, MDF_REFUSED_ROOM);
        }
    }
}

/* Of a block without a range that had 16 bytes of excess or more the first two values are read as a range, and the excess as values. */
static void excess_read_as_range(void) {
    for (uint64_t more = 0; more < 20; more++) {
        build_block(padded(0x04030201, ENOUGH + more, 0));
        mdf_block wanted = as_written(padded(0x04030201, more, 1));
        wanted.min_word = some_words[0]; /* a NaN, as the range of all_fields has */
        wanted.max_word = some_words[1];
        wanted.range_max = 0.5;
        parses_to("16 bytes of excess are a range", 0, wanted);
        finds("16 bytes of excess are a range: the values behind it", mdf_value_word, 0, 0, 0);
        finds("16 bytes of excess are a range: the last value", mdf_value_word, 0, 1, 0);
        comes_back("16 bytes of excess are a range: written again", 0, built_len);
    }
}

/* A block length below the bytes read leaves no excess. The reserved bytes are kept, and the length becomes that of what is written. */
static void small_lengths(void) {
    static const uint64_t lengths[] = {0, 1, 23, 24, 63, 64, READ - 16, READ - 1};
    for (size_t i = 0; i < COUNT_OF(lengths); i++) {
        for (size_t k = 0; k < COUNT_OF(reserved_bytes); k++) {
            mdf_block b = padded(reserved_bytes[k], 0, 0), wanted = as_written(b);
            build_block(b);
            wanted.length = lengths[i];
            put_at(8, lengths[i], 8);
            parses_to("a block length below the bytes read", 0, wanted);
            put_at(8, READ, 8);
            writes("a block length below the bytes read, written again", wanted, built_len, 0);
        }
    }
}

/* No sum of address, bytes read and excess may wrap: 2^64 - address leads back to byte 0, and a little more into the block. */
static void huge_lengths(void) {
    static const uint64_t places[] = {0, 1, 64, 4099};
    for (size_t i = 0; i < COUNT_OF(places); i++) {
        begin();
        built_len = places[i];
        mdf_block b = padded(0x04030201, 0, 1);
        uint64_t address = put_block(b), back = 0 - address, top = UINT64_C(1) << 63;
        const uint64_t lengths[] = {UINT64_MAX, UINT64_MAX - 7, UINT64_MAX - READ, back - (address == 0), back - 1, back - READ, top, top - 1,
                                    top - address, (UINT64_C(1) << 32) + READ + 16, (UINT64_C(1) << 32) - address, READ + 17};
        mdf_parsed plain = {.block = as_written(b)}, refused = {.refusal = MDF_REFUSED_SHORT, .address = address};
        plain.block.reserved = 0;
        for (size_t k = 0; k < COUNT_OF(lengths); k++) {
            plain.block.length = lengths[k];
            put_at(address + 8, lengths[k], 8);
            parses("4 Short: a huge excess", mdf_parse_kept, address, refused);
            parses("a huge block length, without the padding", mdf_parse, address, plain);
        }
    }
}

/* Nor may a sum of what is to be written: 2^64 less what the block has gives 0, and a little more what fits. */
static void huge_excesses(void) {
    static const uint64_t top = UINT64_C(1) << 63, half = UINT64_C(1) << 32, all = UINT64_MAX;
    const uint64_t huge[] = {all, all - 7, all - 15, all - 16, all - 63, 0 - READ, 1 - READ, 0 - READ - 16, 1 - READ - 16, all / 8,
                             top, top - 1, top - READ, top + 120, half, half + 15, half - READ - 16, (half << 8) + 1};
    static const size_t rooms[] = {0, 1, 15, 16, 64, READ - 1, READ, READ + 15, READ + 16, READ + 17, READ + 32, 4096};
    for (size_t i = 0; i < COUNT_OF(huge); i++) {
        for (size_t k = 0; k < COUNT_OF(rooms); k++) {
            writes("a huge excess: 8 Room", padded(1, huge[i], 1), rooms[k], MDF_REFUSED_ROOM);
            writes("a huge excess and no range: 23 before 8", padded(1, huge[i], 0), rooms[k], MDF_REFUSED_PADDING);
        }
        writes_so_many("a huge excess: 9 before 23 and 8", padded(1, huge[i], 0), 65536, 64, MDF_REFUSED_COUNT);
        writes_so_many("a huge excess and a range: 9 before 8", padded(1, huge[i], 1), 65536, 64, MDF_REFUSED_COUNT);
    }
}

/* The most values, and one more. */
static void padding_and_counts(void) {
    const size_t most = 64 + 8 * 65535;
    const mdf_block below = {.excess = 15, .reserved = 0xffffffff}, enough = {.excess = ENOUGH}, ranged = {.excess = 100000, .ranged = 1};
    writes_so_many("65,535 values and 15 bytes", below, 65535, most + 15, 0);
    writes_so_many("65,535 values and 15 bytes: 8 Room", below, 65535, most + 14, MDF_REFUSED_ROOM);
    writes_so_many("65,535 values and 16 bytes: 23 Padding", enough, 65535, most + 16, MDF_REFUSED_PADDING);
    writes_so_many("65,535 values and 16 bytes, no room: 23 before 8", enough, 65535, 0, MDF_REFUSED_PADDING);
    writes_so_many("65,536 values and 15 bytes: 9 Count", below, 65536, most + 40, MDF_REFUSED_COUNT);
    writes_so_many("65,536 values and 16 bytes: 9 before 23", enough, 65536, most + 40, MDF_REFUSED_COUNT);
    writes_so_many("65,536 values and 16 bytes, no room: 9 before 23 and 8", enough, 65536, 0, MDF_REFUSED_COUNT);
    writes_so_many("65,535 values, a range and 100,000 bytes", ranged, 65535, most + 16 + 100000, 0);
    writes_so_many("65,535 values, a range and 100,000 bytes, room to spare", ranged, 65535, most + 16 + 100040, 0);
    writes_so_many("65,535 values, a range and 100,000 bytes: 8 Room", ranged, 65535, most + 16 + 99999, MDF_REFUSED_ROOM);
    writes_so_many("65,536 values, a range and 100,000 bytes: 9 Count", ranged, 65536, most + 16 + 100040, MDF_REFUSED_COUNT);
}

/* What mdf_parse refuses is refused alike, whatever the excess would be. */
static void kept_refusals(void) {
    static const uint64_t lengths[] = {0, READ + 16, READ + 24, UINT64_MAX};
    for (size_t i = 0; i < COUNT_OF(lengths); i++) {
        build_block(padded(0xffffffff, 8, 1));
        put_at(8, lengths[i], 8);
        for (uint64_t links = 0; links < FEWEST; links++) {
            set_links(0, links);
            parse_is_refused("kept: 18 FewLinks", 0, MDF_REFUSED_FEW_LINKS);
        }
        set_links(0, UINT64_MAX);
        parse_is_refused("kept: 4 Short, a link count that no image holds", 0, MDF_REFUSED_SHORT);
        put_at(2, 'D', 1);
        parse_is_refused("kept: 2 NotConversion", 0, MDF_REFUSED_NOT_CONVERSION);
        for (uint64_t near = 0; near < 24; near++) {
            parse_is_refused("kept: 1 Outside, near the image end", built_len - near, MDF_REFUSED_OUTSIDE);
            parse_is_refused("kept: 1 Outside, the largest addresses", UINT64_MAX - near, MDF_REFUSED_OUTSIDE);
            parse_is_refused("kept: 1 Outside, the middle of all addresses", (UINT64_C(1) << 63) - near, MDF_REFUSED_OUTSIDE);
        }
    }
    built_len = 0;
    parse_is_refused("kept: 1 Outside, an empty image", 0, MDF_REFUSED_OUTSIDE);
}

/* Every word of range and values keeps its bits, NaNs too, in a block of every type. */
static void padding_round_trips(void) {
    static const uint64_t words[] = {0x7ff0000000000001, 0x7ff8000000000000, 0x7fffffffffffffff, 0xfff0000000000001, 0xfff8000000000123, UINT64_MAX,
                                     0x7ff0000000000000, 0xfff0000000000000, 0x8000000000000000, 1, 0x0102030405060708};
    for (size_t i = 0; i < COUNT_OF(words); i++) {
        for (uint8_t kind = 0; kind <= 12; kind++) {
            uint8_t ranged = kind % 2;
            build_block(padded(0x80018001, ranged ? 24 : 8, ranged));
            put_at(READ - 24, kind, 1);
            for (size_t k = 0; k < COUNT_OF(some_words) + 2 * (size_t)ranged; k++) put_at(READ - 16 + 8 * k, words[(i + k) % COUNT_OF(words)], 8);
            comes_back("a padded block of every type, with every word", 0, built_len);
        }
    }
}

/* What applies the block does not look at its padding. */
static void padding_is_not_applied(void) {
    for (uint64_t excess = 1; excess < ENOUGH; excess++) {
        const uint64_t words[] = {bits(0), bits(0.125)};
        plan linear = {.kind = 1, .words = words, .word_count = 2, .length = 80 + excess};
        begin();
        uint64_t address = block(linear);
        put_at(address + 4, 0xffffffff, 4);
        mdf_parsed refused = {.refusal = MDF_REFUSED_SHORT, .address = address};
        parses("applied: the excess passes the image end", mdf_parse_kept, address, refused);
        gives_number("applied: the excess passes the image end", address, of_signed(-3), -0.375);
        built_len += excess;
        gives_number("applied: the excess lies in the image", address, of_signed(-3), -0.375);
    }
}

static void padding_cases(void) {
    each_padded(is_written_and_parsed);
    each_padded(is_parsed_between);
    each_padded(ends_inside_excess);
    each_padded(excess_is_not_zero);
    padding_refusals();
    excess_read_as_range();
    small_lengths();
    huge_lengths();
    huge_excesses();
    padding_and_counts();
    kept_refusals();
    padding_round_trips();
    padding_is_not_applied();
}

/* ---- request [13]: text blocks ---- */

#define HEADER 24     /* bytes of a block before its text */
#define LONGEST 65536 /* bytes of the longest text */
#define A_THIRD 21845 /* of the way from its first byte to its last */

static const char ids[][5] = {"##TX", "##MD"};

/* The bytes of a block that is to be written, in the request's words: "the 24-byte header with no links, text, one zero byte, then zeros up to a
 * multiple of 8, all in its block length". Answers its address. */
static uint64_t put_text_block(bool metadata, const uint8_t *bytes, size_t length) {
    uint64_t address = built_len;
    put_header(ids[metadata], 0, 0);
    memcpy(built + built_len, bytes, length);
    built_len += length;
    put(0, 1);
    while ((built_len - address) % 8 != 0) put(0, 1);
    put_at(address + 8, built_len - address, 8);
    return address;
}

/* The block alone, from byte 0 on. */
static void build_text_block(bool metadata, const uint8_t *bytes, size_t length) {
    begin();
    built_len = 0;
    put_text_block(metadata, bytes, length);
}

/* What was built is what is to be written. */
static void writes_text(const char *name, bool metadata, const uint8_t *bytes, size_t length, size_t room, uint32_t refusal) {
    uint8_t *lent = memcpy(taken(length), bytes, length), *out = lent_out(room);
    mdf_written w = mdf_text_write(metadata, lent, length, out, room);
    size_t written = refusal ? 0 : built_len;
    expect(w.refusal == refusal && w.length == written && holds(out, room, built, written) && memcmp(lent, bytes, length) == 0, name);
    free(lent);
    give_back_out(out);
}

static bool same_text(mdf_text a, mdf_text b) {
    return a.refusal == b.refusal && a.id == b.id && a.address == b.address && a.start == b.start && a.length == b.length;
}

static void reads_text(const char *name, uint64_t address, mdf_text wanted) {
    uint8_t *image = lent_image();
    expect(same_text(mdf_text_read(image, built_len, address), wanted), name);
    give_back_image(image, name);
}

static mdf_text a_text_block(bool metadata, uint64_t address, uint64_t length) {
    mdf_text t = {.id = metadata ? MDF_MD : MDF_TX, .start = address + HEADER, .length = length};
    return t;
}

static void finds_text(const char *name, bool metadata, uint64_t address, uint64_t length) {
    reads_text(name, address, a_text_block(metadata, address, length));
}

static void text_is_refused(const char *name, uint64_t address, uint32_t refusal) {
    mdf_text wanted = {.refusal = refusal, .address = address};
    reads_text(name, address, wanted);
}

/* Asks of a text of 0 to 17 bytes and of 65,536, with both ids. No byte is zero, and the long one has every other. */
static void each_text(void (*ask)(bool metadata, const uint8_t *bytes, size_t length)) {
    static uint8_t bytes[LONGEST];
    for (size_t i = 0; i < LONGEST; i++) bytes[i] = (uint8_t)(255 - i % 255);
    for (size_t i = 0; i <= 18; i++) {
        ask(false, bytes, i < 18 ? i : LONGEST);
        ask(true, bytes, i < 18 ? i : LONGEST);
    }
}

static void is_written_as_text(bool metadata, const uint8_t *bytes, size_t length) {
    build_text_block(metadata, bytes, length);
    writes_text("text: just enough room", metadata, bytes, length, built_len, 0);
    writes_text("text: one byte to spare", metadata, bytes, length, built_len + 1, 0);
    writes_text("text: room to spare", metadata, bytes, length, built_len + 40, 0);
    writes_text("text: 8 Room, one byte short", metadata, bytes, length, built_len - 1, MDF_REFUSED_ROOM);
    writes_text("text: 8 Room, room for the text and no zero", metadata, bytes, length, HEADER + length, MDF_REFUSED_ROOM);
    writes_text("text: 8 Room, room for the header", metadata, bytes, length, HEADER, MDF_REFUSED_ROOM);
    writes_text("text: 8 Room, room for the text alone", metadata, bytes, length, length, MDF_REFUSED_ROOM);
    writes_text("text: 8 Room, no room", metadata, bytes, length, 0, MDF_REFUSED_ROOM);
}

/* A zero at each place of a short text, and at the first, the last and two more of the long one; then nothing but zeros. */
static void zero_is_not_written(bool metadata, const uint8_t *bytes, size_t length) {
    static uint8_t with_zero[LONGEST];
    build_text_block(metadata, bytes, length);
    const size_t rooms[] = {0, HEADER, HEADER + length, built_len - 1, built_len, built_len + 40};
    for (size_t k = 0; k < COUNT_OF(rooms); k++) {
        for (size_t place = 0; place < length; place += length < LONGEST ? 1 : A_THIRD) {
            memcpy(with_zero, bytes, length);
            with_zero[place] = 0;
            writes_text("text: 21 ZeroByte, before 8", metadata, with_zero, length, rooms[k], MDF_REFUSED_ZERO_BYTE);
        }
        memset(with_zero, 0, length);
        if (length) writes_text("text: 21 ZeroByte, all are", metadata, with_zero, length, rooms[k], MDF_REFUSED_ZERO_BYTE);
    }
}

static void is_read_back(bool metadata, const uint8_t *bytes, size_t length) {
    static const size_t places[] = {0, 1, 64, 4099}, behind[] = {0, 1, 23, 100};
    build_text_block(metadata, bytes, length);
    for (size_t i = 0; i < COUNT_OF(places) * COUNT_OF(behind); i++) {
        size_t at = places[i / 4], room = built_len + behind[i % 4];
        uint8_t *out = lent_out(at + room); /* the image, in which the block is written */
        mdf_written w = mdf_text_write(metadata, bytes, length, out + at, room);
        mdf_text t = mdf_text_read(out, at + room, at);
        expect(w.refusal == 0 && w.length == built_len && same_text(t, a_text_block(metadata, at, length)) &&
                   memcmp(out + at + HEADER, bytes, length) == 0,
               "text: what was written is read");
        memset(out + at, FILL, built_len);
        expect(holds(out, at + room, out, 0), "text: what stands around the block is as it was");
        give_back_out(out);
    }
}

/* Lengths that are known without counting, and one block byte by byte. */
static void text_sizes(void) {
    static const size_t sizes[][2] = {{0, 32}, {1, 32}, {6, 32}, {7, 32}, {8, 40}, {15, 40}, {16, 48}, {17, 48}, {LONGEST - 1, LONGEST + 24},
                                      {LONGEST, LONGEST + 32}};
    static const uint8_t gear[] = {'#', '#', 'M', 'D', 0, 0, 0, 0, 32,  0,   0,   0,   0, 0, 0, 0,
                                   0,   0,   0,   0,   0, 0, 0, 0, 'G', 'e', 'a', 'r', 0, 0, 0, 0};
    uint8_t *out = lent_out(ROOM), *bytes = memset(taken(LONGEST), 'x', LONGEST), *block_of_heap = zeros(LONGEST + 32);
    mdf_written w = mdf_text_write(true, gear + HEADER, 4, out, ROOM);
    expect(w.refusal == 0 && w.length == 32 && holds(out, ROOM, gear, 32), "text: a block byte by byte");
    for (size_t i = 0; i < COUNT_OF(sizes); i++) {
        w = mdf_text_write(false, bytes, sizes[i][0], block_of_heap, LONGEST + 32);
        expect(w.refusal == 0 && w.length == sizes[i][1], "text: the length of a block");
    }
    free(block_of_heap);
    free(bytes);
    give_back_out(out);
}

/* Behind so many other bytes, a block with 16 bytes of text, none of them zero, with which the image ends. */
static void open_text(bool metadata, size_t place) {
    begin();
    memset(built, 0xff, place);
    built_len = place;
    put_header(ids[metadata], HEADER + 16, 0);
    for (int i = 0; i < 16; i++) put('x', 1);
}

/* The text ends at the first zero byte, or at the block length, whichever comes first. */
static void text_ends(bool metadata, size_t place) {
    open_text(metadata, place);
    for (size_t zero = 0; zero <= 16; zero++) {
        if (zero < 16) put_at(place + HEADER + zero, 0, 1);
        for (size_t run = 0; run <= 16; run++) {
            put_at(place + 8, HEADER + run, 8);
            finds_text("text: up to a zero byte or the block length", metadata, place, zero < run ? zero : run);
        }
        if (zero < 16) put_at(place + HEADER + zero, 'x', 1);
    }
    put_at(place + 8, HEADER + 17, 8);
    text_is_refused("text: 4 Short, one byte past the image end", place, MDF_REFUSED_SHORT);
    put(0xff, 1);
    finds_text("text: a block that ends with the image", metadata, place, 17);
    put(0, 1);
    finds_text("text: a zero byte behind the block length", metadata, place, 17);
    put_at(place + 8, HEADER + 18, 8);
    finds_text("text: a zero byte at the end of the block", metadata, place, 17);
}

/* Below 24 or past the image end. No sum may wrap: 2^64 - address leads back to byte 0, and a little more into the block. */
static void text_lengths(bool metadata, size_t place) {
    open_text(metadata, place);
    uint64_t back = place ? 0 - (uint64_t)place : UINT64_MAX, more = place < 64 ? UINT64_MAX : back + HEADER, top = UINT64_C(1) << 63;
    const uint64_t lengths[] = {0, 1, 8, 22, 23, HEADER + 17, HEADER + 18, 256, HEADER + 65536, (UINT64_C(1) << 32) + HEADER, top - 1, top,
                                top + HEADER, back, back - 1, more, UINT64_MAX - HEADER, UINT64_MAX};
    for (size_t i = 0; i < COUNT_OF(lengths); i++) {
        put_at(place + 8, lengths[i], 8);
        text_is_refused("text: 4 Short", place, MDF_REFUSED_SHORT);
        put_at(place + HEADER, 0, 1);
        text_is_refused("text: 4 Short, and a zero as the first byte", place, MDF_REFUSED_SHORT);
        put_at(place + HEADER, 'x', 1);
    }
}

/* The last place that a header can have, and every one behind it. */
static void text_places(bool metadata, size_t place) {
    begin();
    memset(built, 0xff, place);
    built_len = place;
    put_header(ids[metadata], HEADER, 0);
    finds_text("text: a header alone ends the image", metadata, place, 0);
    text_is_refused("text: 1 Outside, 2^32 too far", place + (UINT64_C(1) << 32), MDF_REFUSED_OUTSIDE);
    for (uint64_t near = 0; near < HEADER; near++) {
        text_is_refused("text: 1 Outside, near the image end", built_len - near, MDF_REFUSED_OUTSIDE);
        text_is_refused("text: 1 Outside, behind the image end", built_len + near, MDF_REFUSED_OUTSIDE);
        text_is_refused("text: 1 Outside, the largest addresses", UINT64_MAX - near, MDF_REFUSED_OUTSIDE);
        text_is_refused("text: 1 Outside, the middle of all addresses", (UINT64_C(1) << 63) - near, MDF_REFUSED_OUTSIDE);
    }
    for (size_t bytes = 0; bytes < HEADER; bytes++) {
        built_len = place + bytes;
        text_is_refused("text: 1 Outside, the image ends inside the header", place, MDF_REFUSED_OUTSIDE);
    }
}

/* 22 before 4, whatever the block length; 1 before 22. */
static void is_no_text_block(const char *name, uint64_t place) {
    static const uint64_t lengths[] = {0, 23, HEADER, HEADER + 16, HEADER + 17, UINT64_MAX};
    for (size_t i = 0; i < COUNT_OF(lengths); i++) {
        put_at(place + 8, lengths[i], 8);
        text_is_refused(name, place, MDF_REFUSED_NOT_TEXT_BLOCK);
    }
    size_t end = built_len;
    built_len = place + HEADER - 1;
    text_is_refused("text: 1 Outside, before 22", place, MDF_REFUSED_OUTSIDE);
    built_len = end;
}

/* Ids of other blocks and of none, and each of the two with one bit changed. */
static void text_other_ids(bool metadata, size_t place) {
    static const char others[][5] = {"##CC", "##TY", "##MC", "##TD", "##MX", "##SI", "##tx", "##md", "##Tx", "#TX#", "TX##", "XT##", "#TX", ""};
    open_text(metadata, place);
    for (size_t i = 0; i < COUNT_OF(others); i++) {
        memcpy(built + place, others[i], 4);
        is_no_text_block("text: 22 NotTextBlock, another id", place);
    }
    for (int bit = 0; bit < 32; bit++) {
        memcpy(built + place, ids[metadata], 4);
        built[place + bit / 8] ^= (uint8_t)(1 << bit % 8);
        is_no_text_block("text: 22 NotTextBlock, one bit of the id changed", place);
    }
}

/* Reserved bytes, link count, and what stands behind the first zero byte. */
static void text_not_looked_at(bool metadata, size_t place) {
    static const uint64_t counts[] = {0, 1, 4, 255, UINT64_C(1) << 32, UINT64_C(1) << 63, UINT64_MAX};
    open_text(metadata, place);
    put_at(place + HEADER + 5, 0, 1);
    for (size_t i = 0; i < COUNT_OF(counts); i++) {
        for (size_t k = 0; k < COUNT_OF(reserved_bytes); k++) {
            set_links(place, counts[i]);
            put_at(place + 4, reserved_bytes[k], 4);
            finds_text("text: link count and reserved bytes are not looked at", metadata, place, 5);
        }
    }
    for (int byte = 0; byte < 256; byte++) {
        memset(built + place + HEADER + 6, byte, 10);
        finds_text("text: nor is what stands behind the first zero byte", metadata, place, 5);
    }
}

/* Asks of a block at byte 0 and behind other bytes, with both ids. */
static void each_place(void (*ask)(bool metadata, size_t place)) {
    static const size_t places[] = {0, 1, 64, 4099};
    for (size_t i = 0; i < COUNT_OF(places); i++) {
        ask(false, places[i]);
        ask(true, places[i]);
    }
}

/* Conversions of types 10 and 7, of one reference each, which leads to the next block that is built. */
static uint64_t to_text, to_text_by_number;

static uint64_t open_text_below(bool metadata, uint64_t length) {
    begin();
    uint64_t below = built_len + 2 * 72;
    to_text = of_refs(10, &below, 1);
    to_text_by_number = of_refs(7, &below, 1);
    put_header(ids[metadata], length, 0);
    return below;
}

static void no_text_is_taken(const char *name) {
    is_unchanged(name, to_text, of_text("E1"));
    is_unchanged(name, to_text_by_number, of_unsigned(1));
    translates(name, to_text, "E1", 0, 2);
}

/* The text that is read is the one that a conversion takes, of a ##TX; of a ##MD it takes none. */
static void is_taken(const char *words, bool metadata, uint64_t length) {
    uint64_t below = open_text_below(metadata, length);
    memcpy(built + built_len, words, strlen(words));
    built_len = below + length;
    finds_text("text: below a conversion", metadata, below, strlen(words));
    if (metadata) {
        no_text_is_taken("text: a ##MD gives a conversion no text");
    } else {
        gives_text("text: by a text to text", to_text, of_text("E1"), words, 1, 1);
        gives_text("text: by a value to text", to_text_by_number, of_unsigned(1), words, 1, 1);
        translates("text: shown by a text to text", to_text, "E1", below + HEADER, strlen(words));
    }
}

/* What reading refuses gives a conversion no text either. */
static void is_not_taken(bool metadata) {
    static const uint64_t lengths[] = {0, 23, HEADER + 9, UINT64_C(1) << 63, UINT64_MAX};
    for (size_t i = 0; i < COUNT_OF(lengths); i++) {
        uint64_t below = open_text_below(metadata, lengths[i]);
        put(0x3132333435363738, 8);
        text_is_refused("text: 4 Short, below a conversion", below, MDF_REFUSED_SHORT);
        no_text_is_taken("text: 4 Short gives a conversion no text");
        built[below + 3] = 'Y';
        text_is_refused("text: 22 NotTextBlock, below a conversion", below, MDF_REFUSED_NOT_TEXT_BLOCK);
        no_text_is_taken("text: 22 NotTextBlock gives a conversion no text");
        built_len = below + HEADER - 1;
        text_is_refused("text: 1 Outside, below a conversion", below, MDF_REFUSED_OUTSIDE);
        no_text_is_taken("text: 1 Outside gives a conversion no text");
    }
}

/* 0 is an address to the reader, and leads nowhere as a link. */
static void text_at_zero(void) {
    static const uint64_t nil = 0;
    build_text_block(false, (const uint8_t *)"Torque", 6);
    to_text = of_refs(10, &nil, 1);
    to_text_by_number = of_refs(7, &nil, 1);
    finds_text("text: at address 0", false, 0, 6);
    no_text_is_taken("text: a link of 0 leads to no text");
}

static uint64_t add_text(bool metadata, const char *words) {
    uint64_t address = built_len;
    built_len += mdf_text_write(metadata, (const uint8_t *)words, strlen(words), built + built_len, sizeof built - built_len).length;
    return address;
}

/* What was written is a name and a text to bit groups, if it is a ##TX. */
static void written_texts_are_taken(bool metadata) {
    static const uint64_t masks[] = {3, 12};
    begin();
    uint64_t gear_name = add_text(metadata, "Gear"), low = add_text(false, "Low"), pto = add_text(false, "PTO"), two = bits(2);
    plan gear = {.kind = 7, .name = gear_name, .refs = &low, .ref_count = 1, .words = &two, .word_count = 1};
    const uint64_t groups_of[] = {block(gear), pto};
    uint64_t groups = of_words(11, groups_of, 2, masks, 2);
    gives_text("text: written, and taken by bit groups", groups, of_unsigned(6), metadata ? "Low|PTO" : "Gear = Low|PTO", 2, 2);
}

static void text_block_cases(void) {
    static const char words[] = "oil pressure low";
    each_text(is_written_as_text);
    each_text(zero_is_not_written);
    each_text(is_read_back);
    text_sizes();
    each_place(text_ends);
    each_place(text_lengths);
    each_place(text_places);
    each_place(text_other_ids);
    each_place(text_not_looked_at);
    for (size_t from = 0; from < sizeof words; from++) {
        uint64_t length = HEADER + strlen(words + from);
        for (uint64_t more = 0; more <= 9; more += 3) {
            is_taken(words + from, false, length + more);
            is_taken(words + from, true, length + more);
        }
    }
    is_not_taken(false);
    is_not_taken(true);
    text_at_zero();
    written_texts_are_taken(false);
    written_texts_are_taken(true);
}

/* ---- request [7]: text back to number ---- */

#define MOST_KEYS 600 /* of a block that is inverted here; face/c/hostile.c has the most that there can be */

/* A block to invert, whatever is wrong with it. Its reserved bytes, its range and its excess are no part of the new one. */
typedef struct {
    uint64_t name, unit, comment, inverse;
    const uint64_t *refs, *keys;
    size_t refs_len, keys_len;
    uint64_t excess;
    uint32_t reserved;
    uint16_t flags, ref_count;
    uint8_t kind, precision, ranged;
} old_block;

static old_block value_to_text(const uint64_t *refs, size_t refs_len, const uint64_t *keys, size_t keys_len) {
    old_block b = {.kind = 7, .refs = refs, .refs_len = refs_len, .keys = keys, .keys_len = keys_len, .ref_count = (uint16_t)refs_len};
    return b;
}

static void put_words(const uint64_t *words, size_t count) {
    for (size_t i = 0; i < count; i++) put(words[i], 8);
}

/* Answers its address. */
static uint64_t put_old(old_block b) {
    static const uint64_t range[] = {0x3fe0000000000000, 0x4020000000000000};
    uint64_t address = built_len;
    put_header("##CC", 64 + 8 * (b.refs_len + b.keys_len) + (b.ranged ? 16 : 0) + b.excess, 4 + b.refs_len);
    put_at(address + 4, b.reserved, 4);
    const uint64_t fixed[] = {b.name, b.unit, b.comment, b.inverse};
    put_words(fixed, 4);
    put_words(b.refs, b.refs_len);
    put(b.kind, 1);
    put(b.precision, 1);
    put(b.flags, 2);
    put(b.ref_count, 2);
    put(b.keys_len, 2);
    if (b.ranged) put_words(range, 2);
    put_words(b.keys, b.keys_len);
    for (uint64_t i = 0; i < b.excess; i++) put(0xff, 1);
    return address;
}

/* The block that is to be built, behind the image. In the request's words: "for each key, in order, the old text's address as reference and the key as
 * value, with no default; its reference count field is the number of keys. Name, unit and comment links, precision and flags are the old block's; the
 * inverse link is NIL and there is no range". */
static uint64_t put_inverse(old_block b) {
    uint64_t address = built_len;
    put_header("##CC", 64 + 16 * b.keys_len, 4 + b.keys_len);
    const uint64_t fixed[] = {b.name, b.unit, b.comment, 0};
    put_words(fixed, 4);
    put_words(b.refs, b.keys_len);
    put(9, 1);
    put(b.precision, 1);
    put(b.flags, 2);
    put(b.keys_len, 2);
    put(b.keys_len, 2);
    put_words(b.keys, b.keys_len);
    return address;
}

/* Inverts, and compares every field of the answer and every byte of the output, which is to have `block`. */
static void inverts(const char *name, uint64_t address, size_t room, mdf_inverted wanted, const uint8_t *block_built) {
    uint8_t *image = lent_image(), *out = lent_out(room);
    mdf_inverted v = mdf_invert(image, built_len, address, out, room);
    expect(v.refusal == wanted.refusal && v.index == wanted.index && v.address == wanted.address && v.length == wanted.length &&
               holds(out, room, block_built, wanted.length),
           name);
    give_back_image(image, name);
    give_back_out(out);
}

/* Refused alike with every room. */
static void not_inverted(const char *name, uint64_t address, mdf_inverted wanted) {
    static const size_t rooms[] = {0, 63, 64, 80, 4096};
    for (size_t i = 0; i < COUNT_OF(rooms); i++) inverts(name, address, rooms[i], wanted, NULL);
}

/* With the address: 1, 2, 4, 15 and 18. */
static void not_inverted_at(const char *name, uint64_t address, uint32_t refusal) {
    mdf_inverted wanted = {.refusal = refusal, .address = address};
    not_inverted(name, address, wanted);
}

/* With the index of a key: 12, 13 and 14. */
static void key_is_refused(const char *name, uint64_t address, uint32_t refusal, uint32_t index) {
    mdf_inverted wanted = {.refusal = refusal, .index = index};
    not_inverted(name, address, wanted);
}

/* The same of a block that is built first, behind the image as it is, which is left so. */
static void a_key_is_refused(const char *name, old_block b, uint32_t refusal, uint32_t index) {
    size_t end = built_len;
    uint64_t address = put_old(b);
    key_is_refused(name, address, refusal, index);
    memset(built + end, 0, built_len - end);
    built_len = end;
}

/* Inverted with room enough, and refused without. Afterwards the new block stands behind the image, as it was built by the rules. Answers its address. */
static uint64_t is_inverted(const char *name, old_block b, uint64_t address) {
    size_t end = built_len;
    put_inverse(b);
    size_t length = built_len - end;
    uint8_t *wanted = memcpy(taken(length), built + end, length);
    built_len = end;
    mdf_inverted written = {.length = length}, refused = {.refusal = MDF_REFUSED_ROOM};
    const size_t enough[] = {length, length + 1, length + 40}, less[] = {length - 1, 64 + 8 * b.keys_len - 1, 63, 0};
    for (size_t i = 0; i < COUNT_OF(enough); i++) inverts(name, address, enough[i], written, wanted);
    for (size_t i = 0; i < COUNT_OF(less); i++) inverts(name, address, less[i], refused, NULL);
    free(wanted);
    built_len = end + length;
    return end;
}

static double of_bits(uint64_t word) {
    double x;
    memcpy(&x, &word, sizeof x);
    return x;
}

/* What the block behind the image gives for a text, with every limit but 0. */
static void gives_key(const char *name, uint64_t address, const char *words, uint64_t key) {
    static const uint32_t limits[] = {1, 2, UINT32_MAX};
    const mdf_applied wanted = {.kind = MDF_KIND_NUMBER, .number = of_bits(key), .checked = 1, .applied = 1};
    gives_number(name, address, of_text(words), of_bits(key));
    for (size_t i = 0; i < COUNT_OF(limits); i++) applies_in(name, address, limits[i], NULL, 0, of_text(words), wanted, "");
}

/* The theorem of the request: each key's text gives the key, and no other text gives one. No text is to have the word "no" in front. */
static void turns_back(const char *name, uint64_t address, old_block b, const char *const *texts) {
    char no_key[ROOM];
    for (size_t i = 0; i < b.keys_len; i++) {
        gives_key(name, address, texts[i], b.keys[i]);
        snprintf(no_key, sizeof no_key, "no %s", texts[i]);
        is_unknown(name, address, of_text(no_key));
    }
    is_unknown(name, address, of_text(""));
    is_unknown(name, address, of_text("no"));
    is_unchanged(name, address, of_unsigned(1));
    is_accepted(name, address, 1, 1);
}

/* ---- blocks that are inverted ---- */

static const char *const gears[] = {"Low", "Lo", "High", "Reverse", "Low|PTO", "low", "\xc2\xb0", "L"};
static const uint64_t some_keys[] = {0x4000000000000000, 0, 0x3ff0000000000000, 0xbff0000000000000, 0x7ff0000000000000, 0xfff0000000000000, 1,
                                     0x7fefffffffffffff};

/* Of 0 to 8 keys, with none to two references more than these: a default text, which may be anything. */
static void sound_blocks(void) {
    for (size_t keys = 0; keys <= COUNT_OF(gears); keys++) {
        for (size_t more = 0; more <= 2; more++) {
            for (int behind = 0; behind < 4; behind++) {
                begin();
                uint64_t refs[COUNT_OF(gears) + 2], number = of_refs(0, NULL, 0);
                for (size_t i = 0; i < keys; i++) refs[i] = text(gears[i]);
                const uint64_t defaults[] = {text("default"), 0, number, keys ? refs[0] : UINT64_MAX};
                refs[keys] = refs[keys + 1] = defaults[behind];
                old_block b = value_to_text(refs, keys + more, some_keys, keys);
                uint64_t address = put_old(b), at = is_inverted("inverse: a sound block", b, address);
                if (behind == 0) turns_back("inverse: a text gives its key back", at, b, gears);
                is_unknown("inverse: the default is not taken over", at, of_text("default"));
                if (more == 0) break;
            }
        }
    }
}

/* What the new block takes over of the old one, and what not. */
static void taken_over(void) {
    for (int with = 0; with < 64; with++) {
        begin();
        uint64_t refs[] = {text(gears[0]), text(gears[1]), text("default")}, linear = of_numbers(1, zero_and_eighth, 2);
        old_block b = value_to_text(refs, 3, some_keys, 2);
        if (with & 1) b.name = text("Gear"), b.unit = text("-"), b.comment = 0x2122232425262728;
        if (with & 2) b.inverse = linear;
        if (with & 4) b.ranged = 1;
        if (with & 8) b.reserved = 0xffffffff, b.excess = 8;
        if (with & 16) b.precision = 255, b.flags = 0xffff;
        if (with & 32) b.ref_count = 0x5152;
        uint64_t address = put_old(b);
        turns_back("inverse: with every field", is_inverted("inverse: every field", b, address), b, gears);
    }
}

/* At byte 0, where no link leads but a block may stand, and at odd places, with other bytes behind it or none. */
static void inverted_anywhere(void) {
    static const size_t places[] = {0, 1, 63, 64, 4099}, behind[] = {0, 1, 7, 100};
    for (size_t i = 0; i < COUNT_OF(places) * COUNT_OF(behind); i++) {
        begin();
        built_len = places[i / 4];
        uint64_t refs[3];
        for (size_t k = 0; k < 3; k++) refs[k] = places[i / 4] + 64 + 16 * 3 + 32 * k;
        old_block b = value_to_text(refs, 3, some_keys, 3);
        uint64_t address = put_old(b);
        for (size_t k = 0; k < 3; k++) text(gears[k]);
        for (size_t k = 0; k < behind[i % 4]; k++) put(0xff, 1);
        turns_back("inverse: at any place", is_inverted("inverse: at any place", b, address), b, gears);
    }
}

/* ---- refusals of the block ---- */

static void inverse_refusals(void) {
    begin();
    uint64_t words = text(gears[0]), keys[] = {bits(1), 0x7ff8000000000000};
    old_block b = value_to_text(&words, 1, keys, 2); /* 14 at its second key */
    uint64_t address = put_old(b), end = built_len;
    key_is_refused("inverse: 14 Key, alone", address, MDF_REFUSED_KEY, 1);
    for (uint64_t near = 0; near < 24; near++) {
        not_inverted_at("inverse: 1 Outside, near the image end", end - near, MDF_REFUSED_OUTSIDE);
        not_inverted_at("inverse: 1 Outside, the largest addresses", UINT64_MAX - near, MDF_REFUSED_OUTSIDE);
        not_inverted_at("inverse: 1 Outside, the middle of all addresses", (UINT64_C(1) << 63) - near, MDF_REFUSED_OUTSIDE);
    }
    not_inverted_at("inverse: 2 NotConversion, a text", words, MDF_REFUSED_NOT_CONVERSION);
    not_inverted_at("inverse: 2 NotConversion, byte 0", 0, MDF_REFUSED_NOT_CONVERSION);
    for (int kind = 0; kind < 256; kind++) {
        put_at(address + 64, (uint64_t)kind, 1);
        if (kind != 7) not_inverted_at("inverse: 15 WrongType, before 14", address, MDF_REFUSED_WRONG_TYPE);
        for (uint64_t links = 0; links < FEWEST; links++) {
            set_links(address, links);
            not_inverted_at("inverse: 18 FewLinks, before 15", address, MDF_REFUSED_FEW_LINKS);
        }
        set_links(address, 5);
        built_len = end - 1;
        not_inverted_at("inverse: 4 Short, before 15", address, MDF_REFUSED_SHORT);
        built_len = end;
    }
    put_at(address + 64, 7, 1);
    static const uint64_t large[] = {8, 260, 65540, UINT64_C(1) << 32, (UINT64_C(1) << 61) + 5, UINT64_C(1) << 63, UINT64_MAX};
    for (size_t i = 0; i < COUNT_OF(large); i++) {
        set_links(address, large[i]);
        not_inverted_at("inverse: 4 Short, a link count that the image does not hold", address, MDF_REFUSED_SHORT);
    }
    set_links(address, 3);
    put_at(address + 3, 'D', 1);
    not_inverted_at("inverse: 2 before 18", address, MDF_REFUSED_NOT_CONVERSION);
    built_len = address + 23;
    not_inverted_at("inverse: 1 before 2", address, MDF_REFUSED_OUTSIDE);
    built_len = 0;
    not_inverted_at("inverse: 1 Outside, an empty image", 0, MDF_REFUSED_OUTSIDE);
}

/* ---- refusals of a key ---- */

#define NO_TEXTS 16

/* What references lead to that is no text for a key, all but the last, which stands at the image end. */
static void put_no_texts(uint64_t *leads) {
    static const uint64_t lengths[] = {0, 23, HEADER, UINT64_MAX, UINT64_C(1) << 63};
    size_t i = 0;
    leads[i++] = 0;
    leads[i++] = 1;
    leads[i++] = UINT64_MAX;
    leads[i++] = UINT64_C(1) << 32;
    leads[i++] = of_refs(7, NULL, 0);
    leads[i++] = text("");
    leads[i++] = text("wrong id");
    built[leads[6] + 3] = 'Y';
    leads[i++] = put_text_block(true, (const uint8_t *)"metadata", 8);
    leads[i++] = text("a zero in front");
    put_at(leads[8] + HEADER, 0, 1);
    for (size_t k = 0; k < COUNT_OF(lengths); k++) {
        leads[i] = text("another length");
        put_at(leads[i++] + 8, lengths[k], 8);
    }
    leads[i++] = leads[4] + 8;
}

/* The last: a text of which one byte is missing. */
static void put_cut_text(uint64_t *leads) {
    leads[NO_TEXTS - 1] = text("cut");
    built_len--;
}

static const uint64_t nans[] = {0x7ff0000000000001, 0x7ff8000000000000, 0x7fffffffffffffff, 0xfff0000000000001, 0xfff8000000000000, UINT64_MAX};

/* Each at each of three indices, behind keys that are sound and before one that is faulty too. */
static void no_text_cases(void) {
    for (size_t lead = 0; lead < NO_TEXTS; lead++) {
        for (uint32_t index = 0; index < 3; index++) {
            begin();
            uint64_t leads[NO_TEXTS], sound[] = {text("a"), text("b"), text("c"), 0}, refs[4], keys[4] = {0, bits(1), bits(2), bits(3)};
            put_no_texts(leads);
            size_t block_at = built_len;
            built_len += 64 + 8 * 8;
            put_cut_text(leads);
            size_t end = built_len;
            memcpy(refs, sound, sizeof refs);
            refs[index] = leads[lead];
            built_len = block_at;
            uint64_t address = put_old(value_to_text(refs, 4, keys, 4));
            built_len = end;
            key_is_refused("inverse: 12 NotText", address, MDF_REFUSED_NOT_TEXT, index);
            put_at(address + 64 + 8 * (4 + index), keys[0], 8);
            key_is_refused("inverse: 12 NotText, before 13 of a key", address, MDF_REFUSED_NOT_TEXT, index);
            for (size_t i = 0; i < COUNT_OF(nans); i++) {
                put_at(address + 64 + 8 * (4 + index), nans[i], 8);
                key_is_refused("inverse: 14 before 12", address, MDF_REFUSED_KEY, index);
            }
        }
    }
}

/* A text may stand at byte 0, and no link leads there. */
static void nil_is_no_text(void) {
    build_text_block(false, (const uint8_t *)"Low", 3);
    const uint64_t refs[] = {text("High"), 0};
    a_key_is_refused("inverse: 12 NotText, a text at address 0", value_to_text(refs + 1, 1, some_keys, 1), MDF_REFUSED_NOT_TEXT, 0);
    a_key_is_refused("inverse: 12 NotText, a text at address 0, second", value_to_text(refs, 2, some_keys, 2), MDF_REFUSED_NOT_TEXT, 1);
}

/* As many references as there are, and a key more. */
static void missing_references(void) {
    for (size_t refs_len = 0; refs_len < COUNT_OF(gears); refs_len++) {
        begin();
        uint64_t refs[COUNT_OF(gears)], keys[COUNT_OF(gears)];
        for (size_t i = 0; i < refs_len; i++) refs[i] = text(gears[i]);
        for (size_t keys_len = refs_len + 1; keys_len <= COUNT_OF(gears); keys_len++) {
            memcpy(keys, some_keys, sizeof keys);
            old_block b = value_to_text(refs, refs_len, keys, keys_len);
            b.ref_count = (uint16_t)keys_len; /* the field does not count */
            a_key_is_refused("inverse: 12 NotText, a missing reference", b, MDF_REFUSED_NOT_TEXT, (uint32_t)refs_len);
            keys[refs_len] = keys[0];
            a_key_is_refused("inverse: 12 NotText, a missing reference, before 13", b, MDF_REFUSED_NOT_TEXT, (uint32_t)refs_len);
            keys[refs_len] = nans[refs_len % COUNT_OF(nans)];
            a_key_is_refused("inverse: 14 Key, before a missing reference", b, MDF_REFUSED_KEY, (uint32_t)refs_len);
        }
    }
}

/* A NaN at each index, and an equal one behind it, which is 14 and not 13: the first is met first. */
static void nan_keys(void) {
    begin();
    uint64_t refs[4], keys[4];
    for (size_t i = 0; i < 4; i++) refs[i] = text(gears[i]);
    for (uint32_t index = 0; index < 4; index++) {
        for (size_t i = 0; i < COUNT_OF(nans); i++) {
            memcpy(keys, some_keys, sizeof keys);
            keys[index] = nans[i];
            keys[3] = nans[i];
            a_key_is_refused("inverse: 14 Key", value_to_text(refs, 4, keys, 4), MDF_REFUSED_KEY, index);
            refs[index] = refs[(index + 3) % 4];
            a_key_is_refused("inverse: 14 before 13 of a text", value_to_text(refs, 4, keys, 4), MDF_REFUSED_KEY, index);
            refs[index] = text(gears[index]);
        }
    }
}

/* Two of six keys that are equal as floats, with texts of their own. */
static void repeated_keys(void) {
    static const uint64_t pairs_of[][2] = {{0, 0}, {0, 0x8000000000000000}, {0x8000000000000000, 0}, {1, 1}, {0x7ff0000000000000, 0x7ff0000000000000},
                                           {0x4000000000000000, 0x4000000000000000}};
    begin();
    uint64_t refs[6];
    for (size_t i = 0; i < 6; i++) refs[i] = text(gears[i]);
    for (uint32_t first = 0; first < 6; first++) {
        for (uint32_t second = first + 1; second < 6; second++) {
            for (size_t i = 0; i < COUNT_OF(pairs_of); i++) {
                uint64_t keys[] = {bits(10), bits(11), bits(12), bits(13), bits(14), bits(15)};
                keys[first] = pairs_of[i][0];
                keys[second] = pairs_of[i][1];
                a_key_is_refused("inverse: 13 Repeated, a key", value_to_text(refs, 6, keys, 6), MDF_REFUSED_REPEATED, second);
            }
        }
    }
}

/* Of one zero its sign is kept. Neighbours are not equal. */
static void near_keys(void) {
    static const uint64_t sets[][4] = {{0x8000000000000000, 1, 0x8000000000000001, 2},
                                       {0, 0x8000000000000001, 1, 0x0010000000000000},
                                       {0x3ff0000000000000, 0x3ff0000000000001, 0x3fefffffffffffff, 0xbff0000000000000},
                                       {0x7ff0000000000000, 0xfff0000000000000, 0x7fefffffffffffff, 0xffefffffffffffff}};
    for (size_t i = 0; i < COUNT_OF(sets); i++) {
        begin();
        uint64_t refs[4];
        for (size_t k = 0; k < 4; k++) refs[k] = text(gears[k]);
        old_block b = value_to_text(refs, 4, sets[i], 4);
        uint64_t address = put_old(b);
        turns_back("inverse: keys that are near each other", is_inverted("inverse: keys that are near each other", b, address), b, gears);
    }
}

/* A text in a block of exactly its length, with no zero at its end, and one with other bytes behind its first zero. */
static uint64_t text_without_end(const char *words) {
    uint64_t address = built_len;
    put_header("##TX", HEADER + strlen(words), 0);
    memcpy(built + built_len, words, strlen(words));
    built_len += strlen(words);
    return address;
}

static uint64_t text_with_more(const char *words) {
    uint64_t address = text(words);
    put_at(address + 8, built_len - address + 16, 8);
    put(0x4142434445464748, 8);
    put(0, 8);
    return address;
}

/* Equal texts at one address and at two, however their blocks are made, at each pair of six indices. */
static void repeated_texts(void) {
    for (uint32_t first = 0; first < 6; first++) {
        for (uint32_t second = first + 1; second < 6; second++) {
            begin();
            uint64_t refs[6];
            for (size_t i = 0; i < 6; i++) refs[i] = text(gears[i]);
            const uint64_t same[] = {refs[first], text(gears[first]), text_without_end(gears[first]), text_with_more(gears[first])};
            for (size_t i = 0; i < COUNT_OF(same); i++) {
                refs[second] = same[i];
                old_block b = value_to_text(refs, 6, some_keys, 6);
                a_key_is_refused("inverse: 13 Repeated, a text", b, MDF_REFUSED_REPEATED, second);
            }
        }
    }
}

/* Texts that are nearly equal: one byte differs, at each place; one is longer by a byte; or the same bytes stand in another order. */
static void near_texts(void) {
    static const char long_words[] = "abcdefghijklmnopqrstuvwxyzabcdefghijklmnop";
    char other_words[sizeof long_words];
    for (size_t place = 0; place + 1 < sizeof long_words; place++) {
        for (int how = 0; how < 4; how++) {
            memcpy(other_words, long_words, sizeof long_words);
            char *at = other_words + place;
            if (how == 0) at[0] = (char)(at[0] ^ 0x80);
            if (how == 1) at[0] = '!';
            if (how == 2) at[0] = 0; /* cut here: at place 0 it is empty */
            if (how == 3 && at[1] != 0) at[0] = long_words[place + 1], at[1] = long_words[place];
            const char *texts[] = {long_words, other_words};
            begin();
            const uint64_t refs[] = {text(long_words), how % 2 ? text(other_words) : text_without_end(other_words)};
            old_block b = value_to_text(refs, 2, some_keys, 2);
            uint64_t address = put_old(b);
            if (how == 2 && place == 0) {
                key_is_refused("inverse: 12 NotText, an empty text", address, MDF_REFUSED_NOT_TEXT, 1);
            } else if (strcmp(long_words, other_words) == 0) {
                key_is_refused("inverse: 13 Repeated, a long text", address, MDF_REFUSED_REPEATED, 1);
            } else {
                turns_back("inverse: texts that are nearly equal", is_inverted("inverse: texts that are nearly equal", b, address), b, texts);
            }
        }
    }
}

/* Two faults of every kind at two indices: the first index decides. */
static void first_of_two_faults(void) {
    for (int kinds = 0; kinds < 16; kinds++) {
        begin();
        uint64_t refs[6], keys[6];
        for (size_t i = 0; i < 6; i++) refs[i] = text(gears[i]);
        memcpy(keys, some_keys, sizeof keys);
        static const uint32_t indices[] = {2, 4};
        uint32_t wanted = 0;
        for (int which = 1; which >= 0; which--) {
            uint32_t at = indices[which];
            switch (kinds >> (2 * which) & 3) {
            case 0: keys[at] = nans[0], wanted = MDF_REFUSED_KEY; break;
            case 1: refs[at] = 0, wanted = MDF_REFUSED_NOT_TEXT; break;
            case 2: refs[at] = text(gears[0]), wanted = MDF_REFUSED_REPEATED; break;
            default: keys[at] = keys[1] ^ 0x8000000000000000, wanted = MDF_REFUSED_REPEATED; /* key 1 is 0 */
            }
        }
        a_key_is_refused("inverse: the first of two faults", value_to_text(refs, 6, keys, 6), wanted, 2);
    }
}

/* ---- many keys ---- */

static uint64_t many_refs[MOST_KEYS], many_keys[MOST_KEYS];

/* 600 keys, the k-th of them k, with the texts "t0" to "t599". Nothing behind them is built yet. */
static old_block build_many(void) {
    char words[16];
    begin();
    for (size_t i = 0; i < MOST_KEYS; i++) {
        snprintf(words, sizeof words, "t%zu", i);
        many_refs[i] = text(words);
        many_keys[i] = bits((double)i);
    }
    return value_to_text(many_refs, MOST_KEYS, many_keys, MOST_KEYS);
}

static void many_keys_cases(void) {
    static const size_t places[] = {0, 1, 100, 253, 254, 255, 256, 257, 300, 508, 509, 510, 511, 512, 598, 599};
    old_block b = build_many();
    for (size_t i = 0; i < COUNT_OF(places); i++) {
        for (size_t k = i + 1; k < COUNT_OF(places); k++) {
            size_t first = places[i], second = places[k];
            uint64_t ref = many_refs[second], key = many_keys[second];
            many_refs[second] = many_refs[first];
            a_key_is_refused("inverse: 13 Repeated, one address twice among 600", b, MDF_REFUSED_REPEATED, (uint32_t)second);
            size_t end = built_len;
            many_refs[second] = put_text_block(false, built + many_refs[first] + HEADER, strlen((const char *)built + many_refs[first] + HEADER));
            a_key_is_refused("inverse: 13 Repeated, a text of 600", b, MDF_REFUSED_REPEATED, (uint32_t)second);
            memset(built + end, 0, built_len - end);
            built_len = end;
            many_refs[second] = ref;
            many_keys[second] = many_keys[first];
            a_key_is_refused("inverse: 13 Repeated, a key of 600", b, MDF_REFUSED_REPEATED, (uint32_t)second);
            many_keys[second] = key;
        }
    }
    uint64_t address = put_old(b), at = is_inverted("inverse: 600 keys", b, address);
    for (size_t i = 0; i < COUNT_OF(places); i++) {
        gives_key("inverse: 600 keys, turned back", at, (const char *)built + many_refs[places[i]] + HEADER, many_keys[places[i]]);
    }
    is_unknown("inverse: 600 keys, another text", at, of_text("t600"));
}

/* ---- drawn blocks ---- */

static uint64_t drawn_state = 0x9e3779b97f4a7c15;

static size_t drawn(size_t below) {
    drawn_state ^= drawn_state << 13;
    drawn_state ^= drawn_state >> 7;
    drawn_state ^= drawn_state << 17;
    return (size_t)(drawn_state >> 11) % below;
}

/* The words of the ##TX block that stands at a link of a drawn image; NULL if none does. */
typedef struct {
    uint64_t link;
    const char *words;
} drawn_text;

static const char *words_at(const drawn_text *texts, size_t count, uint64_t link) {
    for (size_t i = 0; i < count; i++) {
        if (texts[i].link == link) return texts[i].words;
    }
    return NULL;
}

/* The first fault of the keys, in the request's words: "first met in index order ..; at one index 14, then 12, then 13". */
static mdf_inverted fault_of(old_block b, const drawn_text *texts, size_t count) {
    mdf_inverted none = {.refusal = 0};
    for (uint32_t i = 0; i < b.keys_len; i++) {
        mdf_inverted fault = {.refusal = MDF_REFUSED_KEY, .index = i};
        if (isnan(of_bits(b.keys[i]))) return fault;
        const char *words = i < b.refs_len ? words_at(texts, count, b.refs[i]) : NULL;
        fault.refusal = MDF_REFUSED_NOT_TEXT;
        if (words == NULL || words[0] == 0) return fault;
        fault.refusal = MDF_REFUSED_REPEATED;
        for (uint32_t k = 0; k < i; k++) {
            if (of_bits(b.keys[k]) == of_bits(b.keys[i]) || strcmp(words_at(texts, count, b.refs[k]), words) == 0) return fault;
        }
    }
    return none;
}

/* Blocks of up to 12 keys, drawn so that about half have a fault. */
static void drawn_blocks(void) {
    static const char *const words[] = {"a", "b", "ab", "ba", "abc", "abcd", "B", "aa", "bb", "longer than eight", "longer than nine", "x", "y", "z", ""};
    enum { TEXTS = 2 * COUNT_OF(words) };
    int sound = 0, faulty = 0;
    for (int round = 0; round < 3000; round++) {
        drawn_text texts[TEXTS];
        uint64_t refs[16], keys[12];
        begin();
        for (size_t i = 0; i < TEXTS; i++) {
            texts[i].words = words[i % COUNT_OF(words)];
            texts[i].link = i % 3 == 0 ? text_without_end(texts[i].words) : text(texts[i].words);
        }
        const uint64_t others[] = {0, texts[0].link + 1, of_refs(7, NULL, 0), put_text_block(true, (const uint8_t *)"md", 2), UINT64_MAX};
        old_block b = value_to_text(refs, drawn(8) ? 12 + drawn(5) : drawn(12), keys, drawn(13));
        for (size_t i = 0; i < b.refs_len; i++) refs[i] = drawn(60) ? texts[drawn(40) ? (i * 2) % (TEXTS - 2) : drawn(TEXTS)].link : others[drawn(5)];
        for (size_t i = 0; i < b.keys_len; i++) keys[i] = drawn(60) ? bits((double)(drawn(40) ? (int)i : (int)drawn(6)) * (drawn(2) ? 1 : -1)) : nans[drawn(6)];
        uint64_t address = put_old(b);
        mdf_inverted fault = fault_of(b, texts, TEXTS);
        if (fault.refusal == 0) {
            is_inverted("inverse: a drawn block", b, address);
            sound++;
        } else {
            not_inverted("inverse: a drawn block with a fault", address, fault);
            faulty++;
        }
    }
    expect(sound > 300 && faulty > 300, "inverse: of the drawn blocks many are sound and many are not");
}

/* 600 texts of two letters each, all shorter than 30, so that many begin alike and, in most rounds, one is equal to an earlier one. */
static void drawn_texts(void) {
    static char words[MOST_KEYS][32];
    int early = 0, late = 0, none = 0;
    for (size_t round = 0; round < 100; round++) {
        size_t longest = 5 + round % 25, first = MOST_KEYS;
        old_block b = build_many();
        begin();
        for (size_t i = 0; i < MOST_KEYS; i++) {
            memset(words[i], 0, sizeof words[i]);
            for (size_t k = longest - drawn(4); k > 0; k--) words[i][k - 1] = (char)('a' + drawn(2));
            many_refs[i] = drawn(2) ? text(words[i]) : text_without_end(words[i]);
            for (size_t k = 0; k < i && first == MOST_KEYS; k++) {
                if (strcmp(words[k], words[i]) == 0) first = i;
            }
        }
        uint64_t address = put_old(b);
        if (first == MOST_KEYS) {
            is_inverted("inverse: drawn texts", b, address);
            none++;
        } else {
            key_is_refused("inverse: drawn texts, one repeated", address, MDF_REFUSED_REPEATED, (uint32_t)first);
            *(first < 255 ? &early : &late) += 1;
        }
    }
    expect(early > 10 && late > 10 && none > 10, "inverse: of the drawn texts some repeat early, some late and some never");
}

static void inverse_cases(void) {
    sound_blocks();
    taken_over();
    inverted_anywhere();
    inverse_refusals();
    no_text_cases();
    nil_is_no_text();
    missing_references();
    nan_keys();
    repeated_keys();
    near_keys();
    repeated_texts();
    near_texts();
    first_of_two_faults();
    many_keys_cases();
    drawn_blocks();
    drawn_texts();
}

int main(void) {
    linear_cases();
    rounding_cases();
    rational_cases();
    table_cases();
    range_to_text_cases();
    odd_range_cases();
    odd_range_below_cases();
    range_to_value_cases();
    range_field_cases();
    bit_group_cases();
    width_cases();
    width_below_cases();
    edition_cases();
    edition_elsewhere_cases();
    visit_cases();
    deep_cases();
    outside_cases();
    other_block_cases();
    short_cases();
    loop_cases();
    formula_cases();
    text_cases();
    translation_cases();
    parse_refusals();
    write_cases();
    write_smallest();
    write_counts();
    place_refusals();
    place_cases();
    few_links_cases();
    enough_links_cases();
    few_links_below_cases();
    few_links_before_applying_cases();
    few_links_translation_cases();
    few_links_limit_cases();
    few_links_depth_cases();
    few_links_short_cases();
    few_links_elsewhere_cases();
    few_links_order_cases();
    padding_cases();
    text_block_cases();
    inverse_cases();
    printf("C face: %d cases passed, %d failed\n", passed, failed);
    return failed ? 1 : 0;
}
