/* How many bytes of stack a call takes below its caller. Each call runs on a stack of its own that was painted before; what is no longer painted
 * was used. The deepest trees that the check accepts are asked: 21 levels of each type that hands a value on, over each type. */
#define _XOPEN_SOURCE 700
#include "mdf_conversion.h"

#include "build.h"

#include <stdbool.h>
#include <stdio.h>
#include <ucontext.h>

#define LEVELS 21
#define ALL_BITS UINT64_MAX
#define LIMIT 100
#define KEYS 600 /* of the block that is inverted */

static uint8_t image[1 << 16], out[1 << 14], area[1 << 18];
static uint64_t root, text, keyed;
static ucontext_t here, aside;

/* An application that does nothing and takes no more than its return address. It hands back where its answer would stand, as the caller expects. */
__asm__(".text\n.globl apply_no_block\napply_no_block:\n\tmovq %rdi, %rax\n\tret\n");
mdf_applied apply_no_block(const uint8_t *image, size_t image_len, uint64_t address, uint32_t limit, uint64_t value, uint8_t *out, size_t out_len);

/* Likewise for the two calls on text blocks and for inverting. The answer of the second stands in registers. */
__asm__(".globl read_no_text\nread_no_text:\n\tmovq %rdi, %rax\n\tret\n"
        ".globl write_no_text\nwrite_no_text:\n\txorl %eax, %eax\n\txorl %edx, %edx\n\tret\n"
        ".globl invert_no_block\ninvert_no_block:\n\tmovq %rdi, %rax\n\tret\n");
mdf_text read_no_text(const uint8_t *image, size_t image_len, uint64_t address);
mdf_written write_no_text(bool metadata, const uint8_t *text, size_t text_len, uint8_t *out, size_t out_len);
mdf_inverted invert_no_block(const uint8_t *image, size_t image_len, uint64_t address, uint8_t *out, size_t out_len);

/* What is measured. */
static volatile mdf_applied answer;
static volatile mdf_checked checked;
static volatile mdf_shown shown;
static volatile mdf_text text_read;
static volatile mdf_written text_written;
static volatile mdf_inverted inverted;
static volatile uint32_t refusal;

static void nothing(void) { answer = apply_no_block(image, built_len, root, LIMIT, 1, out, sizeof out); }
static void apply(void) { answer = mdf_apply_unsigned(image, built_len, root, LIMIT, 1, out, sizeof out); }
static const mdf_mode narrow = {.width = 63, .edition = MDF_EDITION_420};
static void apply_mode(void) { answer = mdf_apply_mode_signed(image, built_len, root, LIMIT, narrow, -1, out, sizeof out); }
static void check(void) { checked = mdf_check(image, built_len, root, LIMIT); }
static void translate(void) { shown = mdf_translate(image, built_len, root, LIMIT, image, 8); }

static void parse_and_write(void) {
    mdf_parsed p = mdf_parse(image, built_len, root);
    uint64_t words[2] = {1, 2};
    refusal |= p.refusal | mdf_write(p.block, words, 2, words, 2, out, sizeof out).refusal;
}

static void parse_kept_and_write(void) {
    mdf_parsed p = mdf_parse_kept(image, built_len, root);
    uint64_t words[2] = {1, 2};
    p.block.excess = 8;
    refusal |= p.refusal | mdf_write(p.block, words, 2, words, 2, out, sizeof out).refusal;
}

static void read_by_place(void) { refusal |= mdf_reference(image, built_len, root, 0).refusal | mdf_value_word(image, built_len, root, 0).refusal; }

static void read_nothing(void) { text_read = read_no_text(image, built_len, text); }
static void read_text(void) { text_read = mdf_text_read(image, built_len, text); }
static void write_nothing(void) { text_written = write_no_text(true, image + text + 24, 8, out, sizeof out); }
static void write_text(void) { text_written = mdf_text_write(true, image + text + 24, 8, out, sizeof out); }

static void invert_nothing(void) { inverted = invert_no_block(image, built_len, keyed, out, sizeof out); }
static void invert(void) { inverted = mdf_invert(image, built_len, keyed, out, sizeof out); }

static void (*job)(void);
static void run(void) { job(); }

/* The bytes of the painted stack that a job uses. */
static size_t used(void (*f)(void), int paint) {
    memset(area, paint, sizeof area);
    getcontext(&aside);
    aside.uc_stack.ss_sp = area;
    aside.uc_stack.ss_size = sizeof area;
    aside.uc_link = &here;
    job = f;
    makecontext(&aside, run, 0);
    swapcontext(&here, &aside);
    size_t clean = 0;
    while (clean < sizeof area && area[clean] == paint) clean++;
    return sizeof area - clean;
}

/* The bytes below the caller's frame, the return address with them. `idle` has the same frame and makes a call that takes no more than that address.
 * The first run binds what the archive calls. */
static size_t below_frame(void (*f)(void), void (*idle)(void)) {
    used(f, 0x5a);
    size_t a = used(f, 0xa5), b = used(f, 0x5a), before = used(idle, 0xa5) - 8;
    return (a > b ? a : b) - before;
}

/* Exact for an application, and a few more or less for the others, whose caller's frame is another. */
static size_t below_caller(void (*f)(void)) { return below_frame(f, nothing); }

/* The block at the bottom: of a type, with the text that its references lead to. */
static uint64_t bottom(uint8_t kind) { return block_of(kind, text, text, text, 6, 6, ALL_BITS); }

/* The next block up: it hands the value on to `below`, by its one reference. */
static uint64_t above(uint8_t kind, uint64_t name, uint64_t below) {
    uint64_t address = open_block(name, 1, kind == 11);
    put(below, 8);
    put_kind(kind, 1, kind == 11);
    if (kind == 11) put(ALL_BITS, 8);
    return address;
}

/* 21 levels of a type over one of another. */
static void build(uint8_t kind, uint8_t last) {
    built = image;
    memset(image, 0, sizeof image);
    built_len = 64;
    uint64_t name = text_of('n', 8);
    text = text_of('x', 8);
    root = bottom(last);
    for (int level = 1; level < LEVELS; level++) root = above(kind, name, root);
}

/* Behind the others a value to text of many keys, each with a text of two letters of its own, and of those one that is repeated in the end or none. */
static void build_keys(bool repeated) {
    build(11, 11);
    uint64_t first = built_len;
    for (size_t i = 0; i < KEYS; i++) {
        uint64_t letters = text_of('a', 2);
        built[letters + 24] = (uint8_t)('a' + i / 26);
        built[letters + 25] = (uint8_t)('a' + i % 26);
    }
    keyed = open_block(0, KEYS, KEYS);
    for (size_t i = 0; i < KEYS; i++) put(repeated && i == KEYS - 1 ? first : first + 26 * i, 8);
    put_kind(7, KEYS, KEYS);
    for (size_t i = 0; i < KEYS; i++) put(i, 8);
}

/* The most that inverting it takes. */
static size_t most_of_inverting(void) {
    build_keys(true);
    size_t refused = below_frame(invert, invert_nothing);
    invert();
    bool right = inverted.refusal == MDF_REFUSED_REPEATED && inverted.index == KEYS - 1;
    build_keys(false);
    size_t written = below_frame(invert, invert_nothing);
    invert();
    if (!right || inverted.refusal != 0 || inverted.length != 64 + 16 * KEYS) refusal |= 1;
    return refused > written ? refused : written;
}

/* The most that 21 levels of a type take, over any type. */
static size_t most_of(uint8_t kind, void (*f)(void)) {
    size_t most = 0;
    for (uint8_t last = 0; last <= 12; last++) {
        build(kind, last);
        size_t bytes = below_caller(f);
        if (bytes > most) most = bytes;
    }
    return most;
}

/* Whether the call gave a text and began a block at each level. */
static bool is_deepest(void (*f)(void)) {
    f();
    return answer.kind == MDF_KIND_TEXT && answer.checked == LEVELS && answer.applied == LEVELS;
}

int main(void) {
    size_t walked = most_of(11, check), by_key = most_of(7, apply), by_range = most_of(8, apply), by_bits = most_of(11, apply);
    size_t in_a_mode = most_of(11, apply_mode);
    size_t by_text = most_of(10, translate), one_block = most_of(11, parse_and_write), padded = most_of(11, parse_kept_and_write);
    size_t one_word = most_of(11, read_by_place);
    build(11, 11);
    size_t reading = below_frame(read_text, read_nothing), writing = below_frame(write_text, write_nothing);
    read_text();
    write_text();
    bool texts = text_read.refusal == 0 && text_read.length == 8 && text_written.refusal == 0 && text_written.length == 40;
    size_t inverting = most_of_inverting();
    if (!is_deepest(apply) || !is_deepest(apply_mode) || refusal != 0 || !texts) {
        printf("stack: the deepest bit groups gave no text, or a block or a text was not written, read or inverted\n");
        return 1;
    }
    printf("stack below the caller at 21 levels, bytes: check %zu, type 7 %zu, type 8 %zu, bit groups %zu, in a mode %zu, type 10 shown %zu; one block %zu, "
           "with its padding %zu, one word %zu; one text read %zu, written %zu; %d keys inverted %zu\n",
           walked, by_key, by_range, by_bits, in_a_mode, by_text, one_block, padded, one_word, reading, writing, KEYS, inverting);
    return 0;
}
