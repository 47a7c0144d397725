/* Images on which only a call whose work is bounded ends at all: some hundred thousand references to one text of 64 MB, or as many calls on a block
 * with an excess of 64 MB, or on a text block of that length whose text ends before; or 65,535 keys to invert whose texts differ in their last bytes
 * alone. Each call has to end, with the right answer. No time is asserted: a watchdog stops the program where a call does not end.
 *
 * The bound that holds for every call stands in mdf_conversion.h, "What a call can cost". */
#define _POSIX_C_SOURCE 200809L
#include "mdf_conversion.h"

#include "build.h"

#include <signal.h>
#include <stdbool.h>
#include <stdio.h>
#include <stdlib.h>
#include <unistd.h>

#define PATIENCE 60           /* seconds an image may take; bounded calls take some hundredths of a second, and where 65,535 keys are inverted some seconds */
#define LONG ((size_t)1 << 26) /* bytes of the long text */
#define CAPACITY (LONG + ((size_t)1 << 25))
#define LIMIT 100000
#define ROOM 64
#define FILL 0xa5
#define ALL_BITS UINT64_MAX
#define OFTEN 200000 /* calls on one block, where a single one would end even if it looked at every byte */

static uint64_t long_text, short_text; /* "xxx..", and "x" */
static size_t behind_texts;
static uint8_t out[ROOM];

/* ---- the watchdog ---- */

static const char *volatile calling;

static void stopped(int number) {
    (void)number;
    static const char said[] = "hostile images: a call does not end: ";
    if (write(1, said, sizeof said - 1) < 0 || write(1, calling, strlen(calling)) < 0 || write(1, "\n", 1) < 0) _exit(2);
    _exit(1);
}

/* ---- counting ---- */

static int passed, failed;

static void expect(bool holds) {
    if (holds) {
        passed++;
    } else {
        failed++;
        printf("failed: %s\n", calling);
    }
}

/* The next image stands behind the two texts. Names it, and winds the watchdog up. */
static void begin(const char *name) {
    calling = name;
    built_len = behind_texts;
    memset(out, FILL, sizeof out);
    alarm(PATIENCE);
}

/* The same image, asked something else. */
static void begin_again(const char *name) {
    size_t end = built_len;
    begin(name);
    built_len = end;
}

static bool untouched(size_t from) {
    for (size_t i = from; i < sizeof out; i++) {
        if (out[i] != FILL) return false;
    }
    return true;
}

static mdf_applied of_number(uint64_t at, uint64_t value) {
    return mdf_apply_unsigned(built, built_len, at, LIMIT, value, out, sizeof out);
}

static mdf_applied of_signed(uint64_t at, int64_t value, uint32_t width, uint32_t edition) {
    mdf_mode mode = {.width = width, .edition = edition};
    return mdf_apply_mode_signed(built, built_len, at, LIMIT, mode, value, out, sizeof out);
}

static mdf_applied of_x(uint64_t at) {
    return mdf_apply_text(built, built_len, at, LIMIT, (const uint8_t *)"x", 1, out, sizeof out);
}

/* Refused for room, with these visits of check and application. */
static void expect_room(mdf_applied a, uint32_t checked, uint32_t applied) {
    expect(a.refusal == MDF_REFUSED_ROOM && a.kind == MDF_KIND_REFUSED && a.checked == checked && a.applied == applied && untouched(0));
}

/* The text "x", with these visits. */
static void expect_x(mdf_applied a, uint32_t checked, uint32_t applied) {
    bool said = a.refusal == 0 && a.kind == MDF_KIND_TEXT && a.length == 1 && out[0] == 'x' && untouched(1);
    expect(said && a.checked == checked && a.applied == applied);
}

/* Refused before a block was looked at. */
static void expect_before_all(mdf_applied a, uint32_t refusal) {
    expect(a.refusal == refusal && a.kind == MDF_KIND_REFUSED && a.checked == 0 && a.applied == 0 && untouched(0));
}

/* ---- the images ---- */

static uint64_t groups_of(uint64_t first, uint64_t other, uint64_t last, size_t groups) {
    return block_of(11, first, other, last, groups, groups, ALL_BITS);
}

static void groups_in_groups(void) {
    begin("bit groups in bit groups, 13 levels, each block twice to the next, 64 groups to the long text");
    uint64_t at = groups_of(long_text, long_text, long_text, 64);
    for (int level = 1; level < 13; level++) at = groups_of(at, long_text, at, 66);
    expect_room(of_number(at, 1), 8191, 8191);
    expect_room(of_signed(at, -1, 4, MDF_EDITION_420), 8191, 8191);
    mdf_applied a = of_signed(at, -1, 4, MDF_EDITION_410);
    expect(a.refusal == 0 && a.kind == MDF_KIND_UNCHANGED && a.checked == 8191 && a.applied == 1 && untouched(0));
    expect_before_all(of_signed(at, -1, 0, MDF_EDITION_420), MDF_REFUSED_WIDTH);
    expect_before_all(of_signed(at, -1, 0, 411), MDF_REFUSED_EDITION);
}

static void deep_groups(void) {
    begin("bit groups, 21 levels, 3,000 groups each, all but the last to the long text");
    uint64_t at = groups_of(long_text, long_text, long_text, 3000);
    for (int level = 1; level < 21; level++) at = groups_of(long_text, long_text, at, 3000);
    expect_room(of_number(at, 1), 21, 21);
}

static void direct_texts(void) {
    begin("bit groups, 65,535 groups to the long text");
    expect_room(of_number(groups_of(long_text, long_text, long_text, 65535), 1), 1, 1);
}

static void chosen_texts(void) {
    begin("bit groups, 65,535 groups to a type 7 that chooses the long text");
    uint64_t nested = small_block(7, 0, long_text);
    expect_room(of_number(groups_of(nested, nested, nested, 65535), 1), 65536, 65536);
}

/* So many blocks of a type in a row, with the long name and perhaps a reference. They are 64 bytes and 8 a reference long. */
static uint64_t named_blocks(uint8_t kind, uint64_t ref, size_t blocks) {
    uint64_t first = built_len;
    for (size_t i = 0; i < blocks; i++) small_block(kind, long_text, ref);
    return first;
}

/* Bit groups over so many blocks in a row, and one group more. */
static uint64_t groups_over(uint64_t first, uint64_t step, size_t blocks, uint64_t last) {
    uint64_t address = open_block(0, blocks + 1, blocks + 1);
    for (size_t i = 0; i < blocks; i++) put(first + step * i, 8);
    put(last, 8);
    put_kind(11, blocks + 1, blocks + 1);
    for (size_t i = 0; i <= blocks; i++) put(ALL_BITS, 8);
    return address;
}

static void long_names(void) {
    begin("bit groups, 60,000 blocks of type 7 with the long name");
    uint64_t first = named_blocks(7, short_text, 60000);
    expect_room(of_number(groups_over(first, 72, 60000, 0), 1), 60001, 60001);
    begin("bit groups, 60,000 blocks of type 1 with the long name, and a short text");
    first = named_blocks(1, 0, 60000);
    expect_x(of_number(groups_over(first, 64, 60000, short_text), 1), 60001, 60001);
}

static void text_to_value(void) {
    begin("type 9, 1,000,000 references to the long text");
    mdf_applied a = of_x(block_of(9, long_text, long_text, long_text, 1000000, 0, 0));
    expect(a.refusal == 0 && a.kind == MDF_KIND_UNKNOWN && a.checked == 1 && a.applied == 1 && untouched(0));
    begin("type 9, 65,535 references, the last to the short text");
    uint64_t seven = 0x401c000000000000; /* 7.0 */
    a = of_x(block_of(9, long_text, long_text, short_text, 65535, 65535, seven));
    expect(a.refusal == 0 && a.kind == MDF_KIND_NUMBER && a.number == 7.0 && a.checked == 1 && a.applied == 1 && untouched(0));
}

static void text_to_text(void) {
    begin("type 10, 1,000,001 references to the long text");
    uint64_t at = block_of(10, long_text, long_text, long_text, 1000001, 0, 0);
    expect_room(of_x(at), 1, 1);
    begin("type 10, the same, shown");
    at = block_of(10, long_text, long_text, long_text, 1000001, 0, 0);
    mdf_shown s = mdf_translate(built, built_len, at, LIMIT, (const uint8_t *)"x", 1);
    expect(s.from_image == 1 && s.start == long_text + 24 && s.length == LONG);
    begin("type 10, 1,000,001 references, the last to the short text");
    expect_x(of_x(block_of(10, long_text, long_text, short_text, 1000001, 0, 0)), 1, 1);
}

static void number_to_text(void) {
    begin("type 7, 65,535 keys, all references to the long text");
    expect_room(of_number(block_of(7, long_text, long_text, long_text, 65536, 65535, 0), 1), 1, 1);
    begin("type 8, 32,767 ranges, all references to the long text");
    expect_room(of_number(block_of(8, long_text, long_text, long_text, 32768, 65534, 0), 1), 1, 1);
}

/* 21 blocks of type 0 in a row, each but the last with so many references to the next. Answers the root's address. */
static uint64_t row_of(size_t refs) {
    uint64_t at = small_block(0, 0, 0);
    for (int level = 1; level < 21; level++) at = block_of(0, at, at, at, refs, 0, 0);
    return at;
}

/* The visits of the tree at a block of such a row that has so many levels below it; no more than every limit and one. */
static uint64_t visits_of(uint64_t refs, int below) {
    uint64_t most = (uint64_t)UINT32_MAX + 1, visits = below == 0 ? 1 : 1 + refs * visits_of(refs, below - 1);
    return visits < most ? visits : most;
}

/* The block of row_of(refs) that is visited after `before` visits: the address that the limit `before` refuses. */
static uint64_t visited_after(uint64_t before, uint64_t root, size_t refs) {
    int below = 20;
    while (before > 0) {
        before = (before - 1) % visits_of(refs, --below);
        root -= below == 0 ? 64 : 64 + 8 * refs;
    }
    return root;
}

static void expect_refused(mdf_checked c, uint32_t refusal, uint64_t address) {
    expect(c.refusal == refusal && c.visits == 0 && c.address == address);
}

static void expect_accepted(mdf_checked c, uint64_t visits) { expect(c.refusal == 0 && c.visits == visits && c.address == 0); }

static void linked_again(void) {
    begin("the check of 21 levels, each block twice to the next");
    uint64_t at = row_of(2), visits = visits_of(2, 20);
    expect_accepted(mdf_check(built, built_len, at, UINT32_MAX), visits);
    expect_accepted(mdf_check(built, built_len, at, (uint32_t)visits), visits);
    expect_refused(mdf_check(built, built_len, at, (uint32_t)visits - 1), MDF_REFUSED_LIMIT, visited_after(visits - 1, at, 2));
    expect_refused(mdf_check(built, built_len, at, 1234567), MDF_REFUSED_LIMIT, visited_after(1234567, at, 2));
    begin("the check of 21 levels, each block three times to the next");
    at = row_of(3);
    expect_refused(mdf_check(built, built_len, at, UINT32_MAX), MDF_REFUSED_LIMIT, visited_after(UINT32_MAX, at, 3));
    begin("the check of 21 levels, each block 5,000 times to the next");
    at = row_of(5000);
    expect_refused(mdf_check(built, built_len, at, UINT32_MAX), MDF_REFUSED_LIMIT, visited_after(UINT32_MAX, at, 5000));
}

/* Visits that are counted and not walked again use the limit up as the others do, before a block with few links too. */
static void few_links_behind(void) {
    begin("the check of 21 levels, each block twice to the next, and behind them a block with 3 links");
    uint64_t few = small_block(0, 0, 0), second = row_of(2) - 80; /* the second block of the row stands before the first, with two references */
    built[few + 16] = 3;
    uint64_t at = block_of(0, second, second, few, 3, 0, 0), before = visits_of(2, 20);
    expect_refused(mdf_check(built, built_len, at, (uint32_t)before - 1), MDF_REFUSED_LIMIT, visited_after(before - 1, second + 80, 2));
    expect_refused(mdf_check(built, built_len, at, (uint32_t)before), MDF_REFUSED_LIMIT, few);
    expect_refused(mdf_check(built, built_len, at, (uint32_t)before + 1), MDF_REFUSED_FEW_LINKS, few);
    expect_refused(mdf_check(built, built_len, at, UINT32_MAX), MDF_REFUSED_FEW_LINKS, few);
}

#define MEGABYTE ((size_t)1 << 20)

static bool all_are(uint8_t byte, size_t from, size_t to) {
    while (from < to && built[from] == byte) from++;
    return from == to;
}

/* Reads the long text's block so often, with this block length: a text of so many bytes each time, or a refusal. */
static void expect_text(uint64_t block_length, uint32_t refusal, uint64_t length) {
    uint64_t start = refusal == 0 ? long_text + 24 : 0, address = refusal == 0 ? 0 : long_text;
    bool right = true;
    put_at(long_text + 8, block_length, 8);
    for (int i = 0; right && i < OFTEN; i++) {
        mdf_text t = mdf_text_read(built, built_len, long_text);
        right = t.refusal == refusal && t.id == MDF_TX && t.address == address && t.start == start && t.length == length;
    }
    expect(right);
    put_at(long_text + 8, 24 + LONG, 8);
}

static void texts_read(void) {
    begin("the long text, read");
    mdf_text t = mdf_text_read(built, built_len, long_text);
    expect(t.refusal == 0 && t.id == MDF_TX && t.address == 0 && t.start == long_text + 24 && t.length == LONG);
    begin("the block of the long text with a zero byte near its front, read");
    for (size_t place = 0; place < 3; place++) {
        built[long_text + 24 + place] = 0;
        expect_text(24 + LONG, 0, place);
        built[long_text + 24 + place] = 'x';
    }
    begin("the long text with a block length that no image holds, read");
    expect_text(24 + LONG + 1, MDF_REFUSED_SHORT, 0);
    expect_text(UINT64_C(1) << 63, MDF_REFUSED_SHORT, 0);
    expect_text(0 - long_text + 24, MDF_REFUSED_SHORT, 0);
    expect_text(UINT64_MAX, MDF_REFUSED_SHORT, 0);
    begin("the long text with a block length that is too small, read");
    expect_text(23, MDF_REFUSED_SHORT, 0);
}

/* The long text and what stands before it, written into 64 bytes: its first byte is zero. */
static void zeros_not_written(void) {
    begin("a text of 64 MB whose first byte is zero, written into 64 bytes");
    mdf_written w = mdf_text_write(false, built, built_len, out, sizeof out);
    expect(w.refusal == MDF_REFUSED_ZERO_BYTE && w.length == 0 && untouched(0));
}

static void texts_written(void) {
    begin("a text of 64 MB, written into 64 bytes");
    mdf_written w = mdf_text_write(false, built + long_text + 24, LONG, out, sizeof out);
    expect(w.refusal == MDF_REFUSED_ROOM && w.length == 0 && untouched(0));
    begin("a text of 1 MB without a zero byte, written and read");
    size_t at = behind_texts, text = at + 24, size = 24 + MEGABYTE + 8;
    memset(built + at, FILL, size + 64);
    w = mdf_text_write(true, built + long_text + 24, MEGABYTE, built + at, size + 64);
    expect(w.refusal == 0 && w.length == size && all_are('x', text, text + MEGABYTE) && all_are(0, text + MEGABYTE, at + size) &&
           all_are(FILL, at + size, at + size + 64));
    mdf_text t = mdf_text_read(built, at + size, at);
    expect(t.refusal == 0 && t.id == MDF_MD && t.address == 0 && t.start == text && t.length == MEGABYTE);
}

#define KEYS 65535      /* the most that a block can have */
#define TAIL 4          /* letters that tell the texts of the keys from each other */
#define LETTERS 20      /* that these are taken from: neither x nor y */
#define TEXT_LENGTH 400 /* bytes of such a text: nearly as many as the room behind the first texts allows */
_Static_assert((24 + TEXT_LENGTH) * KEYS + 3 * (64 + 16 * KEYS) + 1024 < CAPACITY - LONG, "the texts, their block, its inverse and the one wanted fit");

static uint64_t key_texts, to_invert; /* the first of the keys' texts, which stand in a row, and the block behind them */

/* How the texts are alike: all have one beginning, or it is as long as their index says, so that each has another length in common with the next. */
static enum { ALIKE, STEPPED } shape;

/* The i-th text: its beginning, and i in letters behind that. A stepped one then has other bytes up to its end. */
static void key_text(size_t i, uint8_t *words) {
    size_t most = TEXT_LENGTH - TAIL, alike = shape == ALIKE ? most : i % most;
    memset(words, 'x', alike);
    for (size_t k = 0; k < TAIL; k++, i /= LETTERS) words[alike + k] = (uint8_t)('a' + i % LETTERS);
    memset(words + alike + TAIL, 'y', most - alike);
}

/* The 64 bits of the i-th key: all are apart, and none is a NaN. */
static uint64_t key_word(size_t i) { return 0x4000000000000000 + i; }

/* The most keys, each with a text of its own. */
static void begin_keys(const char *name, int texts) {
    begin(name);
    shape = texts;
    key_texts = built_len;
    for (size_t i = 0; i < KEYS; i++) key_text(i, built + text_of('x', TEXT_LENGTH) + 24);
    to_invert = open_block(0, KEYS, KEYS);
    for (size_t i = 0; i < KEYS; i++) put(key_texts + (24 + TEXT_LENGTH) * i, 8);
    put_kind(7, KEYS, KEYS);
    for (size_t i = 0; i < KEYS; i++) put(key_word(i), 8);
}

static bool is_inverted_as(mdf_inverted v, uint32_t refusal, uint32_t index, uint64_t address, uint64_t length) {
    return v.refusal == refusal && v.index == index && v.address == address && v.length == length;
}

/* Refused, with room enough. Behind the image every byte is as it was. */
static void expect_not_inverted(uint32_t refusal, uint32_t index) {
    size_t room = 64 + 16 * KEYS;
    memset(built + built_len, FILL, room);
    mdf_inverted v = mdf_invert(built, built_len, to_invert, built + built_len, room);
    expect(is_inverted_as(v, refusal, index, 0, 0) && all_are(FILL, built_len, built_len + room));
}

/* Every word of the new block, which stands behind the image. */
static bool is_inverse(size_t at) {
    size_t place = built_len, size = 64 + 16 * KEYS;
    built_len = at + size + 64; /* the block that is wanted is built further on */
    uint64_t wanted = open_block(0, KEYS, KEYS);
    for (size_t i = 0; i < KEYS; i++) put(key_texts + (24 + TEXT_LENGTH) * i, 8);
    put_kind(9, KEYS, KEYS);
    for (size_t i = 0; i < KEYS; i++) put(key_word(i), 8);
    built_len = place;
    return memcmp(built + at, built + wanted, size) == 0;
}

static mdf_applied of_key_text(size_t image_len, uint64_t at, const uint8_t *words, size_t length) {
    return mdf_apply_text(built, image_len, at, 1, words, length, out, sizeof out);
}

static void keys_inverted(void) {
    static const size_t asked[] = {0, 1, 19, 20, 254, 255, 256, 40000, KEYS - 2, KEYS - 1};
    begin_keys("65,535 keys whose texts differ in their last bytes alone, inverted", ALIKE);
    size_t at = built_len, size = 64 + 16 * KEYS;
    memset(built + at, FILL, size + 64);
    expect(is_inverted_as(mdf_invert(built, at, to_invert, built + at, size + 64), 0, 0, 0, size));
    expect(all_are(FILL, at + size, at + size + 64) && is_inverse(at));
    begin_again("65,535 keys, ten of the texts turned back");
    for (size_t i = 0; i < sizeof asked / sizeof *asked; i++) {
        uint8_t words[TEXT_LENGTH];
        key_text(asked[i], words);
        mdf_applied a = of_key_text(at + size, at, words, TEXT_LENGTH);
        uint64_t word;
        memcpy(&word, &a.number, sizeof word);
        expect(a.refusal == 0 && a.kind == MDF_KIND_NUMBER && word == key_word(asked[i]) && a.checked == 1 && a.applied == 1 && untouched(0));
        a = of_key_text(at + size, at, words, TEXT_LENGTH - 1);
        expect(a.refusal == 0 && a.kind == MDF_KIND_UNKNOWN && a.checked == 1 && a.applied == 1 && untouched(0));
    }
}

static void keys_not_inverted(void) {
    begin_keys("65,535 keys whose texts begin alike, in steps, the last two texts equal", STEPPED);
    memcpy(built + key_texts + (24 + TEXT_LENGTH) * (KEYS - 1), built + key_texts + (24 + TEXT_LENGTH) * (KEYS - 2), 24 + TEXT_LENGTH);
    expect_not_inverted(MDF_REFUSED_REPEATED, KEYS - 1);
    begin_keys("65,535 keys whose texts differ in their last bytes alone, the last key equal to the first", ALIKE);
    put_at(to_invert + 64 + 8 * (KEYS + KEYS - 1), key_word(0), 8);
    expect_not_inverted(MDF_REFUSED_REPEATED, KEYS - 1);
}

/* Refused for the block, its first key or the room, so often that a call which looks at what stands behind does not end. */
static void expect_soon(uint32_t refusal, uint32_t index, uint64_t address) {
    bool right = true;
    for (int i = 0; right && i < OFTEN; i++) {
        right = is_inverted_as(mdf_invert(built, built_len, to_invert, out, sizeof out), refusal, index, address, 0);
    }
    expect(right && untouched(0));
}

static void first_keys_refused(void) {
    uint64_t nan = 0x7ff8000000000000;
    begin("65,535 keys, all references to the short text");
    to_invert = block_of(7, short_text, short_text, short_text, KEYS, KEYS, 0);
    expect_not_inverted(MDF_REFUSED_REPEATED, 1);
    begin("65,535 keys, all references to the long text");
    to_invert = block_of(7, long_text, long_text, long_text, KEYS, KEYS, 0);
    expect_not_inverted(MDF_REFUSED_REPEATED, 1);
    begin("65,535 keys, the first a NaN");
    to_invert = block_of(7, long_text, long_text, long_text, KEYS, KEYS, nan);
    expect_soon(MDF_REFUSED_KEY, 0, 0);
    begin("65,535 keys, the first without a text");
    to_invert = block_of(7, 0, long_text, long_text, KEYS, KEYS, 0);
    expect_soon(MDF_REFUSED_NOT_TEXT, 0, 0);
    begin("65,535 keys of another type");
    to_invert = block_of(9, long_text, long_text, long_text, KEYS, KEYS, 0);
    expect_soon(MDF_REFUSED_WRONG_TYPE, 0, to_invert);
    begin("a link count that no image holds, inverted");
    to_invert = block_of(7, long_text, long_text, long_text, KEYS, KEYS, 0);
    for (int bit = 20; bit < 64; bit++) {
        put_at(to_invert + 16, UINT64_C(1) << bit, 8);
        expect(is_inverted_as(mdf_invert(built, built_len, to_invert, out, sizeof out), MDF_REFUSED_SHORT, 0, to_invert, 0) && untouched(0));
    }
    put_at(to_invert + 16, UINT64_MAX, 8);
    expect_soon(MDF_REFUSED_SHORT, 0, to_invert);
}

/* No reference behind those of the keys is looked at. */
static void defaults_not_inverted(void) {
    begin("one key, and 1,000,000 references more to the long text, inverted");
    to_invert = block_of(7, short_text, long_text, long_text, 1000001, 1, 0);
    expect_soon(MDF_REFUSED_ROOM, 0, 0);
    size_t at = built_len;
    expect(is_inverted_as(mdf_invert(built, at, to_invert, built + at, 80), 0, 0, 0, 80));
    mdf_applied a = of_key_text(at + 80, at, (const uint8_t *)"x", 1);
    expect(a.refusal == 0 && a.kind == MDF_KIND_NUMBER && a.number == 0 && a.checked == 1 && a.applied == 1 && untouched(0));
    begin("two keys, one with the long text, inverted");
    to_invert = open_block(0, 2, 2);
    put(short_text, 8);
    put(long_text, 8);
    put_kind(7, 2, 2);
    put(0, 8);
    put(key_word(1), 8);
    at = built_len;
    expect(is_inverted_as(mdf_invert(built, at, to_invert, built + at, 96), 0, 0, 0, 96));
    a = of_key_text(at + 96, at, built + long_text + 24, LONG);
    expect(a.refusal == 0 && a.kind == MDF_KIND_NUMBER && a.number > 2 && a.checked == 1 && a.applied == 1 && untouched(0));
}

#define READ 80             /* bytes of a block with a range and nothing else that are read */
#define PADDED (READ + LONG) /* the same with 64 MB of excess */

/* The texts are overwritten: from here on there is one block, at 0. */
static void written_with_padding(void) {
    begin("a block with 64 MB of excess, written");
    mdf_block b = {.excess = LONG, .reserved = 0x04030201, .ranged = 1};
    uint64_t nothing = 0;
    mdf_written w = mdf_write(b, &nothing, 0, &nothing, 0, built, CAPACITY);
    expect(w.refusal == 0 && w.length == PADDED && all_are(0, 64, PADDED) && all_are('x', PADDED, behind_texts));
}

/* Parses the block so often with its padding, and this block length. Each time it is refused exactly where that passes the image end. */
static void expect_excess(uint64_t length) {
    bool right = true;
    put_at(8, length, 8);
    for (int i = 0; right && i < OFTEN; i++) {
        mdf_parsed p = mdf_parse_kept(built, PADDED, 0);
        right = length <= PADDED ? p.refusal == 0 && p.block.length == length && p.block.excess == length - READ && p.block.reserved == 0x04030201
                                 : p.refusal == MDF_REFUSED_SHORT && p.address == 0 && p.block.length == 0 && p.block.excess == 0;
    }
    expect(right);
}

static void parsed_with_padding(void) {
    begin("a block with up to 64 MB of excess, parsed with its padding");
    expect_excess(PADDED);
    expect_excess(PADDED - 1);
    begin("a block whose excess passes the image end, parsed with its padding");
    expect_excess(PADDED + 1);
    expect_excess(UINT64_C(1) << 63);
    expect_excess(UINT64_MAX);
}

/* Writes a block of no references and no values so often, with room for 64 bytes and no more. */
static void expect_unwritten(uint64_t excess, uint8_t ranged, uint32_t refusal) {
    mdf_block b = {.excess = excess, .ranged = ranged};
    bool right = true;
    for (int i = 0; right && i < OFTEN; i++) {
        mdf_written w = mdf_write(b, &excess, 0, &excess, 0, out, sizeof out);
        right = w.refusal == refusal && w.length == 0;
    }
    expect(right && untouched(0));
}

static void not_written_with_padding(void) {
    static const uint64_t huge[] = {LONG, UINT64_C(1) << 63, UINT64_MAX - 63, UINT64_MAX};
    begin("a block with a huge excess, written into 64 bytes");
    for (size_t i = 0; i < sizeof huge / sizeof *huge; i++) {
        expect_unwritten(huge[i], 1, MDF_REFUSED_ROOM);
        expect_unwritten(huge[i], 0, MDF_REFUSED_PADDING);
    }
}

int main(void) {
    signal(SIGALRM, stopped);
    built = malloc(CAPACITY);
    if (built == NULL) return 2;
    memset(built, 0, 64);
    built_len = 64;
    short_text = text_of('x', 1);
    long_text = text_of('x', LONG);
    behind_texts = built_len;
    groups_in_groups();
    deep_groups();
    direct_texts();
    chosen_texts();
    long_names();
    text_to_value();
    text_to_text();
    number_to_text();
    linked_again();
    few_links_behind();
    texts_read();
    texts_written();
    zeros_not_written();
    first_keys_refused();
    defaults_not_inverted();
    keys_inverted();
    keys_not_inverted();
    written_with_padding();
    parsed_with_padding();
    not_written_with_padding();
    alarm(0);
    free(built);
    printf("hostile images: %d passed, %d failed\n", passed, failed);
    return failed != 0;
}
