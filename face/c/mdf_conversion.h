/* MDF 4 conversion blocks (##CC): checked, applied to values, parsed, read by place and written, and value to text turned into text to value; text
 * blocks (##TX and ##MD): read and written.
 *
 * Every call works on an image that is lent to it: the bytes of an MDF 4 file, or any bytes at all. An address is a place in the image, counted
 * from 0. No image, address, value or length makes a call misbehave or run on: a call answers, or it refuses with a number.
 *
 * Example: the text that the bit groups at address 2488 give for the value 6.
 *
 *     #include "mdf_conversion.h"
 *     #include <inttypes.h>
 *     #include <stdio.h>
 *
 *     int main(int count, char **words) {
 *         static uint8_t image[65536];
 *         FILE *file = fopen(count > 1 ? words[1] : "samples/tractor.mdf", "rb");
 *         if (file == NULL) return 2;
 *         size_t length = fread(image, 1, sizeof image, file);
 *         fclose(file);
 *         uint8_t out[64];
 *         mdf_applied a = mdf_apply_unsigned(image, length, 2488, 4096, 6, out, sizeof out);
 *         if (a.kind == MDF_KIND_REFUSED) printf("refused %" PRIu32 " at %" PRIu64 "\n", a.refusal, a.address);
 *         if (a.kind == MDF_KIND_NUMBER) printf("number %.17g\n", a.number);
 *         if (a.kind == MDF_KIND_TEXT) printf("text %.*s\n", (int)a.length, (const char *)out);
 *         return 0;
 *     }
 *
 * It prints "text Gear = Low|PTO". In the project's root `tools/archive` makes the archive, and
 *
 *     gcc -std=c11 -Iface/c example.c target/staticlib/libgateway.a -o example
 *
 * links it. The archive is for x86-64 Linux and needs no library: it calls nothing of the C library.
 *
 * What a caller owes. Of every pointer that stands before a length:
 * - It points to that many elements. It is not null and fits its type's alignment, even where the length is 0: an empty slice may point to any
 *   object of its type, such as a local variable, and nothing is read or written there.
 * - A slice has at most PTRDIFF_MAX bytes.
 * - `out` shares no byte with another slice of the call, and no other thread writes to a slice, or reads `out`, while the call runs. It may hold
 *   anything: mdf_write and mdf_text_write look at some of it before they write there, but nothing depends on what they find.
 * Of the float environment: it is the one that a C program starts with, where results round to nearest and no subnormal number is flushed to zero.
 * After fesetround, or in a program that is linked with -ffast-math, a call can answer otherwise.
 *
 * A call keeps nothing, and uses no heap and no variable of its own. Calls may run at the same time.
 *
 * What a call can cost. With S the bytes of the image, N the visits of the check, which are at most `limit`, B the bytes of the largest block that
 * is visited, and R the bytes of `out`:
 * - mdf_check takes at most a constant times N * B. It looks at each reference of a visited block once and reads no text. A reference that is the
 *   same as the last one of its block that led to a nested block is counted and not walked again, so that blocks which link many times to the
 *   next cost their bytes, not their visits.
 * - An application takes at most a constant times S + N * (B + R), and for a text value of Q bytes Q + r * (Q + 1) more, r being the references of
 *   the block at `address`. A text of the image is looked at no further than one byte past the room that is left, a key no further than one byte
 *   past the value's end: how long a text is plays no part, nor how many references lead to it.
 * - mdf_translate takes what the check and the keys take, and reads the text that it shows once, to its end.
 * - mdf_parse, mdf_parse_kept, mdf_reference and mdf_value_word take a constant, however large the block: excess bytes are not looked at.
 * - mdf_write takes what it writes, its excess with it, so that no excess costs more than the length of `out`: what does not fit is not begun.
 * - mdf_text_read looks once at each byte of the text, up to its first zero byte; mdf_text_write takes the text's bytes twice, and what it writes.
 *   Nothing else plays a part in either: not the length of the image, nor what the block length has behind the first zero byte.
 * - mdf_invert of a block with n keys takes at most n * n / 2 comparisons of keys and as many short steps for the texts; for each 255 keys it runs
 *   through each text behind them at most twice; and it writes 16 bytes a key. No limit stops it, but there are at most 65,535 keys: that is
 *   2,147,385,345 comparisons, and 257 times two runs through a text. It never takes n * n times the length of a text, however alike the texts are.
 *
 * So `limit` and the length of `out` are the caller's brake. Choose a limit well above the nested blocks that one conversion is expected to have:
 * 4096 is generous, while 4294967295 lets an image of some kilobytes begin that many visits. Choose `out` as long as the longest text that can be shown: a
 * longer one is refused with 8 at no more cost.
 *
 * Stack: at most 8,936 bytes below the caller, at 21 levels of nested blocks, the most that the check accepts.
 */
#ifndef MDF_CONVERSION_H
#define MDF_CONVERSION_H

#include <stdbool.h>
#include <stddef.h>
#include <stdint.h>

#ifdef __cplusplus
extern "C" {
#endif

/* Why a call refused. 1 to 6, 15, 18 and 22 have the address of the block or link, 12 to 14 the index of a key; every other field that does not apply
 * is 0. */
enum mdf_refusal {
    MDF_REFUSED_OUTSIDE = 1,         /* root address + 24 is beyond the image; out of mdf_text_read the address + 24 */
    MDF_REFUSED_NOT_CONVERSION = 2,  /* the root's id is not ##CC */
    MDF_REFUSED_LIMIT = 3,           /* a visit would exceed the visit limit */
    MDF_REFUSED_SHORT = 4,           /* the image ends inside a ##CC block; out of mdf_parse_kept also inside its excess; out of
                                        mdf_text_read the block length is below 24 or passes the image end */
    MDF_REFUSED_DEEP = 5,            /* a block at depth 21; the root has depth 0 */
    MDF_REFUSED_LOOP = 6,            /* a link back to a block on the current path */
    MDF_REFUSED_FORMULA = 7,         /* applying reaches a formula (type 3) with a number */
    MDF_REFUSED_ROOM = 8,            /* the text or block is longer than `out` */
    MDF_REFUSED_COUNT = 9,           /* more than 65,535 values to write */
    MDF_REFUSED_WIDTH = 11,          /* the width of a mode is 0 or above 64 */
    MDF_REFUSED_NOT_TEXT = 12,       /* a key to invert has no reference, or one that leads to no text or to an empty one */
    MDF_REFUSED_REPEATED = 13,       /* a key to invert, or its text, is equal to an earlier one; 0 and -0 are equal */
    MDF_REFUSED_KEY = 14,            /* a key to invert is a NaN */
    MDF_REFUSED_WRONG_TYPE = 15,     /* the block to invert is no value to text (type 7) */
    MDF_REFUSED_EDITION = 16,        /* the edition of a mode is neither 410 nor 420 */
    MDF_REFUSED_FEW_LINKS = 18,      /* a ##CC block whose link count is below 4; the program repair_block writes it with 4 */
    MDF_REFUSED_ZERO_BYTE = 21,      /* a zero byte in a text to write: the text would end there when it is read */
    MDF_REFUSED_NOT_TEXT_BLOCK = 22, /* the block's id is neither ##TX nor ##MD */
    MDF_REFUSED_PADDING = 23         /* 16 or more bytes of excess to write behind a block without a range: they would be read as one */
};

/* What an application answers. */
enum mdf_kind {
    MDF_KIND_REFUSED = 0,   /* see `refusal` */
    MDF_KIND_NUMBER = 1,    /* see `number` */
    MDF_KIND_TEXT = 2,      /* the first `length` bytes of `out` */
    MDF_KIND_UNCHANGED = 3, /* the value stays as it is */
    MDF_KIND_UNKNOWN = 4    /* the value has no counterpart */
};

/* The answer of a check. */
typedef struct {
    uint32_t refusal; /* 0: accepted */
    uint32_t visits;  /* N, the blocks visited, if it is accepted */
    uint64_t address; /* of a refusal from 1 to 6, or 18 */
} mdf_checked;

/* The answer of an application. Fields that do not apply are 0. */
typedef struct {
    uint32_t refusal; /* 0: there is an answer */
    uint32_t kind;    /* a number of enum mdf_kind */
    double number;    /* of kind MDF_KIND_NUMBER */
    uint64_t length;  /* bytes of the text, of kind MDF_KIND_TEXT */
    uint64_t address; /* of a refusal from 1 to 6, or 18 */
    uint32_t checked; /* N, the visits of the check; 0 where refused with 1 to 6, 11, 16 or 18 */
    uint32_t applied; /* M, the visits of applying; 0 where refused with 1 to 6, 11, 16 or 18 */
    /* 1: a malformed table was consulted, up to the answer or the refusal: a range to text (type 8) was applied to a number, and has no, one or an
     * odd number of values. Its first reference then decides, whatever the number is. Else 0, also where refused with 1 to 6, 11, 16 or 18. */
    uint32_t malformed;
} mdf_applied;

/* The editions of MDF that a mode can name: bit groups (type 11) came with 4.20. */
enum mdf_edition {
    MDF_EDITION_410 = 410, /* 4.10: type 11 is unknown, and leaves every value unchanged */
    MDF_EDITION_420 = 420  /* 4.20: type 11 is bit groups, as in the calls without a mode */
};

/* How an application is to be done. */
typedef struct {
    uint32_t width;   /* how many bits the signal has, 1 to 64: only so many low bits of a whole number reach the masks of bit groups */
    uint32_t edition; /* a number of enum mdf_edition */
} mdf_mode;

/* A part of the image or of the question. */
typedef struct {
    uint32_t from_image; /* 1: that part of the image; 0: the whole question */
    uint64_t start;      /* its first byte; 0 for the question */
    uint64_t length;     /* how many bytes it has */
} mdf_shown;

/* The fields of a ##CC block. A link is an address, and 0 leads nowhere. */
typedef struct {
    uint64_t length;                         /* block length, as written */
    uint64_t links;                          /* link count, as written: at least 4 out of parsing */
    uint64_t name, unit, comment, inverse;   /* the four fixed links */
    double range_min, range_max;             /* 0 where there is no range */
    uint64_t min_word, max_word;             /* the 64 bits of the range as they stand in the image: a NaN keeps its own here */
    uint64_t excess;                         /* by how many bytes the block length exceeds what was read; for writing: how many zero bytes go
                                                behind the values. 0 out of mdf_parse */
    uint32_t reserved;                       /* the four bytes behind the id, little-endian. 0 out of mdf_parse */
    uint16_t flags;
    uint16_t ref_count;                      /* the reference count field; the block has links - 4 references */
    uint16_t val_count;                      /* how many values the block has */
    uint8_t kind;                            /* type: 0 identity, 1 linear, 2 rational, 3 formula, 4 table interpolated, 5 table nearest,
                                                6 range to value, 7 value to text, 8 range to text, 9 text to value, 10 text to text,
                                                11 bit groups; any other is unknown */
    uint8_t precision;
    uint8_t ranged;                          /* whether there is a range: 1 or 0 out of parsing; for writing any number but 0 says so */
} mdf_block;

/* The answer of parsing. */
typedef struct {
    uint32_t refusal; /* 0: parsed */
    uint64_t address; /* of the refusal */
    mdf_block block;  /* all 0 where refused */
} mdf_parsed;

/* The answer of reading by place. */
typedef struct {
    uint32_t refusal; /* 0: the block was parsed */
    uint32_t found;   /* 1: the block has that place; 0: it has none, or refused */
    uint64_t address; /* of the refusal */
    uint64_t word;    /* the 64 bits that stand there, if found; else 0 */
} mdf_word;

/* The answer of writing. */
typedef struct {
    uint32_t refusal; /* 0: written */
    uint64_t length;  /* bytes written; 0 where refused */
} mdf_written;

/* The ids of a text block. */
enum mdf_text_id {
    MDF_TX = 0, /* ##TX, a plain text: what conversions take */
    MDF_MD = 1  /* ##MD, metadata, a text that is XML */
};

/* The answer of reading a text block. Fields that do not apply are 0. */
typedef struct {
    uint32_t refusal; /* 0: there is a text */
    uint32_t id;      /* a number of enum mdf_text_id; 0 where refused */
    uint64_t address; /* of the refusal */
    uint64_t start;   /* the text's first byte in the image, which is that of the block + 24; 0 where refused */
    uint64_t length;  /* how many bytes the text has, with no zero at its end; 0 where refused */
} mdf_text;

/* The answer of inverting. Fields that do not apply are 0. */
typedef struct {
    uint32_t refusal; /* 0: written */
    uint32_t index;   /* of the key that is refused with 12, 13 or 14; the first has index 0 */
    uint64_t address; /* of a refusal with 1, 2, 4, 15 or 18 */
    uint64_t length;  /* bytes written; 0 where refused */
} mdf_inverted;

/* Walks the conversion at `address` and every conversion under it, references in order, and begins at most `limit` visits.
 * Answers how many blocks it visited, a block that is reached twice counting twice; or the first refusal met, of 1 to 6 and 18: at the root in the
 * order 1, 2, 3, 18, 4, at a nested block 3, 18, 4, 5. A link to a block on the current path is 6, and that block is not begun again. */
mdf_checked mdf_check(const uint8_t *image, size_t image_len, uint64_t address, uint32_t limit);

/* Checks as mdf_check does, then applies the conversion at `address` to an unsigned whole number.
 * Answers a number, a text, unchanged or unknown, with the visits of both walks and whether a malformed table was consulted; or a refusal of 1
 * to 8 or 18. Refusals 7 and 8 have the visits too, and say the same of tables.
 * Afterwards a text stands in `out` from byte 0 on and the bytes behind it are as they were. After any other answer, and after every refusal,
 * all of `out` is as it was. */
mdf_applied mdf_apply_unsigned(const uint8_t *image, size_t image_len, uint64_t address, uint32_t limit, uint64_t value, uint8_t *out,
                               size_t out_len);

/* As mdf_apply_unsigned, for a signed whole number. Bit groups see its 64 bits in two's complement; where the signal has fewer, see
 * mdf_apply_mode_signed. */
mdf_applied mdf_apply_signed(const uint8_t *image, size_t image_len, uint64_t address, uint32_t limit, int64_t value, uint8_t *out,
                             size_t out_len);

/* As mdf_apply_unsigned, for a float. The upper bound of a range does not belong to the range, as it does for whole numbers. */
mdf_applied mdf_apply_float(const uint8_t *image, size_t image_len, uint64_t address, uint32_t limit, double value, uint8_t *out,
                            size_t out_len);

/* As mdf_apply_unsigned, for a text of `text_len` bytes, with no zero at its end. */
mdf_applied mdf_apply_text(const uint8_t *image, size_t image_len, uint64_t address, uint32_t limit, const uint8_t *text, size_t text_len,
                           uint8_t *out, size_t out_len);

/* As mdf_apply_unsigned, for a value of any other kind. It stays unchanged, unless the check refuses. */
mdf_applied mdf_apply_other(const uint8_t *image, size_t image_len, uint64_t address, uint32_t limit, uint8_t *out, size_t out_len);

/* As mdf_apply_unsigned, in a mode. In edition 4.20 every block of bit groups (type 11) that is reached sees no more than the low `mode.width` bits of
 * the value: a signal of 4 bits has no bit 4, so that a group with the mask 16 gets 0. In edition 4.10 a block of type 11 leaves the value
 * unchanged, is one visit and passes nothing to its references, so that M is at most 21. No other conversion looks at the mode, nor does the check.
 * Width 64 in edition 4.20 is mdf_apply_unsigned.
 * Refuses with 16 where the edition is neither 410 nor 420, then with 11 where the width is 0 or above 64, before anything else is looked at. */
mdf_applied mdf_apply_mode_unsigned(const uint8_t *image, size_t image_len, uint64_t address, uint32_t limit, mdf_mode mode, uint64_t value,
                                    uint8_t *out, size_t out_len);

/* As mdf_apply_mode_unsigned, for a signed whole number. Bit groups see the low bits of its two's complement: -1 of a signal of 4 bits is 15 to
 * them, where mdf_apply_signed shows them all 64 bits. */
mdf_applied mdf_apply_mode_signed(const uint8_t *image, size_t image_len, uint64_t address, uint32_t limit, mdf_mode mode, int64_t value,
                                  uint8_t *out, size_t out_len);

/* As mdf_apply_float, mdf_apply_text and mdf_apply_other, in a mode: edition and width are tested. These values are left unchanged by type 11 in both
 * editions, so that the mode plays no other part. */
mdf_applied mdf_apply_mode_float(const uint8_t *image, size_t image_len, uint64_t address, uint32_t limit, mdf_mode mode, double value,
                                 uint8_t *out, size_t out_len);
mdf_applied mdf_apply_mode_text(const uint8_t *image, size_t image_len, uint64_t address, uint32_t limit, mdf_mode mode, const uint8_t *text,
                                size_t text_len, uint8_t *out, size_t out_len);
mdf_applied mdf_apply_mode_other(const uint8_t *image, size_t image_len, uint64_t address, uint32_t limit, mdf_mode mode, uint8_t *out,
                                 size_t out_len);

/* Translates a text without copying it: answers the part of the image with the text that a text to text conversion (type 10) chooses for the
 * question. Answers the question itself where the check refuses, the root has another type, or no text is chosen. Names no refusal. */
mdf_shown mdf_translate(const uint8_t *image, size_t image_len, uint64_t address, uint32_t limit, const uint8_t *question, size_t question_len);

/* Reads the fields of the one block at `address`; its padding is left out: `reserved` and `excess` are 0. Answers them, or refusal 1, 2, 18 or 4,
 * tested in that order.
 * The parsed block lies whole in the image, all numbers little-endian and unaligned; mdf_reference and mdf_value_word read these by place:
 * - its references, 8 bytes each, from address + 56 on: links - 4 of them;
 * - its values, 8 bytes each, val_count of them, from address + 64 + 8 * references on, and 16 more where there is a range. */
mdf_parsed mdf_parse(const uint8_t *image, size_t image_len, uint64_t address);

/* As mdf_parse, and keeps the padding, so that the block can be written as long as it was. `reserved` has the four bytes behind the id. `excess` has
 * how far the block length exceeds the bytes that were read, from the address to the end of the values; 0 where the block length is below that, and
 * never more than 15 without a range, since 16 are one. What the excess bytes hold is not looked at, but they have to lie in the image: refuses as
 * mdf_parse does, and then with 4 where they pass its end.
 * Writing what was parsed, with the block's references and the words of its values, returns its bytes, where the excess bytes are zero and the block
 * length is not below the bytes that were read. */
mdf_parsed mdf_parse_kept(const uint8_t *image, size_t image_len, uint64_t address);

/* Reads one reference of the block at `address`, the first of which has index 0. Answers its word, which is a link; or that the block has no such
 * reference, for every index from its number of references on; or refusal 1, 2, 18 or 4, as mdf_parse does. */
mdf_word mdf_reference(const uint8_t *image, size_t image_len, uint64_t address, uint64_t index);

/* As mdf_reference, for one of the block's val_count values. Its word has the 64 bits of a double, or of a mask in bit groups. */
mdf_word mdf_value_word(const uint8_t *image, size_t image_len, uint64_t address, uint64_t index);

/* Writes a block with these references and these values, each value as its 64 bits, and `excess` zero bytes behind them.
 * Of `block` it takes the reserved bytes, the four fixed links, kind, precision, flags, ref_count, excess and, where `ranged` is not 0, the range. A
 * range bound that is a NaN is written as its word if that is a NaN too, else as 0x7ff8000000000000; any other bound as it is, whatever its word.
 * The link count is 4 + refs_len, the value count words_len, the block length what is written, the excess with it.
 * Answers how many bytes it wrote; or refusal 9, 23 or 8, tested in that order, the sums exact however large the excess is. Afterwards the block
 * stands in `out` from byte 0 on and the bytes behind it are as they were. After a refusal all of `out` is as it was. */
mdf_written mdf_write(mdf_block block, const uint64_t *refs, size_t refs_len, const uint64_t *words, size_t words_len, uint8_t *out,
                      size_t out_len);

/* Reads the text block at `address`, ##TX or ##MD. Address 0 is an address like any other: it is no link here.
 * Answers which of the two ids the block has, and where its text stands in the image: from the block's byte 24 on, up to the first zero byte, or to
 * the block length if no zero stands before that. Or it refuses, with the address: with 1 where address + 24 passes the image end, then with 22 where
 * the id is another, then with 4 where the block length is below 24 or address + block length passes the image end.
 * The link count and the reserved bytes are not looked at, nor is what stands behind the first zero byte. No text is copied.
 * A ##TX gives the text that a conversion takes by a link to it. A ##MD is read here, and gives a conversion no text. */
mdf_text mdf_text_read(const uint8_t *image, size_t image_len, uint64_t address);

/* Writes a text block: ##MD if `metadata`, else ##TX, for a text of `text_len` bytes, with no zero at its end.
 * The reserved bytes and the link count are 0. Behind the text stand one zero byte and then zeros up to a multiple of 8; the block length has all of
 * it: 24 + text_len + 1, rounded up to a multiple of 8. An empty text gives a block of 32 bytes.
 * Answers how many bytes it wrote, which is the block length; or refusal 21 where the text holds a zero byte, whatever the room, then 8 where `out`
 * is shorter than the block. Afterwards the block stands in `out` from byte 0 on and the bytes behind it are as they were. After a refusal all of
 * `out` is as it was.
 * mdf_text_read gives the same id and the same text back, wherever the block stands in an image. */
mdf_written mdf_text_write(bool metadata, const uint8_t *text, size_t text_len, uint8_t *out, size_t out_len);

/* Builds the text to value block (type 9) that matches the value to text block (type 7) at `address`: it turns the text of a key back into the key. The
 * keys of the old block are its values, in order; the text of a key is that of the reference with the key's index.
 * Of n keys the new block has 64 + 16 * n bytes and 4 + n links: the old block's name, unit and comment links, an inverse link of 0, and the old block's
 * first n references. It has the old block's precision and flags, n as reference count field and as value count, no range and no padding, and as values
 * the 64 bits of each key as they stand. A default text of the old block, which is a reference behind those of the keys, is not taken over.
 * Answers how many bytes it wrote; or refuses, with the address: with 1, 2, 18 or 4 as mdf_parse does, then with 15 where the type is not 7. Then key by
 * key, with the key's index: with 14 where the key is a NaN, else with 12 where it has no reference, or its reference is 0, leads to no ##TX that lies
 * whole in the image, or to an empty text, else with 13 where an earlier key is equal to it, as 0 and -0 are, or has an equal text. And last with 8.
 * Afterwards the block stands in `out` from byte 0 on and the bytes behind it are as they were. After a refusal all of `out` is as it was.
 * Set behind the end of the image, and applied there with a limit of 1 or more, the new block gives for the text of a key that key, all its 64 bits,
 * with N and M both 1; for any other text it gives unknown. */
mdf_inverted mdf_invert(const uint8_t *image, size_t image_len, uint64_t address, uint8_t *out, size_t out_len);

#ifdef __cplusplus
}
#endif

#endif
