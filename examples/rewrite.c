/* Rewrites one value of a padded block: the block stays as long as it was, and no byte changes but those of the value. README.md says how it is
 * built. */
#include "mdf_conversion.h"
#include <inttypes.h>
#include <stdio.h>
#include <string.h>

#define MOST 16 /* references and values that are rewritten */

/* A linear conversion, 0 + 0.125 * x, with reserved bytes that are not zero and 8 bytes behind its values. */
static const uint8_t image[88] = {
    '#', '#', 'C', 'C', 1, 2, 3, 4,                                                                 /* id, reserved bytes */
    88, 0, 0, 0, 0, 0, 0, 0, 4, 0, 0, 0, 0, 0, 0, 0,                                                /* block length, link count */
    0, 0, 0, 0, 0, 0, 0, 0, 0, 0, 0, 0, 0, 0, 0, 0, 0, 0, 0, 0, 0, 0, 0, 0, 0, 0, 0, 0, 0, 0, 0, 0, /* name, unit, comment, inverse */
    1, 3, 0, 0, 0, 0, 2, 0,                                                                         /* type, precision, flags, counts */
    0, 0, 0, 0, 0, 0, 0, 0, 0, 0, 0, 0, 0, 0, 0xc0, 0x3f,                                           /* the values 0 and 0.125 */
    0, 0, 0, 0, 0, 0, 0, 0,                                                                         /* the excess */
};

int main(void) {
    static uint64_t refs[MOST], words[MOST];
    uint8_t out[sizeof image];
    mdf_parsed p = mdf_parse_kept(image, sizeof image, 0);
    if (p.refusal != 0 || p.block.links - 4 > MOST || p.block.val_count > MOST) return 1;
    for (uint64_t i = 0; i < p.block.links - 4; i++) refs[i] = mdf_reference(image, sizeof image, 0, i).word;
    for (uint64_t i = 0; i < p.block.val_count; i++) words[i] = mdf_value_word(image, sizeof image, 0, i).word;
    double factor = 2.1;
    memcpy(&words[1], &factor, sizeof factor);
    mdf_written w = mdf_write(p.block, refs, p.block.links - 4, words, p.block.val_count, out, sizeof out);
    if (w.refusal != 0) return 1;
    printf("reserved 0x%08" PRIx32 ", excess %" PRIu64 "\n", p.block.reserved, p.block.excess);
    printf("%" PRIu64 " bytes before, %" PRIu64 " after\nchanged:", p.block.length, w.length);
    for (size_t i = 0; i < w.length; i++) {
        if (out[i] != image[i]) printf(" %zu", i);
    }
    printf("\n");
    return 0;
}
