/* Gives a conversion of the sample image a new name: behind the image's end a text block, and behind that the conversion at address 528 once more,
 * with its name link to the new text. README.md says how it is built. */
#include "mdf_conversion.h"
#include <inttypes.h>
#include <stdio.h>
#include <string.h>

#define MOST 16 /* references and values that are written */

int main(int count, char **words) {
    static uint8_t image[65536];
    static uint64_t refs[MOST], values[MOST];
    static const char name[] = "PTO torque";
    FILE *file = fopen(count > 1 ? words[1] : "samples/tractor.mdf", "rb");
    if (file == NULL) return 2;
    size_t end = (fread(image, 1, sizeof image, file) + 7) / 8 * 8; /* a block stands at a multiple of 8 */
    fclose(file);
    uint64_t text = end;
    mdf_written w = mdf_text_write(false, (const uint8_t *)name, strlen(name), image + end, sizeof image - end);
    if (w.refusal != 0) return 1;
    end += w.length;
    mdf_parsed p = mdf_parse_kept(image, end, 528);
    if (p.refusal != 0 || p.block.links - 4 > MOST || p.block.val_count > MOST) return 1;
    for (uint64_t i = 0; i < p.block.links - 4; i++) refs[i] = mdf_reference(image, end, 528, i).word;
    for (uint64_t i = 0; i < p.block.val_count; i++) values[i] = mdf_value_word(image, end, 528, i).word;
    p.block.name = text;
    uint64_t torque = end;
    w = mdf_write(p.block, refs, p.block.links - 4, values, p.block.val_count, image + end, sizeof image - end);
    if (w.refusal != 0) return 1;
    end += w.length;
    mdf_text t = mdf_text_read(image, end, mdf_parse(image, end, torque).block.name);
    uint8_t out[64];
    mdf_applied a = mdf_apply_signed(image, end, torque, 4096, -3, out, sizeof out);
    if (t.refusal != 0 || a.kind != MDF_KIND_NUMBER) return 1;
    printf("name %.*s at %" PRIu64 "\n", (int)t.length, (const char *)image + t.start, text);
    printf("number %.17g at %" PRIu64 "\n", a.number, torque);
    return 0;
}
