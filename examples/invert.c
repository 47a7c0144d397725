/* Turns the value to text at address 1664 of the sample image around: behind the image's end the text to value that matches it, which gives the number
 * of a gear's name. README.md says how it is built. */
#include "mdf_conversion.h"
#include <inttypes.h>
#include <stdio.h>
#include <string.h>

int main(int count, char **words) {
    static uint8_t image[65536];
    static const char gear[] = "Low";
    FILE *file = fopen(count > 1 ? words[1] : "samples/tractor.mdf", "rb");
    if (file == NULL) return 2;
    size_t end = (fread(image, 1, sizeof image, file) + 7) / 8 * 8; /* a block stands at a multiple of 8 */
    fclose(file);
    uint64_t back = end;
    mdf_inverted v = mdf_invert(image, end, 1664, image + end, sizeof image - end);
    if (v.refusal != 0) return 1;
    end += v.length;
    uint8_t out[64];
    mdf_applied a = mdf_apply_text(image, end, back, 4096, (const uint8_t *)gear, strlen(gear), out, sizeof out);
    if (a.kind != MDF_KIND_NUMBER) return 1;
    printf("number %.17g for %s at %" PRIu64 "\n", a.number, gear, back);
    return 0;
}
