/* The text that the bit groups at address 2488 of the sample image give for the value 6. README.md says how it is built; the comment at the head of
 * mdf_conversion.h has the same lines. */
#include "mdf_conversion.h"
#include <inttypes.h>
#include <stdio.h>

int main(int count, char **words) {
    static uint8_t image[65536];
    FILE *file = fopen(count > 1 ? words[1] : "samples/tractor.mdf", "rb");
    if (file == NULL) return 2;
    size_t length = fread(image, 1, sizeof image, file);
    fclose(file);
    uint8_t out[64];
    mdf_applied a = mdf_apply_unsigned(image, length, 2488, 4096, 6, out, sizeof out);
    if (a.kind == MDF_KIND_REFUSED) printf("refused %" PRIu32 " at %" PRIu64 "\n", a.refusal, a.address);
    if (a.kind == MDF_KIND_NUMBER) printf("number %.17g\n", a.number);
    if (a.kind == MDF_KIND_TEXT) printf("text %.*s\n", (int)a.length, (const char *)out);
    return 0;
}
