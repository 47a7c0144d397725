/* Whole numbers as f64, against exact arithmetic: reads the lines of tools/nearest.py from standard input and asks for each number, unsigned or signed
 * as the line says, a linear conversion that adds 0 to 1 times it. Neither step rounds, so the answer is the f64 that the archive makes of the number.
 * Each is asked under all four rounding modes of the machine: none may change it, since no float operation is to take part.
 * Fails where a bit differs, and where the lines do not end as they should. */
#include "mdf_conversion.h"

#include "build.h"

#include <fenv.h>
#include <inttypes.h>
#include <stdio.h>
#include <stdlib.h>

#define ONE UINT64_C(0x3ff0000000000000)
#define MOST_SHOWN 10

static const int modes[] = {FE_TONEAREST, FE_UPWARD, FE_DOWNWARD, FE_TOWARDZERO};

static uint8_t image[256], out[1];
static uint64_t linear;
static unsigned long unsigned_asked, signed_asked, wrong;

static void build(void) {
    built = image;
    built_len = 64;
    linear = open_block(0, 0, 2);
    put_kind(1, 0, 2);
    put(0, 8);
    put(ONE, 8);
}

static mdf_applied of_unsigned(uint64_t n) { return mdf_apply_unsigned(image, built_len, linear, 1, n, out, sizeof out); }
static mdf_applied of_signed(int64_t n) { return mdf_apply_signed(image, built_len, linear, 1, n, out, sizeof out); }

/* Whether the answer of a line is the number with the expected bits, in this mode. */
static int is_right(const char *line, int mode) {
    char *rest;
    uint64_t bits;
    mdf_applied answer;
    fesetround(mode);
    if (line[0] == 'u') {
        answer = of_unsigned(strtoull(line + 1, &rest, 10));
    } else {
        answer = of_signed(strtoll(line + 1, &rest, 10));
    }
    fesetround(FE_TONEAREST);
    memcpy(&bits, &answer.number, sizeof bits);
    if (answer.kind == MDF_KIND_NUMBER && bits == strtoull(rest, NULL, 16)) return 1;
    if (wrong < MOST_SHOWN) printf("rounding: mode %d, kind %u, bits %016" PRIx64 ", expected of %s", mode, (unsigned)answer.kind, bits, line);
    return 0;
}

/* Whether the line has a number. */
static int ask(const char *line) {
    if (line[0] != 'u' && line[0] != 's') return 0;
    *(line[0] == 'u' ? &unsigned_asked : &signed_asked) += 1;
    int right = 1;
    for (size_t i = 0; right && i < sizeof modes / sizeof *modes; i++) right = is_right(line, modes[i]);
    wrong += !right;
    return 1;
}

int main(void) {
    char line[128];
    unsigned long count = 0;
    build();
    int more = fgets(line, sizeof line, stdin) != NULL;
    while (more && ask(line)) more = fgets(line, sizeof line, stdin) != NULL;
    if (!more || sscanf(line, "end %lu", &count) != 1 || count == 0 || count != unsigned_asked + signed_asked) {
        puts("rounding: the lines do not end as they should");
        return 1;
    }
    printf("rounding: %lu unsigned and %lu signed numbers as f64, %lu unlike exact arithmetic\n", unsigned_asked, signed_asked, wrong);
    return wrong != 0;
}
