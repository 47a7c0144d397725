/* Prints size, alignment and the place of each field of the structs of mdf_conversion.h, one struct to a line; then the numbers of refusals,
 * editions and text ids, one to a line. */
#include "mdf_conversion.h"

#include <stdio.h>

#define BEGIN(type) printf("%s %zu %zu:", #type, sizeof(type), _Alignof(type))
#define FIELD(type, field) printf(" %s %zu", #field, offsetof(type, field))
#define END() printf("\n")
#define NUMBER(name) printf("%s %d\n", #name, (int)name)

int main(void) {
    BEGIN(mdf_checked);
    FIELD(mdf_checked, refusal);
    FIELD(mdf_checked, visits);
    FIELD(mdf_checked, address);
    END();
    BEGIN(mdf_applied);
    FIELD(mdf_applied, refusal);
    FIELD(mdf_applied, kind);
    FIELD(mdf_applied, number);
    FIELD(mdf_applied, length);
    FIELD(mdf_applied, address);
    FIELD(mdf_applied, checked);
    FIELD(mdf_applied, applied);
    FIELD(mdf_applied, malformed);
    END();
    BEGIN(mdf_mode);
    FIELD(mdf_mode, width);
    FIELD(mdf_mode, edition);
    END();
    BEGIN(mdf_shown);
    FIELD(mdf_shown, from_image);
    FIELD(mdf_shown, start);
    FIELD(mdf_shown, length);
    END();
    BEGIN(mdf_block);
    FIELD(mdf_block, length);
    FIELD(mdf_block, links);
    FIELD(mdf_block, name);
    FIELD(mdf_block, unit);
    FIELD(mdf_block, comment);
    FIELD(mdf_block, inverse);
    FIELD(mdf_block, range_min);
    FIELD(mdf_block, range_max);
    FIELD(mdf_block, min_word);
    FIELD(mdf_block, max_word);
    FIELD(mdf_block, excess);
    FIELD(mdf_block, reserved);
    FIELD(mdf_block, flags);
    FIELD(mdf_block, ref_count);
    FIELD(mdf_block, val_count);
    FIELD(mdf_block, kind);
    FIELD(mdf_block, precision);
    FIELD(mdf_block, ranged);
    END();
    BEGIN(mdf_parsed);
    FIELD(mdf_parsed, refusal);
    FIELD(mdf_parsed, address);
    FIELD(mdf_parsed, block);
    END();
    BEGIN(mdf_word);
    FIELD(mdf_word, refusal);
    FIELD(mdf_word, found);
    FIELD(mdf_word, address);
    FIELD(mdf_word, word);
    END();
    BEGIN(mdf_written);
    FIELD(mdf_written, refusal);
    FIELD(mdf_written, length);
    END();
    BEGIN(mdf_text);
    FIELD(mdf_text, refusal);
    FIELD(mdf_text, id);
    FIELD(mdf_text, address);
    FIELD(mdf_text, start);
    FIELD(mdf_text, length);
    END();
    BEGIN(mdf_inverted);
    FIELD(mdf_inverted, refusal);
    FIELD(mdf_inverted, index);
    FIELD(mdf_inverted, address);
    FIELD(mdf_inverted, length);
    END();
    NUMBER(MDF_REFUSED_OUTSIDE);
    NUMBER(MDF_REFUSED_NOT_CONVERSION);
    NUMBER(MDF_REFUSED_LIMIT);
    NUMBER(MDF_REFUSED_SHORT);
    NUMBER(MDF_REFUSED_DEEP);
    NUMBER(MDF_REFUSED_LOOP);
    NUMBER(MDF_REFUSED_FORMULA);
    NUMBER(MDF_REFUSED_ROOM);
    NUMBER(MDF_REFUSED_COUNT);
    NUMBER(MDF_REFUSED_WIDTH);
    NUMBER(MDF_REFUSED_NOT_TEXT);
    NUMBER(MDF_REFUSED_REPEATED);
    NUMBER(MDF_REFUSED_KEY);
    NUMBER(MDF_REFUSED_WRONG_TYPE);
    NUMBER(MDF_REFUSED_EDITION);
    NUMBER(MDF_REFUSED_FEW_LINKS);
    NUMBER(MDF_REFUSED_ZERO_BYTE);
    NUMBER(MDF_REFUSED_NOT_TEXT_BLOCK);
    NUMBER(MDF_REFUSED_PADDING);
    NUMBER(MDF_EDITION_410);
    NUMBER(MDF_EDITION_420);
    NUMBER(MDF_TX);
    NUMBER(MDF_MD);
    return 0;
}
