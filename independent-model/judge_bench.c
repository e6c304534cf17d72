/* judge_bench FILE: one judgement of the sheet in the file, with X 1 to 2 and three tries, for callgrind
 * (--toggle-collect=judge). */
#include "judge_model.h"

#include <stdio.h>

static uint8_t sheet[SHEET_LIMIT + 1];

/* Called through a pointer that may change, so that it stays a function of its own. */
static Verdict (*volatile judged)(uint8_t, uint8_t, uint8_t, const uint8_t *, size_t) = judge;

int main(int argc, char **argv)
{
    FILE *const in = argc == 2 ? fopen(argv[1], "rb") : NULL;
    if (!in) {
        fputs("usage: judge_bench FILE\n", stderr);
        return 2;
    }
    const size_t length = fread(sheet, 1, sizeof sheet, in);
    fclose(in);
    const Verdict v = judged(1, 2, 3, sheet, length);
    printf("length %zu code %u fault %u offset %u records %u due %u", length, v.code, v.fault, v.offset, v.records, v.due);
    for (int i = 0; i < ACTION_BYTES; i++)
        printf(" %02x", v.bytes[i]);
    printf("\n");
    return 0;
}
