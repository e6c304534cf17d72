/* Document 01's `sheet` by the model: standard input to standard output. */
#include "model.h"

#include <stdio.h>

enum { SHEET_MOST = 4096, SHEET_BUDGET = 4096 };

int sheet_model(FILE *in, FILE *out);

int sheet_model(FILE *in, FILE *out)
{
    static uint8_t input[SHEET_MOST + 1];
    size_t length = 0, got;
    while (length < sizeof input && (got = fread(input + length, 1, sizeof input - length, in)) > 0)
        length += got;
    if (length > SHEET_MOST) {
        fputs("too long\n", out);
        return 0;
    }

    State s;
    cold_start(&s, 1, 2, 3);
    fputs("rec kind code actions\n", out);
    size_t at = 0;
    unsigned read = 0, stop;
    for (;;) {
        if (at == length) { stop = 0; break; }
        if (read == SHEET_BUDGET) { stop = 1; break; }
        const uint8_t kind = input[at];
        if (kind == 0 || kind > KIND_LAST) { stop = 3; break; }
        const size_t n = record_length[kind];
        if (length - at < n) { stop = 2; break; }
        uint8_t a[ACTION_BUFFER];
        const StepResult r = step(&s, input + at, n, a, sizeof a);
        fprintf(out, "%u %u %u", ++read, kind, r.code);
        for (unsigned i = 0; i < r.count; i++) {
            const uint8_t *p = a + ACTION_BYTES * i;
            fprintf(out, " %u:%u/%lu", p[0], p[1],
                    (unsigned long)p[2] << 16 | (unsigned long)p[3] << 8 | p[4]);
        }
        fputc('\n', out);
        at += n;
    }
    fprintf(out, "end %u %u\n", stop, read);
    return 0;
}

#ifndef SHEET_NO_MAIN
int main(void)
{
    sheet_model(stdin, stdout);
    return fflush(stdout) != 0 || ferror(stdout);
}
#endif
