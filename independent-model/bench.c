/* bench even|deep once|checked|log SEED: one run over a random log of 1 MiB, for callgrind; or the log itself. */
#include "gen.h"

#include <stdio.h>
#include <stdlib.h>
#include <string.h>

static uint8_t log_bytes[LOG_MOST];

int main(int argc, char **argv)
{
    if (argc != 4) {
        fputs("usage: bench even|deep once|checked|log SEED\n", stderr);
        return 2;
    }
    const bool even = strcmp(argv[1], "even") == 0, once = strcmp(argv[2], "once") == 0;
    Rng g = {strtoull(argv[3], NULL, 0)};
    State s;
    Plain plain;
    uint8_t record[GEN_MOST];
    plain_start(&plain, 1, 2, 3);
    size_t at = 0;
    while (at < sizeof log_bytes) {
        size_t n = even ? gen_even(&g, record) : gen_plain(&g, &plain, true, record);
        if (n > sizeof log_bytes - at) {
            record[0] = EV_MODE;
            n = 1;
        }
        memcpy(log_bytes + at, record, n);
        at += n;
        plain_step(&plain, record, n);
    }
    if (strcmp(argv[2], "log") == 0)
        return fwrite(log_bytes, 1, sizeof log_bytes, stdout) == sizeof log_bytes ? 0 : 1;
    RunResult out;
    cold_start(&s, 1, 2, 3);
    if (once)
        run_once(&s, log_bytes, sizeof log_bytes, SIZE_MAX, &out);
    else
        run_checked(&s, log_bytes, sizeof log_bytes, SIZE_MAX, &out);
    printf("code %u stop %u offset %u read %u refused %u totals", out.code, out.stop, out.offset,
           out.read, out.refused);
    for (int i = 0; i < 6; i++)
        printf(" %u", out.total[i]);
    printf("\n");
    return 0;
}
