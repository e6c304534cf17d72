/* random_sheet even|deep log|sheet BYTES SEED: the log of `bench` with this seed, as far as its sheet (X 1 to 2, three
 * tries) has at most BYTES bytes; or that sheet. */
#include "gen.h"
#include "judge_model.h"

#include <stdio.h>
#include <stdlib.h>
#include <string.h>

static uint8_t log_bytes[LOG_MOST + GEN_MOST], sheet[SHEET_LIMIT];

int main(int argc, char **argv)
{
    if (argc != 5) {
        fputs("usage: random_sheet even|deep log|sheet BYTES SEED\n", stderr);
        return 2;
    }
    const bool even = strcmp(argv[1], "even") == 0;
    const size_t most = strtoul(argv[3], NULL, 0);
    Rng g = {strtoull(argv[4], NULL, 0)};
    if (most > SHEET_LIMIT)
        return 2;
    State s;
    Plain plain;
    cold_start(&s, 1, 2, 3);
    plain_start(&plain, 1, 2, 3);
    size_t length = 0, due = 0;
    for (;;) {
        uint8_t *const record = log_bytes + length, actions[ACTION_BUFFER];
        const size_t n = even ? gen_even(&g, record) : gen_plain(&g, &plain, true, record);
        plain_step(&plain, record, n);
        due += n + ANSWER_BYTES + ACTION_BYTES * step_trusted(&s, record, actions).count;
        if (due > most)
            break;
        length += n;
    }
    const Made m = produce(1, 2, 3, log_bytes, length, sheet, sizeof sheet);
    if (m.code != 0 || m.stop != 0)
        return 1;
    const bool log = strcmp(argv[2], "log") == 0;
    const size_t out = log ? length : m.written;
    return fwrite(log ? log_bytes : sheet, 1, out, stdout) == out ? 0 : 1;
}
