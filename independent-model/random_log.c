/* random_log SEED: a log for `sheet`, of any length up to a little over what it takes; one in four is damaged. */
#include "gen.h"

#include <stdio.h>
#include <stdlib.h>
#include <string.h>

enum { ROOM = 4200 };

int main(int argc, char **argv)
{
    if (argc != 2) {
        fputs("usage: random_log SEED\n", stderr);
        return 2;
    }
    Rng g = {strtoull(argv[1], NULL, 0)};
    static uint8_t bytes[ROOM + GEN_MOST];
    uint8_t actions[ACTION_BUFFER];
    State s;
    cold_start(&s, 1, 2, 3);
    const size_t most = rng_below(&g, 8) == 0 ? ROOM : rng_below(&g, 1200);
    size_t length = 0;
    while (length < most) {
        const size_t n = gen_record_last(&g, &s, true, bytes + length);
        step_trusted(&s, bytes + length, actions);
        length += n;
    }
    if (length > 0 && rng_below(&g, 4) == 0)
        switch (rng_below(&g, 3)) {
        case 0: bytes[rng_below(&g, (uint32_t)length)] = (uint8_t)rng_below(&g, 256); break;
        case 1: length -= 1 + rng_below(&g, (uint32_t)(length < 7 ? length : 7)); break;
        default:
            for (size_t i = 0; i < length; i++)
                bytes[i] = (uint8_t)rng_below(&g, rng_below(&g, 2) == 0 ? 12 : 256);
        }
    fwrite(bytes, 1, length, stdout);
    return 0;
}
