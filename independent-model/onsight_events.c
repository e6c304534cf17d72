/* The million events of the program onsight_events through the model: prints the same sum. */
#include <stdint.h>
#include <stdio.h>
#include "onsight_model.h"

int main(void)
{
    uint64_t x = 1, sum = 0;
    int state = OS_IDLE;

    for (int i = 0; i < 1000000; i++) {
        x = (x % 2147483648u * 1103515245u + 12345u) % 2147483648u;
        const int k = (int)(x / 65536 % 12);
        const int code = k < 8 ? onsight_step(&state, OS_PROFILE, k < 4 ? OS_AHEAD : OS_ENTERED, k % 4)
                               : onsight_step(&state, k - 8 + OS_WINDOW, 0, 0);
        sum += (uint64_t)(code + state + 100 * onsight_brake(state) + 1000 * onsight_in_force(state));
        sum %= 1000000007;
        if (state == OS_DONE && x % 3 == 0)
            state = OS_IDLE;
    }
    printf("%llu\n", (unsigned long long)sum);
    return 0;
}
