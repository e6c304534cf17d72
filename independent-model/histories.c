/* histories SEED COUNT LENGTH: random closed histories with what the model expects.
 *   H <lowest> <highest>          a cold start with n = 3
 *   R <record in hex, or ->
 *   A <code> <place> <phase> <actions in hex, or -> <A2 image of the state after the step, in hex>
 * and an empty line after each history. */
#include "gen.h"

#include <stdio.h>
#include <stdlib.h>

static void hex(const uint8_t *b, size_t n)
{
    static const char digit[] = "0123456789abcdef";
    if (n == 0)
        putchar('-');
    for (size_t i = 0; i < n; i++) {
        putchar(digit[b[i] >> 4]);
        putchar(digit[b[i] & 15]);
    }
}

static unsigned long long number(const char *text)
{
    char *end;
    const unsigned long long v = strtoull(text, &end, 0);
    if (*text == '\0' || *end != '\0') {
        fprintf(stderr, "not a number: %s\n", text);
        exit(2);
    }
    return v;
}

int main(int argc, char **argv)
{
    if (argc != 4) {
        fputs("usage: histories SEED COUNT LENGTH\n", stderr);
        return 2;
    }
    Rng g = {number(argv[1])};
    const unsigned long long count = number(argv[2]), length = number(argv[3]);

    for (unsigned long long h = 0; h < count; h++) {
        uint8_t lowest, highest;
        gen_x(&g, &lowest, &highest);
        State s;
        if (cold_start(&s, lowest, highest, 3) != 0)
            return 1;
        printf("H %u %u\n", lowest, highest);
        for (unsigned long long k = 0; k < length; k++) {
            uint8_t record[GEN_MOST], actions[ACTION_BUFFER], image[IMAGE_BYTES];
            const size_t n = gen_record_last(&g, &s, false, record);
            const StepResult r = step(&s, record, n, actions, sizeof actions);
            if (image_write(&s, image, sizeof image) != 0) {
                fputs("the state is no longer sound\n", stderr);
                return 1;
            }
            fputs("R ", stdout);
            hex(record, n);
            printf("\nA %u %u %u ", r.code, r.place, r.phase);
            hex(actions, (size_t)ACTION_BYTES * r.count);
            putchar(' ');
            hex(image, sizeof image);
            putchar('\n');
        }
        putchar('\n');
    }
    return fflush(stdout) != 0 || ferror(stdout);
}
