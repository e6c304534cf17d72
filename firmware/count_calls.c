/* count_calls library|model|none: a step for each record of the log on standard input, through an image, for counting instructions.
 * 'none' calls a function that does nothing, to be subtracted: the walk along the log, and the call itself. Prints the records, those
 * refused, the actions, and then the bytes of the image and of the action buffer. */
#include "resheftal.h"

#include "../independent-model/model.h"
#include "by_model.h"

#include <stdio.h>
#include <string.h>

typedef int32_t Step(uint8_t *, uint64_t, const uint8_t *, uint64_t, uint8_t *, uint64_t);

static uint8_t input[LOG_MOST];

static int32_t nothing(uint8_t *image, uint64_t image_length, const uint8_t *record, uint64_t record_length,
                       uint8_t *actions, uint64_t actions_length)
{
    (void)image;
    (void)image_length;
    (void)record;
    (void)record_length;
    (void)actions;
    (void)actions_length;
    return 0;
}

int main(int argc, char **argv)
{
    uint8_t image[RESHEFTAL_IMAGE_SIZE], actions[RESHEFTAL_ACTION_ROOM] = {0};
    unsigned read = 0, refused = 0, sent = 0;
    if (argc != 2 || strchr("lmn", argv[1][0]) == NULL) {
        fputs("usage: count_calls library|model|none\n", stderr);
        return 2;
    }
    Step *volatile const step_by = argv[1][0] == 'l' ? resheftal_step : argv[1][0] == 'm' ? model_step : nothing;
    const size_t length = fread(input, 1, sizeof input, stdin);
    if (resheftal_cold_start(1, 2, 3, image, sizeof image) != 0)
        return 1;
    for (size_t at = 0; at < length && input[at] != 0 && input[at] <= KIND_LAST;) {
        const size_t n = record_length[input[at]];
        if (length - at < n)
            break;
        const int32_t answer = step_by(image, sizeof image, input + at, n, actions, sizeof actions);
        read++;
        refused += answer < 0;
        sent += answer > 0 ? (unsigned)answer : 0;
        at += n;
    }
    printf("read %08x refused %08x actions %08x\n", read, refused, sent);
    fwrite(image, 1, sizeof image, stdout);
    fwrite(actions, 1, sizeof actions, stdout);
    return 0;
}
