/* rescue_count sound|bad|none N: N rescues of an A2 image, for counting instructions: those of N calls less those of none, by N.
 * 'sound': four places held, nothing to mend. 'bad': all eleven fields bad. The image is put back before each call, with either.
 * 'none': the same loop with a call that gives 0 and an empty list, to be subtracted as well. Prints the sum of the codes and the
 * sum of the counts. */
#include "model.h"

#include <stdio.h>
#include <stdlib.h>
#include <string.h>

typedef uint8_t Rescue(uint8_t *, size_t, uint8_t *, uint8_t *);

/* X 1 to 2, level 3, mission 2, mode and hole end set, n 5, RBC 000007 known. */
static const uint8_t sound_image[IMAGE_BYTES] = {
    0xA2, 1, 2, 3, 2, 0, 1, 0, 1,
    3, 1, 0, 0, 1, 2, 3,                   /* RBC 010203, Open, incoming */
    2, 0, 5, 1, 1, 2, 3,                   /* RIU 010203, Contacting, 5 */
    5, 0, 1, 1, 0xFF, 0xFF, 0xFF,          /* RIU FFFFFF, Ending, 1 */
    4, 1, 4, 0, 0, 0, 0,                   /* RBC 000000, Lost, incoming, 4 */
    5, 1, 0, 0, 7,
};

static const uint8_t bad_image[IMAGE_BYTES] = {
    0xA2, 1, 2, 5, 3, 2, 3, 255, 2,
    3, 1, 1, 0, 1, 2, 3,                   /* tries in Open */
    2, 1, 5, 0, 1, 2, 3,                   /* Contacting, incoming */
    0, 0, 0, 0, 0, 0, 1,                   /* free, with a number */
    4, 1, 4, 0, 0, 0x3F, 0xFF,             /* an RBC that means the last known one */
    5, 1, 0, 0x7F, 0xFF,                   /* such a last RBC */
};

static uint8_t nothing(uint8_t *image, size_t length, uint8_t *fields, uint8_t *count)
{
    (void)image;
    (void)length;
    (void)fields;
    *count = 0;
    return 0;
}

int main(int argc, char **argv)
{
    uint8_t image[IMAGE_BYTES], fields[RESCUE_MOST], count;
    unsigned long codes = 0, counts = 0;
    if (argc != 3 || (strcmp(argv[1], "sound") != 0 && strcmp(argv[1], "bad") != 0 && strcmp(argv[1], "none") != 0)) {
        fputs("usage: rescue_count sound|bad|none N\n", stderr);
        return 2;
    }
    const uint8_t *const from = argv[1][0] == 'b' ? bad_image : sound_image;
    Rescue *volatile const rescue = argv[1][0] == 'n' ? nothing : image_rescue;
    for (unsigned long k = strtoul(argv[2], NULL, 10); k > 0; k--) {
        memcpy(image, from, sizeof image);
        codes += rescue(image, sizeof image, fields, &count);
        counts += count;
    }
    printf("codes %lu counts %lu\n", codes, counts);
    return 0;
}
