/* What the program `rescues` prints, by the model: the images on standard input, 42 bytes each, rescued one after the other and in
 * place; how many they were, how many were refused and how many fields were mended; then the images' bytes. */
#include "model.h"

#include <stdio.h>

static uint8_t room[LOG_MOST];

int main(void)
{
    unsigned images = 0, refused = 0, fields = 0;
    const size_t length = fread(room, 1, sizeof room, stdin);
    for (size_t at = 0; length - at >= IMAGE_BYTES; at += IMAGE_BYTES) {
        uint8_t changed[RESCUE_MOST], count;
        refused += image_rescue(room + at, IMAGE_BYTES, changed, &count) != 0;
        images++;
        fields += count;
    }
    printf("images %08x refused %08x fields %08x\n", images, refused, fields);
    fwrite(room, 1, length, stdout);
    return 0;
}
