/* What test_boundary.c calls: the libraries themselves, or with -DSPOIL=k the libraries with an answer damaged in the k-th way, on every
 * 500th call where that can be (an argument that is cut, and the interface: on each). test_boundary.sh requires that the test fails with
 * each k, from 1 to the last. */
#ifndef SPOIL_H
#define SPOIL_H

#ifndef SPOIL
#define STEP resheftal_step
#define START resheftal_cold_start
#define READS resheftal_reads
#define STANDING resheftal_standing
#define INTERFACE resheftal_interface
#else
#define STEP spoilt_step
#define START spoilt_start
#define READS spoilt_reads
#define STANDING spoilt_standing
#define INTERFACE spoilt_interface

/* This is the 500th such call. */
static bool due(bool can)
{
    static unsigned long n;
    return can && ++n % 500 == 0;
}

/* Not inlined: the compiler would see that bytes are written which were not lent. */
__attribute__((noinline))
static int32_t spoilt_step(uint8_t *image, uint64_t image_length, const uint8_t *record, uint64_t record_length,
                           uint8_t *actions, uint64_t actions_length)
{
    uint8_t scratch[RESHEFTAL_ACTION_ROOM];
    if (SPOIL == 1) image_length = (uint32_t)image_length;
    if (SPOIL == 2) record_length = (uint32_t)record_length;
    if (SPOIL == 3) actions_length = (uint32_t)actions_length;
    /* the action buffer's refusal after the others; an old image's as a wrong length */
    if (SPOIL == 4 && actions_length < RESHEFTAL_ACTION_ROOM) {
        uint8_t copy[64];
        memcpy(copy, image, image_length);
        const int32_t late = resheftal_step(copy, image_length, record, record_length, scratch, sizeof scratch);
        return due(late < 0) ? late : -RESHEFTAL_REFUSED_NO_ROOM;
    }
    const int32_t n = resheftal_step(image, image_length, record, record_length, actions, actions_length);
    const bool old = n == -RESHEFTAL_REFUSED_UNKNOWN_KIND && image[0] == 0xA1;
    if (SPOIL == 5) return due(old) ? -RESHEFTAL_REFUSED_WRONG_LENGTH : n;
    /* another number */
    if (SPOIL == 6) return due(n == 4) ? 3 : n;
    if (SPOIL == 7) return due(n == -RESHEFTAL_REFUSED_NONE_KNOWN) ? -RESHEFTAL_REFUSED_HAS_PLACE : n;
    if (SPOIL == 8) return due(n < 0) ? -n : n;
    /* a byte of an accepted call: the image's first, its last; an action's; the next behind the actions */
    if (SPOIL == 9 && due(n >= 0)) image[0] ^= 1;
    if (SPOIL == 10 && due(n >= 0)) image[RESHEFTAL_IMAGE_SIZE - 1] ^= 0x80;
    if (SPOIL == 11 && due(n > 0)) actions[RESHEFTAL_ACTION_SIZE * n - 1] ^= 1;
    if (SPOIL == 12 && due(n >= 0 && n < 4)) actions[RESHEFTAL_ACTION_SIZE * n] ^= 1;
    if (SPOIL == 13 && due(n >= 0)) actions[actions_length - 1] ^= 1;
    /* a byte of a refused call */
    if (SPOIL == 14 && due(n < 0 && image_length > 0)) image[image_length - 1] ^= 1;
    if (SPOIL == 15 && due(n < 0 && actions_length > 0)) actions[0] ^= 1;
    /* a byte that was not lent, or lent to be read only */
    if (SPOIL == 16 && due(image != NULL)) image[-1] ^= 1;
    if (SPOIL == 17 && due(image != NULL)) image[image_length] ^= 1;
    if (SPOIL == 18 && due(actions != NULL)) actions[-1] ^= 1;
    if (SPOIL == 19 && due(actions != NULL)) actions[actions_length] ^= 1;
    if (SPOIL == 20 && due(record_length > 0)) ((uint8_t *)record)[record_length - 1] ^= 1;
    if (SPOIL == 21 && due(record != NULL)) ((uint8_t *)record)[record_length] ^= 1;
    return n;
}

__attribute__((noinline))
static int32_t spoilt_start(uint32_t lowest, uint32_t highest, uint32_t tries, uint8_t *image, uint64_t image_length)
{
    if (SPOIL == 22) lowest &= 255;
    if (SPOIL == 23) highest &= 255;
    if (SPOIL == 24) tries &= 255;
    const int32_t n = resheftal_cold_start(lowest, highest, tries, image, image_length);
    if (SPOIL == 25) return due(n == -13 && image_length < RESHEFTAL_IMAGE_SIZE) ? -RESHEFTAL_REFUSED_NO_ROOM : n;
    if (SPOIL == 26 && due(n == 0)) image[37] ^= 1;
    if (SPOIL == 27 && due(n == 0 && image_length > 42)) image[42] ^= 1;
    if (SPOIL == 28 && due(n < 0 && image_length > 0)) image[0] ^= 1;
    if (SPOIL == 29 && due(image != NULL)) image[-1] ^= 1;
    if (SPOIL == 30 && due(image != NULL)) image[image_length] ^= 1;
    return n;
}

__attribute__((noinline))
static int32_t spoilt_reads(const uint8_t *image, uint64_t image_length)
{
    uint8_t *const lent = (uint8_t *)image;
    if (SPOIL == 31) image_length = (uint32_t)image_length;
    const int32_t n = resheftal_reads(image, image_length);
    if (SPOIL == 32) return due(n == -RESHEFTAL_REFUSED_NOT_SOUND) ? RESHEFTAL_ACCEPTED : n;
    if (SPOIL == 33) return due(n == -RESHEFTAL_REFUSED_UNKNOWN_KIND && image_length != 42) ? -RESHEFTAL_REFUSED_WRONG_LENGTH : n;
    if (SPOIL == 34) return due(n < 0) ? -n : n;
    if (SPOIL == 35 && due(image_length > 0)) lent[image_length - 1] ^= 1;
    if (SPOIL == 36 && due(image != NULL)) lent[-1] ^= 1;
    if (SPOIL == 37 && due(image != NULL)) lent[image_length] ^= 1;
    return n;
}

__attribute__((noinline))
static int32_t spoilt_standing(const uint8_t *image, uint64_t image_length, const uint8_t *record, uint64_t record_length)
{
    uint8_t *const lent = (uint8_t *)image, *const bytes = (uint8_t *)record;
    if (SPOIL == 38) image_length = (uint32_t)image_length;
    if (SPOIL == 39) record_length = (uint32_t)record_length;
    const int32_t n = resheftal_standing(image, image_length, record, record_length);
    /* another place, another phase, of a partner of which nothing is said, nothing where something is; an image that does not read */
    if (SPOIL == 40) return due(n > RESHEFTAL_PER_PLACE) ? n - RESHEFTAL_PER_PLACE : n;
    if (SPOIL == 41) return due(n > 0) ? n ^ 1 : n;
    if (SPOIL == 42) return due(n == 0) ? RESHEFTAL_PER_PLACE * RESHEFTAL_PLACE_COUNT : n;
    if (SPOIL == 43) return due(n > 0) ? 0 : n;
    if (SPOIL == 44) return due(n < 0) ? 0 : n;
    /* a byte that was lent to be read only, or not lent */
    if (SPOIL == 45 && due(image_length > 0)) lent[0] ^= 1;
    if (SPOIL == 46 && due(image != NULL)) lent[image_length] ^= 1;
    if (SPOIL == 47 && due(record_length > 0)) bytes[0] ^= 1;
    if (SPOIL == 48 && due(record != NULL)) bytes[-1] ^= 1;
    if (SPOIL == 49 && due(record != NULL)) bytes[record_length] ^= 1;
    return n;
}

static uint32_t spoilt_interface(void) { return resheftal_interface() + (SPOIL == 50); }
#endif

#endif
