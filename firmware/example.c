/* The main loop of a board over the core: go on from the store or start cold, then a record at a time from a queue, the image to the
 * store, each action to the modem. Queue, modem, memory and depot are stubs; put the board's own in their place. test_example.c tears
 * the writes and spoils the images. */
#include "resheftal.h"

#include <stdio.h>
#include <string.h>

/* ---- the store: two slots, of which one is always whole; the newer whole one counts, the other one is written next ---- */

enum { COUNTER = RESHEFTAL_IMAGE_SIZE, CHECK = COUNTER + 4, SLOT = CHECK + 4 };     /* the image, then a counter and a checksum */

#ifndef OWN_MEMORY
static uint8_t memory[2 * SLOT];         /* memory that outlives a power loss; blank at first */
static void write_byte(uint32_t at, uint8_t byte) { memory[at] = byte; }
#endif
static uint8_t aside[2 * SLOT];          /* outlives a power loss too, a part for each slot: the depot reads it out */
static uint32_t writes;                  /* the counter of the newest slot, which is the slot writes % 2 */

static uint32_t word(const uint8_t *b) { return (uint32_t)b[0] << 24 | (uint32_t)b[1] << 16 | (uint32_t)b[2] << 8 | b[3]; }

static void put_word(uint8_t *b, uint32_t n)
{
    for (int i = 0; i < 4; i++)
        b[i] = (uint8_t)(n >> (24 - 8 * i));
}

/* CRC-32 of image and counter. */
static uint32_t checksum(const uint8_t *slot)
{
    uint32_t crc = 0xFFFFFFFF;
    for (int i = 0; i < CHECK; i++) {
        crc ^= slot[i];
        for (int bit = 0; bit < 8; bit++)
            crc = crc >> 1 ^ (crc & 1 ? 0xEDB88320 : 0);
    }
    return ~crc;
}

/* The slot was written whole, and its image can be read. */
static int is_good(const uint8_t *slot)
{
    return word(slot + CHECK) == checksum(slot) && resheftal_reads(slot, RESHEFTAL_IMAGE_SIZE) == RESHEFTAL_ACCEPTED;
}

static int is_blank(const uint8_t *slot) { return memcmp(slot, slot + 1, SLOT - 1) == 0; }

static void store(const uint8_t *image)
{
    uint8_t slot[SLOT];
    writes++;
    memcpy(slot, image, RESHEFTAL_IMAGE_SIZE);
    put_word(slot + COUNTER, writes);
    put_word(slot + CHECK, checksum(slot));
    for (uint32_t i = 0; i < SLOT; i++)
        write_byte(SLOT * (writes % 2) + i, slot[i]);
}

/* The image to go on with: that of the newer good slot, else of a cold start. A slot that is not good is put aside before it is written
 * over: torn by a power loss, spoilt, or of an old box, the depot can tell. */
static int32_t resume(uint8_t *image)
{
    const uint8_t *best = NULL;
    for (int i = 0; i < 2; i++) {
        const uint8_t *slot = memory + SLOT * i;
        if (!is_good(slot)) {
            if (!is_blank(slot))
                memcpy(aside + SLOT * i, slot, SLOT);
        } else if (best == NULL || (int32_t)(word(slot + COUNTER) - word(best + COUNTER)) > 0) {
            best = slot;
        }
    }
    if (best != NULL) {
        memcpy(image, best, RESHEFTAL_IMAGE_SIZE);
        writes = word(best + COUNTER);
        return RESHEFTAL_ACCEPTED;
    }
    const int32_t start = resheftal_cold_start(1, 2, RESHEFTAL_FLEET_TRIES, image, RESHEFTAL_IMAGE_SIZE);
    printf("cold start: %d\n", (int)start);
    if (start == RESHEFTAL_ACCEPTED)
        store(image);
    return start;
}

/* ---- one record ---- */

static void modem(const uint8_t *action)
{
    printf(" %u:%u/%lu", action[0], action[1], (unsigned long)action[2] << 16 | (unsigned long)action[3] << 8 | action[4]);
}

static void take(uint8_t *image, const uint8_t *record, uint64_t length)
{
    uint8_t actions[RESHEFTAL_ACTION_ROOM];
    int32_t n = resheftal_step(image, RESHEFTAL_IMAGE_SIZE, record, length, actions, sizeof actions);
    if (n < 0 && resheftal_reads(image, RESHEFTAL_IMAGE_SIZE) != RESHEFTAL_ACCEPTED) {
        resume(image);                   /* the image in RAM was spoilt: on from the store, and the record once more */
        n = resheftal_step(image, RESHEFTAL_IMAGE_SIZE, record, length, actions, sizeof actions);
    }
    printf("kind %u:", record[0]);
    if (n < 0) {                         /* nothing was written: the box goes on with the next record */
        const int32_t where = resheftal_standing(image, RESHEFTAL_IMAGE_SIZE, record, length);
        printf(" refused, %d", (int)-n);
        if (where > 0)
            printf(", place %d, phase %d", (int)(where / RESHEFTAL_PER_PLACE), (int)(where % RESHEFTAL_PER_PLACE));
        printf("\n");
        return;
    }
    store(image);
    for (int32_t i = 0; i < n; i++)
        modem(actions + RESHEFTAL_ACTION_SIZE * i);
    printf("\n");
}

/* ---- the board ---- */

static const struct { uint8_t length, bytes[RESHEFTAL_LONGEST_RECORD]; } queue[] = {
    {7, {RESHEFTAL_KIND_ORDER, RESHEFTAL_PARTNER_RBC, 0, 0, 5, 1, RESHEFTAL_CAUSE_TRACKSIDE}},
    {5, {RESHEFTAL_KIND_UP, RESHEFTAL_PARTNER_RBC, 0, 0, 5}},
    {5, {RESHEFTAL_KIND_TIMEOUT, RESHEFTAL_PARTNER_RBC, 0, 0, 5}},
    {7, {RESHEFTAL_KIND_MESSAGE, RESHEFTAL_PARTNER_RBC, 0, 0, 5, RESHEFTAL_MESSAGE_VERSION, 0x11}},     /* version 1.1 */
    {5, {RESHEFTAL_KIND_TIMEOUT, RESHEFTAL_PARTNER_RBC, 0, 0, 5}},       /* of an open session: refused */
    {2, {RESHEFTAL_KIND_MESSAGE, RESHEFTAL_PARTNER_RBC}},                /* cut short: refused */
    {2, {RESHEFTAL_KIND_END_ALL, 0}},                                    /* desk closed */
    {7, {RESHEFTAL_KIND_MESSAGE, RESHEFTAL_PARTNER_RBC, 0, 0, 5, RESHEFTAL_MESSAGE_ENDED, 0}},
};

int main(void)
{
    uint8_t image[RESHEFTAL_IMAGE_SIZE];
    if (resheftal_interface() != RESHEFTAL_INTERFACE) {
        printf("this library is not the header's\n");
        return 1;
    }
    if (resume(image) != RESHEFTAL_ACCEPTED)
        return 1;
    for (size_t i = 0; i < sizeof queue / sizeof queue[0]; i++)
        take(image, queue[i].bytes, queue[i].length);
    return 0;
}
