/* The store and the restart of example.c, tried: every write of a record is torn at every byte, every bit of an image in RAM and a bit
 * of every byte of the slots is spoilt. Prints what was tried, or what went wrong and exits with 1. */
#include <setjmp.h>
#include <stdint.h>
#include <stdio.h>
#include <string.h>

enum { BYTES = 100, WHOLE = 1000 };
static uint8_t memory[BYTES];
static uint32_t left;            /* bytes that can be written before the power is lost */
static uint8_t garbled;          /* what becomes of the next byte is xored with this; 0: it stays */
static jmp_buf power_lost;

static void write_byte(uint32_t at, uint8_t byte)
{
    if (left == 0) {
        if (garbled)
            memory[at] = (uint8_t)(byte ^ garbled);
        longjmp(power_lost, 1);
    }
    if (left < WHOLE)
        left--;
    memory[at] = byte;
}

__attribute__((format(printf, 1, 2))) static int quiet(const char *format, ...) { return format == NULL; }

#define OWN_MEMORY
#define main board
#define printf quiet
#ifndef EXAMPLE
#define EXAMPLE "example.c"
#endif
#include EXAMPLE
#undef printf
#undef main

typedef struct { uint8_t memory[BYTES], image[RESHEFTAL_IMAGE_SIZE]; } Board;

static int wrong;

static void must(int holds, const char *what, int record, int at)
{
    if (!holds && !wrong++)
        printf("wrong: %s (record %d, byte %d)\n", what, record, at);
}

static int same(const uint8_t *a, const uint8_t *b) { return memcmp(a, b, RESHEFTAL_IMAGE_SIZE) == 0; }

/* A power loss: what was in RAM is gone. */
static void lose(uint8_t *image)
{
    memset(image, 0, RESHEFTAL_IMAGE_SIZE);
    memset(aside, 0, sizeof aside);            /* the depot has read it out */
    writes = 0;
    left = WHOLE;
}

/* The write of a record, torn after so many bytes: on with the image before or the one after, and from there as without the loss. */
static int tear(const Board *before, const Board *after, int record, uint32_t bytes, uint8_t garbling)
{
    uint8_t image[RESHEFTAL_IMAGE_SIZE];
    memcpy(memory, before->memory, BYTES);
    lose(image);
    resume(image);
    left = bytes;
    garbled = garbling;
    if (setjmp(power_lost) == 0) {
        take(image, queue[record].bytes, queue[record].length);
        return 0;
    }
    lose(image);
    must(resume(image) == 0 && (same(image, before->image) || same(image, after->image)), "a torn write", record, (int)bytes);
    if (same(image, before->image))
        take(image, queue[record].bytes, queue[record].length);
    must(same(image, after->image), "the record once more", record, (int)bytes);
    lose(image);
    must(resume(image) == 0 && same(image, after->image), "the next start", record, (int)bytes);
    return 1;
}

/* A byte of the image in RAM spoilt before a record: where it is seen, on as without. */
static int spoil(const Board *before, const Board *after, int record, int at, uint8_t with)
{
    uint8_t image[RESHEFTAL_IMAGE_SIZE];
    memcpy(memory, before->memory, BYTES);
    lose(image);
    resume(image);
    image[at] ^= with;
    if (resheftal_reads(image, RESHEFTAL_IMAGE_SIZE) == 0)
        return 0;
    take(image, queue[record].bytes, queue[record].length);
    must(same(image, after->image), "an image spoilt in RAM", record, at);
    return 1;
}

/* Slots that are not good: the older one, else a cold start; what was there is put aside. */
static void spoil_slots(const Board *last, const Board *older, const Board *cold)
{
    uint8_t image[RESHEFTAL_IMAGE_SIZE], kept[2 * SLOT];
    for (int at = 0; at < SLOT; at++) {
        memcpy(memory, last->memory, BYTES);
        lose(image);
        resume(image);
        uint8_t *newest = memory + SLOT * (writes % 2), *other = memory + SLOT - SLOT * (writes % 2);
        newest[at] ^= 1;
        memcpy(kept, newest, SLOT);
        lose(image);
        must(resume(image) == 0 && same(image, older->image), "the other slot", -1, at);
        must(memcmp(aside + (newest - memory), kept, SLOT) == 0, "what was put aside", -1, at);
        other[at] ^= 1;
        memcpy(kept, memory, sizeof kept);
        lose(image);
        must(resume(image) == 0 && same(image, cold->image), "the cold start", -1, at);
        must(memcmp(aside, kept, sizeof kept) == 0, "what was put aside, of both", -1, at);
    }
    /* whole, but of kind A1 */
    memcpy(memory, last->memory, BYTES);
    lose(image);
    resume(image);
    image[0] = 0xA1;
    store(image);
    const uint32_t stored = writes % 2;
    lose(image);
    must(resume(image) == 0 && same(image, last->image) && aside[SLOT * stored] == 0xA1, "an image of another kind", -1, 0);
}

int main(void)
{
    enum { RECORDS = sizeof queue / sizeof queue[0], KEPT = RECORDS + 1 };
    static const uint8_t garbling[] = {0, 1, 0xFF};
    static Board at[KEPT];
    unsigned torn = 0, seen = 0, unseen = 0;
    uint8_t image[RESHEFTAL_IMAGE_SIZE];
    lose(image);
    must(resume(image) == 0, "the first start", -1, 0);
    for (int i = 0; i < KEPT; i++) {
        memcpy(at[i].image, image, sizeof image);
        memcpy(at[i].memory, memory, BYTES);
        if (i < RECORDS)
            take(image, queue[i].bytes, queue[i].length);
    }
    for (int i = 0; i < RECORDS; i++) {
        for (uint32_t bytes = 0; bytes < SLOT; bytes++)
            for (size_t g = 0; g < sizeof garbling; g++)
                torn += (unsigned)tear(&at[i], &at[i + 1], i, bytes, garbling[g]);
        left = WHOLE;
        for (int byte = 0; byte < RESHEFTAL_IMAGE_SIZE; byte++)
            for (uint8_t with = 1; with != 0; with = (uint8_t)(with << 1)) {
                const int found = spoil(&at[i], &at[i + 1], i, byte, with);
                seen += (unsigned)found;
                unseen += (unsigned)!found;
            }
    }
    spoil_slots(&at[RECORDS], &at[RECORDS - 1], &at[0]);
    if (wrong)
        return 1;
    printf("%u torn writes: each goes on with the image before or the one after\n", torn);
    printf("%u bits spoilt in RAM: %u leave an image that cannot be read, and the record is taken as without;\n", seen + unseen, seen);
    printf("    %u leave one that can, and nothing shows it\n", unseen);
    printf("%u bits spoilt in slots: the other slot, then a cold start, and the bytes put aside\n", 2u * SLOT);
    return 0;
}
