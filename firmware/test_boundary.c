/* test_boundary [CALLS [SEED]]: random and damaged calls of the libraries, each held to the same call of the independent model: the
 * number answered, and every byte of the three buffers and of 16 or more bytes before and behind each. Histories begin with a cold
 * start, every one of the 324 in turn, and go on through the images that the library wrote; beside each step of a history stand calls
 * with damaged images, records and lengths; before each step it is asked whether the image reads and where the partner stands. Prints the
 * counts, or the first difference and exits with 1; exits with 1 as well where a refusal, a length, a number of actions, a cold start, or
 * a place with a phase never came. With -DSPOIL=k the answers are damaged on the way. */
#include "resheftal.h"

#include "../independent-model/gen.h"
#include "by_model.h"

#include <stdio.h>
#include <stdlib.h>
#include <string.h>
#include <sys/mman.h>

#include "spoil.h"

enum {
    MARGIN = 16,             /* guard bytes at least, on either side */
    LONGEST = 64,            /* image and action buffer */
    RECORD_LONGEST = 16,
    ARENA = MARGIN + 8 + LONGEST + MARGIN,
    X_PAIRS = 36,            /* lowest not over highest, 0 to 7 */
    STARTS = X_PAIRS * TRIES_MOST
};

/* A buffer with what stands around it. `start` moves by up to seven bytes, so that no alignment is relied on. */
typedef struct { uint8_t arena[ARENA]; uint32_t start, length; } Buffer;

typedef struct { Buffer image, record, actions; } Lent;

static Rng rng;
static unsigned long calls, wanted = 3000000, steps, starts, asked, huge;
static unsigned long refused_steps[256], refused_starts[256], accepted[RESHEFTAL_MOST_ACTIONS + 1], sent[256];
static unsigned long image_lengths[LONGEST + 1], action_lengths[LONGEST + 1], record_lengths[RECORD_LONGEST + 1];
static unsigned long started[STARTS];
static unsigned long refused_reads[256], unread_standings[256], stands[RESHEFTAL_PER_PLACE * PLACES], silent;

static uint32_t below(uint32_t n) { return rng_below(&rng, n); }

/* A buffer of this length, the arena all random. */
static void lend(Buffer *b, uint32_t length)
{
    for (size_t i = 0; i < ARENA; i += 8) {
        const uint64_t word = rng_next(&rng);
        memcpy(b->arena + i, &word, 8);
    }
    b->start = MARGIN + below(8);
    b->length = length;
}

/* Its first bytes, as many of these as fit. */
static void fill(Buffer *b, const uint8_t *bytes, uint32_t n)
{
    memcpy(b->arena + b->start, bytes, n < b->length ? n : b->length);
}

/* Where it begins; nowhere, now and then, if it is empty. */
static uint8_t *at(Buffer *b) { return b->length == 0 && b->arena[0] < 64 ? NULL : b->arena + b->start; }

static void print(const char *name, const Buffer *b)
{
    printf("%s, %u bytes (| at its ends):", name, b->length);
    for (uint32_t i = 0; i < ARENA; i++)
        printf("%s%02x", i == b->start || i == b->start + b->length ? "|" : " ", b->arena[i]);
    printf("\n");
}

static void differ(const char *what, int32_t got, int32_t want, const Lent *before, const Lent *library, const Lent *model)
{
    printf("call %lu: %s; the library answers %d, the model %d\n", calls, what, (int)got, (int)want);
    if (before) {
        print("image before ", &before->image);
        print("image library", &library->image);
        print("image model  ", &model->image);
        print("record       ", &before->record);
        print("record after ", &library->record);
        print("actions before ", &before->actions);
        print("actions library", &library->actions);
        print("actions model  ", &model->actions);
    }
    exit(1);
}

static bool same(const Buffer *a, const Buffer *b) { return memcmp(a->arena, b->arena, ARENA) == 0; }

/* Holds what the library left to what the model left; a refusal, to what was there before. */
static void hold(int32_t got, int32_t want, const Lent *before, const Lent *library, const Lent *model)
{
    const char *what = got != want ? "another number"
        : !same(&library->image, &model->image) ? "another image, or a byte around it"
        : !same(&library->actions, &model->actions) ? "other actions, or a byte around them"
        : !same(&library->record, &before->record) ? "the record, or a byte around it, was written"
        : want < 0 && !same(&model->image, &before->image) ? "the model wrote an image that it refused"
        : want < 0 && !same(&model->actions, &before->actions) ? "the model wrote actions that it refused" : NULL;
    if (what)
        differ(what, got, want, before, library, model);
}

/* Whether the image reads, and where the partner stands, through both; no byte may change. */
static void ask_both(const Lent *lent)
{
    Lent library = *lent, model = *lent;
    const int32_t got = READS(at(&library.image), library.image.length);
    const int32_t want = model_reads(at(&model.image), model.image.length);
    calls++;
    asked++;
    hold(got, want, lent, &library, &model);
    refused_reads[-want]++;
    library = *lent;
    const int32_t here = STANDING(at(&library.image), library.image.length, at(&library.record), library.record.length);
    const int32_t there = model_standing(at(&model.image), model.image.length, at(&model.record), model.record.length);
    calls++;
    asked++;
    hold(here, there, lent, &library, lent);
    if (there < 0)
        unread_standings[-there]++;
    else if (there > 0)
        stands[there]++;
    else
        silent++;
}

/* One step through both; the library's image is left in *lent. */
static int32_t step_both(Lent *lent)
{
    Lent library = *lent, model = *lent;
    const int32_t got = STEP(at(&library.image), library.image.length, at(&library.record), library.record.length,
                             at(&library.actions), library.actions.length);
    const int32_t want = model_step(at(&model.image), model.image.length, at(&model.record), model.record.length,
                                    at(&model.actions), model.actions.length);
    calls++;
    steps++;
    hold(got, want, lent, &library, &model);
    image_lengths[lent->image.length]++;
    record_lengths[lent->record.length]++;
    action_lengths[lent->actions.length]++;
    if (got < 0) {
        refused_steps[-got]++;
    } else {
        accepted[got]++;
        for (int32_t i = 0; i < got; i++)
            sent[library.actions.arena[library.actions.start + ACTION_BYTES * i]]++;
    }
    *lent = library;
    return got;
}

static int32_t start_both(uint32_t lowest, uint32_t highest, uint32_t tries, Buffer *image)
{
    Lent before = {0}, library = {0}, model = {0};
    before.image = library.image = model.image = *image;
    const int32_t got = START(lowest, highest, tries, at(&library.image), image->length);
    const int32_t want = model_cold_start(lowest, highest, tries, at(&model.image), image->length);
    calls++;
    starts++;
    hold(got, want, &before, &library, &model);
    if (got < 0)
        refused_starts[-got]++;
    *image = library.image;
    return got;
}

/* Any byte, a small one more often than not: the fields are small. */
static uint8_t any_byte(void) { return (uint8_t)below(below(3) ? 7 : 256); }

/* A damaged or another image. */
static void lend_image(Buffer *b, const uint8_t image[IMAGE_BYTES])
{
    uint8_t bytes[LONGEST], whole[IMAGE_BYTES];
    State s;
    uint32_t length = IMAGE_BYTES, n = 0;
    memcpy(whole, image, sizeof whole);
    switch (below(8)) {
    case 0: n = 1; break;
    case 1: n = 2; break;
    case 2: n = 3 + below(IMAGE_BYTES - 2); break;
    case 3:                                  /* as A1, of its length and of others */
        image_load(&s, image);
        image_store_old(&s, whole);
        length = below(2) ? OLD_IMAGE_BYTES : below(LONGEST + 1);
        break;
    case 4: whole[0] = (uint8_t)below(256); break;
    case 5:                                  /* one place copied onto another: a partner twice */
        memcpy(whole + 9 + 7 * below(PLACES), image + 9 + 7 * below(PLACES), 7);
        break;
    case 6: n = 1; length = below(LONGEST + 1); break;
    default: length = below(LONGEST + 1); break;
    }
    for (; n > 0; n--)
        whole[below(4) ? 1 + below(IMAGE_BYTES - 1) : below(IMAGE_BYTES)] = any_byte();
    for (uint32_t i = 0; i < sizeof bytes; i++)
        bytes[i] = any_byte();
    memcpy(bytes, whole, sizeof whole);
    lend(b, length);
    fill(b, bytes, sizeof bytes);
}

/* A record: one in four damaged, one in eight of any length and content. */
static void lend_record(Buffer *b, const State *s)
{
    uint8_t bytes[GEN_MOST];
    uint32_t length = (uint32_t)gen_record_last(&rng, s, false, bytes);
    switch (below(16)) {
    case 0:
        for (uint32_t i = 0; i < sizeof bytes; i++)
            bytes[i] = any_byte();
        length = below(RECORD_LONGEST + 1);
        break;
    case 1: length = below(RECORD_LONGEST + 1); break;
    case 2: bytes[below(7)] = any_byte(); break;
    case 3: bytes[below(7)] ^= (uint8_t)(1u << below(8)); break;
    default: break;
    }
    lend(b, length);
    fill(b, bytes, sizeof bytes);
}

static void lend_actions(Buffer *b)
{
    lend(b, below(4) ? ACTION_BUFFER + below(5) : below(LONGEST + 1));
}

/* A cold start with any numbers into a buffer of any length: near the ranges, and such as are in range only in their lowest byte. */
static void any_start(void)
{
    uint32_t number[3];
    Buffer image;
    for (int i = 0; i < 3; i++)
        number[i] = below(4) ? below(11) : below(2) ? 256 * (1 + below(4)) + below(10) : (uint32_t)rng_next(&rng);
    if (below(2))
        number[below(3)] = below(8);
    lend(&image, below(LONGEST + 1));
    start_both(number[0], number[1], number[2], &image);
}

/* A history from the cold start of this number, and damaged calls beside it. */
static void history(uint32_t number)
{
    uint8_t image[IMAGE_BYTES];
    uint32_t lowest = 0, pair = number / TRIES_MOST;
    Lent lent;
    State s;
    for (; pair >= 8 - lowest; lowest++)
        pair -= 8 - lowest;
    lend(&lent.image, IMAGE_BYTES + below(LONGEST - IMAGE_BYTES + 1));
    if (start_both(lowest, lowest + pair, 1 + number % TRIES_MOST, &lent.image) != 0)
        differ("a cold start in range was refused", 0, 0, NULL, NULL, NULL);
    memcpy(image, lent.image.arena + lent.image.start, sizeof image);
    started[number]++;
    for (uint32_t left = 20 + below(300); left > 0 && calls < wanted; left--) {
        image_load(&s, image);
        lend(&lent.image, IMAGE_BYTES);
        fill(&lent.image, image, IMAGE_BYTES);
        lend_record(&lent.record, &s);
        lend_actions(&lent.actions);
        ask_both(&lent);
        if (step_both(&lent) >= 0)
            memcpy(image, lent.image.arena + lent.image.start, sizeof image);
        if (below(2)) {
            lend_image(&lent.image, image);
            lend_record(&lent.record, &s);
            lend_actions(&lent.actions);
            ask_both(&lent);
            step_both(&lent);
        }
        if (below(16) == 0)
            any_start();
    }
}

/* Lengths over 32 bits, whose lower half would be taken otherwise. The first page of the mapping is there to be read and
 * written; no call may touch what follows, though it is lent. */
static void huge_lengths(void)
{
    const uint64_t four_gib = (uint64_t)1 << 32;
    const size_t page = 65536;
    uint8_t image[IMAGE_BYTES], actions[ACTION_BUFFER] = {0}, mode = EV_MODE;
    const uint8_t call[] = {EV_MESSAGE, RBC, 0, 0, 5, 38, 0};
    uint8_t *const room = mmap(NULL, four_gib + page, PROT_NONE, MAP_PRIVATE | MAP_ANONYMOUS | MAP_NORESERVE, -1, 0);
    if (room == MAP_FAILED || mprotect(room, page, PROT_READ | PROT_WRITE) != 0) {
        printf("there is no address space of 4 GiB\n");
        exit(1);
    }
    const int32_t start = START(0, 7, 3, room, four_gib);
    memcpy(image, room, sizeof image);
    const int32_t as_image = STEP(room, four_gib + IMAGE_BYTES, &mode, 1, actions, sizeof actions);
    room[0] = EV_MODE;
    const int32_t as_record = STEP(image, sizeof image, room, four_gib + 1, actions, sizeof actions);
    const int32_t as_actions = STEP(image, sizeof image, &mode, 1, room, four_gib);
    /* RBC 5 calls, and calls again by a record that would be right without its upper half */
    STEP(image, sizeof image, call, sizeof call, actions, sizeof actions);
    memcpy(room, call, sizeof call);
    const int32_t as_standing = STANDING(image, sizeof image, room, four_gib + sizeof call);
    memcpy(room, image, sizeof image);
    const int32_t as_read = READS(room, four_gib + IMAGE_BYTES);
    const int32_t as_held = STANDING(room, four_gib + IMAGE_BYTES, call, sizeof call);
    huge = 7;
    calls += huge + 1;
    if (start != 0)
        differ("a cold start into 4 GiB", start, 0, NULL, NULL, NULL);
    if (as_image != -1)
        differ("an image of 4 GiB and 42 bytes", as_image, -1, NULL, NULL, NULL);
    if (as_record != -1)
        differ("a record of 4 GiB and 1 byte", as_record, -1, NULL, NULL, NULL);
    if (as_actions != 0)
        differ("an action buffer of 4 GiB", as_actions, 0, NULL, NULL, NULL);
    if (as_standing != 0)
        differ("a call of 4 GiB and 7 bytes that is asked about", as_standing, 0, NULL, NULL, NULL);
    if (as_read != -1)
        differ("an image of 4 GiB and 42 bytes that is asked about", as_read, -1, NULL, NULL, NULL);
    if (as_held != -1)
        differ("an image of 4 GiB and 42 bytes, where a partner stands", as_held, -1, NULL, NULL, NULL);
    munmap(room, four_gib + page);
}

/* How many of the numbers from..to never came; says which. */
static int never(const char *what, const unsigned long *seen, unsigned from, unsigned to)
{
    int missing = 0;
    for (unsigned i = from; i <= to; i++)
        if (seen[i] == 0) {
            printf("%s %u never came\n", what, i);
            missing++;
        }
    return missing;
}

int main(int argc, char **argv)
{
    static const uint8_t actions[] = {ACT_REQUEST, ACT_RELEASE, ACT_NO_VERSION, ACT_INITIATE, ACT_TERMINATE, ACT_ESTABLISHED};
    unsigned long seed = 1;
    if (argc > 1)
        wanted = strtoul(argv[1], NULL, 0);
    if (argc > 2)
        seed = strtoul(argv[2], NULL, 0);
    rng.s = seed;
    if (INTERFACE() != RESHEFTAL_INTERFACE || model_interface() != RESHEFTAL_INTERFACE)
        differ("another interface", (int32_t)INTERFACE(), RESHEFTAL_INTERFACE, NULL, NULL, NULL);
    huge_lengths();
    for (uint32_t number = 0; calls < wanted; number = (number + 1) % STARTS)
        history(number);

    int missing = never("refusal of a step", refused_steps, 1, 11) + never("refusal of a step", refused_steps, 15, 15)
        + never("refusal of a cold start", refused_starts, 10, 10) + never("refusal of a cold start", refused_starts, 13, 13)
        + never("a step with actions", accepted, 0, RESHEFTAL_MOST_ACTIONS) + never("image length", image_lengths, 0, LONGEST)
        + never("record length", record_lengths, 0, RECORD_LONGEST) + never("action buffer length", action_lengths, 0, LONGEST)
        + never("cold start number", started, 0, STARTS - 1) + never("reading that is asked about", refused_reads, 0, 2)
        + never("reading that is asked about", refused_reads, 11, 11) + never("standing in an image with refusal", unread_standings, 1, 2)
        + never("standing in an image with refusal", unread_standings, 11, 11);
    for (unsigned place = 0; place < PLACES; place++)
        missing += never("standing", stands, RESHEFTAL_PER_PLACE * place + CONNECTING, RESHEFTAL_PER_PLACE * place + ENDING);
    for (size_t i = 0; i < sizeof actions; i++)
        missing += never("action", sent, actions[i], actions[i]);
    if (missing > 0)
        return 1;

    printf("seed %lu, %lu calls as the model: %lu steps (actions", seed, calls, steps);
    for (int i = 0; i <= RESHEFTAL_MOST_ACTIONS; i++)
        printf(" %d: %lu", i, accepted[i]);
    printf("; refused");
    for (int i = 0; i < 256; i++)
        if (refused_steps[i])
            printf(" %d: %lu", i, refused_steps[i]);
    printf("), %lu cold starts (refused 10: %lu 13: %lu), ", starts, refused_starts[10], refused_starts[13]);
    printf("%lu asked (standing nowhere %lu), %lu with lengths from 4 GiB\n", asked, silent, huge);
    return 0;
}
