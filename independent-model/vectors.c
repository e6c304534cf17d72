/* Test vectors of document 01 with the requests Q-2, Q-3, Q-4, Q-6 and Q-13 of document 02, computed
 * by the model.
 *   vectors list                     the number of vectors and bytes of each group
 *   vectors write FILE               all vectors
 *   vectors write-full FILE          the same, and an A1 image's bytes at all 256 values
 *
 * A vector is the length of its body (2 bytes, big-endian) and the body: group, operation,
 * operands, expectations. A state is 41 bytes, those of an A2 image behind its kind; flag and
 * number of its last known RBC are 0 and three zeros, or 1 and any three. What a step answers
 * stands as code, count, place, phase (request Q-6) in this order. The operations, with the
 * expectations behind the semicolon (length and count 1 byte, if not said otherwise):
 *    1 COLD_START    lowest, highest, n; code, state
 *    2 STEP          state, record length, record, buffer length, fill; answer, state, buffer
 *    3 STORE         (A2) state, buffer length, fill; code, count of bytes, state, buffer
 *    4 LOAD          (A2 or A1) length, bytes; code, state
 *    5 RUN           state, budget (4), log length (2), log; code, stop, offset, read, refused
 *                    and six totals (4 each), state
 *    6 LONG_RUN      state, budget (4), log length (4), pattern length, pattern; as for a run
 *    7 HISTORY       lowest, highest, n, number of records (2), each record: length, record;
 *                    answer, actions; at the end: state
 *    8 MIXES         eight bytes of a state, its places 0 and 1, its last five bytes, record
 *                    length, record; 121 times, for places 2 and 3 by 'choice': answer, actions,
 *                    four places, flag and number of the last known RBC
 *    9 COLD_DEFAULT  lowest, highest; code, state
 *   10 STORE_OLD     (A1) as STORE
 *   11 LOAD_NEW      (A2 alone) as LOAD
 *   12 RESCUE        length, bytes; code, count of fields, their first offsets, the bytes at exit
 *
 * Where the code, the place and phase, or all of an answer to be expected were written down by
 * hand here, they are compared with the model's; place and phase of every step, and the soundness
 * of every state, are compared with a plain second reading too. A difference ends the program. */
#include "gen.h"

#include <stdio.h>
#include <stdlib.h>
#include <string.h>

enum { GROUPS = 13, BODY_MOST = 8000, STATE_BYTES = IMAGE_BYTES - 1, ANY = 255 };
enum {
    OP_COLD = 1, OP_STEP, OP_STORE, OP_LOAD, OP_RUN, OP_LONG, OP_HISTORY, OP_MIX, OP_COLD_DEFAULT,
    OP_STORE_OLD, OP_LOAD_NEW, OP_RESCUE, OPS = OP_RESCUE
};

typedef struct {
    uint8_t group, op;
    uint32_t at, length;        /* the body, in 'bytes' */
    uint64_t mixed;             /* a hash of the body */
} Vector;

static uint8_t bytes[10u << 20];
static size_t used;
static Vector vectors[90000];
static size_t count;
static const char *const group_name[GROUPS + 1] = {
    "", "cells", "refusals", "fields", "orders", "unsound", "images", "buffers", "runs", "histories",
    "tries", "last", "kinds", "rescues",
};

static void fail(const char *why)
{
    fprintf(stderr, "vector %zu: %s\n", count + 1, why);
    exit(1);
}

/* ---- the body under construction ---- */

static uint8_t body[BODY_MOST];
static size_t n;
static Vector now;

static void u8(unsigned v)
{
    if (n == BODY_MOST)
        fail("body too long");
    body[n++] = (uint8_t)v;
}

static void u16(unsigned v) { u8(v >> 8 & 255); u8(v & 255); }
static void u32(uint32_t v) { u16(v >> 16); u16(v & 65535); }

static void raw(const uint8_t *b, size_t length)
{
    for (size_t i = 0; i < length; i++)
        u8(b[i]);
}

static void begin(int group, int op)
{
    n = 0;
    now = (Vector){.group = (uint8_t)group, .op = (uint8_t)op};
    u8((unsigned)group);
    u8((unsigned)op);
}

static void end(void)
{
    now.mixed = n;
    for (size_t i = 0; i < n; i++)
        now.mixed = (now.mixed ^ body[i]) * 0x100000001B3u;
    for (size_t i = count; now.op != OP_HISTORY && now.op != OP_MIX && i-- > 0 && vectors[i].group == now.group;)
        if (vectors[i].mixed == now.mixed && vectors[i].length == n && memcmp(bytes + vectors[i].at, body, n) == 0)
            return;                        /* there already */
    if (used + 2 + n > sizeof bytes || count == sizeof vectors / sizeof vectors[0])
        fail("too many vectors");
    bytes[used++] = (uint8_t)(n >> 8);
    bytes[used++] = (uint8_t)n;
    memcpy(bytes + used, body, n);
    now.at = (uint32_t)used;
    now.length = (uint32_t)n;
    used += n;
    vectors[count++] = now;
}

/* What a state in a vector may hold. */
static bool holdable(const State *s)
{
    if (s->inside > 1 || s->mode > 1 || s->manual > 1 || s->hole_end > 1)
        return false;
    for (int i = 0; i < PLACES; i++) {
        if (s->phase[i] > ENDING || s->direction[i] > 1 || (s->phase[i] == OPEN && s->tries[i] != 0))
            return false;
        if (s->phase[i] == FREE && (s->direction[i] || s->tries[i] || s->partner[i]))
            return false;
    }
    return s->last == 0 || s->last >> 24 == 1;
}

static bool plainly_sound(const uint8_t *image);

static void state(const State *s)
{
    uint8_t image[IMAGE_BYTES];
    if (!holdable(s))
        fail("state cannot be held");
    image_store(s, image);
    if (sound(s) != plainly_sound(image))
        fail("soundness");
    raw(image + 1, STATE_BYTES);
}

static bool same(const State *a, const State *b) { return memcmp(a, b, sizeof *a) == 0; }

static void compare(unsigned got, unsigned want)
{
    if (want != ANY && got != want) {
        fprintf(stderr, "vector %zu, group %u, op %u: code %u, by hand %u\n",
                count + 1, now.group, now.op, got, want);
        exit(1);
    }
}

/* An RBC's three number bytes whose low 14 bits are all one. */
static bool plainly_last(const uint8_t *number)
{
    return number[2] == 255 && (number[1] == 63 || number[1] == 127 || number[1] == 191 || number[1] == 255);
}

/* Request Q-6, read off the A2 image before the step and the record's bytes: 5, and 7 of an event
 * that is no hole, tell the one place that holds the record's partner, or the one an order to the
 * last known RBC means, and its phase; every other answer tells 4 and 0. A check on the model,
 * which carries them along from its search. */
static void plainly_standing(const uint8_t *image, const uint8_t *r, unsigned code, unsigned told[2])
{
    unsigned places = 0;
    uint8_t who[4];
    told[0] = 4;
    told[1] = 0;
    if (code != 5 && code != 7)
        return;
    if (r[0] == EV_HOLE)
        return;
    memcpy(who, r + 1, 4);
    if (r[1] == 0 && plainly_last(r + 2)) {
        if (r[0] != EV_ORDER || image[38] != 1)
            fail("5 or 7, but the partner cannot be named or is not known");
        memcpy(who + 1, image + 39, 3);
    }
    for (unsigned i = 4; i-- > 0;) {
        const uint8_t *const p = image + 9 + 7 * i;
        if (p[0] != 0 && memcmp(p + 3, who, 4) == 0) {
            told[0] = i;
            told[1] = p[0];
            places++;
        }
    }
    if (places != 1)
        fail("5 or 7, but the partner has not one place");
}

/* What a step answered; 'before' is the state that it was given. */
static void answer(const State *before, const uint8_t *r, StepResult x)
{
    uint8_t image[IMAGE_BYTES];
    unsigned told[2];
    image_store(before, image);
    plainly_standing(image, r, x.code, told);
    if (x.place != told[0] || x.phase != told[1])
        fail("place or phase");
    u8(x.code);
    u8(x.count);
    u8(x.place);
    u8(x.phase);
}

/* ---- one vector of each operation ---- */

/* A cold state by hand: X numbers and n, all else zero; refused, X from 0 to 0 and n = 3. */
static void compare_cold(const State *s, unsigned c, unsigned lowest, unsigned highest, unsigned tries)
{
    uint8_t image[IMAGE_BYTES], want[IMAGE_BYTES] = {0xA2};
    want[1] = (uint8_t)(c == 0 ? lowest : 0);
    want[2] = (uint8_t)(c == 0 ? highest : 0);
    want[37] = (uint8_t)(c == 0 ? tries : 3);
    image_store(s, image);
    if (memcmp(image, want, sizeof want) != 0)
        fail("another cold state by hand");
}

static void cold_vector(int group, unsigned lowest, unsigned highest, unsigned tries, unsigned want)
{
    State s;
    begin(group, OP_COLD);
    u8(lowest);
    u8(highest);
    u8(tries);
    const uint8_t c = cold_start(&s, (uint8_t)lowest, (uint8_t)highest, (uint8_t)tries);
    compare(c, want);
    compare_cold(&s, c, lowest, highest, tries);
    u8(c);
    state(&s);
    end();
}

static void cold_default_vector(int group, unsigned lowest, unsigned highest, unsigned want)
{
    State s;
    begin(group, OP_COLD_DEFAULT);
    u8(lowest);
    u8(highest);
    const uint8_t c = cold_start_default(&s, (uint8_t)lowest, (uint8_t)highest);
    compare(c, want);
    compare_cold(&s, c, lowest, highest, 5);
    u8(c);
    state(&s);
    end();
}

/* Expected by hand: the code, place and phase (ANY: not by hand). */
typedef struct { unsigned code, place, phase; } Hand;

static uint8_t step_in(int group, const State *s, const uint8_t *r, size_t length,
                       size_t buffer, unsigned fill, Hand want)
{
    uint8_t actions[256];
    State after = *s;
    begin(group, OP_STEP);
    state(s);
    u8((unsigned)length);
    raw(r, length);
    u8((unsigned)buffer);
    u8(fill);
    memset(actions, (int)fill, sizeof actions);
    const StepResult x = step(&after, r, length, actions, buffer);
    compare(x.code, want.code);
    if ((want.place != ANY && want.place != x.place) || (want.phase != ANY && want.phase != x.phase))
        fail("another place or phase by hand");
    for (size_t i = x.code == 0 ? (size_t)ACTION_BYTES * x.count : 0; i < sizeof actions; i++)
        if (actions[i] != (uint8_t)fill)
            fail("a byte that is not an action's was written");
    if (x.code != 0 && (x.count != 0 || !same(s, &after)))
        fail("a refused step changed something");
    answer(s, r, x);
    state(&after);
    raw(actions, buffer);
    end();
    return x.count;
}

/* The fill bytes in turn; 16 hex is 22, a release. */
static unsigned next_fill(void)
{
    static const uint8_t fills[] = {0x00, 0xFF, 0x5A, 0xC3, 0x16};
    static unsigned k;
    return fills[k++ % sizeof fills];
}

/* A code that tells nothing. */
static Hand untold(unsigned want) { return (Hand){want, 4, 0}; }

/* A code; where the partner stands is left to the plain reading if it is 5 or 7. */
static Hand only(unsigned want)
{
    return want == 5 || want == 7 ? (Hand){want, ANY, ANY} : untold(want);
}

static void step_vector(int group, const State *s, const uint8_t *r, size_t length, Hand want)
{
    step_in(group, s, r, length, ACTION_BUFFER, next_fill(), want);
}

static void store_as(int group, const State *s, size_t buffer, unsigned fill, unsigned want, bool old)
{
    uint8_t image[256];
    const size_t length = old ? 37 : 42;
    begin(group, old ? OP_STORE_OLD : OP_STORE);
    state(s);
    u8((unsigned)buffer);
    u8(fill);
    memset(image, (int)fill, sizeof image);
    const uint8_t c = (old ? image_write_old : image_write)(s, image, buffer);
    compare(c, want);
    for (size_t i = c == 0 ? length : 0; i < sizeof image; i++)
        if (image[i] != (uint8_t)fill)
            fail("a byte that is not the image's was written");
    if (c == 0 && (image[0] != (old ? 0xA1 : 0xA2) || memcmp(image + 1, body + 2, length - 1) != 0))
        fail("an image that has not the state's bytes");
    u8(c);
    u8(c == 0 ? (unsigned)length : 0);
    state(s);
    raw(image, buffer);
    end();
}

static void store_vector(int group, const State *s, size_t buffer, unsigned fill, unsigned want)
{
    store_as(group, s, buffer, fill, want, false);
}

static void store_old_vector(int group, const State *s, size_t buffer, unsigned fill, unsigned want)
{
    store_as(group, s, buffer, fill, want, true);
}

/* Both writers, for a state that fits A1, or with 10 or 11: A1 with this buffer, A2 with one that
 * has the five bytes more. */
static void write_vector(int group, const State *s, size_t buffer, unsigned fill, unsigned want)
{
    store_old_vector(group, s, buffer, fill, want);
    store_vector(group, s, buffer == 0 || buffer > 250 ? buffer : buffer + 5, fill, want);
}

/* The soundness of document 01 and of the requests, read off an A2 image's bytes one rule after
 * the other; a check on the model, which tests four bytes at a time. */
static bool plainly_sound(const uint8_t *image)
{
    if (image[37] < 1 || image[37] > 9)
        return false;
    if (image[38] == 0) {
        if (image[39] != 0 || image[40] != 0 || image[41] != 0)
            return false;
    } else if (image[38] != 1 || plainly_last(image + 39)) {
        return false;
    }
    const uint8_t *const h = image + 1, *const p = image + 9;
    if (h[0] > 7 || h[1] > 7 || h[0] > h[1] || h[2] > 4 || h[3] > 2)
        return false;
    for (int i = 4; i < 8; i++)
        if (h[i] > 1)
            return false;
    if (h[4] == 1 && h[7] == 1)
        return false;
    for (int i = 0; i < PLACES; i++) {
        const uint8_t *const q = p + 7 * i;
        const unsigned phase = q[0], direction = q[1], tries = q[2], type = q[3];
        if (phase == 0) {
            for (int k = 1; k < 7; k++)
                if (q[k] != 0)
                    return false;
            continue;
        }
        if (phase > 5 || direction > 1 || type > 1)
            return false;
        if (phase == 3 ? tries != 0 : tries < 1 || tries > image[37])
            return false;
        if (type == 0 && plainly_last(q + 4))
            return false;
        if (direction == 1 && (type == 1 || phase == 1 || phase == 2))
            return false;
        for (int j = 0; j < i; j++)
            if (p[7 * j] != 0 && memcmp(p + 7 * j + 3, q + 3, 4) == 0)
                return false;
    }
    return true;
}

/* Reading, plainly: the code, and the 41 bytes of the state. */
static unsigned plainly_read(const uint8_t *image, size_t length, bool old_too, uint8_t got[STATE_BYTES])
{
    uint8_t a2[IMAGE_BYTES] = {0xA2};
    unsigned c = 0;
    memset(got, 0, STATE_BYTES);
    got[36] = 3;
    if (length == 0)
        return 1;
    if (image[0] == 0xA2) {
        if (length != 42)
            return 1;
        memcpy(a2, image, 42);
    } else if (image[0] == 0xA1 && old_too) {
        if (length != 37)
            return 1;
        memcpy(a2 + 1, image + 1, 36);
        a2[37] = 3;
    } else {
        return 2;
    }
    if (plainly_sound(a2))
        memcpy(got, a2 + 1, STATE_BYTES);
    else
        c = 11;
    return c;
}

static void load_as(int group, const uint8_t *image, size_t length, unsigned want, bool old_too)
{
    State s;
    uint8_t plain[STATE_BYTES], got[IMAGE_BYTES];
    begin(group, old_too ? OP_LOAD : OP_LOAD_NEW);
    u8((unsigned)length);
    raw(image, length);
    const uint8_t c = (old_too ? image_read : image_read_new)(&s, image, length);
    compare(c, want);
    compare(c, plainly_read(image, length, old_too, plain));
    image_store(&s, got);
    if (memcmp(got + 1, plain, STATE_BYTES) != 0)
        fail("another state by the plain reading");
    u8(c);
    state(&s);
    end();
}

static void read_vector(int group, const uint8_t *image, size_t length, unsigned want)
{
    load_as(group, image, length, want, true);
}

static void read_new_vector(int group, const uint8_t *image, size_t length, unsigned want)
{
    load_as(group, image, length, want, false);
}

/* The fields that a rescue may change: their first offsets, their lengths. */
static const uint8_t field_at[RESCUE_MOST] = {3, 4, 5, 6, 7, 8, 9, 16, 23, 30, 38};
static const uint8_t field_bytes[RESCUE_MOST] = {1, 1, 1, 1, 1, 1, 7, 7, 7, 7, 4};

/* Request Q-13, plainly: the fields are put one after the other into a cold image with these X
 * numbers and this n; one that it is not sound with is left out. Gives the code, the fields left
 * out (bit f: field f), and the image. A check on the model, which tests each field by itself. */
static unsigned plainly_rescued(uint8_t *image, size_t length, unsigned *left_out)
{
    uint8_t b[IMAGE_BYTES] = {0xA2};
    *left_out = 0;
    if (length == 0)
        return 1;
    if (image[0] != 0xA2)
        return 2;
    if (length != 42)
        return 1;
    b[1] = image[1];
    b[2] = image[2];
    b[37] = image[37];
    if (!plainly_sound(b))
        return 11;
    for (unsigned f = 0; f < RESCUE_MOST; f++) {
        memcpy(b + field_at[f], image + field_at[f], field_bytes[f]);
        if (!plainly_sound(b)) {
            memset(b + field_at[f], 0, field_bytes[f]);
            *left_out |= 1u << f;
        }
    }
    memcpy(image, b, 42);
    return 0;
}

/* Expected by hand: the code, and the changed fields (bit f: field f; NO_HAND: not by hand). */
enum { NO_HAND = 1 << RESCUE_MOST };

static void rescue_vector(const uint8_t *image, size_t length, unsigned want, unsigned fields)
{
    uint8_t after[256], plain[256], listed[RESCUE_MOST], found;
    unsigned changed;
    memset(after, 0, sizeof after);
    memcpy(after, image, length);
    memcpy(plain, after, sizeof plain);
    begin(13, OP_RESCUE);
    u8((unsigned)length);
    raw(image, length);
    const uint8_t c = image_rescue(after, length, listed, &found);
    compare(c, want);
    compare(c, plainly_rescued(plain, length, &changed));
    if (fields != NO_HAND && fields != changed)
        fail("other fields by hand");
    if (memcmp(after, plain, sizeof after) != 0)
        fail("another image by the plain reading");
    u8(c);
    u8(found);
    unsigned k = 0;
    for (unsigned f = 0; f < RESCUE_MOST; f++) {
        const bool differs = memcmp(after + field_at[f], image + field_at[f], length == 42 ? field_bytes[f] : 0) != 0;
        if (differs != (changed >> f & 1))
            fail("a changed field that the plain reading keeps, or the other way round");
        if (differs && (k >= found || listed[k++] != field_at[f]))
            fail("another list by the plain reading");
    }
    if (k != found)
        fail("a longer list than the plain reading's");
    raw(listed, found);
    raw(after, length);
    if (c == 0 && (!plainly_sound(after) || image_rescue(after, length, listed, &found) != 0 || found != 0 ||
                   memcmp(after, plain, sizeof after) != 0))
        fail("a rescued image is not sound, or a second rescue changes it");
    end();
}

static void run_expected(const State *s, const uint8_t *log, size_t length, uint32_t budget,
                         unsigned want, unsigned stop)
{
    State after = *s, once = *s;
    RunResult x, y;
    memset(&x, 0, sizeof x);
    memset(&y, 0, sizeof y);
    run_checked(&after, log, length, budget, &x);
    run_once(&once, log, length, budget, &y);
    if (memcmp(&x, &y, sizeof x) != 0 || !same(&after, &once))
        fail("the two runs differ");
    compare(x.code, want);
    compare(x.stop, stop);
    u8(x.code);
    u8(x.stop);
    u32(x.offset);
    u32(x.read);
    u32(x.refused);
    for (int i = 0; i < 6; i++)
        u32(x.total[i]);
    state(&after);
}

static void run_vector(int group, const State *s, const uint8_t *log, size_t length,
                       uint32_t budget, unsigned want, unsigned stop)
{
    begin(group, OP_RUN);
    state(s);
    u32(budget);
    u16((unsigned)length);
    raw(log, length);
    run_expected(s, log, length, budget, want, stop);
    end();
}

static void long_vector(int group, const State *s, const uint8_t *pattern, size_t pattern_length,
                        size_t length, uint32_t budget, unsigned want, unsigned stop)
{
    static uint8_t log[LOG_MOST + 1];
    if (length > sizeof log || pattern_length == 0 || pattern_length > 255)
        fail("log or pattern too long");
    begin(group, OP_LONG);
    state(s);
    u32(budget);
    u32((uint32_t)length);
    u8((unsigned)pattern_length);
    raw(pattern, pattern_length);
    for (size_t i = 0; i < length; i++)
        log[i] = pattern[i % pattern_length];
    run_expected(s, log, length, budget, want, stop);
    end();
}

static void history_begin(int group, unsigned lowest, unsigned highest, unsigned tries, unsigned records, State *s)
{
    begin(group, OP_HISTORY);
    u8(lowest);
    u8(highest);
    u8(tries);
    u16(records);
    compare(cold_start(s, (uint8_t)lowest, (uint8_t)highest, (uint8_t)tries), 0);
}

/* One record of a history; gives its count of actions. */
static unsigned history_step(State *s, const uint8_t *r, size_t length, unsigned want)
{
    uint8_t actions[ACTION_BUFFER];
    const State before = *s;
    const StepResult x = step(s, r, length, actions, sizeof actions);
    compare(x.code, want);
    u8((unsigned)length);
    raw(r, length);
    answer(&before, r, x);
    raw(actions, (size_t)ACTION_BYTES * x.count);
    return x.count;
}

/* A random history of document 01's partners, n = 3. */
static void history_vector(int group, Rng *g, unsigned records)
{
    uint8_t lowest, highest, r[GEN_MOST];
    State s;
    Plain plain;
    gen_x(g, &lowest, &highest);
    history_begin(group, lowest, highest, 3, records, &s);
    plain_start(&plain, lowest, highest, 3);
    for (unsigned k = 0; k < records; k++) {
        const size_t length = gen_plain(g, &plain, false, r);
        plain_step(&plain, r, length);
        history_step(&s, r, length, ANY);
    }
    state(&s);
    end();
}

/* The place of a choice 0..10: free, an RBC in phase 1..5, an RIU in phase 1..5. */
static void choice(uint8_t p[7], unsigned place, unsigned c)
{
    memset(p, 0, 7);
    if (c == 0)
        return;
    p[0] = (uint8_t)((c - 1) % 5 + 1);
    p[2] = p[0] == OPEN ? 0 : 1;
    p[3] = c > 5;
    p[6] = (uint8_t)(0x20 + place);
}

static void mix_in(int group, const uint8_t head[8], const uint8_t p0[7], const uint8_t p1[7],
                   const uint8_t tail[5], const uint8_t *r, size_t length)
{
    uint8_t image[IMAGE_BYTES] = {IMAGE_KIND}, after[IMAGE_BYTES];
    begin(group, OP_MIX);
    raw(head, 8);
    raw(p0, 7);
    raw(p1, 7);
    raw(tail, 5);
    u8((unsigned)length);
    raw(r, length);
    memcpy(image + 1, head, 8);
    memcpy(image + 9, p0, 7);
    memcpy(image + 16, p1, 7);
    memcpy(image + 37, tail, 5);
    for (unsigned j = 0; j <= 10; j++)
        for (unsigned k = 0; k <= 10; k++) {
            State s;
            uint8_t actions[ACTION_BUFFER];
            choice(image + 23, 2, j);
            choice(image + 30, 3, k);
            image_load(&s, image);
            if (!sound(&s))
                fail("a mix is not sound");
            const State before = s;
            const StepResult x = step(&s, r, length, actions, sizeof actions);
            answer(&before, r, x);
            raw(actions, (size_t)ACTION_BYTES * x.count);
            image_store(&s, after);
            if (memcmp(after + 1, image + 1, 2) != 0 || after[37] != tail[0])
                fail("a step changed the X numbers or n");
            raw(after + 9, 28);
            raw(after + 38, 4);
        }
    end();
}

/* n = 3, no RBC known. */
static const uint8_t plain_tail[5] = {3, 0, 0, 0, 0};

static void mix_vector(int group, const uint8_t head[8], const uint8_t p0[7], const uint8_t p1[7],
                       const uint8_t *r, size_t length)
{
    mix_in(group, head, p0, p1, plain_tail, r, length);
}

/* ---- states and records ---- */

/* Cold, with n = 3. */
static State with_x(unsigned lowest, unsigned highest)
{
    State s;
    memset(&s, 0, sizeof s);
    s.lowest = (uint8_t)lowest;
    s.highest = (uint8_t)highest;
    s.n = 3;
    return s;
}

static void hold(State *s, unsigned place, uint32_t who, unsigned phase, unsigned direction,
                 unsigned tries)
{
    s->partner[place] = who;
    s->phase[place] = (uint8_t)phase;
    s->direction[place] = (uint8_t)direction;
    s->tries[place] = (uint8_t)tries;
}

static void vacate(State *s, unsigned place) { hold(s, place, 0, 0, 0, 0); }

/* The twelve sound values of the marks, the bits of inside, mode, manual, hole end. */
static const uint8_t marks12[12] = {0, 6, 1, 14, 2, 5, 4, 12, 8, 3, 10, 7};

static void set_marks(State *s, unsigned bits)
{
    s->inside = bits >> 3 & 1;
    s->mode = bits >> 2 & 1;
    s->manual = bits >> 1 & 1;
    s->hole_end = bits & 1;
}

/* Level, mission and marks by a running number. */
static void set_head(State *s, unsigned k)
{
    s->level = (uint8_t)(k % 5);
    s->mission = (uint8_t)(k / 2 % 3);
    set_marks(s, marks12[k / 3 % 12]);
}

/* Every sound (phase, direction, tries) of an RBC; an RIU has those with direction 0. */
static const struct { uint8_t phase, direction, tries; } form[20] = {
    {1, 0, 1}, {3, 1, 0}, {2, 0, 1}, {4, 0, 1}, {5, 0, 1}, {1, 0, 2}, {2, 0, 2}, {3, 0, 0},
    {4, 0, 2}, {5, 0, 2}, {4, 1, 1}, {5, 1, 1}, {1, 0, 3}, {2, 0, 3}, {4, 0, 3}, {5, 0, 3},
    {4, 1, 2}, {5, 1, 2}, {4, 1, 3}, {5, 1, 3},
};

static void hold_form(State *s, unsigned place, uint32_t who, unsigned f)
{
    f %= 20;
    if (who >> 24 == RIU)
        while (form[f].direction != 0)
            f = (f + 1) % 20;
    hold(s, place, who, form[f].phase, form[f].direction, form[f].tries);
}

typedef struct { size_t n; uint8_t b[16]; } Rec;

static Rec rec0(void) { return (Rec){0, {0}}; }
static Rec rec1(unsigned k) { return (Rec){1, {(uint8_t)k}}; }
static Rec rec2(unsigned k, unsigned a) { return (Rec){2, {(uint8_t)k, (uint8_t)a}}; }
static Rec rec3(unsigned k, unsigned a, unsigned b) { return (Rec){3, {(uint8_t)k, (uint8_t)a, (uint8_t)b}}; }

static Rec rec5(unsigned k, uint32_t who)
{
    return (Rec){5, {(uint8_t)k, (uint8_t)(who >> 24), (uint8_t)(who >> 16), (uint8_t)(who >> 8), (uint8_t)who}};
}

static Rec rec7(unsigned k, uint32_t who, unsigned a, unsigned b)
{
    Rec r = rec5(k, who);
    r.n = 7;
    r.b[5] = (uint8_t)a;
    r.b[6] = (uint8_t)b;
    return r;
}

static Rec order_of(uint32_t who, unsigned accepting, unsigned cause) { return rec7(5, who, accepting, cause); }
static Rec message_of(uint32_t who, unsigned number, unsigned version) { return rec7(11, who, number, version); }

static void step_rec(int group, const State *s, Rec r, unsigned want)
{
    step_vector(group, s, r.b, r.n, only(want));
}

/* Place and phase by hand, as they are told with 5 and 7; 4 and 0 with any other code. */
static void told_rec(int group, const State *s, Rec r, unsigned want, unsigned place, unsigned phase)
{
    step_vector(group, s, r.b, r.n, want == 5 || want == 7 ? (Hand){want, place, phase} : untold(want));
}

static void untold_rec(int group, const State *s, Rec r, unsigned want)
{
    step_vector(group, s, r.b, r.n, untold(want));
}

enum {
    A = 0x00010203, A_RIU = 0x01010203,     /* one number, two partners */
    A_1 = 0x00810203, A_2 = 0x00018203, A_3 = 0x00010283,
    NEW = 0x000A0B0C, NEW_RIU = 0x010A0B0C
};

/* Four held places, each of another kind. */
static State full_state(void)
{
    State s = with_x(1, 2);
    s.level = 2;
    s.mission = 1;
    hold(&s, 0, A, OPEN, INCOMING, 0);
    hold(&s, 1, A_RIU, OPEN, OUTGOING, 0);
    hold(&s, 2, A_1, LOST, OUTGOING, 2);
    hold(&s, 3, A_3, CONTACTING, OUTGOING, 3);
    return s;
}

/* A state for request Q-6: 'who' in this place and form, and around it, in phases other than its
 * own and different from each other, its number with the other type and two strangers. 'around':
 * 0 all places taken, the same number just below (place 0: in place 3); 1 the place just below
 * free; 2 the second place below free; 3 'who' alone. */
enum { AROUNDS = 4 };

static State standing(uint32_t who, unsigned place, unsigned f, unsigned around)
{
    State s = with_x(1, 2);
    const uint32_t others[3] = {who ^ 0x01000000, 0x00000777, 0x01000778};
    unsigned k = 0;
    hold_form(&s, place, who, f);
    for (unsigned down = 1; down < PLACES && around < 3; down++) {
        if (down == around)
            continue;
        const unsigned phase = (s.phase[place] + (f + place + k) % 4) % 5 + 1;
        hold(&s, (place + PLACES - down) % PLACES, others[k], phase, OUTGOING,
             phase == OPEN ? 0 : (f + k) % 3 + 1);
        k++;
    }
    return s;
}

/* The forms 0, 2, 7, 3, 4 have the phases 1 to 5. */
static const uint8_t form_of_phase[ENDING + 1] = {0, 0, 2, 7, 3, 4};

/* ---- group 1: cells ---- */

/* 7 where the table of document 01 says "no": drop, up, lost, timeout, 32 good, 32 bad, 39. */
static const uint8_t cell_code[6][7] = {
    {0}, {0, 0, 7, 0, 7, 7, 7}, {0, 7, 0, 0, 0, 0, 7}, {0, 7, 0, 7, 7, 7, 7},
    {0, 0, 7, 0, 7, 7, 7}, {7, 7, 0, 0, 7, 7, 0},
};

static Rec column(unsigned c, uint32_t who, unsigned version)
{
    static const uint8_t kind[4] = {EV_DROP, EV_UP, EV_LOST, EV_TIMEOUT};
    if (c < 4)
        return rec5(kind[c], who);
    return c == 6 ? message_of(who, 39, 0) : message_of(who, 32, version);
}

static void version_edges(const State *s, uint32_t who)
{
    if (s->lowest > 0)
        step_rec(1, s, message_of(who, 32, 16u * s->lowest - 1), 0);
    step_rec(1, s, message_of(who, 32, 16u * s->lowest), 0);
    step_rec(1, s, message_of(who, 32, 16u * s->highest + 15), 0);
    if (s->highest < 7)
        step_rec(1, s, message_of(who, 32, 16u * s->highest + 16), 0);
}

/* Request Q-6: each "no" of the table in each place, direction and number of tries. */
static void cells_told(void)
{
    for (unsigned place = 0; place < PLACES; place++)
        for (unsigned type = RBC; type <= RIU; type++)
            for (unsigned f = 0; f < 20; f++)
                for (unsigned around = 0; around < AROUNDS; around++) {
                    const uint32_t who = type == RBC ? A : A_RIU;
                    const unsigned phase = form[f].phase;
                    if (type == RIU && form[f].direction != 0)
                        continue;
                    State s = standing(who, place, f, around);
                    set_head(&s, f + 5 * around + 3 * place);
                    for (unsigned c = 0; c < 7; c++)
                        if (cell_code[phase][c] == 7 && (c + around + f / 2) % 2 == 0)
                            told_rec(1, &s, column(c, who, c == 4 ? 0x11 : 0x30), 7, place, phase);
                }
}

static void cells(void)
{
    static const uint8_t xs[8][2] = {{1, 2}, {2, 5}, {0, 3}, {3, 3}, {4, 7}, {0, 0}, {7, 7}, {5, 6}};
    unsigned k = 0;

    for (unsigned place = 0; place < PLACES; place++)
        for (unsigned type = RBC; type <= RIU; type++)
            for (unsigned f = 0; f < 20; f++)
                for (unsigned among = 0; among < 2; among++) {
                    if (type == RIU && form[f].direction != 0)
                        continue;
                    if (!among && form[f].tries > 1)
                        continue;
                    const uint32_t who = type == RBC ? A : A_RIU;
                    /* partners that differ from it in one part only; three of the four stand by */
                    const uint32_t like[4] = {who ^ 0x01000000, who ^ 0x00800000, who ^ 0x00008000,
                                              who ^ 0x00000080};
                    State s = with_x(xs[k % 8][0], xs[k % 8][1]);
                    hold_form(&s, place, who, f);
                    unsigned l = k;
                    for (unsigned i = 0; among && i < PLACES; i++)
                        if (i != place) {
                            hold_form(&s, i, like[l % 4], k * 7 + i * 3);
                            l++;
                        }
                    for (unsigned c = 0; c < 7; c++) {
                        const unsigned y = k * 5 % 16;
                        const unsigned good = 16u * (k & 1 ? s.lowest : s.highest) + y;
                        const unsigned bad = s.highest == 7 || (s.lowest > 0 && (k & 2))
                                                 ? 16u * s.lowest - 1 - y : 16u * s.highest + 16 + y;
                        set_head(&s, k++);
                        told_rec(1, &s, column(c, who, c == 4 ? good : bad), cell_code[form[f].phase][c],
                                 place, form[f].phase);
                    }
                    if (among && form[f].phase == CONTACTING)
                        version_edges(&s, who);
                }

    /* every X, its first, a middle and its last version, and the edges of every range */
    State s = with_x(2, 4);
    hold(&s, 1, A, CONTACTING, OUTGOING, 2);
    for (unsigned v = 0; v < 128; v += v % 16 == 0 ? 7 : v % 16 == 7 ? 8 : 1)
        step_rec(1, &s, message_of(A, 32, v), 0);
    for (unsigned lowest = 0; lowest < 8; lowest++)
        for (unsigned highest = lowest; highest < 8; highest++) {
            s = with_x(lowest, highest);
            hold(&s, (lowest + highest) % 4, A_RIU, CONTACTING, OUTGOING, 1 + lowest % 3);
            version_edges(&s, A_RIU);
        }

    /* RBC 0, whose bytes are those of a free place, and the largest number; the first and the
     * last place held by it, and not held */
    static const uint32_t edge[2] = {0x00000000, 0x01FFFFFF};
    for (unsigned e = 0; e < 2; e++)
        for (unsigned f = 0; f < 5; f++) {
            const unsigned first[5] = {0, 2, 7, 3, 4};          /* phases 1 to 5 */
            s = with_x(1, 2);
            hold_form(&s, 3, edge[e], first[f]);
            for (unsigned c = 0; c < 7; c++)
                told_rec(1, &s, column(c, edge[e], c == 4 ? 0x11 : 0x30), cell_code[f + 1][c], 3, f + 1);
            hold_form(&s, 3, A, first[f]);
            step_rec(1, &s, column(f, edge[e], 0x11), 6);
            step_rec(1, &s, column(6, edge[e], 0), 6);
        }

    /* an order and a call 38 take the lowest free place, whatever stands in the others */
    for (unsigned held = 0; held < 16; held++)
        for (unsigned turn = 0; turn < 3; turn++) {
            const uint32_t like[4] = {A_RIU, A_1, A_2, A_3};
            s = with_x(1, 2);
            set_head(&s, held * 3 + turn);
            for (unsigned i = 0; i < PLACES; i++)
                if (held >> i & 1)
                    hold_form(&s, i, like[i], held + turn * 5 + i * 3);
            step_rec(1, &s, message_of(turn == 2 ? 0 : A, 38, 0), held == 15 ? 8 : 0);
            step_rec(1, &s, order_of(turn == 2 ? 0 : A, 1, 1), held == 15 ? 8 : 0);
            step_rec(1, &s, order_of(turn == 2 ? 0x01FFFFFF : NEW_RIU, turn & 1, 1), held == 15 ? 8 : 0);
        }

    cells_told();
}

/* ---- group 2: refusals ---- */

typedef struct { State s; Rec r; uint8_t code, place, phase; } Case;

/* Steps refused for one reason only. */
static size_t single_refusals(Case *out)
{
    size_t c = 0;
    State none = with_x(1, 2), some = full_state(), full = full_state(), in = with_x(1, 2);
    none.level = some.level = 2;
    set_marks(&some, 6);
    vacate(&some, 2);
    set_marks(&full, 7);
    in.inside = 1;

    out[c++] = (Case){some, rec0(), 1, 4, 0};
    out[c++] = (Case){some, rec1(0), 2, 4, 0};
    out[c++] = (Case){some, rec5(12, A), 2, 4, 0};
    out[c++] = (Case){some, rec7(255, A, 0, 0), 2, 4, 0};
    out[c++] = (Case){some, rec2(EV_LEVEL, 3), 1, 4, 0};
    out[c++] = (Case){some, rec2(EV_MODE, 0), 1, 4, 0};
    out[c++] = (Case){some, rec5(EV_MESSAGE, A), 1, 4, 0};
    out[c++] = (Case){some, rec3(EV_LEVEL, 5, 0), 3, 4, 0};
    out[c++] = (Case){some, rec3(EV_LEVEL, 3, 2), 3, 4, 0};
    out[c++] = (Case){some, rec2(EV_MISSION, 3), 3, 4, 0};
    out[c++] = (Case){some, rec2(EV_END_ALL, 2), 3, 4, 0};
    out[c++] = (Case){some, order_of(NEW, 2, 1), 3, 4, 0};
    out[c++] = (Case){none, order_of(NEW, 1, 0), 4, 4, 0};
    out[c++] = (Case){some, order_of(NEW, 0, 4), 4, 4, 0};
    out[c++] = (Case){some, order_of(A, 0, 1), 5, 0, OPEN};
    out[c++] = (Case){some, order_of(A_RIU, 0, 3), 5, 1, OPEN};
    out[c++] = (Case){full, order_of(NEW, 0, 1), 8, 4, 0};
    out[c++] = (Case){full, order_of(NEW_RIU, 1, 3), 8, 4, 0};
    out[c++] = (Case){some, message_of(NEW_RIU, 38, 0), 9, 4, 0};
    out[c++] = (Case){some, message_of(A, 38, 0), 5, 0, OPEN};
    out[c++] = (Case){full, message_of(NEW, 38, 0), 8, 4, 0};
    for (unsigned k = 0; k < 7; k++)
        out[c++] = (Case){some, column(k, NEW, 0x11), 6, 4, 0};
    for (unsigned k = 0; k < 7; k++) {
        State s = some;                    /* a phase that does not take this event */
        const unsigned phase[7] = {ENDING, OPEN, LOST, OPEN, OPEN, LOST, CONTACTING};
        hold(&s, 3, A_3, phase[k], OUTGOING, phase[k] == OPEN ? 0 : 2);
        out[c++] = (Case){s, column(k, A_3, k == 4 ? 0x11 : 0x30), 7, 3, (uint8_t)phase[k]};
    }
    out[c++] = (Case){in, rec2(EV_HOLE, 1), 7, 4, 0};
    out[c++] = (Case){none, rec2(EV_HOLE, 0), 7, 4, 0};
    return c;
}

static State unsound(State s, unsigned how)
{
    switch (how) {
    case 0: s.highest = 8; break;
    case 1: s.lowest = (uint8_t)(s.highest + 1); break;
    case 2: s.level = 5; break;
    case 3: s.mission = 3; break;
    default: hold(&s, 0, 0x02000001, ENDING, OUTGOING, 1); break;
    }
    return s;
}

static void step_refusals(void)
{
    static Case cases[80];
    const size_t c = single_refusals(cases);
    for (size_t i = 0; i < c; i++) {
        const Case *const x = &cases[i];
        State s;
        Rec r = x->r;
        step_vector(2, &x->s, r.b, r.n, (Hand){x->code, x->place, x->phase});
        step_in(2, &x->s, r.b, r.n, i % 3 ? 19 : 0, next_fill(), untold(10));
        for (unsigned how = (unsigned)i % 2; how < 4; how += 2) {
            s = unsound(x->s, how);
            step_rec(2, &s, r, 11);
        }
        s = unsound(x->s, (unsigned)i % 5);
        step_in(2, &s, r.b, r.n, (unsigned)i % 20, next_fill(), untold(10));
        if (x->code < 3)
            continue;
        r.n--;                             /* the rest as before: the length comes first */
        step_rec(2, &x->s, r, 1);
        r.n += 2;
        step_rec(2, &x->s, r, 1);
    }

    /* sound, accepted, but for the buffer or the state alone */
    State s = full_state();
    step_in(2, &s, rec5(EV_DROP, A).b, 5, 19, next_fill(), untold(10));
    step_in(2, &s, rec5(EV_DROP, A).b, 5, 0, next_fill(), untold(10));
    for (unsigned how = 0; how < 5; how++) {
        const State u = unsound(s, how);
        step_rec(2, &u, rec5(EV_DROP, A_1), 11);
        step_in(2, &u, rec5(EV_DROP, A_1).b, 5, 19, next_fill(), untold(10));
    }
}

/* Pairs among 3 to 9. */
static void step_pairs(void)
{
    State none = with_x(1, 2), some = full_state(), full = full_state();
    vacate(&some, 2);
    set_marks(&some, 12);                  /* inside, mode */
    set_marks(&full, 2);                   /* manual */
    some.mission = full.mission = 2;

    /* 3 before 4: cause 0 is not in force in mission 2 or 0, cause 4 has no mark */
    for (unsigned cause = 0; cause <= 4; cause += 4) {
        step_rec(2, &some, order_of(NEW, 2, cause), 3);
        step_rec(2, &some, order_of(NEW ^ 0x02000000, 0, cause), 3);
        step_rec(2, &none, order_of(NEW, 255, cause), 3);
        step_rec(2, &none, order_of(NEW ^ 0xFF000000, 1, cause), 3);
    }
    /* 3 before 5 */
    step_rec(2, &some, order_of(A, 2, 1), 3);
    step_rec(2, &some, order_of(A, 0, 5), 3);
    step_rec(2, &some, order_of(A_RIU, 255, 1), 3);
    step_rec(2, &some, message_of(A, 38, 1), 3);
    step_rec(2, &some, message_of(A_3, 38, 255), 3);
    /* 3 before 8 */
    step_rec(2, &full, order_of(NEW, 2, 1), 3);
    step_rec(2, &full, order_of(NEW, 1, 5), 3);
    step_rec(2, &full, order_of(NEW ^ 0x02000000, 1, 1), 3);
    step_rec(2, &full, message_of(NEW, 38, 1), 3);
    step_rec(2, &full, message_of(NEW ^ 0x02000000, 38, 0), 3);
    /* 3 before 9 */
    step_rec(2, &none, message_of(NEW_RIU, 38, 1), 3);
    step_rec(2, &some, message_of(NEW_RIU, 38, 128), 3);
    step_rec(2, &none, message_of(0x02000001, 38, 0), 3);
    /* 3 before 4, 5 and 8 together; before 9, 5 and 8 together */
    step_rec(2, &full, order_of(A, 2, 0), 3);
    step_rec(2, &full, order_of(A_RIU, 0, 6), 3);
    step_rec(2, &full, message_of(A_RIU, 38, 1), 3);
    /* 3 before 6 */
    for (unsigned c = 0; c < 7; c++) {
        step_rec(2, &some, column(c, A ^ 0x02000000, 0x11), 3);
        step_rec(2, &some, column(c, A ^ 0xFF000000, 0x11), 3);
        step_rec(2, &none, column(c, 0x02000000, 0x11), 3);
    }
    step_rec(2, &some, message_of(NEW, 32, 128), 3);
    step_rec(2, &some, message_of(NEW, 39, 1), 3);
    step_rec(2, &some, message_of(NEW, 33, 0), 3);
    step_rec(2, &some, message_of(NEW, 255, 255), 3);
    /* 3 before 7, in each phase that does not take the message; the hole in both conditions */
    for (unsigned f = 0; f < 20; f++) {
        State s = with_x(1, 2);
        hold_form(&s, f % 4, A, f);
        if (form[f].phase != CONTACTING)
            step_rec(2, &s, message_of(A, 32, 128 + f), 3);
        if (form[f].phase != ENDING)
            step_rec(2, &s, message_of(A, 39, 1 + f), 3);
        step_rec(2, &s, message_of(A, f % 2 ? 31 : 40, 0), 3);
    }
    for (unsigned v = 2; v < 5; v++) {
        State s = with_x(1, 2);
        step_rec(2, &s, rec2(EV_HOLE, v), 3);
        s.inside = 1;
        step_rec(2, &s, rec2(EV_HOLE, v), 3);
        step_rec(2, &s, rec2(EV_HOLE, 255), 3);
        set_marks(&s, 1);
        step_rec(2, &s, rec2(EV_HOLE, v), 3);
    }

    /* 4 before 5, before 8, before both; each cause but 1, each reason for it */
    for (unsigned why = 0; why < 8; why++) {
        static const struct { uint8_t cause, level, mission, marks; } no[8] = {
            {0, 2, 2, 7}, {0, 1, 1, 7}, {2, 2, 0, 7}, {2, 4, 2, 7}, {2, 3, 1, 3}, {3, 1, 1, 7},
            {3, 2, 1, 5}, {4, 2, 1, 14},
        };
        State s = full_state();
        s.level = no[why].level;
        s.mission = no[why].mission;
        set_marks(&s, no[why].marks);
        step_rec(2, &s, order_of(NEW, 0, no[why].cause), 4);              /* 4, 8 */
        step_rec(2, &s, order_of(A, why & 1, no[why].cause), 4);          /* 4, 5, 8 */
        vacate(&s, why % 4);
        step_rec(2, &s, order_of(s.partner[(why + 1) % 4], 0, no[why].cause), 4);    /* 4, 5 */
        step_rec(2, &s, order_of(NEW, 0, no[why].cause), 4);              /* 4 alone */
    }
    /* 5 before 8, the cause in force: its mark and all others stay; 8 and 5 alone too */
    for (unsigned cause = 0; cause < 5; cause++)
        for (unsigned place = 0; place < PLACES; place++) {
            State s = full_state();
            set_marks(&s, 7);
            const uint8_t phase = (uint8_t[]){OPEN, OPEN, LOST, CONTACTING}[place];
            told_rec(2, &s, order_of(s.partner[place], place & 1, cause), 5, place, phase);
            step_rec(2, &s, order_of(place & 1 ? NEW : NEW_RIU, place >> 1, cause), 8);
            const uint32_t who = s.partner[place];
            vacate(&s, (place + 1 + cause) % 4 == place ? (place + 1) % 4 : (place + 1 + cause) % 4);
            told_rec(2, &s, order_of(who, place >> 1, cause), 5, place, phase);
        }
    /* 5 for each phase and type: order, and 38 (9 for an RIU, before 5) */
    for (unsigned f = 0; f < 12; f++)
        for (unsigned type = RBC; type <= RIU; type++) {
            State s = with_x(1, 2);
            const uint32_t who = type == RBC ? A : A_RIU;
            hold_form(&s, (f + type) % 4, who, f);
            const unsigned place = (f + type) % 4, phase = s.phase[place];
            told_rec(2, &s, order_of(who, f & 1, 1), 5, place, phase);
            told_rec(2, &s, message_of(who, 38, 0), type == RIU ? 9 : 5, place, phase);
        }
    /* 9 before 8, before 5 and 8; 5 before 8 */
    for (unsigned place = 0; place < PLACES; place++) {
        State s = full_state();
        hold(&s, place, NEW_RIU, place == 0 ? OPEN : place, OUTGOING, place == 0 || place == 3 ? 0 : 1);
        step_rec(2, &s, message_of(0x01777777, 38, 0), 9);
        step_rec(2, &s, message_of(NEW_RIU, 38, 0), 9);
        hold(&s, place, NEW, LOST, INCOMING, 3);
        told_rec(2, &s, message_of(NEW, 38, 0), 5, place, LOST);
        step_rec(2, &s, message_of(0x00777777, 38, 0), 8);
    }
}

/* The first column that a phase does not take. */
static Rec not_taken(unsigned phase, uint32_t who)
{
    unsigned c = 0;
    while (cell_code[phase][c] != 7)
        c++;
    return column(c, who, 0x11);
}

/* Request Q-6: 1 to 4 and 9 to 11 tell 4 and 0 although the partner of the record has a place. */
static void untold_held(const State *s, unsigned place)
{
    const uint32_t who = s->partner[place];
    const unsigned phase = s->phase[place];
    const Rec none = not_taken(phase, who);
    Rec r;

    untold_rec(2, s, rec0(), 1);
    r = none;
    r.n--;
    untold_rec(2, s, r, 1);
    r = order_of(who, 1, 1);
    r.n++;
    untold_rec(2, s, r, 1);
    r = message_of(who, 38, 0);
    r.n--;
    untold_rec(2, s, r, 1);
    untold_rec(2, s, rec5(0, who), 2);
    untold_rec(2, s, rec7(12 + place, who, 1, 1), 2);
    untold_rec(2, s, order_of(who, 2, 1), 3);
    untold_rec(2, s, order_of(who, 1, 5), 3);
    untold_rec(2, s, message_of(who, 38, 1), 3);
    untold_rec(2, s, message_of(who, 32, 128), 3);
    untold_rec(2, s, message_of(who, 40, 0), 3);
    untold_rec(2, s, rec5(EV_UP, who | 0x02000000), 3);
    untold_rec(2, s, order_of(who, 1, 3), 4);
    untold_rec(2, s, order_of(who, 0, 4), 4);
    if (who >> 24 == RIU)
        untold_rec(2, s, message_of(who, 38, 0), 9);
    step_in(2, s, none.b, none.n, 19, next_fill(), untold(10));
    step_in(2, s, order_of(who, 1, 1).b, 7, place, next_fill(), untold(10));
    for (unsigned how = place % 2; how < 4; how += 2) {
        const State u = unsound(*s, how);
        untold_rec(2, &u, none, 11);
        untold_rec(2, &u, order_of(who, 1, 1), 11);
        step_in(2, &u, none.b, none.n, 19, next_fill(), untold(10));
    }
}

/* 5 and 7 about a partner tell its place; 7 of a hole, 6 and 8 do not, whoever stands where. */
static void told_held(State s, unsigned place)
{
    const uint32_t who = s.partner[place], twin = who ^ 0x01000000;
    const unsigned phase = s.phase[place], other = (place + 3) % 4;

    told_rec(2, &s, order_of(who, 1, 1), 5, place, phase);
    told_rec(2, &s, order_of(who, 0, 2), 5, place, phase);
    if (who >> 24 == RBC)
        told_rec(2, &s, message_of(who, 38, 0), 5, place, phase);
    told_rec(2, &s, not_taken(phase, who), 7, place, phase);
    untold_rec(2, &s, rec2(EV_HOLE, 0), 7);
    s.inside = 1;
    untold_rec(2, &s, rec2(EV_HOLE, 1), 7);
    s.inside = 0;

    hold(&s, other, who ^ 0x00000080, phase % 5 + 1, OUTGOING, phase % 5 + 1 == OPEN ? 0 : 3);
    for (unsigned i = 0; i < PLACES; i++)
        if (s.phase[i] != FREE && s.partner[i] == twin)
            vacate(&s, i);
    for (unsigned c = phase % 2; c < 7; c += 2)
        untold_rec(2, &s, column(c, twin, 0x11), 6);
    for (unsigned i = 0; i < PLACES; i++)
        if (s.phase[i] == FREE)
            hold(&s, i, 0x00000880 + i, (phase + i) % 5 + 1, OUTGOING, (phase + i) % 5 + 1 == OPEN ? 0 : 2);
    untold_rec(2, &s, column(phase % 7, twin, 0x11), 6);
    untold_rec(2, &s, order_of(twin, 1, 1), 8);
    untold_rec(2, &s, order_of(who ^ 0x00008000, 0, 2), 8);
    untold_rec(2, &s, message_of((who & 0xFFFFFF) ^ 0x00800000, 38, 0), 8);
    if (twin >> 24 == RIU)
        untold_rec(2, &s, message_of(twin, 38, 0), 9);
}

/* P5, P6 and P9 of document 01, the states written by hand. */
static void marked(void)
{
    State s = with_x(1, 2);
    for (unsigned i = 1; i <= PLACES; i++) {
        untold_rec(2, &s, message_of(i, 38, 0), 0);
        hold(&s, i - 1, i, OPEN, INCOMING, 0);
        for (unsigned k = 1; k <= i; k++)
            told_rec(2, &s, message_of(k, 38, 0), 5, k - 1, 3);
    }
    untold_rec(2, &s, message_of(5, 38, 0), 8);
    told_rec(2, &s, message_of(1, 38, 0), 5, 0, 3);
    told_rec(2, &s, message_of(2, 38, 0), 5, 1, 3);
    told_rec(2, &s, message_of(3, 38, 0), 5, 2, 3);
    told_rec(2, &s, message_of(4, 38, 0), 5, 3, 3);
    untold_rec(2, &s, message_of(0x01000001, 38, 0), 9);
    untold_rec(2, &s, rec2(EV_HOLE, 0), 7);            /* with the four places held */
    untold_rec(2, &s, rec2(EV_HOLE, 1), 0);
    s.inside = 1;
    untold_rec(2, &s, rec2(EV_HOLE, 1), 7);
    untold_rec(2, &s, rec2(EV_HOLE, 0), 0);

    s = with_x(1, 2);
    untold_rec(2, &s, rec2(EV_HOLE, 0), 7);
    untold_rec(2, &s, rec2(EV_HOLE, 1), 0);
    s.inside = 1;
    untold_rec(2, &s, rec2(EV_HOLE, 0), 0);
    s.inside = 0;
    s.hole_end = 1;
    untold_rec(2, &s, order_of(3, 1, 4), 0);
    s.hole_end = 0;
    hold(&s, 0, 3, CONNECTING, OUTGOING, 1);
    untold_rec(2, &s, order_of(4, 1, 4), 4);
    untold_rec(2, &s, order_of(3, 1, 4), 4);           /* 4 before 5 */
    untold_rec(2, &s, rec2(EV_HOLE, 0), 7);
}

static void standing_refusals(void)
{
    marked();
    for (unsigned place = 0; place < PLACES; place++)
        for (unsigned phase = CONNECTING; phase <= ENDING; phase++) {
            const unsigned turn = 5 * place + phase;
            const unsigned tries = phase == OPEN ? 0 : turn % 3 + 1;
            for (unsigned type = RBC; type <= RIU; type++) {
                State s = standing(type == RBC ? A : A_RIU, place, form_of_phase[phase], turn % AROUNDS);
                s.tries[place] = (uint8_t)tries;
                s.level = 2 + turn % 2;
                s.mission = 1 + turn / 2 % 2;
                s.mode = 1;                            /* no manual change, no hole end */
                if ((turn + type) % 2)
                    untold_held(&s, place);
                told_held(s, place);
            }
        }
}

static void refusals(void)
{
    step_refusals();
    step_pairs();
    standing_refusals();

    /* cold start: 13 */
    for (unsigned lowest = 0; lowest < 10; lowest++)
        for (unsigned highest = 0; highest < 10; highest++)
            cold_vector(2, lowest, highest, 3, highest < 8 && lowest <= highest ? 0 : 13);
    static const uint8_t far[8][2] = {{0, 255}, {255, 0}, {255, 255}, {128, 128}, {7, 135}, {129, 1},
                                      {16, 17}, {1, 18}};
    for (unsigned i = 0; i < 8; i++)
        cold_vector(2, far[i][0], far[i][1], 3, 13);

    /* run: 12 before 11 */
    const uint8_t mode = EV_MODE, unknown = 0;
    State s = full_state();
    long_vector(2, &s, &mode, 1, LOG_MOST + 1, 0xFFFFFFFF, 12, 0);
    long_vector(2, &s, &unknown, 1, LOG_MOST + 1, 0, 12, 0);
    for (unsigned how = 0; how < 5; how++) {
        const State u = unsound(s, how);
        if (how < 2)
            long_vector(2, &u, &mode, 1, LOG_MOST + 1, how ? 7 : 0, 12, 0);
        if (how == 3)
            long_vector(2, &u, &mode, 1, LOG_MOST, 0xFFFFFFFF, 11, 0);
        run_vector(2, &u, &mode, 1, 1, 11, 0);
        run_vector(2, &u, &mode, 0, 1, 11, 0);          /* would be stop 0, 1, 3, 2 */
        run_vector(2, &u, &mode, 1, 0, 11, 0);
        run_vector(2, &u, &unknown, 1, 1, 11, 0);
        run_vector(2, &u, rec5(EV_DROP, A_1).b, 4, 1, 11, 0);
        run_vector(2, &u, rec5(EV_DROP, A_1).b, 5, 1, 11, 0);
    }

    /* image write: 10 before 11 */
    for (unsigned how = 0; how < 5; how++) {
        const State u = unsound(s, how);
        const uint8_t small[4] = {0, 1, 20, 36};
        write_vector(2, &s, small[how % 4], next_fill(), 10);
        write_vector(2, &u, 37, next_fill(), 11);
        write_vector(2, &u, 36, next_fill(), 10);
        write_vector(2, &u, small[how % 4], next_fill(), 10);
    }

    /* image read: 1 (empty), 2, 1 (length), 11 */
    uint8_t image[256] = {0};
    image_store_old(&s, image);
    for (unsigned bad = 0; bad < 3; bad++) {             /* sound, unsound twice */
        static const uint8_t lengths[8] = {0, 1, 2, 36, 37, 38, 74, 255};
        image[4] = bad == 1 ? 3 : 1;                     /* mission */
        image[1] = bad == 2 ? 3 : 1;                     /* lowest X */
        for (unsigned i = 0; i < 8; i++) {
            const uint8_t kinds[5] = {0xA1, 0xA0, 0xA2, 0x00, 0x01};
            for (unsigned k = 0; k < 5; k++) {
                image[0] = kinds[k];
                read_vector(2, image, lengths[i],
                            lengths[i] == 0 ? 1 : k == 2 ? 1 : k > 0 ? 2 : lengths[i] != 37 ? 1 : bad ? 11 : 0);
            }
        }
    }
}

/* ---- group 3: fields ---- */

static void fields(void)
{
    State s = with_x(1, 2), contacting, ending, inside;
    s.level = 1;
    hold(&s, 1, A, LOST, INCOMING, 2);
    hold(&s, 2, A_RIU, CONNECTING, OUTGOING, 3);
    contacting = ending = inside = s;
    hold(&contacting, 3, A_1, CONTACTING, OUTGOING, 2);
    hold(&ending, 3, A_1, ENDING, OUTGOING, 2);
    inside.inside = 1;

    /* the events without a partner, over all marks */
    for (unsigned m = 0; m < 12; m++) {
        State t = s;
        set_marks(&t, marks12[m]);
        t.level = (uint8_t)(m % 5);
        t.mission = (uint8_t)(m % 3);
        for (unsigned level = 0; level <= 4; level++)
            step_rec(3, &t, rec3(EV_LEVEL, level, (m + level) % 2), 0);
        for (unsigned mission = 0; mission <= 2; mission++)
            step_rec(3, &t, rec2(EV_MISSION, mission), 0);
        step_rec(3, &t, rec1(EV_MODE), 0);
        untold_rec(3, &t, rec2(EV_HOLE, 0), t.inside ? 0 : 7);
        untold_rec(3, &t, rec2(EV_HOLE, 1), t.inside ? 7 : 0);
        step_rec(3, &t, rec2(EV_END_ALL, 0), 0);
        step_rec(3, &t, rec2(EV_END_ALL, 1), 0);
    }
    static const uint8_t over4[3] = {5, 128, 255}, over1[3] = {2, 128, 255}, over2[3] = {3, 128, 255};
    for (unsigned i = 0; i < 3; i++) {
        step_rec(3, &s, rec3(EV_LEVEL, over4[i], 0), 3);
        step_rec(3, &s, rec3(EV_LEVEL, over4[i], 1), 3);
        step_rec(3, &s, rec3(EV_LEVEL, i, over1[i]), 3);
        step_rec(3, &s, rec2(EV_MISSION, over2[i]), 3);
        step_rec(3, &s, rec2(EV_HOLE, over1[i]), 3);
        step_rec(3, &inside, rec2(EV_HOLE, over1[i]), 3);
        step_rec(3, &s, rec2(EV_END_ALL, over1[i]), 3);
        /* order: type, accepting, cause */
        step_rec(3, &s, order_of((uint32_t)over1[i] << 24 | 0x10203, 1, 1), 3);
        step_rec(3, &s, order_of(NEW, over1[i], 1), 3);
        step_rec(3, &s, order_of(NEW, 1, over4[i]), 3);
        step_rec(3, &s, order_of(NEW_RIU, 0, over4[i]), 3);
        /* the other partner events: type */
        for (unsigned c = 0; c < 7; c++)
            step_rec(3, c == 6 ? &ending : &contacting, column(c, (uint32_t)over1[i] << 24 | 0x810203, 0x11), 3);
        step_rec(3, &s, message_of((uint32_t)over1[i] << 24 | 0x810203, 38, 0), 3);
    }
    for (unsigned accepting = 0; accepting < 2; accepting++)
        for (unsigned type = RBC; type <= RIU; type++)
            for (unsigned cause = 0; cause <= 4; cause++) {
                State t = s;                             /* every cause in force */
                t.mission = 1;
                t.level = 2;
                set_marks(&t, 7);
                step_rec(3, &t, order_of(type ? NEW_RIU : NEW, accepting, cause), 0);
            }
    /* message: number, version; in a phase that takes 32, one that takes 39, and from a new one */
    for (unsigned number = 0; number < 256; number++) {
        if (number > 1 && number < 30 && number != 22)
            continue;
        if (number > 41 && number != 64 && number != 127 && number != 128 && number != 154 &&
            number != 160 && number != 166 && number != 167 && number != 255)
            continue;
        told_rec(3, &contacting, message_of(A_1, number, 0),
                 number == 32 ? 0 : number == 38 ? 5 : number == 39 ? 7 : 3, 3, CONTACTING);
        told_rec(3, &ending, message_of(A_1, number, 0),
                 number == 32 ? 7 : number == 38 ? 5 : number == 39 ? 0 : 3, 3, ENDING);
        step_rec(3, &s, message_of(NEW, number, 0), number == 32 || number == 39 ? 6 : number == 38 ? 0 : 3);
    }
    static const uint8_t versions[10] = {0, 1, 2, 16, 32, 126, 127, 128, 129, 255};
    for (unsigned i = 0; i < 10; i++) {
        const unsigned v = versions[i];
        State t = contacting;
        step_rec(3, &t, message_of(A_1, 32, v), v > 127 ? 3 : 0);
        t.lowest = 0;
        t.highest = 7;
        step_rec(3, &t, message_of(A_1, 32, v), v > 127 ? 3 : 0);
        t.lowest = 7;
        step_rec(3, &t, message_of(A_1, 32, v), v > 127 ? 3 : 0);
        step_rec(3, &s, message_of(NEW, 38, v), v > 0 ? 3 : 0);
        step_rec(3, &ending, message_of(A_1, 39, v), v > 0 ? 3 : 0);
    }
    /* the number bytes take every value: 0, 128, 255 in each of the three */
    static const uint8_t any[3] = {0, 128, 255};
    for (unsigned i = 0; i < 3; i++)
        for (unsigned at = 0; at < 3; at++) {
            const uint32_t who = (0x00445566u & ~(255u << 8 * at)) | (uint32_t)any[i] << 8 * at;
            State t = s;
            step_rec(3, &t, order_of(who, 1, 1), 0);
            step_rec(3, &t, order_of(who | 0x01000000, 0, 1), 0);
            step_rec(3, &t, message_of(who, 38, 0), 0);
            hold(&t, 0, who, CONTACTING, OUTGOING, 1);
            step_rec(3, &t, column((i + at) % 4 == 1 ? 4 : (i + at) % 4, who, 0x20), 0);
        }

    /* the least and the largest number, both types, for each event where it is taken */
    for (unsigned c = 0; c < 7; c++)
        for (unsigned e = 0; e < 4; e++) {
            const uint32_t who = (e & 1 ? 0x01000000u : 0) | (e & 2 ? 0xFFFFFFu : 0);
            const uint8_t phase[7] = {CONNECTING, LOST, OPEN, ENDING, CONTACTING, CONTACTING, ENDING};
            State t = s;
            const bool last = who == 0x00FFFFFF;         /* means the last known RBC */
            hold(&t, 3, who, phase[c], OUTGOING, phase[c] == OPEN ? 0 : 2);
            step_rec(3, &t, column(c, who, c == 4 ? 0x20 : 0x7F), last ? 11 : 0);
            if (c == 0)
                step_rec(3, &s, order_of(who, 0, 1), last ? 15 : 0);
            if (c == 0 && e % 2 == 0)
                step_rec(3, &s, message_of(who, 38, 0), last ? 3 : 0);
        }

    /* every length 0 to 8 of every kind, and 16; what is there is in range and would be taken */
    for (unsigned kind = 1; kind <= KIND_LAST; kind++)
        for (unsigned length = 0; length <= 16; length++) {
            if (length > 8 && length != 16)
                continue;
            State t = kind == EV_MESSAGE ? ending : contacting;
            if (kind == EV_UP)
                hold(&t, 3, A_1, CONNECTING, OUTGOING, 1);
            Rec r = rec5(kind, kind == EV_ORDER ? NEW : A_1);
            if (kind == EV_LEVEL || kind == EV_MISSION || kind == EV_HOLE || kind == EV_END_ALL)
                r.b[1] = 1, r.b[2] = 0;
            r.b[5] = kind == EV_MESSAGE ? 39 : 0;
            r.b[6] = kind == EV_ORDER ? 1 : 0;
            step_vector(3, &t, r.b, length, untold(length == record_length[kind] ? 0 : 1));
        }
    /* unknown kinds: all, of one byte and as long as another kind */
    for (unsigned kind = 0; kind < 256; kind++) {
        if (kind >= 1 && kind <= KIND_LAST)
            continue;
        const uint8_t lengths[6] = {1, 2, 3, 5, 7, 16};
        const Rec r = rec7(kind, A_1, 39, 0);
        step_vector(3, &ending, r.b, lengths[kind % 6], untold(2));
        if (kind < 18 || kind > 253)
            step_vector(3, &contacting, r.b, lengths[(kind + 3) % 6], untold(2));
    }
}

/* ---- group 4: orders ---- */

/* Request Q-6: an order and a call 38 whose partner stands in each place and form, with a place
 * below it free, one above it free, none free, and all others free. */
static void orders_told(void)
{
    unsigned k = 0;
    for (unsigned place = 0; place < PLACES; place++)
        for (unsigned f = 0; f < 20; f++)
            for (unsigned around = 0; around < AROUNDS; around++, k++) {
                const unsigned phase = form[f].phase;
                State s = standing(A, place, f, around);
                s.level = 2 + k % 2;
                s.mission = 1;
                set_marks(&s, 7);
                told_rec(4, &s, order_of(A, k / 5 % 2, k % 5), 5, place, phase);
                told_rec(4, &s, message_of(A, 38, 0), 5, place, phase);
                if (form[f].direction != 0)
                    continue;
                hold_form(&s, place, 0x01000005, f);
                told_rec(4, &s, order_of(0x01000005, k / 4 % 2, k % 5), 5, place, phase);
            }
}

static void orders(void)
{
    /* every cause over level, mission and marks */
    unsigned k = 0;
    for (unsigned cause = 0; cause <= 4; cause++)
        for (unsigned level = 0; level <= 4; level++)
            for (unsigned mission = 0; mission <= 2; mission++)
                for (unsigned m = 0; m < 8; m++, k++) {
                    State s = with_x(1, 2);
                    s.level = (uint8_t)level;
                    s.mission = (uint8_t)mission;
                    set_marks(&s, m & 1 ? m : m | (k / 2 + k / 8) % 2 << 3);     /* inside or not, too */
                    if ((k + k / 8) % 2) {
                        hold_form(&s, k % 4, A, k / 2);
                        hold_form(&s, (k + 2) % 4, A_RIU, k / 3);
                    }
                    const bool l = level == 2 || level == 3;
                    const bool force = cause == 0 ? mission == 1 && l : cause == 1 ? true :
                                       cause == 2 ? mission != 0 && l && s.mode : cause == 3 ? l && s.manual :
                                       s.hole_end == 1;
                    step_rec(4, &s, order_of(k % 3 ? NEW : NEW_RIU, k / 5 % 2, cause), force ? 0 : 4);
                }

    /* incoming and other tries: an order that does not accept, over each form in each place */
    for (unsigned place = 0; place < PLACES; place++)
        for (unsigned f = 0; f < 20; f++) {
            State s = with_x(1, 2);
            hold_form(&s, place, A, f);
            hold_form(&s, (place + 1) % 4, A_RIU, f + 7);
            hold_form(&s, (place + 2) % 4, A_1, f + 13);
            set_head(&s, place * 20 + f);
            step_rec(4, &s, order_of(NEW, 0, 1), 0);
            if (f % 4 == place)
                step_rec(4, &s, order_of(NEW, 1, 1), 0);
        }

    /* all places taken, by all sorts: nothing is closed */
    for (unsigned f = 0; f < 20; f++) {
        State s = with_x(1, 2);
        hold_form(&s, 0, A, f);
        hold_form(&s, 1, A_1, f + 6);
        hold_form(&s, 2, A_2, f + 11);
        hold_form(&s, 3, f % 4 ? A_3 : A_RIU, f + 17);
        set_marks(&s, 7);
        s.level = 3;
        s.mission = 1;
        step_rec(4, &s, order_of(NEW, 0, f % 5), 8);
    }
    /* the partner has a place: nothing is closed */
    for (unsigned f = 0; f < 20; f++) {
        State s = with_x(1, 2);
        hold_form(&s, f % 4, A, f);
        hold_form(&s, (f + 1) % 4, A_1, 7 + f % 2);
        hold_form(&s, (f + 2) % 4, A_2, 3 + 7 * (f % 2));
        set_marks(&s, 7);
        s.level = 2;
        s.mission = 1;
        told_rec(4, &s, order_of(A, 0, f % 5), 5, f % 4, form[f].phase);
    }

    orders_told();

    /* every mix of phases and types in the four places, not accepting and accepting */
    static const uint8_t head[8] = {1, 2, 3, 1, 0, 1, 1, 1};
    uint8_t p0[7], p1[7];
    for (unsigned accepting = 0; accepting < 2; accepting++)
        for (unsigned a = 0; a <= 10; a++)
            for (unsigned b = 0; b <= 10; b++) {
                const Rec r = order_of(A, accepting, 1);
                choice(p0, 0, a);
                choice(p1, 1, b);
                mix_vector(4, head, p0, p1, r.b, r.n);
            }

    /* the partner of an order or a 38 stands, or does not, in place 0, 2 or 3 of such mixes */
    for (unsigned i = 0; i < 8; i++) {
        static const struct { uint8_t number, type, a, b; } who[8] = {
            {0x22, RBC, 0, 4}, {0x22, RBC, 3, 2}, {0x23, RBC, 4, 0}, {0x23, RBC, 10, 5},
            {0x22, RIU, 5, 1}, {0x23, RIU, 8, 3}, {0x20, RBC, 4, 0}, {0x20, RBC, 2, 9},
        };
        const uint32_t partner = (uint32_t)who[i].type << 24 | who[i].number;
        const Rec r = i % 2 && who[i].type == RBC ? message_of(partner, 38, 0) : order_of(partner, i / 2 % 2, 1);
        choice(p0, 0, who[i].a);
        choice(p1, 1, who[i].b);
        mix_vector(4, head, p0, p1, r.b, r.n);
    }

    /* some mixes for an order of an RIU, end all and mission 0; also incoming, other tries, and
     * numbers that use all three bytes */
    static const uint8_t special[6][7] = {
        {LOST, INCOMING, 2, RBC, 1, 2, 3}, {OPEN, INCOMING, 0, RBC, 0x81, 2, 3},
        {ENDING, INCOMING, 3, RBC, 1, 0x82, 3}, {CONTACTING, OUTGOING, 3, RIU, 1, 2, 3},
        {LOST, OUTGOING, 3, RIU, 1, 2, 0x83}, {OPEN, OUTGOING, 0, RBC, 0, 0, 0},
    };
    static const uint8_t mixes[20][2] = {       /* 0..10 a choice, 11..16 the special ones */
        {0, 0}, {0, 3}, {3, 3}, {3, 4}, {4, 3}, {8, 3}, {3, 8}, {9, 4}, {1, 2}, {6, 7},
        {5, 10}, {10, 5}, {11, 0}, {12, 11}, {13, 14}, {15, 12}, {16, 3}, {2, 9}, {7, 1}, {14, 16},
    };
    for (unsigned what = 0; what < 3; what++)
        for (unsigned i = 0; i < 20; i++) {
            const unsigned a = mixes[i][0], b = mixes[i][1];
            const uint8_t other[8] = {0, 7, (uint8_t)(i % 5), (uint8_t)(i % 3), 0, 1, 0, 1};
            const Rec r = what == 0 ? order_of(NEW_RIU, 0, 1) : what == 1 ? rec2(EV_END_ALL, i % 2) :
                          rec2(EV_MISSION, 0);
            if (a > 10) memcpy(p0, special[a - 11], 7); else choice(p0, 0, a);
            if (b > 10) memcpy(p1, special[b - 11], 7); else choice(p1, 1, b);
            mix_vector(4, other, p0, p1, r.b, r.n);
        }
}

/* ---- group 5: unsound states ---- */

static void unsound_vectors(const State *s, unsigned place)
{
    static unsigned k;
    if (sound(s))
        fail("this state is sound");
    /* each kind in turn, about the place in question */
    const uint32_t who = s->partner[place];
    const Rec turn[12] = {
        rec3(EV_LEVEL, 2, 1), rec2(EV_MISSION, 0), rec2(EV_HOLE, !s->inside), order_of(NEW, 0, 1),
        rec5(EV_DROP, who), rec2(EV_END_ALL, 1), rec5(EV_UP, who), rec5(EV_LOST, who),
        rec5(EV_TIMEOUT, who), message_of(who, 32, 0x11), message_of(NEW, 38, 0), rec1(EV_MODE),
    };
    const Rec r = turn[k % 12];
    uint8_t log[16];
    step_rec(5, s, r, 11);
    memcpy(log, r.b, r.n);
    log[r.n] = EV_MODE;
    run_vector(5, s, log, k % 13 == 12 ? 0 : r.n + 1, k % 5 == 4 ? 0 : 4096, 11, 0);
    write_vector(5, s, k % 4 == 3 ? 45 : 37, next_fill(), 11);
    k++;
}

static void unsounds(void)
{
    State base = with_x(1, 2), s;
    base.level = 2;
    base.mission = 1;
    set_marks(&base, 6);
    hold(&base, 0, A, LOST, INCOMING, 2);
    hold(&base, 1, A_RIU, OPEN, OUTGOING, 0);
    hold(&base, 3, A_1, CONNECTING, OUTGOING, 1);

    static const uint8_t xs[14][2] = {{3, 2}, {1, 0}, {7, 6}, {1, 8}, {8, 8}, {9, 8}, {0, 255}, {255, 0},
                                      {255, 255}, {8, 2}, {128, 129}, {2, 1}, {0, 8}, {7, 128}};
    for (unsigned i = 0; i < 14; i++) {
        s = base;
        s.lowest = xs[i][0];
        s.highest = xs[i][1];
        unsound_vectors(&s, 0);
    }
    static const uint8_t levels[4] = {5, 6, 128, 255}, missions[4] = {3, 4, 128, 255};
    for (unsigned i = 0; i < 4; i++) {
        s = base;
        s.level = levels[i];
        unsound_vectors(&s, 1);
    }
    for (unsigned i = 0; i < 4; i++) {
        s = base;
        s.mission = missions[i];
        unsound_vectors(&s, 3);
    }
    for (unsigned i = 0; i < 4; i++) {         /* inside a hole and hole end */
        s = i & 1 ? with_x(0, 7) : base;
        set_marks(&s, i < 2 ? 9 : 15);
        unsound_vectors(&s, 0);
    }
    for (unsigned place = 0; place < PLACES; place++) {
        /* type over 1 */
        static const uint8_t types[4] = {2, 128, 255, 3};
        for (unsigned i = 0; i < (place == 0 ? 4u : 3u); i++) {
            s = base;
            hold_form(&s, place, 0x00445566, 3 * i + place);
            s.partner[place] |= (uint32_t)types[i] << 24;
            unsound_vectors(&s, place);
        }
        for (unsigned phase = CONNECTING; phase <= ENDING; phase++) {
            /* tries 0 and over 3 */
            static const uint8_t tries[5] = {0, 4, 5, 128, 255};
            for (unsigned i = 0; i < 5 && phase != OPEN; i++) {
                s = base;
                if (i >= 2 && (i + phase) % 4 != place)
                    continue;
                hold(&s, place, (phase + i) % 2 ? 0x00445566 : 0x01445566, phase, OUTGOING, tries[i]);
                unsound_vectors(&s, place);
                if (i < 2 && phase > OPEN) {
                    hold(&s, place, 0x00445566, phase, INCOMING, tries[i]);
                    unsound_vectors(&s, place);
                }
            }
            /* an incoming RIU; Connecting and Contacting incoming */
            const unsigned t = phase == OPEN ? 0 : 1 + (phase + place) % 3;
            s = base;
            hold(&s, place, 0x01445566, phase, INCOMING, t);
            unsound_vectors(&s, place);
            if (phase <= CONTACTING) {
                hold(&s, place, 0x00445566, phase, INCOMING, t);
                unsound_vectors(&s, place);
            }
        }
    }
    /* one partner in two places: each pair, alike and not; also RBC 0 and an RIU */
    for (unsigned i = 0; i < PLACES; i++)
        for (unsigned j = i + 1; j < PLACES; j++)
            for (unsigned turn = 0; turn < 4; turn++) {
                const uint32_t who[4] = {0x00445566, 0x01445566, 0x00000000, 0x00FFFFFF};
                s = turn & 1 ? base : with_x(2, 3);
                hold_form(&s, i, who[turn], turn * 5 + i);
                hold_form(&s, j, who[turn], turn < 2 ? turn * 5 + i : 2 * turn + j);
                unsound_vectors(&s, j);
            }
    /* the same partner three and four times */
    s = with_x(1, 2);
    for (unsigned i = 0; i < PLACES; i++) {
        hold_form(&s, i, A, 2 + i);
        if (i > 1)
            unsound_vectors(&s, i);
    }
}

/* ---- group 6: images ---- */

static unsigned image_states(State *out)
{
    unsigned c = 0;
    State s = with_x(1, 2);                    /* mixed */
    s.level = 3;
    s.mission = 2;
    set_marks(&s, 6);
    hold(&s, 0, A, LOST, INCOMING, 2);
    hold(&s, 2, A_RIU, CONNECTING, OUTGOING, 3);
    hold(&s, 3, 0x00C7A0B9, ENDING, INCOMING, 1);
    out[c++] = s;

    s = with_x(0, 7);                          /* full, numbers at their ends */
    s.level = 4;
    s.mission = 1;
    set_marks(&s, 8);
    hold(&s, 0, 0x00FFFFFF, OPEN, INCOMING, 0);
    hold(&s, 1, 0x01FFFFFF, OPEN, OUTGOING, 0);
    hold(&s, 2, 0x00000000, CONTACTING, OUTGOING, 3);
    hold(&s, 3, 0x01000000, LOST, OUTGOING, 1);
    out[c++] = s;

    s = with_x(3, 5);
    s.level = 2;
    s.mission = 2;
    set_marks(&s, 1);
    hold(&s, 1, 0x01123456, ENDING, OUTGOING, 2);
    hold(&s, 2, 0x00123456, OPEN, OUTGOING, 0);
    hold(&s, 3, 0x00654321, CONTACTING, OUTGOING, 1);
    out[c++] = s;

    out[c++] = with_x(0, 0);                   /* cold */

    s = with_x(7, 7);
    s.level = 1;
    set_marks(&s, 7);
    hold(&s, 0, 0x00000000, ENDING, OUTGOING, 3);
    out[c++] = s;

    s = with_x(6, 7);
    set_marks(&s, 14);
    hold(&s, 3, 0x00000100, LOST, OUTGOING, 3);
    out[c++] = s;
    return c;
}

static void damage(const uint8_t *image, unsigned at, unsigned value)
{
    uint8_t b[OLD_IMAGE_BYTES];
    memcpy(b, image, sizeof b);
    b[at] = (uint8_t)value;
    read_vector(6, b, sizeof b, ANY);
}

static void images(void)
{
    State s[8];
    uint8_t b[256];
    const unsigned c = image_states(s);

    for (unsigned i = 0; i < c; i++) {
        const unsigned good = i == 1 ? 11 : 0;         /* an RBC in it that means the last known one */
        static const uint8_t lengths[6] = {36, 37, 38, 45, 0, 255};
        static const uint8_t fills[4] = {0x00, 0xFF, 0xA1, 0x5A};
        for (unsigned l = 0; l < 4; l++)
            for (unsigned f = 0; f < 4; f++)
                if (i == 0 || (f + l + i) % 2 == 0)
                    write_vector(6, &s[i], lengths[l], fills[f], lengths[l] < 37 ? 10 : good);
        write_vector(6, &s[i], lengths[4], fills[i % 4], 10);
        if (i == 0)
            write_vector(6, &s[i], lengths[5], fills[i % 4], 0);

        memset(b, 0, sizeof b);
        image_store_old(&s[i], b);
        static const uint8_t read_lengths[9] = {0, 1, 2, 9, 36, 37, 38, 45, 255};
        for (unsigned l = 0; l < 9; l++)
            read_vector(6, b, read_lengths[l], l == 5 ? good : 1);

        /* each byte damaged */
        if (i > 3)
            continue;
        static const uint8_t values[12] = {0, 1, 2, 3, 4, 5, 6, 7, 8, 128, 254, 255};
        for (unsigned at = 0; at < OLD_IMAGE_BYTES; at++) {
            const unsigned v = b[at];
            const bool number = at >= 9 && (at - 9) % 7 >= 4;        /* takes any value, if held */
            for (unsigned k = 0; k < 12; k++) {
                if (values[k] == v || ((number || i == 3) && values[k] > 1 && values[k] < 255) ||
                    (i > 0 && values[k] > 5 && values[k] < 255))
                    continue;
                damage(b, at, values[k]);
            }
            if (v != 255 && v + 1 > 8 && v + 1 != 128 && v + 1 != 254 && v + 1 != 255)
                damage(b, at, v + 1);
            if (v > 9 && v - 1 != 128 && v - 1 != 254)
                damage(b, at, v - 1);
        }
    }

    /* first byte wrong, of a sound image */
    image_store_old(&s[0], b);
    for (unsigned v = 0; v < 256; v += v < 0x9E || v > 0xA3 ? 17 : 1) {
        b[0] = (uint8_t)v;
        read_vector(6, b, OLD_IMAGE_BYTES, v == 0xA1 ? 0 : v == 0xA2 ? 1 : 2);
    }

    /* each form in each place alone: written and read */
    for (unsigned place = 0; place < PLACES; place++)
        for (unsigned f = 0; f < 20; f++)
            for (unsigned type = RBC; type <= RIU; type++) {
                State t = with_x(1, 2);
                if ((type == RIU && form[f].direction) || (f + type + place) % 2)
                    continue;
                hold_form(&t, place, type ? A_RIU : A, f);
                set_head(&t, f + place);
                image_store_old(&t, b);
                read_vector(6, b, OLD_IMAGE_BYTES, 0);
                if ((f + type) % 4 == place)
                    write_vector(6, &t, 37, next_fill(), 0);
            }
    /* every phase, direction, tries 0 to 4 and type 0 to 2 in one place; number 01 02 03 */
    for (unsigned phase = 0; phase <= 6; phase++)
        for (unsigned direction = 0; direction <= 1; direction++)
            for (unsigned tries = 0; tries <= 4; tries++)
                for (unsigned type = 0; type <= 1; type++) {
                    State t = with_x(1, 2);
                    image_store_old(&t, b);
                    uint8_t *const p = b + 9 + 7 * ((phase + direction + tries + type) % 4);
                    p[0] = (uint8_t)phase;
                    p[1] = (uint8_t)direction;
                    p[2] = (uint8_t)tries;
                    p[3] = (uint8_t)type;
                    p[4] = 1, p[5] = 2, p[6] = 3;
                    const bool ok = phase >= 1 && phase <= 5 && (phase == OPEN ? tries == 0 : tries >= 1 && tries <= 3) &&
                                    !(direction && (type || phase <= CONTACTING));
                    read_vector(6, b, OLD_IMAGE_BYTES, ok ? 0 : 11);
                }
    /* the same partner in two places; same number, another type; RBC 0 twice, and once beside
     * free places; the marks in all sixteen ways; the X numbers */
    for (unsigned i = 0; i < PLACES; i++)
        for (unsigned j = 0; j < PLACES; j++) {
            if (i == j)
                continue;
            for (unsigned turn = 0; turn < 3; turn++) {
                State t = with_x(1, 2);
                hold_form(&t, i, turn == 2 ? 0 : A, 2 + 3 * turn + i);
                hold_form(&t, j, turn == 1 ? A_RIU : turn == 2 ? 0 : A, 4 + 2 * turn + j);
                image_store_old(&t, b);
                read_vector(6, b, OLD_IMAGE_BYTES, turn == 1 ? 0 : 11);
                if (turn == 2) {
                    vacate(&t, j);
                    write_vector(6, &t, 37, next_fill(), 0);
                }
            }
        }
    for (unsigned m = 0; m < 16; m++) {
        State t = with_x(1, 2);
        set_marks(&t, m);
        image_store_old(&t, b);
        read_vector(6, b, OLD_IMAGE_BYTES, (m & 9) == 9 ? 11 : 0);
        write_vector(6, &t, 37, next_fill(), (m & 9) == 9 ? 11 : 0);
    }
    for (unsigned lowest = 0; lowest < 9; lowest++)
        for (unsigned highest = 0; highest < 9; highest++) {
            const State t = with_x(lowest, highest);
            image_store_old(&t, b);
            if (lowest < 2 || highest > 6 || (lowest > highest ? lowest - highest : highest - lowest) < 2)
                read_vector(6, b, OLD_IMAGE_BYTES, highest < 8 && lowest <= highest ? 0 : 11);
        }
}

/* ---- group 7: buffers ---- */

static void buffers(void)
{
    typedef struct { State s; Rec r; unsigned code, count, place, phase; } Buffered;
    Buffered x[48];
    unsigned c = 0;
    State none = with_x(1, 2), some = full_state(), open = full_state(), full = full_state(), bad;
    vacate(&some, 1);                          /* RBC Open, free, RBC Lost, RBC Contacting */
    set_marks(&some, 6);
    for (unsigned i = 0; i < PLACES; i++) {
        hold(&open, i, i == 3 ? 0 : A + i, OPEN, i & 1, 0);
        hold(&full, i, A_RIU + i, i % 2 ? LOST : OPEN, OUTGOING, i % 2);
    }
    bad = full;
    bad.level = 5;

    x[c++] = (Buffered){some, rec3(EV_LEVEL, 3, 1), 0, 0, 4, 0};
    x[c++] = (Buffered){some, rec1(EV_MODE), 0, 0, 4, 0};
    x[c++] = (Buffered){some, rec5(EV_UP, A_1), 0, 0, 4, 0};
    x[c++] = (Buffered){none, rec2(EV_END_ALL, 0), 0, 0, 4, 0};
    x[c++] = (Buffered){none, order_of(A_RIU, 0, 1), 0, 1, 4, 0};
    x[c++] = (Buffered){some, message_of(A_2, 38, 0), 0, 1, 4, 0};
    x[c++] = (Buffered){some, rec5(EV_LOST, A), 0, 1, 4, 0};
    x[c++] = (Buffered){some, rec5(EV_TIMEOUT, A_3), 0, 1, 4, 0};
    x[c++] = (Buffered){some, message_of(A_3, 32, 0x30), 0, 2, 4, 0};
    vacate(&some, 2);
    x[c++] = (Buffered){some, order_of(NEW, 0, 1), 0, 2, 4, 0};
    x[c++] = (Buffered){some, rec2(EV_END_ALL, 1), 0, 2, 4, 0};
    hold(&some, 2, A_1, LOST, OUTGOING, 2);
    x[c++] = (Buffered){some, order_of(NEW, 0, 1), 0, 3, 4, 0};
    x[c++] = (Buffered){some, rec2(EV_MISSION, 0), 0, 3, 4, 0};
    x[c++] = (Buffered){open, rec2(EV_END_ALL, 0), 0, 4, 4, 0};
    x[c++] = (Buffered){full, rec2(EV_MISSION, 0), 0, 4, 4, 0};
    vacate(&open, 2);
    x[c++] = (Buffered){open, order_of(NEW, 0, 1), 0, 4, 4, 0};
    const unsigned accepted = c;
    x[c++] = (Buffered){some, rec0(), 1, 0, 4, 0};
    x[c++] = (Buffered){some, rec1(12), 2, 0, 4, 0};
    x[c++] = (Buffered){some, rec2(EV_MODE, 0), 1, 0, 4, 0};
    x[c++] = (Buffered){some, order_of(NEW, 0, 5), 3, 0, 4, 0};
    x[c++] = (Buffered){some, order_of(NEW, 0, 4), 4, 0, 4, 0};
    x[c++] = (Buffered){some, order_of(A, 0, 1), 5, 0, 0, OPEN};
    x[c++] = (Buffered){some, rec5(EV_DROP, NEW), 6, 0, 4, 0};
    x[c++] = (Buffered){some, rec5(EV_TIMEOUT, A), 7, 0, 0, OPEN};
    x[c++] = (Buffered){full, order_of(NEW, 0, 1), 8, 0, 4, 0};
    x[c++] = (Buffered){some, message_of(NEW_RIU, 38, 0), 9, 0, 4, 0};
    x[c++] = (Buffered){bad, rec2(EV_END_ALL, 0), 11, 0, 4, 0};

    for (unsigned i = 0; i < c; i++) {
        static const uint8_t lengths[8] = {0, 19, 20, 21, 40, 5, 15, 255};
        static const uint8_t fills[3] = {0x00, 0xFF, 0xA5};
        for (unsigned l = 0; l < 8; l++)
            for (unsigned f = 0; f < 3; f++) {
                if (l > 4 && (f > 0 || i >= accepted))
                    continue;
                if (i < accepted && (lengths[l] == 0 || lengths[l] == 21) && f == i % 3)
                    continue;
                if (i >= accepted && lengths[l] != 20 && f != (i + l) % 3)
                    continue;
                const Hand want = lengths[l] < 20 ? untold(10) : (Hand){x[i].code, x[i].place, x[i].phase};
                if (step_in(7, &x[i].s, x[i].r.b, x[i].r.n, lengths[l], fills[f], want) !=
                    (want.code ? 0 : x[i].count))
                    fail("another count of actions");
            }
    }
}

/* ---- group 8: runs ---- */

typedef struct { uint8_t b[6000]; size_t n; unsigned records; } Log;

static void put(Log *l, Rec r)
{
    if (l->n + r.n > sizeof l->b)
        fail("log too long");
    memcpy(l->b + l->n, r.b, r.n);
    l->n += r.n;
    l->records++;
}

static void session(Log *l, uint32_t who)      /* P1 */
{
    put(l, order_of(who, 1, 1));
    put(l, rec5(EV_UP, who));
    put(l, message_of(who, 32, 0x11));
    put(l, rec5(EV_DROP, who));
    put(l, message_of(who, 39, 0));
}

/* A session with every action and every refusal 3 to 9 in it. */
static void rich(Log *l)
{
    put(l, rec2(EV_MISSION, 1));
    put(l, rec3(EV_LEVEL, 2, 1));
    put(l, order_of(A, 0, 0));                 /* 21 */
    put(l, rec5(EV_TIMEOUT, A));               /* 21 */
    put(l, rec5(EV_UP, A));                    /* 155 */
    put(l, rec5(EV_TIMEOUT, A));               /* 155 */
    put(l, rec5(EV_TIMEOUT, A));               /* 155 */
    put(l, message_of(A, 32, 0x2F));           /* 159 */
    put(l, message_of(A_1, 38, 0));            /* 159 */
    put(l, order_of(A, 0, 3));                 /* 5: the mark stays */
    put(l, rec3(EV_LEVEL, 5, 0));              /* 3 */
    put(l, order_of(A_RIU, 0, 4));             /* 4 */
    put(l, message_of(A_RIU, 38, 0));          /* 9 */
    put(l, order_of(A_RIU, 0, 3));             /* 21, the manual mark used */
    put(l, rec5(EV_UP, A_RIU));                /* 155 */
    put(l, message_of(A_RIU, 32, 0x0F));       /* 154 156 */
    put(l, rec5(EV_LOST, A_1));                /* 21 */
    put(l, order_of(NEW, 0, 1));               /* 156 22 21 */
    put(l, order_of(A_2, 1, 1));               /* 21, the place of A_1 */
    put(l, order_of(A_3, 1, 1));               /* 8 */
    put(l, rec5(EV_DROP, A_1));                /* 6 */
    put(l, rec2(EV_HOLE, 0));                  /* 7 */
    put(l, rec5(EV_DROP, A_RIU));              /* 7 */
    put(l, rec5(EV_TIMEOUT, A));               /* 156 */
    put(l, rec1(EV_MODE));
    put(l, rec2(EV_END_ALL, 0));               /* 22 22 */
    put(l, message_of(A_RIU, 39, 0));          /* 22 */
    put(l, rec5(EV_LOST, A));                  /* 22 */
}

static void runs(void)
{
    static Log l, tail;
    const State cold = with_x(1, 2);
    State s;

    /* nothing */
    run_vector(8, &cold, l.b, 0, 0, 0, 0);
    run_vector(8, &cold, l.b, 0, 1, 0, 0);
    run_vector(8, &cold, l.b, 0, 0xFFFFFFFF, 0, 0);
    s = full_state();
    run_vector(8, &s, l.b, 0, 0, 0, 0);
    run_vector(8, &s, l.b, 0, 4096, 0, 0);

    /* budgets of the session and of the rich log; whole, then with tails of every sort */
    for (unsigned which = 0; which < 2; which++) {
        l.n = l.records = 0;
        if (which == 0)
            session(&l, 0x00000005);
        else
            rich(&l);
        const unsigned m = l.records;
        for (unsigned budget = 0; budget <= m + 2; budget++)
            if (which == 0 || budget < 2 || budget + 2 > m || budget % 5 == 0)
                run_vector(8, &cold, l.b, l.n, budget, 0, budget < m ? 1 : 0);
        const uint32_t large[6] = {255, 256, 65535, 65536, 0x80000000, 0xFFFFFFFF};
        for (unsigned i = 0; i < 6; i++)
            if (which == 0 || i > 4)
                run_vector(8, &cold, l.b, l.n, large[i], 0, 0);
        for (size_t cut = 0; cut < l.n; cut += which == 0 ? 1 : 23)      /* cut at each byte */
            run_vector(8, &cold, l.b, cut, 4096, 0, ANY);
        static const uint8_t unknown[7] = {0, 12, 13, 32, 128, 161, 255};
        for (unsigned i = 0; i < (which == 0 ? 7u : 2u); i++) {
            tail = l;
            tail.b[tail.n++] = unknown[i];
            run_vector(8, &cold, tail.b, tail.n, m - 1, 0, 1);
            run_vector(8, &cold, tail.b, tail.n, m, 0, 1);               /* used up comes first */
            run_vector(8, &cold, tail.b, tail.n, m + 1, 0, 3);
            tail.b[tail.n++] = EV_MODE;                                  /* not read */
            run_vector(8, &cold, tail.b, tail.n, m + 1, 0, 3);
            run_vector(8, &cold, tail.b + l.n, tail.n - l.n, 0, 0, 1);
            run_vector(8, &cold, tail.b + l.n, tail.n - l.n, 1, 0, 3);
            memset(tail.b + l.n, unknown[i], 9);
            run_vector(8, &cold, tail.b, l.n + 9, 4096, 0, 3);
        }
        for (unsigned kind = 1; kind <= KIND_LAST; kind++)
            for (unsigned cut = 1; cut < record_length[kind]; cut++) {
                if (which == 1 && (cut > 1 || (kind != EV_LEVEL && kind != EV_MESSAGE)))
                    continue;
                tail = l;
                put(&tail, rec7(kind, 0x00000005, 39, 0));
                const size_t length = l.n + record_length[kind] - cut;
                run_vector(8, &cold, tail.b, length, 4096, 0, 2);
                if (cut == 1) {
                    run_vector(8, &cold, tail.b, length, m, 0, 1);       /* used up comes first */
                    run_vector(8, &cold, tail.b, length, m + 1, 0, 2);
                    run_vector(8, &cold, tail.b, length + 1, m + 1, 0, 0);
                    run_vector(8, &cold, tail.b, length + 1, m, 0, 1);
                    run_vector(8, &cold, tail.b + l.n, length - l.n, 1, 0, 2);
                    run_vector(8, &cold, tail.b + l.n, length - l.n, 0, 0, 1);
                }
                
            }
    }

    /* one record of each kind alone, and one with a field out of range */
    s = full_state();
    vacate(&s, 1);
    hold(&s, 2, A_1, ENDING, INCOMING, 1);
    for (unsigned kind = 1; kind <= KIND_LAST; kind++) {
        const Rec r = rec7(kind, kind == EV_ORDER ? NEW : A_1, kind == EV_MESSAGE ? 39 : 0, kind == EV_ORDER);
        Rec bad = r;
        bad.b[1] = 255;
        run_vector(8, &s, r.b, record_length[kind], 1, 0, 0);
        run_vector(8, &s, bad.b, record_length[kind], 1, 0, 0);
        run_vector(8, &s, bad.b, record_length[kind], 0, 0, 1);
    }
    /* refused records only; each refusal 3 to 9 alone and repeated */
    static Case cases[80];
    const size_t c = single_refusals(cases);
    for (size_t i = 0; i < c; i++)
        if (cases[i].code >= 3) {
            l.n = l.records = 0;
            put(&l, cases[i].r);
            run_vector(8, &cases[i].s, l.b, l.n, 9, 0, 0);
            put(&l, cases[i].r);
            put(&l, rec1(EV_MODE));
            run_vector(8, &cases[i].s, l.b, l.n, i % 2 ? 2 : 3, 0, i % 2 ? 1 : 0);
        }

    /* random logs, from cold and from where the one before ended */
    Rng g = {0x8A5CADE5EED0001u};
    Plain plain;
    plain.s = cold;
    for (unsigned i = 0; i < 35; i++) {
        if (i % 8 == 0)
            plain.s = with_x(i % 3, 1 + i % 7);
        s = plain.s;
        unsigned start = 0;                    /* 11 if RBC FFFFFF had a place */
        for (unsigned p = 0; p < PLACES; p++)
            if (s.phase[p] != FREE && s.partner[p] == 0x00FFFFFE)
                s.partner[p] = 0x00FFFFFF, start = 11;
        l.n = l.records = 0;
        const unsigned m = i == 7 || i == 23 ? 500 : 30 + rng_below(&g, 50);
        for (unsigned k = 0; k < m; k++) {
            Rec r;
            r.n = gen_plain(&g, &plain, true, r.b);
            put(&l, r);
            plain_step(&plain, r.b, r.n);
        }
        const unsigned turn = i % 5;
        if (turn == 0)
            run_vector(8, &s, l.b, l.n, m, start, 0);
        else if (turn == 1)
            run_vector(8, &s, l.b, l.n, m - 1 - rng_below(&g, m - 1), start, start ? 0 : 1);
        else if (turn == 2)
            run_vector(8, &s, l.b, l.n - 1, 0xFFFFFFFF, start, ANY);
        else if (turn == 3) {
            l.b[l.n++] = (uint8_t)(rng_below(&g, 2) ? 0 : 12 + rng_below(&g, 244));
            run_vector(8, &s, l.b, l.n, m + 1, start, start ? 0 : 3);
        } else
            run_vector(8, &s, l.b, l.n, 4096, start, 0);
    }

    /* long logs */
    const uint8_t mode = EV_MODE;
    static Log p1, richer, refused, churn, many155, many156, many159;
    session(&p1, 0x00000005);
    rich(&richer);
    put(&refused, rec5(EV_TIMEOUT, A));        /* 6 */
    put(&refused, rec2(EV_HOLE, 0));           /* 7 */
    put(&churn, order_of(A, 1, 1));            /* 21, 22: more than 65,535 of both */
    put(&churn, rec5(EV_DROP, A));
    put(&many155, order_of(A, 1, 1));          /* more than 65,535 of 155, of 156, of 159 */
    put(&many155, rec5(EV_UP, A));
    put(&many156, message_of(A, 38, 0));
    put(&many156, rec5(EV_DROP, A));
    for (unsigned i = 0; i < 3; i++) {
        put(&many155, rec5(EV_TIMEOUT, A));
        put(&many156, rec5(EV_TIMEOUT, A));
    }
    for (unsigned i = 0; i < PLACES; i++)
        put(&many159, message_of(A + i, 38, 0));
    put(&many159, rec2(EV_END_ALL, 0));
    for (unsigned i = 0; i < PLACES; i++)
        put(&many159, rec5(EV_LOST, A + i));
    long_vector(8, &cold, &mode, 1, LOG_MOST, 0xFFFFFFFF, 0, 0);
    long_vector(8, &cold, &mode, 1, LOG_MOST, LOG_MOST, 0, 0);
    long_vector(8, &cold, &mode, 1, LOG_MOST, LOG_MOST - 1, 0, 1);
    long_vector(8, &cold, &mode, 1, LOG_MOST, LOG_MOST + 1, 0, 0);
    long_vector(8, &cold, &mode, 1, LOG_MOST - 1, 0xFFFFFFFF, 0, 0);
    long_vector(8, &cold, &mode, 1, LOG_MOST + 1, 0xFFFFFFFF, 12, 0);
    long_vector(8, &cold, &mode, 1, LOG_MOST + 1, 0, 12, 0);
    long_vector(8, &cold, &mode, 1, LOG_MOST, 0, 0, 1);
    long_vector(8, &cold, &mode, 1, 0, 0, 0, 0);
    long_vector(8, &cold, &mode, 1, 65535, 65536, 0, 0);
    long_vector(8, &cold, &mode, 1, 65536, 65536, 0, 0);
    long_vector(8, &cold, &mode, 1, 65537, 65536, 0, 1);
    long_vector(8, &cold, p1.b, p1.n, LOG_MOST, 0xFFFFFFFF, 0, ANY);
    long_vector(8, &cold, p1.b, p1.n, LOG_MOST / 31 * 31, 0xFFFFFFFF, 0, 0);
    long_vector(8, &cold, p1.b, p1.n, LOG_MOST, 100000, 0, 1);
    long_vector(8, &cold, p1.b, p1.n, LOG_MOST + 1, 100000, 12, 0);
    s = full_state();
    long_vector(8, &s, p1.b, p1.n, 70000, 0xFFFFFFFF, 0, ANY);
    long_vector(8, &cold, richer.b, richer.n, LOG_MOST, 0xFFFFFFFF, 0, ANY);
    long_vector(8, &cold, richer.b, richer.n - 3, 100000, 0xFFFFFFFF, 0, ANY);
    long_vector(8, &cold, refused.b, refused.n, LOG_MOST, 0xFFFFFFFF, 0, ANY);
    long_vector(8, &cold, churn.b, churn.n, LOG_MOST, 0xFFFFFFFF, 0, ANY);
    long_vector(8, &cold, many155.b, many155.n, LOG_MOST, 0xFFFFFFFF, 0, ANY);
    long_vector(8, &cold, many156.b, many156.n, LOG_MOST, 0xFFFFFFFF, 0, ANY);
    long_vector(8, &cold, many159.b, many159.n, LOG_MOST, 0xFFFFFFFF, 0, ANY);
    richer.b[richer.n] = 12;                   /* unknown kind after the first session */
    long_vector(8, &cold, richer.b, richer.n + 1, LOG_MOST, 0xFFFFFFFF, 0, 3);
}

/* ---- group 9: histories ---- */

static void histories(void)
{
    Rng g = {0x5EED0F0115704153u};
    for (unsigned h = 0; h < 3000; h++)
        history_vector(9, &g, 20 + rng_below(&g, 11));
}

/* ---- answers written down as a whole ---- */

typedef struct { unsigned number; uint32_t who; } Act;

/* The state after the step, and its actions, by hand. */
static void whole_step(int group, const State *s, Rec r, Hand want, const State *after,
                       unsigned acts, const Act *act)
{
    State got = *s;
    uint8_t actions[ACTION_BUFFER];
    const StepResult x = step(&got, r.b, r.n, actions, sizeof actions);
    if (x.count != acts || !same(&got, after))
        fail("another count of actions or another state by hand");
    for (unsigned i = 0; i < acts; i++) {
        const uint8_t *const b = actions + 5 * i;
        if (b[0] != act[i].number || b[1] != act[i].who >> 24 || b[2] != (act[i].who >> 16 & 255) ||
            b[3] != (act[i].who >> 8 & 255) || b[4] != (act[i].who & 255))
            fail("another action by hand");
    }
    step_vector(group, s, r.b, r.n, want);
}

static void refused_step(int group, const State *s, Rec r, unsigned want, unsigned place, unsigned phase)
{
    whole_step(group, s, r, (Hand){want, place, phase}, s, 0, NULL);
}

static State with_n(unsigned lowest, unsigned highest, unsigned tries)
{
    State s = with_x(lowest, highest);
    s.n = (uint8_t)tries;
    return s;
}

/* An unsound state to everything that takes one; 'turn' chooses the rest. */
static void refused_everywhere(int group, const State *s, Rec r, unsigned turn)
{
    uint8_t log[16];
    if (sound(s))
        fail("this state is sound");
    refused_step(group, s, r, 11, 4, 0);
    memcpy(log, r.b, r.n);
    log[r.n] = EV_MODE;
    switch (turn % 4) {
    case 0: run_vector(group, s, log, turn % 8 ? r.n + 1 : 0, turn % 3 ? 4096 : 0, 11, 0); break;
    case 1: store_vector(group, s, turn % 8 == 1 ? 42 : 50, next_fill(), 11); break;
    case 2: store_old_vector(group, s, turn % 8 == 2 ? 37 : 50, next_fill(), 11); break;
    default: step_in(group, s, r.b, r.n, 19, next_fill(), untold(10)); break;
    }
}

/* ---- group 10: tries ---- */

static const uint8_t repeat_of[ENDING + 1] = {0, 21, 155, 0, 21, 156};

/* Timeouts in each phase with tries 0, 1, n - 1, n, n + 1, for n that are sound and not. */
static void tries_timeouts(void)
{
    static const uint8_t ns[14] = {1, 2, 3, 4, 5, 6, 7, 8, 9, 0, 10, 11, 128, 255};
    unsigned k = 0;
    for (unsigned i = 0; i < 14; i++)
        for (unsigned phase = CONNECTING; phase <= ENDING; phase++)
            for (unsigned what = 0; what < 5; what++)
                for (unsigned side = 0; side < 3; side++) {       /* outgoing RBC, RIU, incoming RBC */
                    const unsigned m = ns[i];
                    const unsigned t = (uint8_t)(unsigned[]){0, 1, m - 1, m, m + 1}[what];
                    if ((side == 2 && phase < OPEN) || (phase == OPEN && what > 0))
                        continue;
                    const uint32_t who = side == 1 ? A_RIU : A;
                    const unsigned place = k % 4;
                    State s = with_n(1, 2, m), after;
                    if (k / 4 % 2) {                              /* others, at their first and last try */
                        hold(&s, (place + 1) % 4, A_1, CONNECTING, OUTGOING, m >= 1 && m <= 9 ? m : 1);
                        hold(&s, (place + 3) % 4, who ^ 0x01000000, ENDING, OUTGOING, 1);
                    }
                    if (k / 3 % 2)
                        s.last = KNOWN | (k % 5 ? A_2 : A);
                    hold(&s, place, who, phase, side == 2 ? INCOMING : OUTGOING, t);
                    set_head(&s, k++);
                    after = s;
                    if (m < 1 || m > 9 || (phase != OPEN && (t < 1 || t > m))) {
                        refused_everywhere(10, &s, rec5(EV_TIMEOUT, who), k);
                        continue;
                    }
                    if (phase == OPEN) {
                        refused_step(10, &s, rec5(EV_TIMEOUT, who), 7, place, OPEN);
                        continue;
                    }
                    if (t < m)
                        after.tries[place]++;
                    else
                        vacate(&after, place);
                    whole_step(10, &s, rec5(EV_TIMEOUT, who), untold(0), &after, 1,
                               &(Act){t < m ? repeat_of[phase] : 22, who});
                }
}

/* Every number of tries from 1 to n in turn, and the events that begin with the first try. */
static void tries_steps(void)
{
    for (unsigned m = 1; m <= 9; m++) {
        for (unsigned phase = CONNECTING; phase <= ENDING; phase++)
            for (unsigned t = 1; t <= m && phase != OPEN; t++) {
                const unsigned place = (m + t) % 4;
                State s = with_n(0, 3, m), after;
                hold(&s, place, A_2, phase, OUTGOING, t);
                after = s;
                if (t == m)
                    vacate(&after, place);
                else
                    after.tries[place] = (uint8_t)(t + 1);
                whole_step(10, &s, rec5(EV_TIMEOUT, A_2), untold(0), &after, 1,
                           &(Act){t == m ? 22 : repeat_of[phase], A_2});
            }

        State s = with_n(1, 2, m), after;
        hold(&s, 2, A, CONNECTING, OUTGOING, m);
        after = s;
        hold(&after, 2, A, CONTACTING, OUTGOING, 1);
        whole_step(10, &s, rec5(EV_UP, A), untold(0), &after, 1, &(Act){155, A});

        hold(&s, 2, A, CONTACTING, OUTGOING, m);
        hold(&after, 2, A, ENDING, OUTGOING, 1);
        whole_step(10, &s, message_of(A, 32, 0x30), untold(0), &after, 2, (Act[]){{154, A}, {156, A}});
        hold(&after, 2, A, OPEN, OUTGOING, 0);
        after.last = KNOWN | A;
        whole_step(10, &s, message_of(A, 32, 0x2F), untold(0), &after, 1, &(Act){159, A});
        after.last = 0;

        hold(&s, 2, A, OPEN, INCOMING, 0);
        hold(&after, 2, A, LOST, INCOMING, 1);
        whole_step(10, &s, rec5(EV_LOST, A), untold(0), &after, 1, &(Act){21, A});
        hold(&after, 2, A, ENDING, INCOMING, 1);
        whole_step(10, &s, rec5(EV_DROP, A), untold(0), &after, 1, &(Act){156, A});
        whole_step(10, &s, rec2(EV_END_ALL, m % 2), untold(0), &after, 1, &(Act){156, A});

        hold(&s, 2, A, LOST, INCOMING, m);
        hold(&after, 2, A, OPEN, INCOMING, 0);
        whole_step(10, &s, rec5(EV_UP, A), untold(0), &after, 0, NULL);

        s = after = with_n(1, 2, m);
        hold(&after, 0, A, CONNECTING, OUTGOING, 1);
        whole_step(10, &s, order_of(A, m % 2, 1), untold(0), &after, 1, &(Act){21, A});
        hold(&after, 0, A, OPEN, INCOMING, 0);
        after.last = KNOWN | A;
        whole_step(10, &s, message_of(A, 38, 0), untold(0), &after, 1, &(Act){159, A});
    }
}

/* Four places with tries around n at the same time: sound or not for each of them. */
static void tries_together(void)
{
    for (unsigned m = 1; m <= 9; m++)
        for (unsigned place = 0; place < PLACES; place++)
            for (unsigned over = 0; over < 3; over++) {
                State s = with_n(1, 2, m);
                for (unsigned i = 0; i < PLACES; i++)
                    hold(&s, i, A + i, (uint8_t[]){CONNECTING, LOST, ENDING, CONTACTING}[(i + m) % 4], OUTGOING,
                         i == place ? (over == 0 ? m : over == 1 ? m + 1 : m % 2 ? 0 : 255) : m);
                if (over > 0) {
                    refused_everywhere(10, &s, rec5(EV_TIMEOUT, A + (place + over) % 4), m + place);
                    continue;
                }
                State after = s;
                vacate(&after, place);
                whole_step(10, &s, rec5(EV_TIMEOUT, A + place), untold(0), &after, 1, &(Act){22, A + place});
                if (place == 0)
                    store_vector(10, &s, 42, next_fill(), 0);
            }
}

static void cold_starts(void)
{
    static const uint8_t xs[8][2] = {{1, 2}, {0, 7}, {7, 7}, {0, 0}, {2, 1}, {0, 8}, {8, 8}, {255, 0}};
    for (unsigned tries = 0; tries < 256; tries++)
        for (unsigned i = 0; i < 8; i++) {
            if (i > 0 && tries > 12 && tries != 127 && tries != 128 && tries != 255 && tries % 8 != i)
                continue;
            cold_vector(10, xs[i][0], xs[i][1], tries, i < 4 && tries >= 1 && tries <= 9 ? 0 : 13);
        }
    for (unsigned lowest = 0; lowest < 10; lowest++)
        for (unsigned highest = 0; highest < 10; highest++) {
            const unsigned want = highest < 8 && lowest <= highest ? 0 : 13;
            cold_default_vector(10, lowest, highest, want);
            if (want == 0 || (lowest + highest) % 3 == 0)
                cold_vector(10, lowest, highest, (lowest * 3 + highest) % 9 + 1, want);
        }
    static const uint8_t far[10][2] = {{0, 255}, {255, 0}, {255, 255}, {128, 128}, {7, 135}, {129, 1},
                                       {16, 17}, {1, 18}, {0, 128}, {5, 16}};
    for (unsigned i = 0; i < 10; i++)
        cold_default_vector(10, far[i][0], far[i][1], 13);
}

/* A history by hand: its records, and the count of all its actions. */
typedef struct { Rec r[200]; unsigned n; } Row;

static void row(Row *w, Rec r)
{
    if (w->n == sizeof w->r / sizeof w->r[0])
        fail("history too long");
    w->r[w->n++] = r;
}

static void row_many(Row *w, Rec r, unsigned times)
{
    while (times-- > 0)
        row(w, r);
}

static void row_vector(int group, unsigned tries, const Row *w, unsigned actions)
{
    State s;
    unsigned sum = 0;
    static Log l;
    l.n = l.records = 0;
    history_begin(group, 1, 2, tries, w->n, &s);
    for (unsigned i = 0; i < w->n; i++) {
        sum += history_step(&s, w->r[i].b, w->r[i].n, ANY);
        put(&l, w->r[i]);
    }
    if (sum != actions)
        fail("another number of actions by hand");
    state(&s);
    end();
    s = with_n(1, 2, tries);
    run_vector(group, &s, l.b, l.n, tries % 2 ? l.records : 0xFFFFFFFF, 0, 0);
}

/* The histories that reach the bounds of request Q-3: 3n + 2 for an order, n + 2 for a call, n for
 * a loss, n timeouts. */
static void tries_bounds(void)
{
    for (unsigned m = 1; m <= 9; m++) {
        static Row w;
        for (unsigned how = 0; how < 4; how++) {       /* the last of an Ending: 39, timeout, lost */
            const uint32_t who = how == 3 ? A_RIU : A;
            const Rec timeout = rec5(EV_TIMEOUT, who);
            const Rec last[4] = {message_of(who, 39, 0), timeout, rec5(EV_LOST, who), message_of(who, 39, 0)};
            w.n = 0;                                   /* order, then 159 or 154 */
            row(&w, order_of(who, how % 2, 1));
            row_many(&w, timeout, m - 1);
            row(&w, rec5(EV_UP, who));
            row_many(&w, timeout, m - 1);
            row(&w, message_of(who, 32, how < 2 ? 0x11 : 0x30));
            if (how < 2)
                row(&w, rec5(EV_DROP, who));
            row_many(&w, timeout, m - 1);
            row(&w, last[how]);
            row_vector(10, m, &w, 3 * m + 2);
            if (how == 3)
                continue;
            w.n = 0;                                   /* call */
            row(&w, message_of(who, 38, 0));
            row(&w, rec5(EV_DROP, who));
            row_many(&w, timeout, m - 1);
            row(&w, last[how]);
            row_vector(10, m, &w, m + 2);
        }
        const Rec timeout = rec5(EV_TIMEOUT, A_1);
        w.n = 0;                                       /* losses, three of them come back */
        row(&w, message_of(A_1, 38, 0));
        for (unsigned i = 0; i < 3; i++) {
            row(&w, rec5(EV_LOST, A_1));
            row_many(&w, timeout, m - 1);
            row(&w, rec5(EV_UP, A_1));
        }
        row(&w, rec5(EV_LOST, A_1));
        row_many(&w, timeout, m);
        row(&w, timeout);                              /* 6 */
        row_vector(10, m, &w, 1 + 3 * m + m + 1);
        w.n = 0;                                       /* n timeouts, and no more */
        row(&w, order_of(A_1, 1, 1));
        row_many(&w, timeout, m + 1);
        row(&w, order_of(A_1, 1, 1));
        row(&w, rec5(EV_UP, A_1));
        row_many(&w, timeout, m + 1);
        row_vector(10, m, &w, m + 1 + 2 + m);
        w.n = 0;                                       /* an order with two losses */
        row(&w, order_of(A_1, 0, 1));
        row_many(&w, timeout, m - 1);
        row(&w, rec5(EV_UP, A_1));
        row_many(&w, timeout, m - 1);
        row(&w, message_of(A_1, 32, 0x2F));
        for (unsigned i = 0; i < 2; i++) {
            row(&w, rec5(EV_LOST, A_1));
            row_many(&w, timeout, m - 1);
            row(&w, rec5(EV_UP, A_1));
        }
        row(&w, rec2(EV_MISSION, 0));
        row_many(&w, timeout, m - 1);
        row(&w, message_of(A_1, 39, 0));
        row_vector(10, m, &w, 3 * m + 2 + 2 * m);
        w.n = 0;                                       /* four at a time */
        for (unsigned i = 0; i < PLACES; i++)
            row(&w, order_of(i % 2 ? A_RIU + i : A + i, 1, 1));
        for (unsigned k = 0; k < m; k++)
            for (unsigned i = 0; i < PLACES; i++)
                row(&w, rec5(EV_TIMEOUT, i % 2 ? A_RIU + i : A + i));
        row_vector(10, m, &w, PLACES * (m + 1));
    }
}

static void tries(void)
{
    tries_timeouts();
    tries_steps();
    tries_together();
    cold_starts();
    tries_bounds();

    /* long logs with other numbers of tries */
    for (unsigned i = 0; i < 4; i++) {
        const unsigned m = (uint8_t[]){1, 2, 5, 9}[i];
        static Log l;
        const State s = with_n(1, 2, m);
        l.n = l.records = 0;
        put(&l, order_of(A, 1, 1));
        put(&l, rec5(EV_UP, A));
        for (unsigned k = 0; k < 3; k++)
            put(&l, rec5(EV_TIMEOUT, A));
        long_vector(10, &s, l.b, l.n, 300000 + i, 0xFFFFFFFF, 0, ANY);
    }
}

/* ---- group 11: last ---- */

/* Numbers whose low 14 bits are 16,383, and numbers that miss it by one bit. */
static uint32_t last_like[40], miss_like[40];
static unsigned last_likes, miss_likes;

static void make_likes(void)
{
    last_likes = miss_likes = 0;
    last_like[last_likes++] = 0x003FFF;
    for (unsigned b = 0; b < 10; b++)
        last_like[last_likes++] = 0x003FFF | 0x4000u << b;
    static const uint8_t middle[4] = {63, 127, 191, 255};
    for (unsigned i = 0; i < 4; i++) {
        last_like[last_likes++] = 0x5A0000 | (uint32_t)middle[i] << 8 | 255;
        if (i > 0)
            last_like[last_likes++] = 0xFF0000 | (uint32_t)middle[i] << 8 | 255;
    }
    for (unsigned b = 0; b < 14; b++) {
        miss_like[miss_likes++] = 0x003FFF ^ 1u << b;
        miss_like[miss_likes++] = 0xFFFFFF ^ 1u << b;
    }
    static const uint8_t near[4] = {62, 126, 190, 254};
    for (unsigned i = 0; i < 4; i++)
        miss_like[miss_likes++] = 0x5A0000 | (uint32_t)near[i] << 8 | 255;
    for (unsigned i = 0; i < 4; i++)
        miss_like[miss_likes++] = 0x5A0000 | (uint32_t)middle[i] << 8 | 254;
}

/* An order to the last known RBC answers as the order to that RBC itself does. */
static void meant_step(const State *s, uint32_t like, unsigned accepting, unsigned cause, unsigned want,
                       unsigned place, unsigned phase)
{
    State a = *s, b = *s;
    uint8_t x[ACTION_BUFFER] = {0}, y[ACTION_BUFFER] = {0};
    const Rec r = order_of(like, accepting, cause), named = order_of(s->last & 0xFFFFFF, accepting, cause);
    const StepResult p = step(&a, r.b, r.n, x, sizeof x), q = step(&b, named.b, named.n, y, sizeof y);
    if (s->last == 0 || memcmp(&p, &q, sizeof p) != 0 || !same(&a, &b) || memcmp(x, y, sizeof x) != 0)
        fail("not as the order to the RBC itself");
    if (p.code == 0 && a.last != s->last)
        fail("an order changed the last known RBC");
    step_vector(11, s, r.b, r.n, (Hand){want, place, phase});
}

/* Level 2, mission 1, marks of mode change, manual change and hole end: every cause is in force. */
static void all_in_force(State *s)
{
    s->level = 2;
    s->mission = 1;
    set_marks(s, 7);
}

/* The states of knowledge: none known; known, and free, held in an Ending place, with all places
 * taken by others, taken and held. */
enum { KNOWLEDGE = 6 };

static State knowledge(unsigned k, unsigned turn)
{
    static const uint32_t who[4] = {A, 0x00000000, 0x00FFFFFE, 0x00003EFF};
    State s = with_n(1, 2, turn % 9 + 1);
    if (k == 1 || k == 4 || k == 5)
        for (unsigned i = 0; i < PLACES; i++)
            hold(&s, i, 0x00000900 + i + (i == 2 ? 0x01000000u : 0), (turn + i) % 5 + 1, OUTGOING,
                 (turn + i) % 5 + 1 == OPEN ? 0 : 1);
    if (k >= 2)
        s.last = KNOWN | who[turn % 4];
    if (k == 3 || k == 5)
        hold(&s, turn % 4, who[turn % 4], turn / 4 % 5 + 1, OUTGOING, turn / 4 % 5 + 1 == OPEN ? 0 : 1);
    return s;
}

static void last_orders(void)
{
    unsigned turn = 0;
    /* every such number in every state of knowledge */
    for (unsigned i = 0; i < last_likes; i++)
        for (unsigned k = 0; k < KNOWLEDGE; k++, turn++) {
            State s = knowledge(k, turn);
            const unsigned place = turn % 4, phase = turn / 4 % 5 + 1;
            if (i % 2)
                all_in_force(&s);
            const unsigned cause = i % 2 ? turn % 5 : 1;
            if (k < 2)
                refused_step(11, &s, order_of(last_like[i], turn / 2 % 2, cause), 15, 4, 0);
            else if (k == 3 || k == 5)
                meant_step(&s, last_like[i], turn / 2 % 2, cause, 5, place, phase);
            else
                meant_step(&s, last_like[i], turn / 2 % 2, cause, k == 4 ? 8 : 0, 4, 0);
        }
    /* every cause in force and not, accepting or not: 4, 15, 5, 8 in this order, the marks stay */
    for (unsigned cause = 0; cause < 5; cause++)
        for (unsigned why = 0; why < 3; why++)
            for (unsigned accepting = 0; accepting < 2; accepting++)
                for (unsigned k = 0; k < KNOWLEDGE; k++, turn++) {
                    State s = knowledge(k, turn);
                    const uint32_t like = last_like[turn % last_likes];
                    all_in_force(&s);
                    if (why > 0) {                     /* not in force, but for cause 1 */
                        static const struct { uint8_t level, mission, marks; } no[5][2] = {
                            {{1, 1, 7}, {2, 2, 7}}, {{0, 0, 0}, {4, 2, 8}}, {{3, 2, 3}, {2, 0, 7}},
                            {{2, 1, 5}, {4, 1, 7}}, {{2, 1, 6}, {3, 1, 14}},
                        };
                        s.level = no[cause][why - 1].level;
                        s.mission = no[cause][why - 1].mission;
                        set_marks(&s, no[cause][why - 1].marks);
                    }
                    if (why > 0 && cause != 1)
                        refused_step(11, &s, order_of(like, accepting, cause), 4, 4, 0);
                    else if (k < 2)
                        refused_step(11, &s, order_of(like, accepting, cause), 15, 4, 0);
                    else if (k == 3 || k == 5)
                        meant_step(&s, like, accepting, cause, 5, turn % 4, turn / 4 % 5 + 1);
                    else
                        meant_step(&s, like, accepting, cause, k == 4 ? 8 : 0, 4, 0);
                    /* 3 before 4 and 15 */
                    if (why < 2 && (turn % 3 == 0 || k < 2)) {
                        refused_step(11, &s, order_of(like, accepting + 2, cause), 3, 4, 0);
                        refused_step(11, &s, order_of(like, accepting, cause + 5), 3, 4, 0);
                        refused_step(11, &s, order_of(like | 0x02000000, accepting, cause), 3, 4, 0);
                    }
                }
    /* held in each place and form; around it places free or taken, its number as an RIU */
    for (unsigned place = 0; place < PLACES; place++)
        for (unsigned f = 0; f < 20; f++) {
            for (unsigned around = 0; around < AROUNDS; around++, turn++) {
                if ((f + around + place) % 2 && f > 7)
                    continue;
                State s = standing(A, place, f, around);
                all_in_force(&s);
                s.last = KNOWN | A;
                meant_step(&s, last_like[turn % last_likes], turn % 2, turn % 5, 5, place, form[f].phase);
            }
            /* an RIU has its number, another RBC stands by: not 5 */
            State s = with_x(1, 2);
            hold_form(&s, place, A_RIU, f);
            hold_form(&s, (place + 2) % 4, A_3, f + 7);
            s.last = KNOWN | A;
            meant_step(&s, last_like[(f + place) % last_likes], f % 2, 1, 0, 4, 0);
        }
    /* free: by hand, with the closings; not accepting closes RBCs in Open and Lost */
    for (unsigned i = 0; i < last_likes; i++) {
        State s = with_n(1, 2, i % 9 + 1), after;
        const uint32_t meant = i % 3 == 0 ? 0 : i % 3 == 1 ? 0x00FFFFFE : NEW;
        hold(&s, 0, A, OPEN, INCOMING, 0);
        hold(&s, 1, meant | 0x01000000, OPEN, OUTGOING, 0);
        hold(&s, 2, A_1, LOST, OUTGOING, 1);
        s.last = KNOWN | meant;
        s.hole_end = s.mode = 1;
        after = s;
        after.hole_end = 0;
        hold(&after, 3, meant, CONNECTING, OUTGOING, 1);
        whole_step(11, &s, order_of(last_like[i], 1, 4), untold(0), &after, 1, &(Act){21, meant});
        hold(&after, 0, A, ENDING, INCOMING, 1);
        vacate(&after, 2);
        whole_step(11, &s, order_of(last_like[i], 0, 4), untold(0), &after, 3,
                   (Act[]){{156, A}, {22, A_1}, {21, meant}});
    }
    for (unsigned held = 0; held < 16; held++)
        for (unsigned k = 0; k < 4; k++) {
            State s = with_n(0, 7, 1 + held % 9);
            const uint32_t like[4] = {A_RIU, A_1, A_2, A_3};
            for (unsigned i = 0; i < PLACES; i++)
                if (held >> i & 1)
                    hold(&s, i, like[i], (held + i + k) % 5 + 1, OUTGOING, (held + i + k) % 5 + 1 == OPEN ? 0 : 1);
            set_head(&s, held + 5 * k);
            s.last = KNOWN | A;
            meant_step(&s, last_like[(held + k) % last_likes], k % 2, 1, held == 15 ? 8 : 0, 4, 0);
        }
    /* near misses are RBCs like any other; so is an RIU with any such number */
    for (unsigned i = 0; i < miss_likes + last_likes; i++) {
        const uint32_t who = i < miss_likes ? miss_like[i] : 0x01000000 | last_like[i - miss_likes];
        State s = with_n(1, 2, 3), after;
        if (i % 2)
            s.last = KNOWN | A;
        if (i % 3)
            hold(&s, 0, A, OPEN, INCOMING, 0);
        after = s;
        hold(&after, i % 3 ? 1 : 0, who, CONNECTING, OUTGOING, 1);
        whole_step(11, &s, order_of(who, 1, 1), untold(0), &after, 1, &(Act){21, who});
        refused_step(11, &after, order_of(who, 0, 1), 5, i % 3 ? 1 : 0, CONNECTING);
    }
}

/* The other events that name such an RBC: 3, whatever else there is; an RIU is taken as any. */
static void last_events(void)
{
    unsigned turn = 0;
    for (unsigned i = 0; i < last_likes; i++)
        for (unsigned c = 0; c < 8; c++, turn++) {
            const State s = knowledge(turn % KNOWLEDGE, turn);
            const uint32_t like = last_like[i];
            refused_step(11, &s, c == 7 ? message_of(like, 38, 0) : column(c, like, c == 4 ? 0x11 : 0x30), 3, 4, 0);
            if (i < 2) {
                for (unsigned k = 0; k < KNOWLEDGE; k++) {
                    const State t = knowledge(k, turn + k);
                    refused_step(11, &t, c == 7 ? message_of(like, 38, 0) : column(c, like, 0x20), 3, 4, 0);
                }
                refused_step(11, &s, message_of(like, 32 + c, 128), 3, 4, 0);
            }
        }
    for (unsigned i = 0; i < last_likes; i++)
        for (unsigned phase = CONNECTING; phase <= ENDING; phase++)
            for (unsigned c = 0; c < 7; c++) {
                const uint32_t who = 0x01000000 | last_like[i];
                const unsigned place = (i + phase) % 4;
                if (i > 3 && (i + phase + c) % 5)
                    continue;
                State s = with_x(1, 2);
                hold(&s, place, who, phase, OUTGOING, phase == OPEN ? 0 : 1 + i % 3);
                if (i % 2)
                    s.last = KNOWN | A;
                told_rec(11, &s, column(c, who, c == 4 ? 0x11 : 0x30), cell_code[phase][c], place, phase);
            }
    for (unsigned i = 0; i < last_likes; i++) {
        State s = with_x(1, 2);
        const uint32_t who = 0x01000000 | last_like[i];
        if (i % 2)
            s.last = KNOWN | A;
        refused_step(11, &s, message_of(who, 38, 0), 9, 4, 0);
        refused_step(11, &s, column(i % 7, who, 0x11), 6, 4, 0);
        hold(&s, i % 4, who, i % 5 + 1, OUTGOING, i % 5 + 1 == OPEN ? 0 : 3);
        refused_step(11, &s, message_of(who, 38, 0), 9, 4, 0);
        refused_step(11, &s, order_of(who, i % 2, 1), 5, i % 4, i % 5 + 1);
    }
    /* near misses: every event is taken or refused as of any RBC */
    for (unsigned i = 0; i < miss_likes; i++) {
        const uint32_t who = miss_like[i];
        State s = with_x(1, 2), after;
        after = s;
        hold(&after, 0, who, OPEN, INCOMING, 0);
        after.last = KNOWN | who;
        whole_step(11, &s, message_of(who, 38, 0), untold(0), &after, 1, &(Act){159, who});
        const unsigned phase = i % 5 + 1, c = i % 7;
        hold(&s, i % 4, who, phase, OUTGOING, phase == OPEN ? 0 : 2);
        told_rec(11, &s, column(c, who, c == 4 ? 0x11 : 0x30), cell_code[phase][c], i % 4, phase);
        refused_step(11, &s, column(c, who ^ 0x00008000, 0x11),
                     (who & 0x3FFF) == 0x3FFF ? 3 : 6, 4, 0);
    }
}

/* How the last known RBC comes to be known, and what leaves it as it was. */
static void last_known(void)
{
    static const uint32_t known[5] = {0, KNOWN | A, KNOWN | A_1, KNOWN, KNOWN | 0x00FFFFFE};
    for (unsigned i = 0; i < 5; i++)
        for (unsigned m = 1; m <= 9; m += 4) {
            State s = with_n(1, 2, m), after;
            all_in_force(&s);
            s.last = known[i];
            hold(&s, 1, A_RIU, CONTACTING, OUTGOING, m);
            hold(&s, 2, A, CONTACTING, OUTGOING, 1);

            /* 38: known; 32 in range: an RBC is known, an RIU is not; 154: not */
            after = s;
            hold(&after, 0, A_2, OPEN, INCOMING, 0);
            after.last = KNOWN | A_2;
            whole_step(11, &s, message_of(A_2, 38, 0), untold(0), &after, 1, &(Act){159, A_2});
            after = s;
            hold(&after, 0, 0, OPEN, INCOMING, 0);
            after.last = KNOWN;
            whole_step(11, &s, message_of(0, 38, 0), untold(0), &after, 1, &(Act){159, 0});
            after = s;
            hold(&after, 2, A, OPEN, OUTGOING, 0);
            after.last = KNOWN | A;
            whole_step(11, &s, message_of(A, 32, 0x2F), untold(0), &after, 1, &(Act){159, A});
            after = s;
            hold(&after, 1, A_RIU, OPEN, OUTGOING, 0);
            whole_step(11, &s, message_of(A_RIU, 32, 0x10), untold(0), &after, 1, &(Act){159, A_RIU});
            after = s;
            hold(&after, 2, A, ENDING, OUTGOING, 1);
            whole_step(11, &s, message_of(A, 32, 0x30), untold(0), &after, 2, (Act[]){{154, A}, {156, A}});
            after = s;
            hold(&after, 1, A_RIU, ENDING, OUTGOING, 1);
            whole_step(11, &s, message_of(A_RIU, 32, 0x0F), untold(0), &after, 2,
                       (Act[]){{154, A_RIU}, {156, A_RIU}});

            /* refused calls and messages */
            refused_step(11, &s, message_of(A, 38, 0), 5, 2, CONTACTING);
            refused_step(11, &s, message_of(A_2, 38, 1), 3, 4, 0);
            refused_step(11, &s, message_of(NEW_RIU, 38, 0), 9, 4, 0);
            refused_step(11, &s, message_of(A, 39, 0), 7, 2, CONTACTING);
            refused_step(11, &s, message_of(A_2, 32, 0x11), 6, 4, 0);
            refused_step(11, &s, message_of(A, 32, 0x80), 3, 4, 0);
            State full = s;
            hold(&full, 0, A_3, LOST, INCOMING, m);
            hold(&full, 3, NEW, OPEN, INCOMING, 0);
            refused_step(11, &full, message_of(A_2, 38, 0), 8, 4, 0);
            refused_step(11, &full, message_of(NEW, 32, 0x11), 7, 3, OPEN);

            /* orders, taken and refused; a closed RBC, an RBC back from Lost: no 159 */
            after = s;
            hold(&after, 0, A_2, CONNECTING, OUTGOING, 1);
            whole_step(11, &s, order_of(A_2, 0, 1), untold(0), &after, 1, &(Act){21, A_2});
            refused_step(11, &s, order_of(A, 0, 1), 5, 2, CONTACTING);
            refused_step(11, &full, order_of(A_2, 0, 2), 8, 4, 0);
            after = full;
            hold(&after, 0, A_3, OPEN, INCOMING, 0);
            whole_step(11, &full, rec5(EV_UP, A_3), untold(0), &after, 0, NULL);
            after = full;
            hold(&after, 3, NEW, LOST, INCOMING, 1);
            whole_step(11, &full, rec5(EV_LOST, NEW), untold(0), &after, 1, &(Act){21, NEW});

            /* releases, timeouts, end of mission, all ended, level, mode, hole */
            after = s;
            vacate(&after, 2);
            whole_step(11, &s, rec5(EV_DROP, A), untold(0), &after, 1, &(Act){22, A});
            whole_step(11, &s, rec5(EV_LOST, A), untold(0), &after, 1, &(Act){22, A});
            if (m > 1)
                hold(&after, 2, A, CONTACTING, OUTGOING, 2);
            whole_step(11, &s, rec5(EV_TIMEOUT, A), untold(0), &after, 1, &(Act){m > 1 ? 155 : 22, A});
            after = full;
            vacate(&after, 0);
            vacate(&after, 1);
            vacate(&after, 2);
            hold(&after, 3, NEW, ENDING, INCOMING, 1);
            const Act ended[4] = {{22, A_3}, {22, A_RIU}, {22, A}, {156, NEW}};
            whole_step(11, &full, rec2(EV_END_ALL, m % 4 == 1), untold(0), &after, 4, ended);
            after.mission = 0;
            whole_step(11, &full, rec2(EV_MISSION, 0), untold(0), &after, 4, ended);
            after = s;
            hold(&s, 2, A, ENDING, OUTGOING, 1);
            vacate(&after, 2);
            whole_step(11, &s, message_of(A, 39, 0), untold(0), &after, 1, &(Act){22, A});
            after = s;
            after.mission = 2;
            whole_step(11, &s, rec2(EV_MISSION, 2), untold(0), &after, 0, NULL);
            after = s;
            after.level = 0;
            whole_step(11, &s, rec3(EV_LEVEL, 0, 1), untold(0), &after, 0, NULL);
            whole_step(11, &s, rec1(EV_MODE), untold(0), &s, 0, NULL);
            after = s;
            after.inside = 1;
            after.hole_end = 0;
            whole_step(11, &s, rec2(EV_HOLE, 1), untold(0), &after, 0, NULL);
        }
}

/* A state that holds such an RBC in a place, or as the last known one: 11; an RIU may. */
static void last_unsound(void)
{
    unsigned turn = 0;
    for (unsigned i = 0; i < last_likes; i++)
        for (unsigned place = 0; place < PLACES; place++)
            for (unsigned phase = CONNECTING; phase <= ENDING; phase++, turn++) {
                if (i > 0 && turn % 6)
                    continue;
                const unsigned t = phase == OPEN ? 0 : 1;
                State s = with_n(1, 2, turn % 9 + 1);
                if (turn % 2)
                    hold(&s, (place + 1) % 4, A, OPEN, INCOMING, 0);
                if (turn % 5 == 0)
                    s.last = KNOWN | A;
                hold(&s, place, last_like[i], phase, phase >= OPEN ? turn % 2 : 0, t);
                refused_everywhere(11, &s, turn % 3 ? rec5(EV_DROP, last_like[i]) : rec1(EV_MODE), turn);
                hold(&s, place, 0x01000000 | last_like[i], phase, OUTGOING, t);
                step_vector(11, &s, rec1(EV_MODE).b, 1, untold(0));
                if (turn % 4 == 0)
                    store_vector(11, &s, 42, next_fill(), 0);
            }
    for (unsigned i = 0; i < last_likes; i++)
        for (unsigned k = 0; k < 4; k++, turn++) {
            State s = knowledge((uint8_t[]){0, 1, 3, 5}[k], turn);
            s.last = KNOWN | last_like[i];
            const Rec r[4] = {order_of(last_like[i], k % 2, 1), rec1(EV_MODE), message_of(A_2, 38, 0), rec2(EV_END_ALL, 0)};
            refused_everywhere(11, &s, r[(turn + i) % 4], turn);
        }
    for (unsigned i = 0; i < miss_likes; i++) {
        State s = with_n(1, 2, i % 9 + 1), after;
        s.last = KNOWN | miss_like[i];
        after = s;
        after.mode = 1;
        whole_step(11, &s, rec1(EV_MODE), untold(0), &after, 0, NULL);
        after = s;
        hold(&after, 0, miss_like[i], CONNECTING, OUTGOING, 1);
        whole_step(11, &s, order_of(last_like[i % last_likes], i % 2, 1), untold(0), &after, 1, &(Act){21, miss_like[i]});
        hold(&s, 0, miss_like[i], OPEN, INCOMING, 0);
        hold(&s, 1, last_like[i % last_likes] | 0x01000000, OPEN, OUTGOING, 0);
        if (i % 3 == 0)
            store_vector(11, &s, 42, next_fill(), 0);
        meant_step(&s, last_like[i % last_likes], i % 2, 1, 5, 0, OPEN);
    }
}

static void last_mixes(void)
{
    static const uint8_t head[8] = {1, 2, 3, 1, 0, 1, 1, 1};
    static const struct { uint8_t a, b, accepting, cause, tail[5]; } mix[12] = {
        {0, 3, 0, 1, {3, 1, 1, 2, 3}}, {3, 4, 0, 4, {5, 1, 0, 0, 0}}, {4, 0, 1, 2, {1, 1, 255, 255, 254}},
        {0, 0, 0, 1, {3, 0, 0, 0, 0}}, {3, 8, 0, 3, {9, 1, 0, 0, 0x22}}, {0, 4, 0, 0, {2, 1, 0, 0, 0x23}},
        {3, 0, 0, 1, {4, 1, 0, 0, 0x20}}, {0, 5, 0, 1, {3, 1, 0, 0, 0x21}}, {8, 3, 0, 1, {7, 1, 0, 0, 0x20}},
        {1, 2, 0, 1, {3, 0, 0, 0, 0}}, {3, 3, 0, 1, {6, 1, 0, 0x3F, 0xFE}}, {9, 0, 1, 1, {8, 1, 0, 0, 0x23}},
    };
    uint8_t p0[7], p1[7];
    for (unsigned i = 0; i < 12; i++) {
        const Rec r = order_of(last_like[i], mix[i].accepting, mix[i].cause);
        choice(p0, 0, mix[i].a);
        choice(p1, 1, mix[i].b);
        mix_in(11, head, p0, p1, mix[i].tail, r.b, r.n);
    }
    /* a call, which makes another one known; an end of all, which does not */
    for (unsigned i = 0; i < 3; i++) {
        const Rec r = i == 0 ? message_of(A, 38, 0) : i == 1 ? rec2(EV_MISSION, 0) : message_of(0x20, 32, 0x1F);
        choice(p0, 0, i == 2 ? 2 : 0);
        choice(p1, 1, 4);
        mix_in(11, head, p0, p1, (const uint8_t[]){4, 1, 9, 8, 7}, r.b, r.n);
    }
}

/* A session with 15s, which the run counts as refused. */
static void last_rich(Log *l)
{
    put(l, order_of(0x003FFF, 1, 1));          /* 15 */
    put(l, order_of(0xFFFFFF, 0, 4));          /* 4 */
    put(l, order_of(0x013FFFFF, 1, 1));        /* 21: an RIU */
    put(l, rec5(EV_UP, 0x013FFFFF));           /* 155 */
    put(l, message_of(0x013FFFFF, 32, 0x11));  /* 159 */
    put(l, order_of(0x007FFF, 0, 1));          /* 15 */
    put(l, message_of(0x003FFF, 38, 0));       /* 3 */
    put(l, message_of(A, 38, 0));              /* 159 */
    put(l, order_of(0x00BFFF, 0, 1));          /* 5 */
    put(l, rec5(EV_LOST, A));                  /* 21 */
    put(l, rec5(EV_TIMEOUT, 0x00BFFF));        /* 3 */
    put(l, rec5(EV_DROP, A));                  /* 22 */
    put(l, order_of(0x5ABFFF, 0, 1));          /* 21 to A */
    put(l, rec5(EV_UP, A));                    /* 155 */
    put(l, message_of(A, 32, 0x30));           /* 154 156 */
    put(l, order_of(0x003FFF, 1, 1));          /* 5 */
    put(l, message_of(A, 39, 0));              /* 22 */
    put(l, message_of(A_1, 38, 0));            /* 159 */
    put(l, message_of(A_2, 38, 0));            /* 159 */
    put(l, rec5(EV_LOST, A_2));                /* 21 */
    put(l, rec5(EV_DROP, A_2));                /* 22 */
    put(l, order_of(0xFFFFFF, 0, 1));          /* 156 21: to A_2 */
    put(l, rec2(EV_END_ALL, 1));               /* 156 22 */
    put(l, rec5(EV_LOST, 0x013FFFFF));         /* 22 */
    put(l, rec5(EV_LOST, A_1));                /* 22 */
}

static void last_runs(void)
{
    static Log l;
    Rng g = {0x1A57F15EED0001u};
    for (unsigned m = 1; m <= 9; m += 4) {
        State s = with_n(1, 2, m);
        RunResult x;
        State t = s;
        l.n = l.records = 0;
        last_rich(&l);
        run_once(&t, l.b, l.n, 0xFFFFFFFF, &x);        /* by hand: what stands beside its records */
        if (x.read != 25 || x.refused != 7 || x.total[0] != 5 || x.total[1] != 6 || x.total[2] != 1 ||
            x.total[3] != 2 || x.total[4] != 3 || x.total[5] != 4 || t.last != (KNOWN | A_2))
            fail("another run by hand");
        for (unsigned budget = 0; budget <= l.records + 1; budget += m == 5 ? 1 : 5)
            run_vector(11, &s, l.b, l.n, budget, 0, budget < l.records ? 1 : 0);
        s.last = KNOWN | A_3;
        run_vector(11, &s, l.b, l.n, 0xFFFFFFFF, 0, 0);
        long_vector(11, &s, l.b, l.n, 200000, 0xFFFFFFFF, 0, ANY);
        s.last = 0;
        long_vector(11, &s, l.b, l.n, LOG_MOST, 0xFFFFFFFF, 0, ANY);
    }
    /* 15 alone, again and again */
    for (unsigned i = 0; i < last_likes; i++) {
        State s = with_n(1, 2, i % 9 + 1);
        l.n = l.records = 0;
        put(&l, order_of(last_like[i], i % 2, 1));
        run_vector(11, &s, l.b, l.n, 1, 0, 0);
        put(&l, order_of(last_like[i], i % 2, 1));
        put(&l, rec5(EV_TIMEOUT, last_like[i]));       /* 3 */
        put(&l, message_of(A, 38, 0));
        put(&l, order_of(last_like[i], i % 2, 1));     /* 5 */
        run_vector(11, &s, l.b, l.n, 2 + i % 5, 0, i % 5 < 3 ? 1 : 0);
    }
    const Rec r = order_of(0x00FFFF, 1, 1);
    State s = with_x(1, 2);
    long_vector(11, &s, r.b, r.n, LOG_MOST, 0xFFFFFFFF, 0, ANY);
    s.last = KNOWN | A;
    long_vector(11, &s, r.b, r.n, 70000, 0xFFFFFFFF, 0, 0);
    /* random logs, from cold and from where the one before ended */
    for (unsigned i = 0; i < 30; i++) {
        if (i % 6 == 0)
            s = with_n(i % 3, 1 + i % 7, gen_n(&g));
        State t = s;
        l.n = l.records = 0;
        const unsigned m = 30 + rng_below(&g, 60);
        for (unsigned k = 0; k < m; k++) {
            Rec q;
            uint8_t a[ACTION_BUFFER];
            q.n = gen_record_last(&g, &t, true, q.b);
            put(&l, q);
            step(&t, q.b, q.n, a, sizeof a);
        }
        if (i % 3 == 0)
            run_vector(11, &s, l.b, l.n, m - 1 - rng_below(&g, m - 1), 0, 1);
        else
            run_vector(11, &s, l.b, l.n, i % 3 == 1 ? m : 0xFFFFFFFF, 0, 0);
        s = t;
    }
}

static void last_histories(void)
{
    /* by hand: a 159 to an RIU makes none known; each 159 to an RBC does, the latest counts */
    for (unsigned m = 1; m <= 9; m += 2) {
        static const struct { uint8_t code; uint32_t last; } want[] = {
            {15, 0}, {0, 0}, {0, 0}, {0, 0}, {15, 0}, {0, KNOWN | A}, {5, KNOWN | A}, {0, KNOWN | A}, {0, KNOWN | A},
            {0, KNOWN | A}, {0, KNOWN | A}, {0, KNOWN | A_1}, {5, KNOWN | A_1}, {0, KNOWN | A_1}, {0, KNOWN | A_1},
            {0, KNOWN | A_1}, {0, KNOWN | A_1}, {5, KNOWN | A_1}, {0, KNOWN | A_1}, {0, KNOWN | A_1},
            {0, KNOWN | A_1}, {0, KNOWN | A_1}, {0, KNOWN | A_1}, {0, KNOWN | A_1},
        };
        const Rec r[] = {
            order_of(0x003FFF, 1, 1), order_of(A_RIU, 1, 1), rec5(EV_UP, A_RIU), message_of(A_RIU, 32, 0x10),
            order_of(0x003FFF, 1, 1), message_of(A, 38, 0), order_of(0xFFFFFF, 1, 1), rec5(EV_DROP, A),
            message_of(A, 39, 0), order_of(A_1, 1, 1), rec5(EV_UP, A_1), message_of(A_1, 32, 0x20),
            order_of(0x407FFF, 1, 1), rec5(EV_LOST, A_1), rec5(EV_DROP, A_1), rec2(EV_MISSION, 0),
            order_of(0x00BFFF, 0, 1), order_of(0x003FFF, 1, 1), rec5(EV_UP, A_1), message_of(A_1, 32, 0x00),
            rec2(EV_END_ALL, 0), message_of(A_1, 39, 0), rec5(EV_LOST, A_RIU), order_of(0x803FFF, 0, 1),
        };
        enum { N = sizeof r / sizeof r[0] };
        _Static_assert(sizeof want / sizeof want[0] == N, "an expectation for each record");
        State s;
        history_begin(11, 1, 2, m, N, &s);
        for (unsigned i = 0; i < N; i++) {
            history_step(&s, r[i].b, r[i].n, want[i].code);
            if (s.last != want[i].last)
                fail("another last known RBC by hand");
        }
        State after = with_n(1, 2, m);
        hold(&after, 0, A_1, CONNECTING, OUTGOING, 1);
        after.last = KNOWN | A_1;
        if (!same(&s, &after))
            fail("another state by hand");
        state(&s);
        end();
    }
    /* random, with random n */
    Rng g = {0x1A57F15EED0002u};
    for (unsigned h = 0; h < 400; h++) {
        uint8_t lowest, highest, r[GEN_MOST];
        State s;
        gen_x(&g, &lowest, &highest);
        const unsigned records = 20 + rng_below(&g, 21);
        history_begin(11, lowest, highest, gen_n(&g), records, &s);
        for (unsigned k = 0; k < records; k++) {
            const size_t length = gen_record_last(&g, &s, false, r);
            history_step(&s, r, length, ANY);
        }
        state(&s);
        end();
    }
}

static void last(void)
{
    make_likes();
    last_orders();
    last_events();
    last_known();
    last_unsound();
    last_mixes();
    last_runs();
    last_histories();
}

/* ---- group 12: kinds ---- */

static bool full;

/* The bytes of an image from 'from' on, each at all 256 values. An A1 image shares its body with
 * A2: if not 'full', it has behind its kind the values 0 to 16, 62 to 64 and so on, and the
 * neighbours of its own. */
static bool edge_value(unsigned v, unsigned own)
{
    return full || v <= 16 || (v & 63) >= 62 || (v & 63) == 0 || v == 32 || v == 0xA1 || v == 0xA2 ||
           (v + 2 > own && v < own + 2);
}

static void sweep(const uint8_t *image, size_t length, size_t from)
{
    uint8_t b[IMAGE_BYTES];
    memcpy(b, image, length);
    for (size_t at = from; at < length; at++) {
        for (unsigned v = 0; v < 256; v++) {
            if (length == OLD_IMAGE_BYTES && at > 0 && !edge_value(v, image[at]))
                continue;
            b[at] = (uint8_t)v;
            if (length == OLD_IMAGE_BYTES || (at + v) % 2)
                read_vector(12, b, length, ANY);
            else
                read_new_vector(12, b, length, ANY);
        }
        b[at] = image[at];
    }
}

static unsigned kind_states(State *out)
{
    unsigned c = 0;
    State s = with_x(1, 2);                    /* fits A1 */
    s.level = 3;
    s.mission = 2;
    set_marks(&s, 6);
    hold(&s, 0, 0x00127F20, LOST, INCOMING, 2);        /* its low byte alone keeps it from meaning the last */
    hold(&s, 2, 0x01C4BFFF, CONNECTING, OUTGOING, 3);  /* its type alone */
    hold(&s, 3, 0x00C720FF, ENDING, INCOMING, 1);      /* its middle byte alone */
    out[c++] = s;

    s.n = 5;                                   /* the same, five tries, and known */
    s.tries[0] = 4;
    s.tries[2] = 5;
    s.last = KNOWN | 0x00413F20;
    out[c++] = s;

    s = with_x(0, 7);                          /* full, numbers at their ends */
    s.level = 4;
    s.mission = 1;
    set_marks(&s, 8);
    hold(&s, 0, 0x00FFFFFE, OPEN, INCOMING, 0);
    hold(&s, 1, 0x01FFFFFF, OPEN, OUTGOING, 0);
    hold(&s, 2, 0x00000000, CONTACTING, OUTGOING, 9);
    hold(&s, 3, 0x01000000, LOST, OUTGOING, 1);
    s.n = 9;
    s.last = KNOWN | 0x005A20FF;
    out[c++] = s;

    out[c++] = with_x(0, 0);                   /* cold, as refused */

    s = with_n(7, 7, 3);                       /* three tries, but known: RBC 0 */
    s.last = KNOWN;
    hold(&s, 0, 0x00000000, ENDING, OUTGOING, 3);
    out[c++] = s;

    s = with_n(6, 7, 1);                       /* one try, none known */
    set_marks(&s, 14);
    hold(&s, 3, 0x00000100, LOST, OUTGOING, 1);
    out[c++] = s;

    s = with_n(2, 2, 3);                       /* four tries would be needed */
    s.n = 4;
    hold(&s, 1, 0x00000100, CONNECTING, OUTGOING, 4);
    out[c++] = s;
    return c;
}

static bool fits_old(const State *s) { return s->n == 3 && s->last == 0; }

static void kinds(void)
{
    State s[8];
    uint8_t b[256];
    const unsigned c = kind_states(s);

    /* each state by both writers, and read by both readers; there and back */
    for (unsigned i = 0; i < c; i++) {
        static const uint8_t fills[4] = {0x00, 0xFF, 0xA1, 0xA2};
        for (unsigned length = 0; length <= 50; length++) {
            if (i > 2 && length != 0 && (length < 36 || length > 38) && (length < 41 || length > 43))
                continue;
            store_vector(12, &s[i], length, fills[(i + length) % 4], length < 42 ? 10 : 0);
            store_old_vector(12, &s[i], length, fills[(i + length + 1) % 4],
                             length < 37 ? 10 : fits_old(&s[i]) ? 0 : 16);
        }
        store_vector(12, &s[i], 255, fills[i % 4], 0);
        store_old_vector(12, &s[i], 255, fills[i % 4], fits_old(&s[i]) ? 0 : 16);
        for (unsigned kind = 0; kind < 2; kind++) {
            memset(b, 0, sizeof b);
            if (kind == 0)
                image_store_old(&s[i], b);     /* of a state that does not fit: an old box's image */
            else
                image_store(&s[i], b);
            for (unsigned length = 0; length <= 50; length++) {
                if (i > 1 && length > 2 && (length < 35 || length > 44))
                    continue;
                const bool over = kind == 0 && (i == 1 || i == 2 || i == 6);   /* tries over three */
                read_vector(12, b, length, length == 0 ? 1 : kind == 0 ? (length != 37 ? 1 : over ? 11 : 0) :
                            length != 42 ? 1 : 0);
                read_new_vector(12, b, length, length == 0 ? 1 : kind == 0 ? 2 : length != 42 ? 1 : 0);
            }
            read_vector(12, b, 255, 1);
            read_new_vector(12, b, 255, kind == 0 ? 2 : 1);
        }
    }

    /* unsound, too small, not fitting: 10, 11, 16 in this order, in each pair */
    for (unsigned i = 0; i < c; i++)
        for (unsigned how = 0; how < 8; how++) {
            State u = s[i];
            if (how < 5)
                u = unsound(s[i], how);
            else if (how == 5)
                u.n = (uint8_t)(i % 2 ? 0 : 10 + 50 * i / 2);
            else if (how == 6)
                u.last = KNOWN | 0x3FFF | 0x4000u << i;
            else
                hold(&u, 1, 0x003FFF | 0x8000u << i, OPEN, OUTGOING, 0);
            store_vector(12, &u, 42 + how, next_fill(), 11);
            store_vector(12, &u, 41 - how, next_fill(), 10);
            store_old_vector(12, &u, 37 + how, next_fill(), 11);
            store_old_vector(12, &u, 36 - how, next_fill(), 10);
        }
    /* which states fit A1: every n, known or not */
    for (unsigned tries = 0; tries <= 11; tries++)
        for (unsigned k = 0; k < 5; k++) {
            State t = with_n(1, 2, tries);
            t.last = (uint32_t[]){0, KNOWN, KNOWN | A, KNOWN | 0x00FFFFFE, KNOWN | 3}[k];
            if (tries > 0 && k % 2)
                hold(&t, tries % 4, A, CONNECTING, OUTGOING, tries > 3 ? 3 : tries);
            const bool good = tries >= 1 && tries <= 9;
            store_old_vector(12, &t, 37, next_fill(), !good ? 11 : tries == 3 && k == 0 ? 0 : 16);
            store_vector(12, &t, 42, next_fill(), good ? 0 : 11);
            image_store(&t, b);
            read_vector(12, b, 42, good ? 0 : 11);
        }

    for (unsigned tries = 1; tries <= 9; tries++)
        for (unsigned k = 0; k < 4; k++) {     /* none known, places held with few tries or many */
            State t = with_n(0, 7, tries);
            hold(&t, k, k % 2 ? A : A_RIU, k == 2 ? OPEN : LOST, OUTGOING, k == 2 ? 0 : k == 3 ? tries : 1);
            set_head(&t, tries + 2 * k);
            store_old_vector(12, &t, (uint8_t[]){37, 42, 38, 255}[k], next_fill(), tries == 3 ? 0 : 16);
            store_old_vector(12, &t, 36, next_fill(), 10);
            t.last = KNOWN | (k % 2 ? A : 0);
            store_old_vector(12, &t, (uint8_t[]){42, 37, 255, 40}[k], next_fill(), 16);
        }

    /* every kind: of an A1 image, an A2 image, and of one byte */
    for (unsigned kind = 0; kind < 256; kind++) {
        memset(b, 0, sizeof b);
        image_store(&s[3], b);                 /* its first 37 bytes are the A1 image's */
        b[0] = (uint8_t)kind;
        read_vector(12, b, 42, kind == 0xA2 ? 0 : kind == 0xA1 ? 1 : 2);
        read_vector(12, b, 37, kind == 0xA1 ? 0 : kind == 0xA2 ? 1 : 2);
        read_new_vector(12, b, 42, kind == 0xA2 ? 0 : 2);
        if (kind % 8 == 1 || (kind > 0x9E && kind < 0xA5)) {
            read_new_vector(12, b, 37, kind == 0xA2 ? 1 : 2);
            read_vector(12, b, 1, kind == 0xA1 || kind == 0xA2 ? 1 : 2);
            read_new_vector(12, b, 1, kind == 0xA2 ? 1 : 2);
        }
    }

    /* images of old boxes: an RBC in a place that means the last known one, or more than 3 tries */
    for (unsigned i = 0; i < last_likes; i++)
        for (unsigned place = 0; place < PLACES; place++) {
            State t = with_x(1, 2);
            hold(&t, place, last_like[i], (i + place) % 5 + 1, OUTGOING, (i + place) % 5 + 1 == OPEN ? 0 : 2);
            image_store_old(&t, b);
            read_vector(12, b, 37, 11);
            image_store(&t, b);
            read_vector(12, b, 42, 11);
            b[9 + 7 * place + 3] = 1;          /* an RIU of that number */
            read_new_vector(12, b, 42, 0);
            b[0] = 0xA1;
            read_vector(12, b, 37, 0);
        }
    for (unsigned i = 0; i < miss_likes; i++) {
        State t = with_x(1, 2);
        hold(&t, i % 4, miss_like[i], i % 5 + 1, OUTGOING, i % 5 + 1 == OPEN ? 0 : 3);
        image_store_old(&t, b);
        read_vector(12, b, 37, 0);
        t.last = KNOWN | miss_like[i];
        image_store(&t, b);
        read_vector(12, b, 42, 0);
    }
    for (unsigned phase = CONNECTING; phase <= ENDING; phase++)
        for (unsigned t = 0; t <= 11; t++)
            for (unsigned m = 0; m <= 10; m++) {
                State x = with_n(1, 2, m);
                image_store(&x, b);
                uint8_t *const p = b + 9 + 7 * ((phase + t + m) % 4);
                p[0] = (uint8_t)phase;
                p[2] = (uint8_t)t;
                p[6] = 7;
                const bool good = m >= 1 && m <= 9 && (phase == OPEN ? t == 0 : t >= 1 && t <= m);
                read_vector(12, b, 42, good ? 0 : 11);
                if (m == 3) {                  /* whatever an A1 image's box had for n, it is 3 */
                    b[0] = 0xA1;
                    read_vector(12, b, 37, good ? 0 : 11);
                }
            }
    /* flag and number of the last known RBC */
    for (unsigned i = 0; i < 40; i++) {
        static const uint8_t flags[5] = {0, 1, 2, 128, 255};
        const unsigned flag = flags[i % 5], at = i / 5 % 4;
        image_store(&s[i % 2], b);
        memset(b + 38, 0, 4);
        b[38] = (uint8_t)flag;
        if (at > 0)
            b[38 + at] = (uint8_t)(i < 20 ? 1 : 255);
        const unsigned want = flag == 1 || (flag == 0 && at == 0) ? 0 : 11;
        read_vector(12, b, 42, want);
        read_new_vector(12, b, 42, want);
    }
    for (unsigned i = 0; i < last_likes; i++) {
        image_store(&s[1], b);
        b[39] = (uint8_t)(last_like[i] >> 16);
        b[40] = (uint8_t)(last_like[i] >> 8);
        b[41] = (uint8_t)last_like[i];
        read_vector(12, b, 42, 11);
        read_new_vector(12, b, 42, 11);
        b[38] = 0;
        read_vector(12, b, 42, 11);
    }

    /* each byte of an A2 image; the number's last two of another; flag and number where none is known */
    image_store(&s[1], b);
    sweep(b, IMAGE_BYTES, 0);
    image_store(&s[2], b);
    sweep(b, IMAGE_BYTES, 40);
    image_store(&s[3], b);
    sweep(b, IMAGE_BYTES, 38);
    image_store_old(&s[0], b);
    sweep(b, OLD_IMAGE_BYTES, 0);
}

/* ---- group 13: rescues ---- */

static void rescue(const uint8_t *image, unsigned fields) { rescue_vector(image, IMAGE_BYTES, 0, fields); }

/* A place that is held and sound becomes unsound by itself. The ways before OTHER_PARTNER leave its
 * partner as it is. */
enum { OTHER_PARTNER = 11, PLACE_WAYS = 18 };

static void spoil_place(uint8_t *p, unsigned how, unsigned tries_most)
{
    const bool open = p[0] == OPEN;
    switch (how % PLACE_WAYS) {
    case 0: p[0] = 0; if (p[2] == 0) p[2] = 1; break;     /* free, with other bytes than zeros */
    case 1: p[0] = 6; break;
    case 2: p[0] = 255; break;
    case 3: p[1] = 2; break;
    case 4: p[1] = 255; break;
    case 5: p[2] = (uint8_t)(open ? 1 : tries_most + 1); break;
    case 6: p[2] = (uint8_t)(open ? tries_most : 0); break;
    case 7: p[2] = 255; break;
    case 8: p[0] = 1; p[1] = 1; p[2] = 1; break;          /* Connecting, Contacting incoming */
    case 9: p[0] = 2; p[1] = 1; p[2] = 1; break;
    case 10: p[0] |= 8; break;
    case 11: p[3] = 2; break;
    case 12: p[3] = 255; break;
    case 13: p[1] = p[3] = 1; break;                      /* an RIU incoming */
    case 14: p[3] = 0; p[5] |= 0x3F; p[6] = 255; break;   /* an RBC that means the last known one */
    case 15: p[3] = 0; p[5] = 255; p[6] = 255; break;
    case 16: memset(p, 0, 7); p[6] = 1; break;            /* free, with one byte more */
    default: memset(p, 255, 7); break;
    }
}

/* A field becomes bad by itself, whatever the other fields are. */
static void spoil_field(uint8_t *b, unsigned f, unsigned how)
{
    static const uint8_t over[8] = {1, 2, 250, 255, 4, 64, 128, 3};    /* what a number is over its greatest */
    if (f < 6) {
        static const uint8_t most[6] = {4, 2, 1, 1, 1, 1};
        const unsigned v = most[f] + over[how % 8];
        b[3 + f] = (uint8_t)(v > 255 ? 255 : v);
    } else if (f < 10) {
        spoil_place(b + 9 + 7 * (f - 6), how, b[37]);
    } else {
        static const uint8_t bad[8][4] = {
            {2, 0, 0, 5}, {0, 0, 0, 5}, {1, 0, 0x3F, 0xFF}, {0, 1, 0, 0}, {255, 255, 255, 255},
            {1, 0xFF, 0xFF, 0xFF}, {128, 0, 0, 0}, {0, 0, 1, 0},
        };
        memcpy(b + 38, bad[how % 8], 4);
    }
}

/* Three sound images: all places held; one place held by RBC 0, none known; something between. */
static void rescue_image(uint8_t *b, unsigned which)
{
    State s;
    if (which == 0) {
        s = with_n(2, 5, 6);
        s.level = 3;
        s.mission = 2;
        set_marks(&s, 7);
        hold(&s, 0, 0x00C720FF, OPEN, INCOMING, 0);
        hold(&s, 1, 0x01C720FF, CONTACTING, OUTGOING, 6);
        hold(&s, 2, 0x00C77F20, LOST, INCOMING, 4);
        hold(&s, 3, 0x01C7BFFF, ENDING, OUTGOING, 1);
        s.last = KNOWN | 0x00413F20;
    } else if (which == 1) {
        s = with_n(0, 7, 1);
        set_marks(&s, 8);
        hold(&s, 2, 0x00000000, ENDING, OUTGOING, 1);
    } else {
        s = with_n(7, 7, 9);
        s.level = 4;
        s.mission = 1;
        set_marks(&s, 4);
        hold(&s, 0, 0x01000000, LOST, OUTGOING, 9);
        hold(&s, 2, 0x00000001, CONNECTING, OUTGOING, 5);
        hold(&s, 3, 0x00000101, OPEN, OUTGOING, 0);
        s.last = KNOWN;
    }
    image_store(&s, b);
}

/* Four partners of which the first has but one byte other than each of the others. */
static void near_image(uint8_t *b, unsigned turn)
{
    static const uint32_t who[4] = {A, A_RIU, A_1, A_3};
    State s = with_n(1, 2, 3 + turn % 7);
    set_head(&s, turn);
    for (unsigned i = 0; i < PLACES; i++)
        hold_form(&s, (i + turn) % 4, who[i], 3 * turn + 7 * i);
    s.last = turn % 2 ? KNOWN | A : 0;
    image_store(&s, b);
}

static void random_image(Rng *g, uint8_t *b)
{
    uint8_t lowest, highest;
    gen_x(g, &lowest, &highest);
    State s = with_n(lowest, highest, gen_n(g));
    set_head(&s, rng_below(g, 180));
    if (rng_below(g, 2))
        s.last = KNOWN | (rng_below(g, 2) ? rng_below(g, 5) : rng_below(g, 1u << 24) & ~1u);
    for (unsigned i = 0; i < PLACES; i++) {
        const uint32_t type = rng_below(g, 2);
        const uint32_t who = type << 24 | (rng_below(g, 3) ? rng_below(g, 5) : rng_below(g, 1u << 24) & ~1u);
        const unsigned phase = rng_below(g, 7) % 6;
        const unsigned direction = rng_below(g, 2), tries = 1 + rng_below(g, s.n);
        bool again = phase == FREE;
        for (unsigned j = 0; j < i; j++)
            again |= s.phase[j] != FREE && s.partner[j] == who;
        if (!again)
            hold(&s, i, who, phase, phase >= OPEN && type == RBC ? direction : OUTGOING, phase == OPEN ? 0 : tries);
    }
    image_store(&s, b);
}

/* A value for the byte at this offset: one at an edge, one bit turned, that of another place, any. */
static uint8_t another_value(Rng *g, const uint8_t *b, unsigned at)
{
    static const uint8_t edges[20] = {0, 1, 2, 3, 4, 5, 6, 7, 8, 9, 10, 63, 64, 127, 128, 191, 192, 254, 255, 1};
    switch (rng_below(g, 4)) {
    case 0: return edges[rng_below(g, 20)];
    case 1: return (uint8_t)(b[at] ^ 1u << rng_below(g, 8));
    case 2: return at >= 9 && at < 37 ? b[9 + (at - 9 + 7 * (1 + rng_below(g, 3))) % 28] : edges[rng_below(g, 4)];
    default: return (uint8_t)rng_next(g);
    }
}

/* Where a byte is changed: behind the X numbers, n seldom. */
static unsigned another_place(Rng *g)
{
    const unsigned at = 3 + rng_below(g, 39);
    return at == 37 && rng_below(g, 4) ? 38 : at;
}

static void rescue_refusals(void)
{
    uint8_t b[256], good[256], spoilt[256];
    memset(good, 0, sizeof good);
    rescue_image(good, 0);
    memcpy(spoilt, good, sizeof spoilt);
    for (unsigned f = 0; f < RESCUE_MOST; f++)
        spoil_field(spoilt, f, f + 1);
    rescue(spoilt, (1 << RESCUE_MOST) - 1);
    memset(good + 42, 0x5A, sizeof good - 42);
    rescue_vector(good, 0, 1, 0);

    /* every kind, with 42 bytes, with one byte, and with lengths that are not A2's */
    for (unsigned kind = 0; kind < 256; kind++) {
        memcpy(b, kind % 2 ? good : spoilt, sizeof b);
        b[0] = (uint8_t)kind;
        if (kind != 0xA2)
            rescue_vector(b, 42, 2, 0);
        rescue_vector(b, 1, kind == 0xA2 ? 1 : 2, 0);
        if (kind % 16 == 5 || (kind > 0x9F && kind < 0xA4))
            for (unsigned length = 36; length < 46; length++)
                if (length != 42)
                    rescue_vector(b, length, kind == 0xA2 ? 1 : 2, 0);
        if (kind % 4 == 1) {                   /* the kind before the X numbers and n */
            static const uint8_t at[4] = {1, 2, 37, 37}, bad[4] = {6, 9, 0, 10};
            b[at[kind / 4 % 4]] = bad[kind / 4 % 4];
            rescue_vector(b, 42, 2, 0);
        }
    }
    /* every length of A2, sound or not, the X numbers good or not; every length of A1 */
    for (unsigned length = 1; length < 256; length += length < 64 ? 1 : 19) {
        if (length != 42) {
            rescue_vector(good, length, 1, 0);
            memcpy(b, spoilt, sizeof b);
            rescue_vector(b, length, 1, 0);
            b[1 + length % 2] = 8;
            rescue_vector(b, length, 1, 0);
            b[37] = (uint8_t)(length % 2 ? 0 : 10);
            rescue_vector(b, length, 1, 0);
        }
        memcpy(b, length % 2 ? good : spoilt, sizeof b);
        b[0] = 0xA1;
        rescue_vector(b, length, 2, 0);
    }
    /* the images that an old box wrote, and those with what A1 cannot hold */
    State s[8];
    const unsigned c = kind_states(s);
    for (unsigned i = 0; i < c; i++) {
        memset(b, 0, sizeof b);
        image_store_old(&s[i], b);
        rescue_vector(b, 37, 2, 0);
        rescue_vector(b, 42, 2, 0);
        b[3] = 5;
        rescue_vector(b, 37, 2, 0);
        image_store(&s[i], b);
        rescue_vector(b, 37, 1, 0);
        rescue(b, 0);
    }

    /* the X numbers and n: all values, the rest sound, or all of it bad */
    for (unsigned v = 0; v < 256; v++)
        for (unsigned k = 0; k < 4; k++) {
            static const uint8_t other[4] = {0, 7, 3, 5};
            memcpy(b, k % 2 ? good : spoilt, sizeof b);
            const unsigned all = k % 2 ? 0 : (1 << RESCUE_MOST) - 1;
            b[1] = (uint8_t)v;
            b[2] = other[k];
            rescue_vector(b, 42, v <= other[k] ? 0 : 11, v <= other[k] ? all : 0);
            b[1] = other[k];
            b[2] = (uint8_t)v;
            rescue_vector(b, 42, v <= 7 && v >= other[k] ? 0 : 11, v <= 7 && v >= other[k] ? all : 0);
            if (k < 2) {
                rescue_image(b, 1);            /* sound with every n */
                for (unsigned f = 0; f < RESCUE_MOST && k == 0; f++)
                    if (f < 6 || f == 8 || f == 10)
                        spoil_field(b, f, 2);
                b[37] = (uint8_t)v;
                rescue_vector(b, 42, v >= 1 && v <= 9 ? 0 : 11, v >= 1 && v <= 9 ? (k == 0 ? 0x53F : 0) : 0);
            }
        }
    for (unsigned low = 0; low < 10; low++)
        for (unsigned high = 0; high < 10; high++) {
            rescue_image(b, 2);
            b[1] = (uint8_t)low;
            b[2] = (uint8_t)high;
            rescue_vector(b, 42, low <= high && high <= 7 ? 0 : 11, 0);
        }
}

/* Each byte at all 256 values; 'edges': at those of edge_value. */
static void rescue_sweep(const uint8_t *image, bool edges)
{
    uint8_t b[IMAGE_BYTES];
    memcpy(b, image, sizeof b);
    for (unsigned at = 0; at < IMAGE_BYTES; at++) {
        for (unsigned v = 0; v < 256; v++) {
            if (edges && !(v <= 10 || (v & 63) == 63 || v == 128 || (v + 2 > image[at] && v < image[at] + 2u)))
                continue;
            b[at] = (uint8_t)v;
            rescue_vector(b, IMAGE_BYTES, ANY, NO_HAND);
        }
        b[at] = image[at];
    }
}

/* Marks, level and mission. */
static void rescue_heads(void)
{
    static const uint8_t values[7] = {0, 1, 2, 7, 128, 129, 255};
    uint8_t b[IMAGE_BYTES];
    for (unsigned which = 0; which < 2; which++)
        for (unsigned i = 0; i < 7; i++)
            for (unsigned j = 0; j < 7; j++) {         /* inside, hole end: the ranges first */
                rescue_image(b, which);
                const unsigned inside = values[i], hole_end = values[j];
                b[5] = (uint8_t)inside;
                b[8] = (uint8_t)hole_end;
                rescue(b, (inside > 1 ? 4 : 0) | (hole_end > 1 || (inside == 1 && hole_end == 1) ? 32 : 0));
                b[6] = values[(i + j) % 7];
                b[7] = values[(i + 2 * j) % 7];
                rescue(b, (inside > 1 ? 4 : 0) | (b[6] > 1 ? 8 : 0) | (b[7] > 1 ? 16 : 0) |
                       (hole_end > 1 || (inside == 1 && hole_end == 1) ? 32 : 0));
            }
    for (unsigned k = 0; k < 16; k++) {                /* all sixteen values of the marks, level and mission */
        rescue_image(b, k % 3);
        for (unsigned m = 0; m < 4; m++)
            b[5 + m] = k >> (3 - m) & 1;
        for (unsigned level = 0; level <= 5; level++)
            for (unsigned mission = 0; mission <= 3; mission++) {
                b[3] = (uint8_t)level;
                b[4] = (uint8_t)mission;
                if ((level + mission + k) % 2 == 0)
                    rescue(b, (level > 4) | (mission > 2 ? 2 : 0) | ((k & 9) == 9 ? 32 : 0));
            }
    }
    /* every value beside a mark that is 1 or bad */
    for (unsigned v = 0; v < 256; v += v < 16 ? 1 : 17) {
        rescue_image(b, 1);
        b[5] = (uint8_t)v;
        b[8] = 1;
        rescue(b, v == 1 ? 32 : v > 1 ? 4 : 0);
        b[5] = 1;
        b[8] = (uint8_t)v;
        rescue(b, v > 0 ? 32 : 0);
        b[5] = b[8] = (uint8_t)v;
        rescue(b, v > 1 ? 36 : v == 1 ? 32 : 0);
    }
}

/* Every (phase 0 to 6, direction 0 to 2, tries 0 to 10, type 0 to 2) with each n, four to an image, each with a
 * partner of its own. */
static void rescue_forms(void)
{
    uint8_t b[IMAGE_BYTES];
    for (unsigned most = 1; most <= 9; most++) {
        unsigned fields = 0, held = 0;
        for (unsigned k = 0; k < 7 * 3 * 11 * 3; k++) {
            /* neighbours are of different phases, so that an image has places of several kinds */
            const unsigned j = k * 223 % (7 * 3 * 11 * 3);
            const unsigned phase = j / 99, direction = j / 33 % 3, tries = j / 3 % 11, type = j % 3;
            if (held == 0) {
                rescue_image(b, most % 3);
                memset(b + 9, 0, 28);
                b[37] = (uint8_t)most;
            }
            uint8_t *const p = b + 9 + 7 * held;
            p[0] = (uint8_t)phase;
            p[1] = (uint8_t)direction;
            p[2] = (uint8_t)tries;
            p[3] = (uint8_t)type;
            p[6] = (uint8_t)(phase ? 5 + held : 0);
            bool good;
            if (phase == 0)
                good = direction == 0 && tries == 0 && type == 0;
            else
                good = phase <= 5 && type <= 1 && direction <= (type == 0 && phase >= 3) &&
                       (phase == 3 ? tries == 0 : tries >= 1 && tries <= most);
            if (!good)
                fields |= 64u << held;
            if (++held == PLACES || k + 1 == 7 * 3 * 11 * 3) {
                rescue(b, fields);
                fields = held = 0;
            }
        }
    }
}

/* Numbers that no RBC may have, and their neighbours; free places with other bytes; the last known RBC. */
static void rescue_numbers(void)
{
    uint8_t b[IMAGE_BYTES];
    for (unsigned i = 0; i < last_likes + miss_likes; i++) {
        const bool like = i < last_likes;
        const uint32_t who = like ? last_like[i] : miss_like[i - last_likes];
        State s = with_n(1, 2, 3);
        set_head(&s, i);
        const unsigned place = i % 4;
        for (unsigned k = 0; k < PLACES; k++)
            hold_form(&s, k, 0x00000700 + k, i + 5 * k);
        hold_form(&s, place, who, i);
        hold_form(&s, (place + 1) % 4, 0x01000000 | who, i + 3);
        image_store(&s, b);
        rescue(b, like ? 64u << place : 0);
        for (unsigned flag = 0; flag < 3; flag++) {
            b[38] = (uint8_t)flag;
            memcpy(b + 39, b + 9 + 7 * place + 4, 3);
            rescue(b, (like ? 64u << place : 0) | (flag == 1 && !like ? 0 : 1024));
        }
        b[38] = 1;                             /* the last alone */
        b[9 + 7 * place + 6] ^= 8;
        b[9 + 7 * place + 5] &= 0xFE;
        rescue(b, like ? 1024 : 0);
    }
    for (unsigned flag = 0; flag < 256; flag++)
        for (unsigned at = 0; at < 4; at++) {
            if (flag > 3 && flag % 16 != at)
                continue;
            rescue_image(b, flag % 3);
            memset(b + 38, 0, 4);
            b[38] = (uint8_t)flag;
            if (at > 0)
                b[38 + at] = (uint8_t)(flag % 2 ? 255 : 1);
            rescue(b, flag == 1 || (flag == 0 && at == 0) ? 0 : 1024);
        }
    /* a free place: each byte, each place, below and above held ones */
    for (unsigned place = 0; place < PLACES; place++)
        for (unsigned at = 1; at < 7; at++)
            for (unsigned v = 1; v < 256; v = v < 4 ? v + 1 : v < 128 ? 2 * v : v + 127) {
                near_image(b, place + at);
                memset(b + 9 + 7 * place, 0, 7);
                rescue(b, 0);
                b[9 + 7 * place + at] = (uint8_t)v;
                rescue(b, 64u << place);
                const uint8_t *const other = b + 9 + 7 * ((place + at) % 4);
                if (other != b + 9 + 7 * place) {      /* all of a held place but its phase */
                    memcpy(b + 9 + 7 * place + 1, other + 1, 6);
                    rescue(b, 64u << place);
                }
            }
}

/* Each place free, held by one of two partners, or by one of them and unsound. */
static void rescue_chains(void)
{
    static const uint32_t two[3][2] = {{A, A_RIU}, {0x00000000, 0x01000000}, {0x01FFFFFF, 0x00FFFFFE}};
    uint8_t b[IMAGE_BYTES];
    for (unsigned set = 0; set < 3; set++)
        for (unsigned k = 0; k < 625; k++) {
            static const unsigned power[4] = {1, 5, 25, 125};
            unsigned kind[4], fields = 0;
            State s = with_n(0, 7, 3 + (set + k) % 7);
            set_head(&s, k + set);
            for (unsigned i = 0; i < PLACES; i++) {
                kind[i] = k / power[i] % 5;    /* 0 free, 1 and 2 sound, 3 and 4 the same but unsound */
                if (kind[i] > 0)
                    hold_form(&s, i, two[set][(kind[i] - 1) % 2], k + 7 * i + set);
            }
            image_store(&s, b);
            for (unsigned i = 0; i < PLACES; i++) {
                bool bad = kind[i] > 2;
                if (bad)
                    spoil_place(b + 9 + 7 * i, (k + 3 * i + set) % OTHER_PARTNER, s.n);
                for (unsigned j = 0; j < i; j++)
                    bad |= kind[i] > 0 && kind[i] < 3 && kind[j] == kind[i];
                if (bad)
                    fields |= 64u << i;
            }
            rescue(b, fields);
        }
    /* one partner in all places that are held: every choice of places, of those that are unsound, each way */
    for (unsigned held = 1; held < 16; held++)
        for (unsigned bad = 0; bad < 16; bad++)
            for (unsigned how = 0; how < OTHER_PARTNER && !(bad & ~held); how += bad ? 1 : 4) {
                unsigned fields = 0, kept = 0;
                State s = with_n(3, 4, 9);
                for (unsigned i = 0; i < PLACES; i++)
                    if (held >> i & 1)
                        hold_form(&s, i, how % 3 ? A : 0, how + 3 * i);
                s.last = KNOWN | A;
                image_store(&s, b);
                for (unsigned i = 0; i < PLACES; i++) {
                    if (bad >> i & 1)
                        spoil_place(b + 9 + 7 * i, how, 9);
                    if ((bad >> i & 1) || (held >> i & kept & 1))
                        fields |= 64u << i;
                    else
                        kept |= held >> i & 1;
                }
                rescue(b, fields);
            }
}

/* Two bytes changed, or few, by what they do; then any two, any number. */
static void rescue_pairs(unsigned pairs, unsigned many)
{
    uint8_t b[IMAGE_BYTES], from[IMAGE_BYTES];
    /* a place gets the byte of another place; a second place gets one too, or is spoilt */
    for (unsigned turn = 0; turn < 4; turn++)
        for (unsigned one = 0; one < 6; one++)
            for (unsigned other = 0; other < 6 + 4 * PLACE_WAYS; other++) {
                if (other >= 6 && (one + other + turn) % 2)
                    continue;
                near_image(from, turn);
                memcpy(b, from, sizeof b);
                for (unsigned k = 0; k < 2; k++) {
                    const unsigned act = k == 0 ? one : other;
                    static const uint8_t at[3] = {3, 4, 6};            /* where the first partner has another byte */
                    if (act < 6) {
                        const unsigned first = turn % 4, second = (turn + 1 + act % 3) % 4;
                        const unsigned to = act < 3 ? first : second, of = act < 3 ? second : first;
                        b[9 + 7 * to + at[act % 3]] = from[9 + 7 * of + at[act % 3]];
                    } else {
                        spoil_place(b + 9 + 7 * (act % 4), act / 4, b[37]);
                    }
                }
                rescue(b, NO_HAND);
            }
    Rng g = {0x5E5C0E};
    for (unsigned k = 0; k < pairs + many; k++) {
        if (k % 4 == 0)
            rescue_image(b, k / 4 % 3);
        else if (k % 4 == 1)
            near_image(b, k);
        else
            random_image(&g, b);
        const unsigned changes = k < pairs ? 2 : 3 + rng_below(&g, k % 2 ? 6 : 30);
        for (unsigned i = 0; i < changes; i++) {
            const unsigned at = another_place(&g);
            b[at] = another_value(&g, b, at);
        }
        if (k >= pairs && k % 8 == 7)          /* anything at all, with X numbers and n that are good */
            for (unsigned at = 3; at < IMAGE_BYTES; at++)
                if (at != 37)
                    b[at] = (uint8_t)rng_next(&g);
        if (k >= pairs && k % 16 == 9)
            b[1 + k / 16 % 2] = another_value(&g, b, 1);
        rescue_vector(b, IMAGE_BYTES, ANY, NO_HAND);
    }
}

/* Sound images: no byte changes. */
static void rescue_sound(unsigned images)
{
    uint8_t b[IMAGE_BYTES];
    Rng g = {0x50D};
    for (unsigned low = 0; low <= 7; low++)
        for (unsigned high = low; high <= 7; high++) {
            const State s = with_n(low, high, 1 + (low + 3 * high) % 9);
            image_store(&s, b);
            rescue(b, 0);
        }
    for (unsigned k = 0; k < 180; k += 3) {
        near_image(b, k);
        rescue(b, 0);
    }
    for (unsigned k = 0; k < images; k++) {
        random_image(&g, b);
        rescue(b, 0);
    }
}

static void rescues(void)
{
    uint8_t b[IMAGE_BYTES];
    rescue_refusals();
    rescue_sound(400);
    rescue_heads();
    rescue_forms();
    rescue_numbers();
    rescue_chains();
    /* every choice of bad fields, in changing ways */
    for (unsigned fields = 0; fields < 1 << RESCUE_MOST; fields++) {
        rescue_image(b, 0);
        for (unsigned f = 0; f < RESCUE_MOST; f++)
            if (fields >> f & 1)
                spoil_field(b, f, fields % 37 + 5 * f);
        rescue(b, fields);
    }
    rescue_pairs(2000, 2000);
    for (unsigned which = 0; which < 3; which++) {
        rescue_image(b, which);
        rescue_sweep(b, which == 2);
    }
}

/* ---- the program ---- */

static void make_all(void)
{
    cells();
    refusals();
    fields();
    orders();
    unsounds();
    images();
    buffers();
    runs();
    histories();
    tries();
    last();
    kinds();
    rescues();
}

static void list(void)
{
    size_t vectors_of[GROUPS + 1] = {0}, bytes_of[GROUPS + 1] = {0}, op_of[GROUPS + 1][OPS + 1] = {{0}};
    for (size_t i = 0; i < count; i++) {
        vectors_of[vectors[i].group]++;
        bytes_of[vectors[i].group] += vectors[i].length + 2;
        op_of[vectors[i].group][vectors[i].op]++;
    }
    for (int g = 1; g <= GROUPS; g++) {
        printf("group %-2d %-9s %5zu vectors %8zu bytes  ", g, group_name[g], vectors_of[g], bytes_of[g]);
        for (int o = 1; o <= OPS; o++)
            if (op_of[g][o])
                printf(" op %d: %zu", o, op_of[g][o]);
        putchar('\n');
    }
    printf("all                %5zu vectors %8zu bytes\n", count, used);
}

static int put_file(const char *name, const uint8_t *b, size_t length)
{
    FILE *const f = fopen(name, "wb");
    if (!f || fwrite(b, 1, length, f) != length || fclose(f) != 0) {
        perror(name);
        return 1;
    }
    return 0;
}

int main(int argc, char **argv)
{
    if (argc == 2 && strcmp(argv[1], "list") == 0) {
        make_all();
        list();
        return 0;
    }
    if (argc == 3 && (strcmp(argv[1], "write") == 0 || strcmp(argv[1], "write-full") == 0)) {
        full = strcmp(argv[1], "write-full") == 0;
        make_all();
        return put_file(argv[2], bytes, used);
    }
    fputs("usage: vectors list | write FILE | write-full FILE\n", stderr);
    return 2;
}
