/* check_vectors FILE [MOST]: runs each vector of the file through the model it is linked with.
 * Prints the first MOST failures (10 if not given), then for each group the number of vectors
 * and of failures. Gives 0 if all is well, 1 if a vector failed, 2 if the file is not well
 * formed. */
#include "model.h"

#include <stdio.h>
#include <stdlib.h>
#include <string.h>

enum { GROUPS = 13, OPS = 12, BODY_MOST = 8000, STATE_BYTES = IMAGE_BYTES - 1, GUARD = 64 };

static const uint8_t *at, *stop;       /* what is left of the body */
static size_t number;                  /* of the vector, from 1 */
static char why[160];                  /* of the failure, empty: none */

static void malformed(const char *text)
{
    fprintf(stderr, "vector %zu: not well formed: %s\n", number, text);
    exit(2);
}

static const uint8_t *take(size_t length)
{
    if ((size_t)(stop - at) < length)
        malformed("body too short");
    const uint8_t *const b = at;
    at += length;
    return b;
}

static unsigned u8(void) { return take(1)[0]; }
static unsigned u16(void) { const uint8_t *const b = take(2); return (unsigned)b[0] << 8 | b[1]; }

static uint32_t u32(void)
{
    const uint32_t high = u16();
    return high << 16 | u16();
}

static void load(State *s, const uint8_t *b)
{
    memset(s, 0, sizeof *s);
    uint8_t *const m[4] = {&s->inside, &s->mode, &s->manual, &s->hole_end};
    s->lowest = b[0];
    s->highest = b[1];
    s->level = b[2];
    s->mission = b[3];
    for (int i = 0; i < 4; i++)
        *m[i] = b[4 + i];
    for (int i = 0; i < PLACES; i++) {
        const uint8_t *const p = b + 8 + 7 * i;
        s->phase[i] = p[0];
        s->direction[i] = p[1];
        s->tries[i] = p[2];
        s->partner[i] = (uint32_t)p[3] << 24 | (uint32_t)p[4] << 16 | (uint32_t)p[5] << 8 | p[6];
    }
    s->n = b[36];
    s->last = (uint32_t)b[37] << 24 | (uint32_t)b[38] << 16 | (uint32_t)b[39] << 8 | b[40];
}

static void store(const State *s, uint8_t *b)
{
    const uint8_t head[8] = {s->lowest, s->highest, s->level, s->mission,
                             s->inside, s->mode, s->manual, s->hole_end};
    memcpy(b, head, 8);
    for (int i = 0; i < PLACES; i++) {
        uint8_t *const p = b + 8 + 7 * i;
        p[0] = s->phase[i];
        p[1] = s->direction[i];
        p[2] = s->tries[i];
        for (int k = 0; k < 4; k++)
            p[3 + k] = (uint8_t)(s->partner[i] >> (24 - 8 * k));
    }
    b[36] = s->n;
    for (int k = 0; k < 4; k++)
        b[37 + k] = (uint8_t)(s->last >> (24 - 8 * k));
}

/* The rules that every state in the file keeps, sound or not. */
static void state_rules(const uint8_t *b)
{
    for (int i = 4; i < 8; i++)
        if (b[i] > 1)
            malformed("a mark over 1");
    for (int i = 0; i < PLACES; i++) {
        static const uint8_t zero[7];
        const uint8_t *const p = b + 8 + 7 * i;
        if (p[0] > 5 || p[1] > 1 || (p[0] == 3 && p[2] != 0) || (p[0] == 0 && memcmp(p, zero, 7) != 0))
            malformed("a place that cannot be held");
    }
    if (b[37] > 1 || (b[37] == 0 && (b[38] || b[39] || b[40])))
        malformed("a last known RBC that cannot be held");
}

static void state_in(State *s)
{
    const uint8_t *const b = take(STATE_BYTES);
    state_rules(b);
    load(s, b);
}

static void differ(const char *what, unsigned long got, unsigned long want)
{
    if (got != want && why[0] == '\0')
        snprintf(why, sizeof why, "%s %lu, expected %lu", what, got, want);
}

static void differ_bytes(const char *what, const uint8_t *got, const uint8_t *want, size_t length)
{
    for (size_t i = 0; i < length; i++)
        if (got[i] != want[i] && why[0] == '\0')
            snprintf(why, sizeof why, "%s, byte %zu: %u, expected %u", what, i, got[i], want[i]);
}

static void state_expected(const State *s)
{
    const uint8_t *const want = take(STATE_BYTES);
    uint8_t got[STATE_BYTES];
    state_rules(want);
    store(s, got);
    differ_bytes("state", got, want, STATE_BYTES);
    differ("bytes beside the state", s->zero[0] | s->zero[1] | s->zero[2], 0);
}

/* A lent buffer with a guard before and behind. */
static uint8_t area[GUARD + 256 + GUARD];

static uint8_t *lend(size_t length, uint8_t fill)
{
    memset(area, ~fill & 255, sizeof area);
    memset(area + GUARD, fill, length);
    return area + GUARD;
}

static void guard(size_t length, uint8_t fill)
{
    for (size_t i = 0; i < sizeof area; i++)
        if ((i < GUARD || i >= GUARD + length) && area[i] != (~fill & 255) && why[0] == '\0')
            snprintf(why, sizeof why, "written outside the buffer");
}

static void cold_start_vector(void)
{
    State s;
    const uint8_t lowest = (uint8_t)u8(), highest = (uint8_t)u8(), tries = (uint8_t)u8();
    memset(&s, 0xEE, sizeof s);
    const uint8_t code = cold_start(&s, lowest, highest, tries);
    differ("code", code, u8());
    state_expected(&s);
}

static void cold_default_vector(void)
{
    State s;
    const uint8_t lowest = (uint8_t)u8(), highest = (uint8_t)u8();
    memset(&s, 0xEE, sizeof s);
    const uint8_t code = cold_start_default(&s, lowest, highest);
    differ("code", code, u8());
    state_expected(&s);
}

/* Code, count, place, phase of a step; gives the count expected. */
static unsigned answer_expected(StepResult x)
{
    differ("code", x.code, u8());
    const unsigned count = u8();
    differ("count", x.count, count);
    differ("place", x.place, u8());
    differ("phase", x.phase, u8());
    return count;
}

static void step_vector(void)
{
    State s;
    state_in(&s);
    const size_t length = u8();
    const uint8_t *const record = take(length);
    const size_t buffer = u8();
    const uint8_t fill = (uint8_t)u8();
    uint8_t *const actions = lend(buffer, fill);
    const StepResult x = step(&s, record, length, actions, buffer);
    answer_expected(x);
    state_expected(&s);
    differ_bytes("buffer", actions, take(buffer), buffer);
    guard(buffer, fill);
}

static void store_vector(uint8_t (*write)(const State *, uint8_t *, size_t), unsigned bytes)
{
    State s;
    state_in(&s);
    const size_t buffer = u8();
    const uint8_t fill = (uint8_t)u8();
    uint8_t *const image = lend(buffer, fill);
    const uint8_t code = write(&s, image, buffer);
    differ("code", code, u8());
    differ("count", code == 0 ? bytes : 0, u8());
    state_expected(&s);
    differ_bytes("buffer", image, take(buffer), buffer);
    guard(buffer, fill);
}

static void store_a2_vector(void) { store_vector(image_write, IMAGE_BYTES); }
static void store_a1_vector(void) { store_vector(image_write_old, OLD_IMAGE_BYTES); }

static void load_vector(uint8_t (*read)(State *, const uint8_t *, size_t))
{
    State s;
    memset(&s, 0xEE, sizeof s);
    const size_t length = u8();
    const uint8_t *const image = take(length);
    const uint8_t code = read(&s, image, length);
    differ("code", code, u8());
    state_expected(&s);
}

static void load_any_vector(void) { load_vector(image_read); }
static void load_new_vector(void) { load_vector(image_read_new); }

static void rescue_vector(void)
{
    enum { UNTOUCHED = 0xEE };
    uint8_t listed[GUARD], found = UNTOUCHED;
    const size_t length = u8();
    const uint8_t *const given = take(length);
    uint8_t *const image = lend(length, 0);
    if (length > 0)
        memcpy(image, given, length);
    memset(listed, UNTOUCHED, sizeof listed);
    const uint8_t code = image_rescue(image, length, listed, &found);
    differ("code", code, u8());
    const unsigned fields = u8();
    if (fields > RESCUE_MOST)
        malformed("more than eleven fields");
    differ("count", found, fields);
    differ_bytes("listed field", listed, take(fields), fields);
    for (size_t i = fields; i < sizeof listed; i++)
        differ("byte behind the list", listed[i], UNTOUCHED);
    differ_bytes("image", image, take(length), length);
    guard(length, 0);
}

static void run_expected(const State *before, const uint8_t *log, size_t length, uint32_t budget)
{
    const uint8_t *const here = at;
    for (int once = 0; once < 2; once++) {
        State s = *before;
        RunResult x;
        static const char *const action[6] = {"total of 21", "total of 22", "total of 154",
                                              "total of 155", "total of 156", "total of 159"};
        memset(&x, 0xEE, sizeof x);
        at = here;
        (once ? run_once : run_checked)(&s, log, length, budget, &x);
        differ("code", x.code, u8());
        differ("stop", x.stop, u8());
        differ("offset", x.offset, u32());
        differ("read", x.read, u32());
        differ("refused", x.refused, u32());
        for (int i = 0; i < 6; i++)
            differ(action[i], x.total[i], u32());
        state_expected(&s);
    }
}

static void run_vector(void)
{
    State s;
    state_in(&s);
    const uint32_t budget = u32();
    const size_t length = u16();
    run_expected(&s, take(length), length, budget);
}

static void long_run_vector(void)
{
    static uint8_t log[LOG_MOST + 1];
    State s;
    state_in(&s);
    const uint32_t budget = u32();
    const size_t length = u32();
    const size_t pattern = u8();
    const uint8_t *const b = take(pattern);
    if (length > sizeof log || pattern == 0)
        malformed("log or pattern");
    for (size_t i = 0; i < length; i++)
        log[i] = b[i % pattern];
    run_expected(&s, log, length, budget);
}

static void history_vector(void)
{
    State s;
    const uint8_t lowest = (uint8_t)u8(), highest = (uint8_t)u8(), tries = (uint8_t)u8();
    const unsigned records = u16();
    memset(&s, 0xEE, sizeof s);
    differ("cold start", cold_start(&s, lowest, highest, tries), 0);
    for (unsigned i = 0; i < records; i++) {
        const size_t length = u8();
        const uint8_t *const record = take(length);
        uint8_t *const actions = lend(ACTION_BUFFER, 0x5A);
        const StepResult x = step(&s, record, length, actions, ACTION_BUFFER);
        const unsigned count = answer_expected(x);
        if (count > 4)
            malformed("more than four actions");
        differ_bytes("actions", actions, take((size_t)ACTION_BYTES * count), (size_t)ACTION_BYTES * count);
    }
    state_expected(&s);
}

static void choice(uint8_t p[7], unsigned place, unsigned c)
{
    memset(p, 0, 7);
    if (c == 0)
        return;
    p[0] = (uint8_t)(c <= 5 ? c : c - 5);
    p[2] = p[0] != 3;
    p[3] = c > 5;
    p[6] = (uint8_t)(0x20 + place);
}

static void mix_vector(void)
{
    uint8_t b[STATE_BYTES], after[STATE_BYTES];
    memcpy(b, take(8 + 7 + 7), 8 + 7 + 7);
    memcpy(b + 36, take(5), 5);
    const size_t length = u8();
    const uint8_t *const record = take(length);
    for (unsigned j = 0; j <= 10; j++)
        for (unsigned k = 0; k <= 10; k++) {
            State s;
            choice(b + 22, 2, j);
            choice(b + 29, 3, k);
            state_rules(b);
            load(&s, b);
            uint8_t *const actions = lend(ACTION_BUFFER, 0x5A);
            const StepResult x = step(&s, record, length, actions, ACTION_BUFFER);
            const unsigned count = answer_expected(x);
            if (count > 4)
                malformed("more than four actions");
            differ_bytes("actions", actions, take((size_t)ACTION_BYTES * count), (size_t)ACTION_BYTES * count);
            store(&s, after);
            differ_bytes("places", after + 8, take(28), 28);
            differ_bytes("last known RBC", after + 37, take(4), 4);
            differ_bytes("X numbers", after, b, 2);
            differ_bytes("n", after + 36, b + 36, 1);
        }
}

int main(int argc, char **argv)
{
    static void (*const operation[OPS + 1])(void) = {
        NULL, cold_start_vector, step_vector, store_a2_vector, load_any_vector,
        run_vector, long_run_vector, history_vector, mix_vector, cold_default_vector,
        store_a1_vector, load_new_vector, rescue_vector,
    };
    static uint8_t file[12u << 20];
    size_t vectors[GROUPS + 1] = {0}, failed[GROUPS + 1] = {0}, all_failed = 0;

    if (argc != 2 && argc != 3) {
        fputs("usage: check_vectors FILE [MOST]\n", stderr);
        return 2;
    }
    const size_t most = argc == 3 ? strtoul(argv[2], NULL, 10) : 10;
    FILE *const f = fopen(argv[1], "rb");
    if (!f) {
        perror(argv[1]);
        return 2;
    }
    const size_t length = fread(file, 1, sizeof file, f);
    if (ferror(f) || length == sizeof file) {
        fputs("cannot be read, or too long\n", stderr);
        return 2;
    }
    fclose(f);

    for (const uint8_t *p = file; p < file + length;) {
        number++;
        if (file + length - p < 4)
            malformed("file too short");
        const size_t body = (size_t)p[0] << 8 | p[1];
        p += 2;
        if (body < 2 || body > BODY_MOST || (size_t)(file + length - p) < body)
            malformed("length");
        at = p;
        stop = p += body;
        const unsigned group = u8(), op = u8();
        if (group < 1 || group > GROUPS || op < 1 || op > OPS)
            malformed("group or operation");
        why[0] = '\0';
        operation[op]();
        if (at != stop)
            malformed("body too long");
        vectors[group]++;
        if (why[0] != '\0') {
            failed[group]++;
            if (all_failed++ < most)
                printf("vector %zu (group %u, op %u): %s\n", number, group, op, why);
        }
    }
    for (int g = 1; g <= GROUPS; g++)
        printf("group %d: %zu vectors, %zu failed\n", g, vectors[g], failed[g]);
    printf("all: %zu vectors, %zu failed\n", number, all_failed);
    return all_failed > 0;
}
