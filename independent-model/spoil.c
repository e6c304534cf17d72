/* spoil VECTORS SPOILT: of each group and operation of the vectors a good one, and then the same once for each field that a judge has to
 * compare, with that field alone wrong. Prints a line for each that must fail: what a judge prints of it, and after the colon which
 * field it is. A vector's operations and fields are told in vectors.c.
 *
 * A group's 41 bytes of a state are spread over its operations, a byte to each in turn; every other field is spoilt for each operation.
 * A count in the middle of a body is one more, with the zeros behind it that an untouched buffer has, so that nothing else moves.
 * The fields of a run are those of a refused run, if the group has one: an accepted one is held twice, by the run and by its parts.
 * For the parts alone there is operation 13, which only this file has: as a run, held by its parts.
 * Not to be spoilt: in a mix X numbers, n, level and mission, which are expected as they are given, and that a used mark is cleared. */
#include <stdint.h>
#include <stdio.h>
#include <stdlib.h>
#include <string.h>

enum { GROUPS = 13, BODY_MOST = 8192, STATE = 41, ACTION = 5, MIXES = 121, PLACES = 28, LAST = 4 };
enum { COLD = 1, STEP, STORE, LOAD, RUN, LONG, HISTORY, MIX, COLD_DEFAULT, STORE_OLD, LOAD_NEW, RESCUE, PARTS, OPS = RESCUE };

static const char *const op_name[] = {"", "cold start", "step", "write of A2", "reading", "run", "long run", "history", "mixes",
    "default start", "write of A1", "reading of A2", "rescue", "run in parts"};
static const char *const head_name[] = {"lowest X", "highest X", "level", "mission", "mark inside", "mark mode", "mark manual", "mark end"};
static const char *const place_name[] = {"phase", "direction", "tries", "type", "number, high", "number, middle", "number, low"};
static const char *const last_name[] = {"n", "last known", "last known, high", "last known, middle", "last known, low"};
static const char *const total_name[] = {"total 21", "total 22", "total 154", "total 155", "total 156", "total 159"};

static uint8_t file[12u << 20];
static size_t length, written;
static FILE *out;

typedef struct { const uint8_t *b; size_t n; } Body;

static void put(const uint8_t *b, size_t n)
{
    const uint8_t head[2] = {(uint8_t)(n >> 8), (uint8_t)n};
    if (n > BODY_MOST || fwrite(head, 1, 2, out) != 2 || fwrite(b, 1, n, out) != n)
        exit(1);
    written++;
}

static void must_fail(const uint8_t *b, size_t n, unsigned group, const char *what)
{
    put(b, n);
    printf("failed vector %zu group %u: %s, %s\n", written, group, op_name[b[1] <= PARTS ? b[1] : 0], what);
}

/* A copy, with zeros after it. */
static void copy(uint8_t b[BODY_MOST], Body v)
{
    if (v.n > BODY_MOST - ACTION)
        exit(1);
    memset(b, 0, BODY_MOST);
    memcpy(b, v.b, v.n);
}

/* One byte is another. */
static void spoil(Body v, size_t at, const char *what)
{
    uint8_t b[BODY_MOST];
    copy(b, v);
    b[at] ^= 1;
    must_fail(b, v.n, b[0], what);
}

/* A count is one more, and so many zeros stand after what it counts. */
static void one_more(Body v, size_t at, size_t behind, size_t zeros, const char *what)
{
    uint8_t b[BODY_MOST];
    copy(b, v);
    memset(b + behind, 0, zeros);
    memcpy(b + behind + zeros, v.b + behind, v.n - behind);
    b[at]++;
    must_fail(b, v.n + zeros, b[0], what);
}

static void longer(Body v)
{
    uint8_t b[BODY_MOST];
    copy(b, v);
    must_fail(b, v.n + 1, b[0], "a byte left over");
}

/* Where the expectation begins. */
static size_t expected(Body v)
{
    const uint8_t *const b = v.b;
    switch (b[1]) {
    case COLD: return 5;
    case COLD_DEFAULT: return 4;
    case LOAD: case LOAD_NEW: case RESCUE: return 3u + b[2];
    case STEP: return 46u + b[43];
    case STORE: case STORE_OLD: return 45;
    case RUN: case PARTS: return 49u + (b[47] << 8 | b[48]);
    case LONG: return 52u + b[51];
    case HISTORY: return 7;
    default: return 30u + b[29];
    }
}

/* Where an expected state begins. */
static size_t state_at(Body v)
{
    switch (v.b[1]) {
    case STEP: return expected(v) + 4;
    case STORE: case STORE_OLD: return expected(v) + 2;
    case RUN: case LONG: case PARTS: return expected(v) + 38;
    case HISTORY: return v.n - STATE;
    default: return expected(v) + 1;
    }
}

static const char *state_name(size_t k)
{
    static char text[40];
    if (k < 8)
        return head_name[k];
    if (k >= 36)
        return last_name[k - 36];
    snprintf(text, sizeof text, "place %zu, %s", (k - 8) / 7, place_name[(k - 8) % 7]);
    return text;
}

/* The answer of a history or of mixes, other than the last, that has one to three actions: where it begins; 0 where none has. */
static size_t middle(Body v)
{
    size_t at = expected(v), end = v.b[1] == MIX ? v.n - 4 - PLACES - LAST - 20 : v.n - STATE;
    for (unsigned k = v.b[1] == MIX ? MIXES : v.b[5] << 8 | v.b[6]; k > 1 && at < end; k--) {
        if (v.b[1] == HISTORY)
            at += 1 + v.b[at];
        if (v.b[at + 1] >= 1 && v.b[at + 1] <= 3)
            return at;
        at += 4 + ACTION * v.b[at + 1] + (v.b[1] == MIX ? PLACES + LAST : 0);
    }
    return 0;
}

/* Where the last answer of a history or of mixes begins. */
static size_t last_answer(Body v)
{
    size_t at = expected(v);
    for (unsigned k = v.b[1] == MIX ? MIXES : v.b[5] << 8 | v.b[6];; k--) {
        if (v.b[1] == HISTORY)
            at += 1 + v.b[at];
        if (k == 1)
            return at;
        at += 4 + ACTION * v.b[at + 1] + (v.b[1] == MIX ? PLACES + LAST : 0);
    }
}

static void spoil_answer(Body v, size_t at)
{
    spoil(v, at, "code");
    if (v.b[1] == STEP)
        spoil(v, at + 1, "count");
    else
        one_more(v, at + 1, at + 4 + ACTION * v.b[at + 1], ACTION, "count");
    spoil(v, at + 2, "place");
    spoil(v, at + 3, "phase");
}

static void spoil_report(Body v, size_t at)
{
    if (v.b[1] != PARTS)
        spoil(v, at, "code");
    spoil(v, at + 1, "stop");
    spoil(v, at + 5, "offset");
    spoil(v, at + 9, "read");
    spoil(v, at + 13, "refused");
    for (unsigned k = 0; k < 6 && v.b[1] != PARTS; k++)
        spoil(v, at + 17 + 4 * k, total_name[k]);
}

/* A history of no records whose cold start is refused, with the state of that. */
static void spoil_start(Body v)
{
    uint8_t b[7 + STATE] = {v.b[0], HISTORY, 8, 8, 3};
    b[7 + 36] = 3;
    must_fail(b, sizeof b, b[0], "the start refused");
}

/* A given mark of 2 is no mark, and is not what stays of it. */
static void spoil_marks(Body v)
{
    for (unsigned k = 4; k < 8; k++) {
        uint8_t b[BODY_MOST];
        copy(b, v);
        b[2 + k] = 2;
        must_fail(b, v.n, b[0], head_name[k]);
    }
}

/* The fields of a vector, but those of its state. */
static void spoil_fields(Body v)
{
    const size_t at = expected(v), m = v.b[1] == HISTORY || v.b[1] == MIX ? middle(v) : 0;
    const size_t behind = m + 4 + (m ? ACTION * v.b[m + 1] : 0);
    switch (v.b[1]) {
    case STEP:
        spoil_answer(v, at);
        if (v.n > at + 4 + STATE)
            spoil(v, at + 4 + STATE, "buffer");
        break;
    case STORE: case STORE_OLD:
        spoil(v, at, "code");
        spoil(v, at + 1, "count");
        if (v.n > at + 2 + STATE)
            spoil(v, at + 2 + STATE, "buffer");
        break;
    case RUN: case LONG: case PARTS:
        spoil_report(v, at);
        break;
    case HISTORY:
        spoil_answer(v, m);
        spoil(v, m + 4, "action");
        spoil(v, last_answer(v), "code of the last record");
        spoil_start(v);
        break;
    case MIX:
        spoil_answer(v, m);
        spoil(v, m + 4, "action");
        spoil(v, last_answer(v), "code of the last mix");
        spoil(v, behind, "a place");
        spoil(v, behind + PLACES, "last known");
        spoil_marks(v);
        break;
    case RESCUE:
        spoil(v, at, "code");
        one_more(v, at + 1, at + 2 + v.b[at + 1], 1, "count");
        spoil(v, at + 2, "field");
        spoil(v, at + 2 + v.b[at + 1] + 3, "image");
        return;
    default:
        spoil(v, at, "code");
    }
    if (v.b[1] != STEP && v.b[1] != STORE && v.b[1] != STORE_OLD && v.b[1] != PARTS)
        longer(v);
}

static size_t log_length(Body v)
{
    return v.b[1] == LONG ? (size_t)v.b[47] << 24 | (size_t)v.b[48] << 16 | (size_t)v.b[49] << 8 | v.b[50] : 0;
}

/* How well a vector shows its fields: an accepted one, with what can be wrong in it. */
static int fits(Body v)
{
    const uint8_t *const e = v.b + expected(v);
    switch (v.b[1]) {
    case STEP: return e[0] == 0 && e[1] > 0;
    case STORE: case STORE_OLD: return (e[0] == 0) + (e + 2 + STATE < v.b + v.n);
    case RUN: case LONG: return e[0] != 0;
    case HISTORY: return middle(v) != 0;
    case MIX: return middle(v) != 0 && v.b[30] != 5 && (v.b[6] | v.b[7] | v.b[8] | v.b[9]) == 0;
    case RESCUE: return e[0] == 0 && e[1] > 0 && e[1] < 11;
    default: return e[0] == 0;
    }
}

/* The first of a group and operation that fits best, of long runs the shortest. */
static Body choose(unsigned group, unsigned op, int (*fit)(Body))
{
    Body best = {NULL, 0};
    int fitting = 0;
    for (size_t p = 0; p < length;) {
        const Body v = {file + p + 2, (size_t)file[p] << 8 | file[p + 1]};
        p += 2 + v.n;
        if (v.b[0] != group || v.b[1] != op)
            continue;
        if (best.n == 0 || fit(v) > fitting || (fit(v) == fitting && log_length(v) < log_length(best))) {
            best = v;
            fitting = fit(v);
        }
    }
    return best;
}

static int accepted(Body v)
{
    const uint8_t *const e = v.b + expected(v);
    return e[0] == 0 && e[9] > 0 && e[13] > 0;
}

static int roomless(Body v) { return v.n == expected(v) + 4 + STATE && v.b[v.n - LAST] == 0; }

/* An accepted run, held by its parts alone. */
static void spoil_parts(unsigned group)
{
    uint8_t b[BODY_MOST];
    const Body run = choose(group, RUN, accepted), v = {b, run.n};
    copy(b, run);
    b[1] = PARTS;
    put(b, v.n);
    spoil_fields(v);
    for (size_t k = 0; k < STATE; k += 8)
        spoil(v, state_at(v) + k, state_name(k));
    b[expected(v)] = 12;
    must_fail(b, v.n, group, "a log that is too long");
}

/* A step with no room whose expected state lacks its last zero. */
static void spoil_end(unsigned group)
{
    const Body v = choose(group, STEP, roomless);
    put(v.b, v.n);
    must_fail(v.b, v.n - 1, group, "a byte cut off");
}

int main(int argc, char **argv)
{
    FILE *const in = argc == 3 ? fopen(argv[1], "rb") : NULL;
    out = in ? fopen(argv[2], "wb") : NULL;
    if (!out) {
        fputs("usage: spoil VECTORS SPOILT\n", stderr);
        return 2;
    }
    length = fread(file, 1, sizeof file, in);
    for (unsigned group = 1; group <= GROUPS; group++) {
        Body with_state[OPS];
        size_t ops = 0;
        for (unsigned op = 1; op <= OPS; op++) {
            const Body v = choose(group, op, fits);
            if (v.n == 0)
                continue;
            put(v.b, v.n);
            spoil_fields(v);
            if (op != MIX && op != RESCUE)
                with_state[ops++] = v;
        }
        for (size_t k = 0; k < STATE && ops > 0; k++)
            spoil(with_state[k % ops], state_at(with_state[k % ops]) + k, state_name(k));
    }
    spoil_parts(8);
    spoil_end(7);
    /* of no group, of no operation, and cut off */
    uint8_t b[BODY_MOST];
    const Body v = choose(1, STEP, fits);
    copy(b, v);
    b[0] = GROUPS + 1;
    must_fail(b, v.n, 0, "of no group");
    b[0] = 1;
    b[1] = 0;
    must_fail(b, v.n, 1, "of no operation");
    const uint8_t cut[3] = {1, 0, 1};
    printf("failed vector %zu group 0: cut off\n", written + 1);
    return fwrite(cut, 1, sizeof cut, out) != sizeof cut || fclose(out) != 0;
}
