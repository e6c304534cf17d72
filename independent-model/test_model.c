/* Test of the model against document 01 and the requests. Expectations are written out here by hand or by a
 * second, slow and literal reading; nothing of model.c's insides is used. */
#include "gen.h"
#include "model.h"

#include <stdarg.h>
#include <stdio.h>
#include <stdlib.h>
#include <string.h>

#define SHEET_NO_MAIN
#include "sheet_model.c"

static unsigned long checks, failures;

static void check_at(bool ok, int line, const char *text)
{
    checks++;
    if (!ok && failures++ < 20)
        printf("line %d: %s\n", line, text);
}
#define CHECK(c) check_at((c), __LINE__, #c)

/* ---- help ---- */

static bool same(const State *a, const State *b) { return memcmp(a, b, sizeof *a) == 0; }

static State cold_n(uint8_t lo, uint8_t hi, uint8_t n)
{
    State s;
    CHECK(cold_start(&s, lo, hi, n) == 0);
    return s;
}

static State cold(uint8_t lo, uint8_t hi) { return cold_n(lo, hi, 3); }

static void hold(State *s, int i, uint8_t phase, uint8_t direction, uint8_t tries, uint32_t who)
{
    s->phase[i] = phase;
    s->direction[i] = direction;
    s->tries[i] = tries;
    s->partner[i] = who;
}

/* Request Q-6: the place and the phase that a step with this code tells, by the state before. */
static bool tells(const State *before, const uint8_t *record, StepResult r)
{
    unsigned place = 4, phase = 0;
    if (r.code == 5 || (r.code == 7 && record[0] != 4)) {
        const bool meant = record[0] == 5 && record[1] == 0 && (record[3] & 63) == 63 && record[4] == 255;
        const uint32_t named = (uint32_t)record[1] << 24 | (uint32_t)record[2] << 16 | (uint32_t)record[3] << 8 | record[4];
        const uint32_t who = meant ? before->last & 0xFFFFFF : named;
        for (place = 0; place < 4; place++) {
            phase = before->phase[place];
            if (phase != 0 && before->partner[place] == who)
                break;
        }
    }
    return r.place == place && r.phase == phase;
}

/* Steps a record with a buffer of 29 bytes of EE, checks code and actions ("number partner"
 * pairs), that no later byte was written, and that a refusal changes nothing. */
static bool takes(State *s, const uint8_t *record, size_t n, int code, int count, ...)
{
    uint8_t buffer[29];
    memset(buffer, 0xEE, sizeof buffer);
    const State before = *s;
    const StepResult r = step(s, record, n, buffer, sizeof buffer);
    bool ok = r.code == code && r.count == count && tells(&before, record, r);
    va_list list;
    va_start(list, count);
    uint8_t want[29];
    memset(want, 0xEE, sizeof want);
    for (int i = 0; i < count; i++) {
        const unsigned number = va_arg(list, unsigned), who = va_arg(list, unsigned);
        want[5 * i] = (uint8_t)number;
        want[5 * i + 1] = (uint8_t)(who >> 24);
        want[5 * i + 2] = (uint8_t)(who >> 16);
        want[5 * i + 3] = (uint8_t)(who >> 8);
        want[5 * i + 4] = (uint8_t)who;
    }
    va_end(list);
    ok = ok && memcmp(buffer, want, sizeof want) == 0;
    if (code != 0)
        ok = ok && same(&before, s);
    return ok;
}

/* A refusal with this place and this phase. */
static bool refuses(State *s, const uint8_t *record, size_t n, int code, int place, int phase)
{
    uint8_t buffer[20];
    const State before = *s;
    const StepResult r = step(s, record, n, buffer, sizeof buffer);
    return r.code == code && r.count == 0 && r.place == place && r.phase == phase && same(&before, s);
}

#define REC(...) ((const uint8_t[]){__VA_ARGS__}), sizeof((const uint8_t[]){__VA_ARGS__})
#define P(who) (uint8_t)((who) >> 24), (uint8_t)((who) >> 16), (uint8_t)((who) >> 8), (uint8_t)(who)
#define RIU_(n) (0x01000000u + (n))

/* ---- a slow, literal soundness, over the 42 bytes of an A2 image ---- */

/* NID_RBC, the low 14 bits of a number of three bytes, is 16,383. */
static bool slow_last(const uint8_t *number)
{
    const unsigned long v = number[0] * 65536ul + number[1] * 256ul + number[2];
    return v % 16384 == 16383;
}

static bool slow_sound(const uint8_t *b)
{
    if (b[0] != 0xA2) return false;
    const int n = b[37];
    if (n < 1) return false;
    if (n > 9) return false;
    if (b[38] > 1) return false;
    if (b[38] == 0 && b[39] != 0) return false;
    if (b[38] == 0 && b[40] != 0) return false;
    if (b[38] == 0 && b[41] != 0) return false;
    if (b[38] == 1 && slow_last(b + 39)) return false;
    if (b[1] > 7) return false;
    if (b[2] > 7) return false;
    if (b[1] > b[2]) return false;
    if (b[3] > 4) return false;
    if (b[4] > 2) return false;
    for (int i = 5; i < 9; i++)
        if (b[i] != 0 && b[i] != 1) return false;
    if (b[5] == 1 && b[8] == 1) return false;
    for (int i = 0; i < 4; i++) {
        const uint8_t *p = b + 9 + 7 * i;
        bool zero = true;
        for (int k = 0; k < 7; k++)
            if (p[k] != 0) zero = false;
        if (zero) continue;
        if (p[0] < 1 || p[0] > 5) return false;
        if (p[1] != 0 && p[1] != 1) return false;
        if (p[0] == 3) {
            if (p[2] != 0) return false;
        } else {
            if (p[2] < 1 || p[2] > n) return false;
        }
        if (p[3] != 0 && p[3] != 1) return false;
        if (p[3] == 1 && p[1] == 1) return false;
        if (p[3] == 0 && slow_last(p + 4)) return false;
        if ((p[0] == 1 || p[0] == 2) && p[1] != 0) return false;
        for (int j = 0; j < i; j++) {
            const uint8_t *q = b + 9 + 7 * j;
            if (q[0] != 0 && memcmp(p + 3, q + 3, 4) == 0) return false;
        }
    }
    return true;
}

/* ---- a slow, literal step, over the 42 bytes of an A2 image; written apart from the model ---- */

typedef struct { int code, count, place, phase; uint8_t a[20]; } Slow;

static void slow_act(Slow *w, int number, const uint8_t *who)
{
    w->a[5 * w->count] = (uint8_t)number;
    memcpy(w->a + 5 * w->count + 1, who, 4);
    w->count++;
}

static void slow_close(Slow *w, uint8_t *p)
{
    if (p[0] == 1 || p[0] == 2 || p[0] == 4) {
        slow_act(w, 22, p + 3);
        memset(p, 0, 7);
    } else if (p[0] == 3) {
        slow_act(w, 156, p + 3);
        p[0] = 5;
        p[2] = 1;
    } else {
        abort();
    }
}

static void slow_end_all(Slow *w, uint8_t *b)
{
    for (int i = 0; i < 4; i++) {
        uint8_t *p = b + 9 + 7 * i;
        if (p[0] != 0 && p[0] != 5)
            slow_close(w, p);
    }
}

/* rows: phase 1..5; columns: drop up lost timeout 32 39 */
static const char *const slow_table[6][6] = {
    {0, 0, 0, 0, 0, 0},
    {"close", "155;C1", "no", "t21", "no", "no"},
    {"close", "no", "22;free", "t155", "judge", "no"},
    {"close", "no", "21;L1", "no", "no", "no"},
    {"close", "open", "no", "t21", "no", "no"},
    {"no", "no", "22;free", "t156", "no", "22;free"},
};

static Slow slow_step(uint8_t *b, const uint8_t *r, size_t n, size_t buffer)
{
    static const int length[12] = {0, 3, 2, 1, 2, 7, 5, 2, 5, 5, 5, 7};
    Slow w = {0, 0, 4, 0, {0}};
#define NO(c) do { w.code = (c); return w; } while (0)
#define NO_AT(c, i) do { w.place = (i); w.phase = b[9 + 7 * (i)]; NO(c); } while (0)
    if (buffer < 20) NO(10);
    if (!slow_sound(b)) NO(11);
    if (n == 0) NO(1);
    if (r[0] < 1 || r[0] > 11) NO(2);
    if (n != (size_t)length[r[0]]) NO(1);
    uint8_t *const level = b + 3, *const mission = b + 4, *const inside = b + 5, *const mode = b + 6,
            *const manual = b + 7, *const hole_end = b + 8;
    switch (r[0]) {
    case 1:
        if (r[1] > 4) NO(3);
        if (r[2] > 1) NO(3);
        *level = r[1];
        if (r[2] == 1) *manual = 1;
        return w;
    case 2:
        if (r[1] > 2) NO(3);
        *mission = r[1];
        if (r[1] == 0) slow_end_all(&w, b);
        return w;
    case 3:
        *mode = 1;
        return w;
    case 4:
        if (r[1] > 1) NO(3);
        if (r[1] == 1) {
            if (*inside == 1) NO(7);
            *inside = 1;
            *hole_end = 0;
        } else {
            if (*inside == 0) NO(7);
            *inside = 0;
            *hole_end = 1;
        }
        return w;
    case 7:
        if (r[1] > 1) NO(3);
        slow_end_all(&w, b);
        return w;
    default:
        break;
    }
    if (r[1] > 1) NO(3);
    /* the partner that is meant: the named one, but for an order to the last known RBC */
    uint8_t who[4];
    memcpy(who, r + 1, 4);
    const bool to_last = r[1] == 0 && slow_last(r + 2);
    if (to_last && r[0] != 5) NO(3);
    if (to_last) memcpy(who + 1, b + 39, 3);
    int mine = -1, empty = -1;
    for (int i = 3; i >= 0; i--) {
        if (b[9 + 7 * i] == 0) empty = i;
        else if (memcmp(b + 9 + 7 * i + 3, who, 4) == 0) mine = i;
    }
    if (r[0] == 5) {
        if (r[5] > 1) NO(3);
        if (r[6] > 4) NO(3);
        const bool l23 = *level == 2 || *level == 3;
        if (r[6] == 0 && !(*mission == 1 && l23)) NO(4);
        if (r[6] == 2 && !(*mission != 0 && l23 && *mode == 1)) NO(4);
        if (r[6] == 3 && !(l23 && *manual == 1)) NO(4);
        if (r[6] == 4 && *hole_end != 1) NO(4);
        if (to_last && b[38] == 0) NO(15);
        if (mine >= 0) NO_AT(5, mine);
        if (empty < 0) NO(8);
        if (r[6] == 2) *mode = 0;
        if (r[6] == 3) *manual = 0;
        if (r[6] == 4) *hole_end = 0;
        if (r[1] == 0 && r[5] == 0)
            for (int i = 0; i < 4; i++) {
                uint8_t *p = b + 9 + 7 * i;
                if ((p[0] == 3 || p[0] == 4) && p[3] == 0)
                    slow_close(&w, p);
            }
        uint8_t *p = b + 9 + 7 * empty;
        p[0] = 1;
        p[1] = 0;
        p[2] = 1;
        memcpy(p + 3, who, 4);
        slow_act(&w, 21, who);
        return w;
    }
    int column = -1;
    switch (r[0]) {
    case 6: column = 0; break;
    case 8: column = 1; break;
    case 9: column = 2; break;
    case 10: column = 3; break;
    default:
        if (r[5] != 32 && r[5] != 38 && r[5] != 39) NO(3);
        if (r[5] == 32 && r[6] > 127) NO(3);
        if (r[5] != 32 && r[6] != 0) NO(3);
        if (r[5] == 38) {
            if (r[1] == 1) NO(9);
            if (mine >= 0) NO_AT(5, mine);
            if (empty < 0) NO(8);
            uint8_t *p = b + 9 + 7 * empty;
            p[0] = 3;
            p[1] = 1;
            p[2] = 0;
            memcpy(p + 3, r + 1, 4);
            slow_act(&w, 159, r + 1);
            b[38] = 1;
            memcpy(b + 39, r + 2, 3);
            return w;
        }
        column = r[5] == 32 ? 4 : 5;
        break;
    }
    if (mine < 0) NO(6);
    uint8_t *p = b + 9 + 7 * mine;
    const char *cell = slow_table[p[0]][column];
    if (strcmp(cell, "no") == 0) NO_AT(7, mine);
    if (strcmp(cell, "close") == 0) {
        slow_close(&w, p);
    } else if (strcmp(cell, "155;C1") == 0) {
        slow_act(&w, 155, r + 1);
        p[0] = 2;
        p[2] = 1;
    } else if (strcmp(cell, "22;free") == 0) {
        slow_act(&w, 22, r + 1);
        memset(p, 0, 7);
    } else if (strcmp(cell, "21;L1") == 0) {
        slow_act(&w, 21, r + 1);
        p[0] = 4;
        p[2] = 1;
    } else if (strcmp(cell, "open") == 0) {
        p[0] = 3;
        p[2] = 0;
    } else if (cell[0] == 't') {
        if (p[2] == b[37]) {
            slow_act(&w, 22, r + 1);
            memset(p, 0, 7);
        } else {
            slow_act(&w, atoi(cell + 1), r + 1);
            p[2]++;
        }
    } else {                                /* judge */
        const int x = r[6] / 16;
        if (b[1] <= x && x <= b[2]) {
            slow_act(&w, 159, r + 1);
            p[0] = 3;
            p[2] = 0;
            if (r[1] == 0) {
                b[38] = 1;
                memcpy(b + 39, r + 2, 3);
            }
        } else {
            slow_act(&w, 154, r + 1);
            slow_act(&w, 156, r + 1);
            p[0] = 5;
            p[2] = 1;
        }
    }
    return w;
#undef NO_AT
#undef NO
}

/* The model and the slow step on the same state and record; both advance. */
static bool agree(State *s, const uint8_t *r, size_t n)
{
    uint8_t image[42], after[42], buffer[23];
    image_store(s, image);
    memset(buffer, 0x77, sizeof buffer);
    const Slow w = slow_step(image, r, n, 20);
    const StepResult got = step(s, r, n, buffer, 20);
    image_store(s, after);
    bool ok = got.code == w.code && got.count == w.count && got.place == w.place &&
              got.phase == w.phase && memcmp(image, after, 42) == 0 &&
              memcmp(buffer, w.a, 5u * (unsigned)w.count) == 0;
    for (size_t i = 5u * (unsigned)w.count; i < sizeof buffer; i++)
        ok = ok && buffer[i] == 0x77;
    return ok;
}

/* ---- the marked examples ---- */

static void examples(void)
{
    State s, w;

    /* P1, states included */
    s = cold(1, 2);
    w = s;
    CHECK(takes(&s, REC(5, 0, 0, 0, 5, 1, 1), 0, 1, 21, 5));
    hold(&w, 0, CONNECTING, OUTGOING, 1, 5);
    CHECK(same(&s, &w));
    CHECK(takes(&s, REC(8, 0, 0, 0, 5), 0, 1, 155, 5));
    hold(&w, 0, CONTACTING, OUTGOING, 1, 5);
    CHECK(same(&s, &w));
    CHECK(takes(&s, REC(11, 0, 0, 0, 5, 0x20, 0x11), 0, 1, 159, 5));
    hold(&w, 0, OPEN, OUTGOING, 0, 5);
    w.last = 0x01000005;
    CHECK(same(&s, &w));
    CHECK(takes(&s, REC(6, 0, 0, 0, 5), 0, 1, 156, 5));
    hold(&w, 0, ENDING, OUTGOING, 1, 5);
    CHECK(same(&s, &w));
    CHECK(takes(&s, REC(11, 0, 0, 0, 5, 0x27, 0), 0, 1, 22, 5));
    w = cold(1, 2);
    w.last = 0x01000005;
    CHECK(same(&s, &w));

    /* P2 */
    CHECK(takes(&s, REC(5, 0, 0, 0, 5, 0, 1), 0, 1, 21, 5));
    CHECK(takes(&s, REC(10, 0, 0, 0, 5), 0, 1, 21, 5));
    CHECK(s.tries[0] == 2);
    CHECK(takes(&s, REC(10, 0, 0, 0, 5), 0, 1, 21, 5));
    CHECK(s.tries[0] == 3);
    CHECK(takes(&s, REC(10, 0, 0, 0, 5), 0, 1, 22, 5));
    CHECK(same(&s, &w));

    /* P3 */
    s = w = cold(1, 2);
    hold(&s, 0, CONTACTING, OUTGOING, 3, 5);
    CHECK(takes(&s, REC(11, 0, 0, 0, 5, 32, 48), 0, 2, 154, 5, 156, 5));
    hold(&w, 0, ENDING, OUTGOING, 1, 5);
    CHECK(same(&s, &w));

    /* P4 */
    hold(&s, 0, CONTACTING, OUTGOING, 2, 5);
    CHECK(takes(&s, REC(11, 0, 0, 0, 5, 32, 128), 3, 0));
    CHECK(takes(&s, REC(11, 0, 0, 0, 5, 32, 47), 0, 1, 159, 5));
    hold(&w, 0, OPEN, OUTGOING, 0, 5);
    w.last = 0x01000005;
    CHECK(same(&s, &w));

    /* P5, P6 */
    s = cold(1, 2);
    for (unsigned i = 1; i <= 4; i++) {
        CHECK(takes(&s, REC(11, P(i), 38, 0), 0, 1, 159, i));
        CHECK(s.phase[i - 1] == OPEN && s.direction[i - 1] == INCOMING && s.tries[i - 1] == 0);
        CHECK(s.partner[i - 1] == i && s.last == (0x01000000 | i));
    }
    CHECK(takes(&s, REC(11, P(5u), 38, 0), 8, 0));
    CHECK(takes(&s, REC(11, P(1u), 38, 0), 5, 0));
    CHECK(takes(&s, REC(11, P(RIU_(1u)), 38, 0), 9, 0));
    CHECK(refuses(&s, REC(11, P(5u), 38, 0), 8, 4, 0));
    for (unsigned i = 1; i <= 4; i++) CHECK(refuses(&s, REC(11, P(i), 38, 0), 5, (int)i - 1, 3));
    CHECK(refuses(&s, REC(11, P(RIU_(1u)), 38, 0), 9, 4, 0));
    CHECK(refuses(&s, REC(4, 0), 7, 4, 0));

    /* P7 */
    s = cold(1, 2);
    hold(&s, 0, OPEN, OUTGOING, 0, 1);
    hold(&s, 1, OPEN, OUTGOING, 0, RIU_(2u));
    CHECK(takes(&s, REC(5, 0, 0, 0, 3, 0, 1), 0, 2, 156, 1, 21, 3));
    w = cold(1, 2);
    hold(&w, 0, ENDING, OUTGOING, 1, 1);
    hold(&w, 1, OPEN, OUTGOING, 0, RIU_(2u));
    hold(&w, 2, CONNECTING, OUTGOING, 1, 3);
    CHECK(same(&s, &w));

    /* P8 */
    s = cold(1, 2);
    CHECK(takes(&s, REC(2, 1), 0, 0));
    CHECK(takes(&s, REC(1, 1, 0), 0, 0));
    CHECK(takes(&s, REC(5, 0, 0, 0, 3, 0, 0), 4, 0));
    CHECK(takes(&s, REC(1, 2, 0), 0, 0));
    CHECK(takes(&s, REC(5, 0, 0, 0, 3, 0, 0), 0, 1, 21, 3));

    /* P9 */
    s = cold(1, 2);
    CHECK(takes(&s, REC(4, 0), 7, 0));
    CHECK(takes(&s, REC(4, 1), 0, 0));
    CHECK(s.inside == 1 && s.hole_end == 0);
    CHECK(takes(&s, REC(4, 1), 7, 0));
    CHECK(takes(&s, REC(5, 0, 0, 0, 3, 0, 4), 4, 0));
    CHECK(takes(&s, REC(4, 0), 0, 0));
    CHECK(s.inside == 0 && s.hole_end == 1);
    CHECK(takes(&s, REC(5, 0, 0, 0, 3, 0, 4), 0, 1, 21, 3));
    CHECK(s.hole_end == 0);
    CHECK(takes(&s, REC(5, 0, 0, 0, 4, 0, 4), 4, 0));

    /* P10 */
    s = cold(1, 2);
    CHECK(takes(&s, REC(5, 0, 0, 0, 9, 0, 1), 0, 1, 21, 9));
    for (int i = 0; i < 2; i++) CHECK(takes(&s, REC(10, 0, 0, 0, 9), 0, 1, 21, 9));
    CHECK(takes(&s, REC(8, 0, 0, 0, 9), 0, 1, 155, 9));
    for (int i = 0; i < 2; i++) CHECK(takes(&s, REC(10, 0, 0, 0, 9), 0, 1, 155, 9));
    CHECK(takes(&s, REC(11, 0, 0, 0, 9, 32, 17), 0, 1, 159, 9));
    CHECK(takes(&s, REC(6, 0, 0, 0, 9), 0, 1, 156, 9));
    for (int i = 0; i < 2; i++) CHECK(takes(&s, REC(10, 0, 0, 0, 9), 0, 1, 156, 9));
    CHECK(takes(&s, REC(11, 0, 0, 0, 9, 39, 0), 0, 1, 22, 9));
    w = cold(1, 2);
    w.last = 0x01000009;
    CHECK(same(&s, &w));
}

/* ---- the table: every phase, tries, event, written out by hand ---- */

typedef struct { uint8_t code, a0, a1, phase, tries; } Cell;

/* columns: drop, up, lost, timeout, 32 in range, 32 out of range, 39 */
static const struct { uint8_t phase, tries; Cell cell[7]; } table[] = {
    {1, 1, {{0, 22, 0, 0, 0}, {0, 155, 0, 2, 1}, {7, 0, 0, 0, 0}, {0, 21, 0, 1, 2},
            {7, 0, 0, 0, 0}, {7, 0, 0, 0, 0}, {7, 0, 0, 0, 0}}},
    {1, 2, {{0, 22, 0, 0, 0}, {0, 155, 0, 2, 1}, {7, 0, 0, 0, 0}, {0, 21, 0, 1, 3},
            {7, 0, 0, 0, 0}, {7, 0, 0, 0, 0}, {7, 0, 0, 0, 0}}},
    {1, 3, {{0, 22, 0, 0, 0}, {0, 155, 0, 2, 1}, {7, 0, 0, 0, 0}, {0, 22, 0, 0, 0},
            {7, 0, 0, 0, 0}, {7, 0, 0, 0, 0}, {7, 0, 0, 0, 0}}},
    {2, 1, {{0, 22, 0, 0, 0}, {7, 0, 0, 0, 0}, {0, 22, 0, 0, 0}, {0, 155, 0, 2, 2},
            {0, 159, 0, 3, 0}, {0, 154, 156, 5, 1}, {7, 0, 0, 0, 0}}},
    {2, 2, {{0, 22, 0, 0, 0}, {7, 0, 0, 0, 0}, {0, 22, 0, 0, 0}, {0, 155, 0, 2, 3},
            {0, 159, 0, 3, 0}, {0, 154, 156, 5, 1}, {7, 0, 0, 0, 0}}},
    {2, 3, {{0, 22, 0, 0, 0}, {7, 0, 0, 0, 0}, {0, 22, 0, 0, 0}, {0, 22, 0, 0, 0},
            {0, 159, 0, 3, 0}, {0, 154, 156, 5, 1}, {7, 0, 0, 0, 0}}},
    {3, 0, {{0, 156, 0, 5, 1}, {7, 0, 0, 0, 0}, {0, 21, 0, 4, 1}, {7, 0, 0, 0, 0},
            {7, 0, 0, 0, 0}, {7, 0, 0, 0, 0}, {7, 0, 0, 0, 0}}},
    {4, 1, {{0, 22, 0, 0, 0}, {0, 0, 0, 3, 0}, {7, 0, 0, 0, 0}, {0, 21, 0, 4, 2},
            {7, 0, 0, 0, 0}, {7, 0, 0, 0, 0}, {7, 0, 0, 0, 0}}},
    {4, 2, {{0, 22, 0, 0, 0}, {0, 0, 0, 3, 0}, {7, 0, 0, 0, 0}, {0, 21, 0, 4, 3},
            {7, 0, 0, 0, 0}, {7, 0, 0, 0, 0}, {7, 0, 0, 0, 0}}},
    {4, 3, {{0, 22, 0, 0, 0}, {0, 0, 0, 3, 0}, {7, 0, 0, 0, 0}, {0, 22, 0, 0, 0},
            {7, 0, 0, 0, 0}, {7, 0, 0, 0, 0}, {7, 0, 0, 0, 0}}},
    {5, 1, {{7, 0, 0, 0, 0}, {7, 0, 0, 0, 0}, {0, 22, 0, 0, 0}, {0, 156, 0, 5, 2},
            {7, 0, 0, 0, 0}, {7, 0, 0, 0, 0}, {0, 22, 0, 0, 0}}},
    {5, 2, {{7, 0, 0, 0, 0}, {7, 0, 0, 0, 0}, {0, 22, 0, 0, 0}, {0, 156, 0, 5, 3},
            {7, 0, 0, 0, 0}, {7, 0, 0, 0, 0}, {0, 22, 0, 0, 0}}},
    {5, 3, {{7, 0, 0, 0, 0}, {7, 0, 0, 0, 0}, {0, 22, 0, 0, 0}, {0, 22, 0, 0, 0},
            {7, 0, 0, 0, 0}, {7, 0, 0, 0, 0}, {0, 22, 0, 0, 0}}},
};

static size_t column_record(uint8_t *r, int column, uint32_t who, uint8_t version)
{
    static const uint8_t kind[7] = {6, 8, 9, 10, 11, 11, 11};
    static const uint8_t number[7] = {0, 0, 0, 0, 32, 32, 39};
    const uint8_t p[4] = {P(who)};
    r[0] = kind[column];
    memcpy(r + 1, p, 4);
    r[5] = number[column];
    r[6] = version;
    return kind[column] == 11 ? 7 : 5;
}

static void table_cells(void)
{
    static const uint32_t partners[] = {5, 0, RIU_(5u), RIU_(0u), 0x00FFFFFE, 0x01FFFFFF, 0x00010203, 0x01003FFF};
    /* a free place's bytes are also those of RBC 0: the other places stay free or hold a neighbour */
    for (size_t row = 0; row < sizeof table / sizeof table[0]; row++)
        for (int column = 0; column < 7; column++)
            for (size_t k = 0; k < sizeof partners / sizeof partners[0]; k++)
                for (int direction = 0; direction < 2; direction++)
                    for (int place = 0; place < 4; place++)
                        for (int crowd = 0; crowd < 2; crowd++) {
                            const uint32_t who = partners[k];
                            if (direction == INCOMING && (table[row].phase < 3 || who >> 24 == RIU))
                                continue;
                            State s = cold(1, 2);
                            const uint32_t twin = who >> 24 == RIU && who % 16384 == 16383 ? who ^ 0x01000001 : who ^ 0x01000000;
                            for (int i = 0; crowd && i < 4; i++)   /* same number, the other type too */
                                hold(&s, i, i == 2 ? CONTACTING : LOST, OUTGOING, 2,
                                     i == 1 ? twin : 0x77u + (unsigned)i);
                            hold(&s, place, table[row].phase, (uint8_t)direction, table[row].tries, who);
                            CHECK(sound(&s));
                            const Cell *c = &table[row].cell[column];
                            int lo = 0, hi = 0;
                            if (column == 4) { lo = 16; hi = 47; }
                            if (column == 5) { lo = 48; hi = 127; }
                            for (int v = lo; v <= hi; v++) {
                                State got = s, want = s;
                                uint8_t r[7];
                                const size_t n = column_record(r, column, who, (uint8_t)v);
                                if (c->code == 0) {
                                    if (c->phase == 0) hold(&want, place, 0, 0, 0, 0);
                                    else hold(&want, place, c->phase, (uint8_t)direction, c->tries, who);
                                    if (c->a0 == 159 && who >> 24 == RBC) want.last = 0x01000000 | who;
                                }
                                CHECK(takes(&got, r, n, c->code, (c->a0 != 0) + (c->a1 != 0),
                                            (unsigned)c->a0, who, (unsigned)c->a1, who));
                                CHECK(same(&got, &want));
                            }
                        }
    /* every n, phase, tries 0 to n + 1, event, place, direction, type: against the slow step; and
     * the timeouts by hand */
    for (uint8_t m = 1; m <= 9; m++)
        for (uint8_t phase = 1; phase <= 5; phase++)
            for (uint8_t t = 0; t <= m + 1; t++)
                for (int column = 0; column < 7; column++)
                    for (int place = 0; place < 4; place++)
                        for (int side = 0; side < 4; side++) {
                            const uint32_t who = (side & 1 ? 0x01000000u : 0) | 0x00010203;
                            State s = cold_n(1, 2, m);
                            s.last = m % 2 ? 0x01000000u | who : 0;
                            hold(&s, place, phase, side >> 1, t, who);
                            uint8_t r[7], a[20];
                            const size_t n = column_record(r, column, who, column == 4 ? 0x2F : column == 5 ? 0x30 : 0);
                            State before = s;
                            const bool tries = phase == OPEN ? t == 0 : t >= 1 && t <= m;
                            const bool ok = tries && !(side >> 1 && (side & 1 || phase <= 2));
                            CHECK(sound(&s) == ok);
                            CHECK(agree(&s, r, n));
                            if (!ok || column != 3) continue;
                            const StepResult x = step(&before, r, n, a, 20);
                            if (phase == OPEN) CHECK(x.code == 7);
                            else if (t == m) CHECK(x.code == 0 && x.count == 1 && a[0] == 22 && before.phase[place] == FREE);
                            else CHECK(x.code == 0 && x.count == 1 && a[0] != 22 && before.tries[place] == t + 1);
                        }
    /* a partner without a place: 6 for every column, also RBC 0 with free places */
    for (int column = 0; column < 7; column++)
        for (size_t k = 0; k < sizeof partners / sizeof partners[0]; k++) {
            State s = cold(1, 2);
            uint8_t r[7];
            const size_t n = column_record(r, column, partners[k], 0);
            CHECK(takes(&s, r, n, 6, 0));
            hold(&s, 1, OPEN, OUTGOING, 0, partners[k] ^ (partners[k] % 16384 == 16383 ? 0x01000001 : 0x01000000));
            CHECK(takes(&s, r, n, 6, 0));
        }
    /* judging, every range of X and every version */
    for (uint8_t lo = 0; lo < 8; lo++)
        for (uint8_t hi = lo; hi < 8; hi++)
            for (int v = 0; v < 256; v++) {
                State s = cold(lo, hi), w = s;
                hold(&s, 2, CONTACTING, OUTGOING, 2, 9);
                const int x = v / 16;
                if (v > 127) {
                    CHECK(takes(&s, REC(11, 0, 0, 0, 9, 32, (uint8_t)v), 3, 0));
                } else if (lo <= x && x <= hi) {
                    CHECK(takes(&s, REC(11, 0, 0, 0, 9, 32, (uint8_t)v), 0, 1, 159, 9));
                    hold(&w, 2, OPEN, OUTGOING, 0, 9);
                    w.last = 0x01000009;
                    CHECK(same(&s, &w));
                } else {
                    CHECK(takes(&s, REC(11, 0, 0, 0, 9, 32, (uint8_t)v), 0, 2, 154, 9, 156, 9));
                    hold(&w, 2, ENDING, OUTGOING, 1, 9);
                    CHECK(same(&s, &w));
                }
            }
}

/* ---- orders ---- */

static void orders(void)
{
    /* every level, mission, set of marks, cause: in force or not, the mark cleared and no other;
     * a refusal with 4, 5 or 8 clears none */
    for (uint8_t level = 0; level < 5; level++)
        for (uint8_t mission = 0; mission < 3; mission++)
            for (int marks = 0; marks < 16; marks++)
                for (uint8_t cause = 0; cause < 5; cause++)
                    for (int block = 0; block < 3; block++) {
                        State s = cold(1, 2);
                        s.level = level;
                        s.mission = mission;
                        s.inside = marks & 1;
                        s.mode = marks >> 1 & 1;
                        s.manual = marks >> 2 & 1;
                        s.hole_end = marks >> 3 & 1;
                        if (s.inside && s.hole_end) {
                            CHECK(!sound(&s));
                            CHECK(takes(&s, REC(5, 0, 0, 0, 3, 0, cause), 11, 0));
                            continue;
                        }
                        if (block == 1) hold(&s, 3, ENDING, INCOMING, 3, 3);
                        if (block == 2)
                            for (int i = 0; i < 4; i++) hold(&s, i, LOST, INCOMING, 1, 10u + (unsigned)i);
                        static const char force[5][3][5] = {  /* cause, mission, level; '1' always,
                                    'm' if mode, 'l' if manual, 'h' if hole end, '0' never */
                            {"00000", "00110", "00000"},
                            {"11111", "11111", "11111"},
                            {"00000", "00mm0", "00mm0"},
                            {"00ll0", "00ll0", "00ll0"},
                            {"hhhhh", "hhhhh", "hhhhh"},
                        };
                        const char f = force[cause][mission][level];
                        const bool in = f == '1' || (f == 'm' && s.mode) || (f == 'l' && s.manual) ||
                                        (f == 'h' && s.hole_end);
                        State w = s;
                        if (!in) {
                            CHECK(takes(&s, REC(5, 0, 0, 0, 3, 0, cause), 4, 0));
                        } else if (block) {
                            CHECK(takes(&s, REC(5, 0, 0, 0, 3, 0, cause), block == 1 ? 5 : 8, 0));
                        } else {
                            CHECK(takes(&s, REC(5, 0, 0, 0, 3, 0, cause), 0, 1, 21, 3));
                            if (cause == 2) w.mode = 0;
                            if (cause == 3) w.manual = 0;
                            if (cause == 4) w.hole_end = 0;
                            hold(&w, 0, CONNECTING, OUTGOING, 1, 3);
                        }
                        CHECK(same(&s, &w));
                    }

    /* every filling of the four places by phase, type and direction; order, end all, mission 0 */
    static const struct { uint8_t phase, direction, tries, type; } kinds[] = {
        {0, 0, 0, 0}, {1, 0, 2, 0}, {2, 0, 3, 0}, {3, 0, 0, 0}, {3, 1, 0, 0}, {4, 0, 3, 0}, {4, 1, 2, 0},
        {5, 0, 2, 0}, {5, 1, 3, 0}, {1, 0, 3, 1}, {2, 0, 2, 1}, {3, 0, 0, 1}, {4, 0, 2, 1}, {5, 0, 3, 1},
    };
    enum { N = sizeof kinds / sizeof kinds[0] };
    for (int code = 0; code < N * N * N * N; code++) {
        State s = cold(1, 2);
        int c = code;
        int rbc_open_lost = 0, closable = 0, first_free = -1;
        for (int i = 0; i < 4; i++, c /= N) {
            const int k = c % N;
            if (kinds[k].phase == 0) {
                if (first_free < 0) first_free = i;
                continue;
            }
            hold(&s, i, kinds[k].phase, kinds[k].direction, kinds[k].tries,
                 (uint32_t)kinds[k].type << 24 | (20u + (unsigned)i));
            if ((kinds[k].phase == 3 || kinds[k].phase == 4) && kinds[k].type == 0) rbc_open_lost++;
            if (kinds[k].phase != 5) closable++;
        }
        CHECK(sound(&s));
        for (uint32_t type = 0; type < 2; type++)
            for (uint8_t accepting = 0; accepting < 2; accepting++) {
                State got = s, again = s;
                const uint32_t who = type << 24 | 3;
                uint8_t a[20];
                const StepResult r = step(&got, REC(5, P(who), accepting, 1), a, 20);
                if (first_free < 0) {
                    CHECK(r.code == 8 && r.count == 0 && same(&got, &s));
                } else {
                    const int closed = type == 0 && accepting == 0 ? rbc_open_lost : 0;
                    CHECK(r.code == 0 && r.count == closed + 1);
                    CHECK(got.phase[first_free] == CONNECTING && got.direction[first_free] == OUTGOING &&
                          got.tries[first_free] == 1 && got.partner[first_free] == who);
                    const uint8_t *p = a;
                    for (int i = 0; i < 4; i++) {
                        if (i == first_free) continue;
                        const bool hit = closed && s.partner[i] >> 24 == RBC && (s.phase[i] == OPEN || s.phase[i] == LOST);
                        State w = s;
                        if (hit && s.phase[i] == OPEN) hold(&w, i, ENDING, s.direction[i], 1, s.partner[i]);
                        if (hit && s.phase[i] == LOST) hold(&w, i, FREE, 0, 0, 0);
                        CHECK(got.phase[i] == w.phase[i] && got.direction[i] == w.direction[i] &&
                              got.tries[i] == w.tries[i] && got.partner[i] == w.partner[i]);
                        if (hit) {
                            const uint8_t want[5] = {s.phase[i] == OPEN ? 156 : 22, P(s.partner[i])};
                            CHECK(memcmp(p, want, 5) == 0);
                            p += 5;
                        }
                    }
                    const uint8_t want[5] = {21, P(who)};
                    CHECK(memcmp(p, want, 5) == 0);
                    CHECK(sound(&got));
                }
                CHECK(agree(&again, REC(5, P(who), accepting, 1)));
                CHECK(same(&again, &got));
            }
        for (int how = 0; how < 3; how++) {
            State got = s;
            got.mission = 2;
            got.mode = got.manual = got.hole_end = 1;
            State w = got;
            uint8_t a[20];
            const StepResult r = how < 2 ? step(&got, REC(7, (uint8_t)how), a, 20) : step(&got, REC(2, 0), a, 20);
            CHECK(r.code == 0 && r.count == closable);
            if (how == 2) w.mission = 0;
            const uint8_t *p = a;
            for (int i = 0; i < 4; i++) {
                if (s.phase[i] == FREE || s.phase[i] == ENDING) continue;
                const uint8_t want[5] = {s.phase[i] == OPEN ? 156 : 22, P(s.partner[i])};
                CHECK(memcmp(p, want, 5) == 0);
                p += 5;
                if (s.phase[i] == OPEN) hold(&w, i, ENDING, s.direction[i], 1, s.partner[i]);
                else hold(&w, i, FREE, 0, 0, 0);
            }
            CHECK(same(&got, &w));
        }
    }
}

/* ---- refusals, lengths, field ranges, level/mission/mode/hole ---- */

static void refusals(void)
{
    static const uint8_t want_length[256] = {[1] = 3, [2] = 2, [3] = 1, [4] = 2, [5] = 7, [6] = 5,
                                             [7] = 2, [8] = 5, [9] = 5, [10] = 5, [11] = 7};
    uint8_t r[16] = {0}, a[32];

    /* lengths and kinds, before any field: the fields are out of range here */
    for (int kind = 0; kind < 256; kind++)
        for (size_t n = 0; n <= 16; n++) {
            State s = cold(1, 2);
            memset(r, 0xFF, sizeof r);
            r[0] = (uint8_t)kind;
            const int code = n == 0 ? 1 : want_length[kind] == 0 ? 2 : n != want_length[kind] ? 1 : kind == 3 ? 0 : 3;
            CHECK(takes(&s, r, n, code, 0));
        }
    {
        State s = cold(1, 2);
        CHECK(step(&s, NULL, 0, a, 20).code == 1);
        CHECK(step(&s, NULL, 0, NULL, 0).code == 10);
    }

    /* every byte of every field: 3 exactly when out of range */
    for (int kind = 1; kind <= 11; kind++)
        for (int at = 1; at < want_length[kind]; at++)
            for (int value = 0; value < 256; value++)
                for (int number = 0; number < (kind == 11 ? 3 : 1); number++) {
                    State s = cold(1, 2);
                    memset(r, 0, sizeof r);
                    r[0] = (uint8_t)kind;
                    if (kind == 5) r[6] = 1;
                    if (kind == 11) r[5] = (uint8_t[]){32, 38, 39}[number];
                    r[at] = (uint8_t)value;
                    bool bad = false;
                    switch (kind) {
                    case 1: bad = at == 1 ? value > 4 : value > 1; break;
                    case 2: bad = value > 2; break;
                    case 4: case 7: bad = value > 1; break;
                    case 5: bad = at == 1 ? value > 1 : at == 5 ? value > 1 : at == 6 ? value > 4 : false; break;
                    case 11:
                        if (at == 1) bad = value > 1;
                        if (at == 5) bad = value != 32 && value != 38 && value != 39;
                        if (at == 6) bad = r[5] == 32 ? value > 127 : value != 0;
                        break;
                    default: bad = at == 1 && value > 1; break;
                    }
                    CHECK((step(&s, r, want_length[kind], a, 20).code == 3) == bad);
                }

    /* the order of the refusals */
    State s = cold(1, 2), bad = s;
    bad.level = 5;
    for (size_t n = 0; n < 20; n++) {
        State g = bad;
        memset(a, 0xEE, sizeof a);
        const StepResult x = step(&g, REC(99), a, n);
        CHECK(x.code == 10 && x.count == 0 && same(&g, &bad));
        g = s;
        CHECK(step(&g, REC(3), a, n).code == 10 && same(&g, &s));
        for (size_t i = 0; i < sizeof a; i++) CHECK(a[i] == 0xEE);
    }
    CHECK(takes(&bad, REC(99), 11, 0));
    CHECK(takes(&bad, REC(3), 11, 0));
    CHECK(takes(&bad, NULL, 0, 11, 0));
    CHECK(takes(&s, REC(12), 2, 0));
    CHECK(takes(&s, REC(0), 2, 0));
    CHECK(takes(&s, REC(5, 2, 0, 0, 1, 0, 0), 3, 0));              /* 3 before 4 */
    CHECK(takes(&s, REC(5, 0, 0, 0, 1, 2, 0), 3, 0));
    CHECK(takes(&s, REC(5, 1, 0, 0, 1, 2, 0), 3, 0));              /* accepting judged for an RIU too */
    CHECK(takes(&s, REC(5, 0, 0, 0, 1, 0, 5), 3, 0));
    CHECK(takes(&s, REC(11, 1, 0, 0, 1, 38, 1), 3, 0));            /* 3 before 9 */
    CHECK(takes(&s, REC(11, 0, 0, 0, 1, 39, 1), 3, 0));            /* 3 before 6 */
    CHECK(takes(&s, REC(11, 1, 0, 0, 1, 38, 0), 9, 0));
    CHECK(takes(&s, REC(11, 0, 0, 0, 1, 39, 0), 6, 0));
    CHECK(takes(&s, REC(4, 2), 3, 0));                             /* 3 before 7 */
    for (unsigned i = 0; i < 4; i++)
        hold(&s, (int)i, i == 1 ? LOST : ENDING, OUTGOING, 1, i == 3 ? RIU_(7u) : 10 + i);
    CHECK(takes(&s, REC(5, 0, 0, 0, 10, 0, 0), 4, 0));             /* 4 before 5 */
    CHECK(takes(&s, REC(5, 0, 0, 0, 11, 0, 1), 5, 0));             /* 5 before 8 */
    CHECK(takes(&s, REC(5, 0, 0, 0, 99, 0, 1), 8, 0));             /* though Lost 11 would be freed */
    CHECK(takes(&s, REC(11, 1, 0, 0, 7, 38, 0), 9, 0));            /* 9 before 5 */
    CHECK(takes(&s, REC(11, 1, 0, 0, 8, 38, 0), 9, 0));            /* 9 before 8 */
    CHECK(takes(&s, REC(11, 0, 0, 0, 10, 38, 0), 5, 0));           /* 5 before 8 */
    CHECK(takes(&s, REC(11, 0, 0, 0, 7, 38, 0), 8, 0));            /* RBC 7 is not RIU 7 */
    CHECK(takes(&s, REC(8, 0, 0, 0, 7), 6, 0));
    CHECK(takes(&s, REC(8, 1, 0, 0, 7), 7, 0));

    /* cold start: with n, and with the default, which is 5 */
    for (int lo = 0; lo < 256; lo++)
        for (int hi = 0; hi < 256; hi++)
            for (int n = -1; n < 256; n += n < 12 || n > 250 ? 1 : 1 + (lo + hi) % 30) {
                State g, w;
                memset(&g, 0xAA, sizeof g);
                memset(&w, 0, sizeof w);
                w.n = 3;
                const uint8_t code = n < 0 ? cold_start_default(&g, (uint8_t)lo, (uint8_t)hi)
                                           : cold_start(&g, (uint8_t)lo, (uint8_t)hi, (uint8_t)n);
                if (lo <= 7 && hi <= 7 && lo <= hi && n != 0 && n <= 9) {
                    w.lowest = (uint8_t)lo;
                    w.highest = (uint8_t)hi;
                    w.n = (uint8_t)(n < 0 ? 5 : n);
                    CHECK(code == 0);
                } else {
                    CHECK(code == 13);
                }
                CHECK(same(&g, &w) && sound(&g));
            }

    /* level, mission, mode, hole, over every small state */
    for (uint8_t level = 0; level < 5; level++)
        for (uint8_t mission = 0; mission < 3; mission++)
            for (int marks = 0; marks < 16; marks++) {
                State b = cold(1, 2);
                b.level = level;
                b.mission = mission;
                b.inside = marks & 1;
                b.mode = marks >> 1 & 1;
                b.manual = marks >> 2 & 1;
                b.hole_end = marks >> 3 & 1;
                if (b.inside && b.hole_end) continue;
                hold(&b, 1, OPEN, INCOMING, 0, 4);
                for (uint8_t v = 0; v < 5; v++)
                    for (uint8_t m = 0; m < 2; m++) {
                        State g = b, w = b;
                        w.level = v;
                        if (m) w.manual = 1;
                        CHECK(takes(&g, REC(1, v, m), 0, 0));
                        CHECK(same(&g, &w));
                    }
                for (uint8_t v = 1; v < 3; v++) {
                    State g = b, w = b;
                    w.mission = v;
                    CHECK(takes(&g, REC(2, v), 0, 0));
                    CHECK(same(&g, &w));
                }
                {
                    State g = b, w = b;
                    w.mission = 0;
                    hold(&w, 1, ENDING, INCOMING, 1, 4);
                    CHECK(takes(&g, REC(2, 0), 0, 1, 156, 4));
                    CHECK(same(&g, &w));
                    CHECK(takes(&g, REC(2, 0), 0, 0));
                    CHECK(takes(&g, REC(7, 1), 0, 0));
                    CHECK(same(&g, &w));
                }
                {
                    State g = b, w = b;
                    w.mode = 1;
                    CHECK(takes(&g, REC(3), 0, 0));
                    CHECK(same(&g, &w));
                }
                {
                    State g = b, w = b;
                    if (b.inside) {
                        CHECK(takes(&g, REC(4, 1), 7, 0));
                        w.inside = 0;
                        w.hole_end = 1;
                        CHECK(takes(&g, REC(4, 0), 0, 0));
                    } else {
                        CHECK(takes(&g, REC(4, 0), 7, 0));
                        w.inside = 1;
                        w.hole_end = 0;
                        CHECK(takes(&g, REC(4, 1), 0, 0));
                    }
                    CHECK(same(&g, &w));
                }
            }
}

/* ---- soundness and the image ---- */

static void random_sound(Rng *g, State *s)
{
    uint8_t lo, hi;
    gen_x(g, &lo, &hi);
    *s = cold_n(lo, hi, gen_n(g));
    s->level = (uint8_t)rng_below(g, 5);
    s->mission = (uint8_t)rng_below(g, 3);
    s->mode = (uint8_t)rng_below(g, 2);
    s->manual = (uint8_t)rng_below(g, 2);
    const uint32_t hole = rng_below(g, 3);
    s->inside = hole == 1;
    s->hole_end = hole == 2;
    if (rng_below(g, 3) != 0) {                /* known: a small number, like those of the places */
        const uint32_t d = rng_below(g, 4);
        s->last = 0x01000000 | (d == 0 ? rng_below(g, 1u << 24) : rng_below(g, 6));
        if (s->last % 16384 == 16383) s->last ^= 1u << rng_below(g, 14);
    }
    for (int i = 0; i < 4; i++) {
        if (rng_below(g, 4) == 0) continue;
        uint32_t who;
        bool again;
        do {
            who = rng_below(g, 2) << 24;
            const uint32_t d = rng_below(g, 8);
            who |= d < 2 ? rng_below(g, 1u << 24) : d == 2 ? rng_below(g, 1024) << 14 | 16383 : rng_below(g, 6);
            again = who >> 24 == 0 && who % 16384 == 16383;
            for (int j = 0; j < i; j++)
                if (s->phase[j] != FREE && s->partner[j] == who) again = true;
        } while (again);
        const uint8_t phase = (uint8_t)(1 + rng_below(g, 5));
        const uint8_t direction = phase >= 3 && who >> 24 == RBC ? (uint8_t)rng_below(g, 2) : 0;
        hold(s, i, phase, direction, phase == OPEN ? 0 : (uint8_t)(1 + rng_below(g, s->n)), who);
    }
}

/* An unsound state: 11 from a step, the runs and both writers, but 10 before it. */
static void check_unsound(State s)
{
    const State before = s;
    uint8_t a[50];
    RunResult o;
    memset(a, 0xEE, sizeof a);
    const StepResult r = step(&s, REC(3), a, 20);
    CHECK(r.code == 11 && r.count == 0 && same(&s, &before) && a[0] == 0xEE);
    for (int f = 0; f < 2; f++) {
        memset(&o, 0x33, sizeof o);
        (f ? run_once : run_checked)(&s, (const uint8_t[]){3}, 1, 1, &o);
        CHECK(same(&s, &before) && o.code == 11 && !(o.stop | o.offset | o.read | o.refused));
        for (int i = 0; i < 6; i++) CHECK(o.total[i] == 0);
        memset(&o, 0x33, sizeof o);
        (f ? run_once : run_checked)(&s, NULL, 0, 0, &o);
        CHECK(o.code == 11);
    }
    CHECK(image_write(&s, a, 41) == 10 && image_write(&s, a, 42) == 11);
    CHECK(image_write_old(&s, a, 36) == 10 && image_write_old(&s, a, 37) == 11);
    for (size_t i = 0; i < sizeof a; i++) CHECK(a[i] == 0xEE);
}

/* 42 bytes, read as an image of either kind: of A1 the first 37. */
static void check_image(const uint8_t *b)
{
    State s, before;
    uint8_t out[48], full[42];
    const bool old = b[0] == 0xA1;
    memcpy(full, b, 42);
    if (old) {                              /* what an A1 image means, as an A2 image */
        full[0] = 0xA2;
        full[37] = 3;
        memset(full + 38, 0, 4);
    }
    if (old) image_load_old(&s, b);
    else image_load(&s, b);
    const bool ok = slow_sound(full);
    if (full[0] == 0xA2) CHECK(sound(&s) == ok);
    memset(&before, 0x55, sizeof before);
    State g = before, h = before;
    const uint8_t code = image_read(&g, b, old ? 37 : 42), new_code = image_read_new(&h, b, old ? 37 : 42);
    CHECK(code == (b[0] != 0xA1 && b[0] != 0xA2 ? 2 : ok ? 0 : 11));
    CHECK(new_code == (b[0] != 0xA2 ? 2 : ok ? 0 : 11));
    const State zero = cold(0, 0);
    CHECK(code == 0 ? same(&g, &s) : same(&g, &zero));
    CHECK(new_code == 0 ? same(&h, &s) : same(&h, &zero));
    if (full[0] != 0xA2) return;
    if (!ok) {
        check_unsound(s);
        return;
    }
    before = s;
    memset(out, 0xEE, sizeof out);
    CHECK(image_write(&s, out, 45) == 0 && memcmp(out, full, 42) == 0 && same(&s, &before));
    for (int i = 42; i < 48; i++) CHECK(out[i] == 0xEE);
    memset(out, 0xEE, sizeof out);
    CHECK(image_write(&s, out, 42) == 0 && memcmp(out, full, 42) == 0);
    /* back to A1 exactly when n is 3 and none is known; there and back gives the same bytes */
    const bool fits = full[37] == 3 && full[38] == 0;
    memset(out, 0xEE, sizeof out);
    CHECK(image_write_old(&s, out, 36) == 10 && out[0] == 0xEE);
    CHECK(image_write_old(&s, out, 40) == (fits ? 0 : 16) && same(&s, &before));
    for (int i = fits ? 37 : 0; i < 48; i++) CHECK(out[i] == 0xEE);
    if (fits) {
        CHECK(out[0] == 0xA1 && memcmp(out + 1, full + 1, 36) == 0);
        CHECK(image_read(&g, out, 37) == 0 && same(&g, &s));
    }
    CHECK(!old || (fits && memcmp(out, b, 37) == 0));
}

static void images(void)
{
    Rng g = {0xC0FFEE};
    uint8_t b[48];
    State s;

    /* the layouts, by hand */
    s = cold(1, 2);
    s.level = 3;
    s.mission = 2;
    s.mode = 1;
    s.hole_end = 1;
    hold(&s, 1, LOST, INCOMING, 3, 0x00010203);
    hold(&s, 3, CONTACTING, OUTGOING, 2, 0x01FFFEFD);
    uint8_t want[42] = {
        0xA1, 1, 2, 3, 2, 0, 1, 0, 1, 0, 0, 0, 0, 0, 0, 0, 4, 1, 3, 0, 1, 2, 3,
        0, 0, 0, 0, 0, 0, 0, 2, 0, 2, 1, 0xFF, 0xFE, 0xFD, 3, 0, 0, 0, 0};
    CHECK(image_write_old(&s, b, 37) == 0 && memcmp(b, want, 37) == 0);
    want[0] = 0xA2;
    CHECK(image_write(&s, b, 42) == 0 && memcmp(b, want, 42) == 0);
    State known = s;
    known.n = 7;
    known.last = 0x010A0B0C;
    CHECK(image_write(&known, b, 42) == 0 && memcmp(b, want, 37) == 0);
    CHECK(b[37] == 7 && b[38] == 1 && b[39] == 10 && b[40] == 11 && b[41] == 12);
    CHECK(image_write_old(&known, b, 37) == 16);

    /* refusals of write and read */
    for (size_t n = 0; n < 42; n++)
        for (int k = 0; k < 2; k++) {
            const State *t = k ? &known : &s;
            const State before = *t;
            memset(b, 0xEE, sizeof b);
            CHECK(image_write(t, b, n) == 10 && same(t, &before));
            for (size_t i = 0; i < sizeof b; i++) CHECK(b[i] == 0xEE);
            CHECK(image_write_old(t, b, n) == (n < 37 ? 10 : k ? 16 : 0));
            for (size_t i = n < 37 || k ? 0 : 37; i < sizeof b; i++) CHECK(b[i] == 0xEE);
        }
    const State zero = cold(0, 0);
    for (size_t n = 0; n <= 48; n++)
        for (int kind = 0; kind < 256; kind++) {
            State t, u;
            memset(&t, 0x99, sizeof t);
            memset(&u, 0x66, sizeof u);
            memset(b, 0, sizeof b);
            memcpy(b, want, 42);
            b[0] = (uint8_t)kind;
            const uint8_t code = image_read(&t, b, n), new_code = image_read_new(&u, b, n);
            CHECK(code == (n == 0 ? 1 : kind == 0xA1 ? (n != 37 ? 1 : 0) : kind == 0xA2 ? (n != 42 ? 1 : 0) : 2));
            CHECK(new_code == (n == 0 ? 1 : kind != 0xA2 ? 2 : n != 42 ? 1 : 0));
            CHECK(code == 0 ? same(&t, &s) : same(&t, &zero));
            CHECK(new_code == 0 ? same(&u, &s) : same(&u, &zero));
        }
    CHECK(image_read(&s, NULL, 0) == 1);
    CHECK(image_read_new(&s, NULL, 0) == 1);

    /* one place alone: every phase, direction, tries, type near the ranges, and each byte in full */
    for (int phase = 0; phase < 256; phase += phase < 9 ? 1 : 13)
        for (int direction = 0; direction < 256; direction += direction < 5 ? 1 : 17)
            for (int tries = 0; tries < 256; tries += tries < 12 ? 1 : 19)
                for (int type = 0; type < 256; type += type < 4 ? 1 : 21)
                    for (int n = 0; n <= 11; n++) {
                        if (n % 3 != (phase + direction) % 3 && phase > 6) continue;
                        memset(b, 0, sizeof b);
                        b[0] = n == 11 ? 0xA1 : 0xA2;
                        b[37] = (uint8_t)n;
                        uint8_t *p = b + 9 + 7 * (n % 4);
                        p[0] = (uint8_t)phase;
                        p[1] = (uint8_t)direction;
                        p[2] = (uint8_t)tries;
                        p[3] = (uint8_t)type;
                        p[6] = (uint8_t)(n % 2);
                        check_image(b);
                    }
    /* every pair of tries side by side, and n (they are tested four at a time) */
    for (int i = 0; i < 4; i++)
        for (int j = 0; j < 4; j++)
            for (int x = 0; i != j && x < 256; x++)
                for (int y = 0; y < 256; y++) {
                    memset(b, 0, sizeof b);
                    b[0] = 0xA2;
                    b[37] = (uint8_t)((x + y) % 12);
                    for (int k = 0; k < 4; k++) {
                        const uint8_t lost[7] = {4, 0, 1, 0, 0, 0, (uint8_t)k};
                        memcpy(b + 9 + 7 * k, lost, 7);
                    }
                    b[9 + 7 * i + 2] = (uint8_t)x;
                    b[9 + 7 * j + 2] = (uint8_t)y;
                    State t;
                    image_load(&t, b);
                    CHECK(sound(&t) == slow_sound(b));
                }
    /* every number as the last known RBC and in a place, near the reserved ones and elsewhere */
    for (int kind = 0; kind < 3; kind++)
        for (uint32_t number = 0; number < 1u << 24; number += (number & 0x3FFF) > 0x3FF8 || (number & 0x3FFF) < 3 ? 1 : 1021) {
            memset(b, 0, sizeof b);
            b[0] = 0xA2;
            b[37] = 5;
            b[38] = 1;
            uint8_t *p = b + 39;
            if (kind > 0) {
                p = b + 9 + 7 * (number % 4);
                p[0] = 3;
                p[3] = kind == 2;
                p += 4;
            }
            p[0] = (uint8_t)(number >> 16);
            p[1] = (uint8_t)(number >> 8);
            p[2] = (uint8_t)number;
            State t;
            image_load(&t, b);
            CHECK(sound(&t) == slow_sound(b));
            CHECK(sound(&t) == (kind == 2 || number % 16384 != 16383));
        }
    /* every flag, and bytes behind it */
    for (int flag = 0; flag < 256; flag++)
        for (int at = 0; at < 4; at++)
            for (int value = 0; value < 256; value++) {
                memset(b, 0, sizeof b);
                b[0] = 0xA2;
                b[37] = 3;
                b[38] = (uint8_t)flag;
                if (at > 0) b[38 + at] = (uint8_t)value;
                State t;
                image_load(&t, b);
                CHECK(sound(&t) == (flag == 1 || (flag == 0 && (at == 0 || value == 0))));
                if (value < 2 || value == 255) check_image(b);
            }
    /* every pair of phase bytes side by side (they are tested four at a time) */
    for (int i = 0; i < 4; i++)
        for (int j = 0; j < 4; j++)
            for (int x = 0; i != j && x < 256; x++)
                for (int y = 0; y < 256; y++) {
                    memset(b, 0, sizeof b);
                    b[0] = 0xA2;
                    b[37] = 3;
                    const uint8_t open[7] = {3, 0, 0, 0, 0, 0, 9};
                    for (int k = 0; k < 4; k++) {
                        memcpy(b + 9 + 7 * k, open, 7);
                        b[9 + 7 * k + 6] = (uint8_t)k;
                    }
                    b[9 + 7 * i] = (uint8_t)x;
                    b[9 + 7 * j] = (uint8_t)y;
                    State t;
                    image_load(&t, b);
                    CHECK(sound(&t) == slow_sound(b));
                }
    /* round trips, and every change of one byte of a sound image; and pairs of changes */
    for (int k = 0; k < 300; k++) {
        random_sound(&g, &s);
        CHECK(sound(&s));
        memset(b, 0, sizeof b);
        CHECK(image_write(&s, b, 42) == 0);
        check_image(b);
        for (int i = 0; i < 42; i++) {
            const uint8_t keep = b[i];
            for (int v = 0; v < 256; v += (k < 30 ? 1 : 1 + (int)rng_below(&g, 40))) {
                b[i] = (uint8_t)v;
                check_image(b);
                if (i > 0 && b[0] == 0xA2) {   /* the same as an A1 image */
                    b[0] = 0xA1;
                    check_image(b);
                    b[0] = 0xA2;
                }
            }
            b[i] = keep;
        }
    }
    for (long k = 0; k < 400000; k++) {
        random_sound(&g, &s);
        image_store(&s, b);
        if (rng_below(&g, 4) == 0) b[0] = 0xA1;
        for (uint32_t c = rng_below(&g, 4); c > 0; c--) {
            const uint32_t at = 1 + rng_below(&g, 41);
            b[at] = (uint8_t)rng_below(&g, rng_below(&g, 8) ? 11 : 256);
        }
        if (rng_below(&g, 3) == 0) {        /* copy a partner */
            const uint32_t from = rng_below(&g, 4), to = rng_below(&g, 4);
            memmove(b + 9 + 7 * to + 3, b + 9 + 7 * from + 3, 4);
        }
        if (rng_below(&g, 8) == 0) {        /* the low 14 bits of a number */
            const uint32_t at = rng_below(&g, 5);
            uint8_t *const low = at == 4 ? b + 40 : b + 9 + 7 * at + 5;
            low[0] |= 63;
            low[1] = 255;
        }
        check_image(b);
    }
}

/* ---- random steps against the slow step; from any sound state, and along histories ---- */

static unsigned long hits[10][6][10][7][2], causes_hit[5][2], order_closed[4], code_hit[17], places_hit[5];
static unsigned long last_hit[7], code_last_hit[17];

static void note(const State *before, const uint8_t *r, size_t n, StepResult x)
{
    code_hit[x.code]++;
    int used = 0;
    for (int i = 0; i < 4; i++) used += before->phase[i] != FREE;
    places_hit[used]++;
    if (x.code == 1 || x.code == 2 || n < 5) return;
    if (x.code == 3) {
        if (r[1] == 0 && slow_last(r + 2)) last_hit[r[0] - 5]++;
        return;
    }
    if (r[0] == 5 && r[1] == 0 && slow_last(r + 2)) code_last_hit[x.code]++;
    if (r[0] == 5) {
        causes_hit[r[6]][x.code != 0]++;
        if (x.code == 0) order_closed[x.count - 1]++;
        return;
    }
    if (r[0] == 11 && r[5] == 38) return;
    int column = r[0] == 6 ? 0 : r[0] == 8 ? 1 : r[0] == 9 ? 2 : r[0] == 10 ? 3 : r[5] == 39 ? 6 : 4;
    if (column == 4 && (r[6] >> 4 < before->lowest || r[6] >> 4 > before->highest)) column = 5;
    for (int i = 0; i < 4; i++) {
        const uint8_t p[4] = {P(before->partner[i])};
        if (before->phase[i] != FREE && memcmp(p, r + 1, 4) == 0)
            hits[before->n][before->phase[i]][before->tries[i]][column][before->direction[i]]++;
    }
}

static void random_steps(void)
{
    Rng g = {42};
    uint8_t r[GEN_MOST], a[20];
    for (long k = 0; k < 1000000; k++) {
        State s;
        random_sound(&g, &s);
        const size_t n = gen_record_last(&g, &s, false, r);
        CHECK(agree(&s, r, n));
        CHECK(sound(&s));
    }
    /* any bytes at all, any state bytes near the ranges */
    for (long k = 0; k < 1000000; k++) {
        State s;
        random_sound(&g, &s);
        if (rng_below(&g, 4) == 0)
        {
            const uint32_t at = rng_below(&g, offsetof(State, zero));
            ((uint8_t *)&s)[at] = (uint8_t)rng_below(&g, 11);
        }
        for (int i = 0; i < GEN_MOST; i++) r[i] = (uint8_t)rng_below(&g, rng_below(&g, 3) ? 8 : 256);
        r[0] = (uint8_t)rng_below(&g, 14);
        if (rng_below(&g, 2)) memset(r + 2, 0, 2);
        if (rng_below(&g, 3) == 0) {
            r[3] |= 63;
            r[4] = 255;
        }
        const size_t n = rng_below(&g, 4) ? (r[0] <= 11 ? record_length[r[0]] : 5) : rng_below(&g, 9);
        CHECK(agree(&s, r, n));
    }
    for (long h = 0; h < 30000; h++) {
        uint8_t lo, hi;
        gen_x(&g, &lo, &hi);
        const uint8_t m = h % 3 == 0 ? 3 : gen_n(&g);
        State s = cold_n(lo, hi, m);
        unsigned long orders_in = 0, calls_in = 0, losses = 0, releases = 0, actions = 0;
        uint32_t last = 0;                      /* by the 159s to RBCs */
        for (int k = 0; k < 80; k++) {
            const size_t n = gen_record_last(&g, &s, false, r);
            State before = s, twin = s;
            CHECK(agree(&twin, r, n));
            const StepResult x = step(&s, r, n, a, sizeof a);
            CHECK(same(&s, &twin));
            note(&before, r, n, x);
            CHECK(sound(&s));
            if (x.code == 0) {
                uint8_t b[20];
                const StepResult y = step_trusted(&before, r, b);
                CHECK(y.code == 0 && y.count == x.count && same(&before, &s) && memcmp(a, b, 5u * x.count) == 0);
                CHECK(x.place == 4 && x.phase == 0 && y.place == 4 && y.phase == 0);
                orders_in += r[0] == 5;
                calls_in += r[0] == 11 && r[5] == 38;
                losses += r[0] == 9;
                actions += x.count;
                for (unsigned i = 0; i < x.count; i++) {
                    releases += a[5 * i] == 22;
                    if (a[5 * i] == 159 && a[5 * i + 1] == 0)
                        last = 0x01000000 | (uint32_t)a[5 * i + 2] << 16 | (uint32_t)a[5 * i + 3] << 8 | a[5 * i + 4];
                    CHECK(a[5 * i + 1] != 0 || !slow_last(a + 5 * i + 2));
                }
            }
            CHECK(s.last == last && s.n == m && s.lowest == lo && s.highest == hi);
            if (x.code >= 3) {                  /* of a known kind and its length: trusted too */
                uint8_t b[20];
                const StepResult y = step_trusted(&before, r, b);
                CHECK(memcmp(&x, &y, sizeof x) == 0 && same(&before, &s));
            }
            /* the property of demand, after each step */
            unsigned long held = 0;
            for (int i = 0; i < 4; i++) held += s.phase[i] != FREE;
            CHECK(actions <= (3ul * m + 2) * orders_in + (m + 2ul) * calls_in + m * losses);
            CHECK(orders_in + calls_in == releases + held);
        }
    }
    /* the histories reach every cell of the table */
    for (size_t row = 0; row < sizeof table / sizeof table[0]; row++)
        for (int column = 0; column < 7; column++)
            for (int direction = 0; direction < (table[row].phase >= 3 ? 2 : 1); direction++)
                CHECK(hits[3][table[row].phase][table[row].tries][column][direction] >= 20);
    for (int m = 1; m <= 9; m++)
        for (int phase = 1; phase <= 5; phase++)
            for (int t = phase == 3 ? 0 : 1; t <= (phase == 3 ? 0 : m); t++)
                for (int column = 0; column < 7; column++)
                    if (t < 4) CHECK(hits[m][phase][t][column][0] > 0);
    for (int c = 0; c < 17; c++)
        CHECK(c == 0 || c == 4 || c == 5 || c == 8 || c == 15 ? code_last_hit[c] >= 100 : code_last_hit[c] == 0);
    for (int c = 0; c < 7; c++) CHECK(c == 2 ? last_hit[c] == 0 : last_hit[c] >= 100);    /* 7 is end all */
    for (int c = 0; c < 5; c++) CHECK(causes_hit[c][0] >= 1000 && (causes_hit[c][1] >= 1000));
    for (int c = 0; c < 4; c++) CHECK(order_closed[c] >= 100);
    for (int c = 0; c < 10; c++) CHECK(code_hit[c] >= 1000);
    for (int c = 0; c < 5; c++) CHECK(places_hit[c] >= 10000);
    printf("histories: codes 0..9:");
    for (int c = 0; c < 10; c++) printf(" %lu", code_hit[c]);
    printf(", 15: %lu", code_hit[15]);
    printf("\n  orders to the last known RBC: taken %lu, 4: %lu, 15: %lu, 5: %lu, 8: %lu", code_last_hit[0],
           code_last_hit[4], code_last_hit[15], code_last_hit[5], code_last_hit[8]);
    printf("\n  places held before a step 0..4:");
    for (int c = 0; c < 5; c++) printf(" %lu", places_hit[c]);
    printf("\n  orders taken by cause 0..4:");
    for (int c = 0; c < 5; c++) printf(" %lu", causes_hit[c][0]);
    printf("\n  orders taken with 0..3 closings:");
    for (int c = 0; c < 4; c++) printf(" %lu", order_closed[c]);
    unsigned long least = ~0ul;
    for (size_t row = 0; row < sizeof table / sizeof table[0]; row++)
        for (int column = 0; column < 7; column++)
            for (int d = 0; d < (table[row].phase >= 3 ? 2 : 1); d++)
                if (hits[3][table[row].phase][table[row].tries][column][d] < least)
                    least = hits[3][table[row].phase][table[row].tries][column][d];
    printf("\n  the rarest cell of phase, tries, event, direction with n = 3: %lu times\n", least);

    /* the bounds are reached for each n: 3n + 2 actions by one order, n + 2 by one call, n by a loss;
     * n timeouts end what began with one try */
    for (uint8_t m = 1; m <= 9; m++) {
        State s = cold_n(1, 2, m);
        const uint8_t timeout[5] = {10, 0, 0, 0, 1};
        int n = step(&s, REC(5, 0, 0, 0, 1, 1, 1), a, 20).count;
        for (int i = 1; i < m; i++) n += step(&s, timeout, 5, a, 20).count;
        n += step(&s, REC(8, 0, 0, 0, 1), a, 20).count;
        for (int i = 1; i < m; i++) n += step(&s, timeout, 5, a, 20).count;
        n += step(&s, REC(11, 0, 0, 0, 1, 32, 0x11), a, 20).count;
        n += step(&s, REC(6, 0, 0, 0, 1), a, 20).count;
        for (int i = 1; i < m; i++) n += step(&s, timeout, 5, a, 20).count;
        CHECK(n == 3 * m + 1 && s.phase[0] == ENDING && s.tries[0] == m);
        n += step(&s, timeout, 5, a, 20).count;
        CHECK(n == 3 * m + 2 && a[0] == 22 && s.phase[0] == FREE);

        n = step(&s, REC(11, 0, 0, 0, 1, 38, 0), a, 20).count;
        n += step(&s, REC(6, 0, 0, 0, 1), a, 20).count;
        for (int i = 1; i < m; i++) n += step(&s, timeout, 5, a, 20).count;
        CHECK(s.phase[0] == ENDING);
        n += step(&s, timeout, 5, a, 20).count;
        CHECK(n == m + 2 && s.phase[0] == FREE);

        n = step(&s, REC(11, 0, 0, 0, 1, 38, 0), a, 20).count;
        CHECK(n == 1);
        n = step(&s, REC(9, 0, 0, 0, 1), a, 20).count;
        for (int i = 1; i < m; i++) n += step(&s, timeout, 5, a, 20).count;
        n += step(&s, REC(8, 0, 0, 0, 1), a, 20).count;
        CHECK(n == m && s.phase[0] == OPEN && s.direction[0] == INCOMING && s.tries[0] == 0);
        step(&s, REC(9, 0, 0, 0, 1), a, 20);
        n = 0;
        while (s.phase[0] != FREE) n += step(&s, timeout, 5, a, 20).count;
        CHECK(n == m);

        static const uint8_t from[2] = {CONNECTING, CONTACTING};
        for (int k = 0; k < 2; k++) {
            step(&s, REC(5, 0, 0, 0, 1, 1, 1), a, 20);
            if (k == 1) step(&s, REC(8, 0, 0, 0, 1), a, 20);
            CHECK(s.phase[0] == from[k] && s.tries[0] == 1);
            n = 0;
            while (s.phase[0] != FREE) n += step(&s, timeout, 5, a, 20).count;
            CHECK(n == m);
        }
    }
}

/* ---- the last known RBC ---- */

static void last_known(void)
{
    static const uint32_t number[] = {0x003FFF, 0x007FFF, 0x00BFFF, 0x00FFFF, 0x013FFF, 0x803FFF, 0xFFFFFF, 0x5A7FFF};
    enum { N = sizeof number / sizeof number[0] };
    uint8_t a[20];
    for (int k = 0; k < N; k++)
        for (uint8_t accepting = 0; accepting < 2; accepting++) {
            const uint32_t like = number[k];
            /* none known: 4, then 15; also with all places taken */
            State s = cold_n(1, 2, 5), w;
            CHECK(takes(&s, REC(5, P(like), accepting, 0), 4, 0));
            CHECK(takes(&s, REC(5, P(like), accepting, 1), 15, 0));
            CHECK(takes(&s, REC(5, P(like), 2, 1), 3, 0));
            CHECK(takes(&s, REC(5, P(like), accepting, 5), 3, 0));
            for (uint8_t i = 0; i < 4; i++) hold(&s, i, LOST, INCOMING, 5, 7u + i);
            s.hole_end = 1;
            CHECK(takes(&s, REC(5, P(like), accepting, 4), 15, 0));
            /* an RIU of that number is a partner like any other, and its 159 makes none known */
            s = cold_n(1, 2, 5);
            CHECK(takes(&s, REC(5, P(0x01000000 | like), accepting, 1), 0, 1, 21, 0x01000000 | like));
            CHECK(takes(&s, REC(8, P(0x01000000 | like)), 0, 1, 155, 0x01000000 | like));
            CHECK(takes(&s, REC(11, P(0x01000000 | like), 32, 0x11), 0, 1, 159, 0x01000000 | like));
            CHECK(s.last == 0 && sound(&s));
            CHECK(takes(&s, REC(5, P(like), accepting, 1), 15, 0));
            /* no other event may name it */
            static const uint8_t kind[4] = {6, 8, 9, 10};
            for (int i = 0; i < 4; i++) CHECK(takes(&s, REC(kind[i], P(like)), 3, 0));
            for (uint8_t m = 32; m < 40; m++) CHECK(takes(&s, REC(11, P(like), m, 0), 3, 0));
            /* a call makes one known; refused calls and the 154 do not */
            CHECK(takes(&s, REC(11, P(0x01000004u), 38, 0), 9, 0));
            CHECK(s.last == 0);
            CHECK(takes(&s, REC(11, P(4u), 38, 0), 0, 1, 159, 4));
            CHECK(s.last == 0x01000004);
            CHECK(refuses(&s, REC(5, P(like), accepting, 1), 5, 1, OPEN));
            CHECK(takes(&s, REC(9, P(4u)), 0, 1, 21, 4));
            CHECK(refuses(&s, REC(5, P(like), accepting, 1), 5, 1, LOST));
            CHECK(takes(&s, REC(6, P(4u)), 0, 1, 22, 4));
            w = s;
            hold(&w, 1, CONNECTING, OUTGOING, 1, 4);
            CHECK(takes(&s, REC(5, P(like), accepting, 1), 0, 1, 21, 4));
            CHECK(same(&s, &w));
            CHECK(takes(&s, REC(11, P(6u), 38, 0), 0, 1, 159, 6));
            CHECK(s.last == 0x01000006);
            CHECK(takes(&s, REC(8, P(4u)), 0, 1, 155, 4));
            CHECK(takes(&s, REC(11, P(4u), 32, 0x30), 0, 2, 154, 4, 156, 4));
            CHECK(s.last == 0x01000006);
            CHECK(takes(&s, REC(2, 0), 0, 2, 156, 0x01000000 | like, 156, 6));
            CHECK(takes(&s, REC(11, P(4u), 39, 0), 0, 1, 22, 4));
            CHECK(takes(&s, REC(11, P(6u), 39, 0), 0, 1, 22, 6));
            CHECK(s.last == 0x01000006);
            /* not accepting closes the RBCs in Open and Lost */
            hold(&s, 2, OPEN, INCOMING, 0, 4);
            hold(&s, 3, LOST, INCOMING, 2, 5);
            if (accepting) CHECK(takes(&s, REC(5, P(like), 1, 1), 0, 1, 21, 6));
            else CHECK(takes(&s, REC(5, P(like), 0, 1), 0, 3, 156, 4, 22, 5, 21, 6));
            CHECK(s.partner[1] == 6 && s.phase[1] == CONNECTING && s.last == 0x01000006);
            /* RBC 0 is known too */
            s = cold_n(1, 2, 1);
            CHECK(takes(&s, REC(11, P(0u), 38, 0), 0, 1, 159, 0));
            CHECK(s.last == 0x01000000);
            CHECK(takes(&s, REC(9, P(0u)), 0, 1, 21, 0));
            CHECK(takes(&s, REC(10, P(0u)), 0, 1, 22, 0));
            CHECK(takes(&s, REC(5, P(like), accepting, 1), 0, 1, 21, 0));
            /* it is held by no sound state */
            for (int i = 0; i < 4; i++) {
                State t = cold_n(1, 2, 5);
                hold(&t, i, OPEN, OUTGOING, 0, like);
                CHECK(!sound(&t));
                check_unsound(t);
                hold(&t, i, OPEN, OUTGOING, 0, 0x01000000 | like);
                CHECK(sound(&t));
                t.last = 0x01000000 | like;
                CHECK(!sound(&t));
                check_unsound(t);
                CHECK(step(&t, REC(5, P(like), accepting, 1), a, 20).code == 11);
            }
        }
    /* every number: it means the last known one exactly with all of the low 14 bits */
    for (uint32_t v = 0; v < 1u << 24; v += 1 + (v * 2654435761u >> 28)) {
        const uint32_t who = v % 5 == 0 ? v | 0x3FFF : v;
        State s = cold(1, 2);
        const StepResult x = step(&s, REC(5, P(who), 1, 1), a, 20);
        CHECK(x.code == (who % 16384 == 16383 ? 15 : 0));
        s = cold(1, 2);
        const StepResult y = step(&s, REC(11, P(who), 38, 0), a, 20);
        CHECK(y.code == (who % 16384 == 16383 ? 3 : 0));
    }
}

/* ---- the rescue ---- */

/* A slow, literal rescue: each sentence of request Q-13 in its turn, the list at the end from what differs. */
static int slow_rescue(uint8_t *b, size_t n, uint8_t *list, int *listed)
{
    static const int first[11] = {3, 4, 5, 6, 7, 8, 9, 16, 23, 30, 38}, bytes[11] = {1, 1, 1, 1, 1, 1, 7, 7, 7, 7, 4};
    uint8_t given[42];
    *listed = 0;
    if (n == 0) return 1;
    if (b[0] != 0xA2) return 2;
    if (n != 42) return 1;
    if (b[1] > 7 || b[2] > 7 || b[1] > b[2]) return 11;
    if (b[37] < 1 || b[37] > 9) return 11;
    memcpy(given, b, 42);
    /* level, mission or a mark out of range becomes 0 */
    if (b[3] != 0 && b[3] != 1 && b[3] != 2 && b[3] != 3 && b[3] != 4) b[3] = 0;
    if (b[4] != 0 && b[4] != 1 && b[4] != 2) b[4] = 0;
    for (int i = 5; i <= 8; i++)
        if (b[i] != 0 && b[i] != 1) b[i] = 0;
    /* inside and hole end both 1 clears hole end */
    if (b[5] == 1 && b[8] == 1) b[8] = 0;
    /* a bad last RBC becomes none */
    bool none = b[38] == 0 && b[39] == 0 && b[40] == 0 && b[41] == 0;
    if (!none && (b[38] != 1 || slow_last(b + 39))) memset(b + 38, 0, 4);
    /* going upwards, a place that is not sound by itself: alone in a cold state with this n */
    bool kept[4] = {false, false, false, false};
    for (int i = 0; i < 4; i++) {
        uint8_t *const p = b + 9 + 7 * i;
        uint8_t alone[42] = {0xA2};
        alone[37] = b[37];
        memcpy(alone + 9, p, 7);
        bool drop = !slow_sound(alone);
        /* or repeats the partner of a lower kept place */
        for (int j = 0; j < i; j++) {
            const uint8_t *const q = given + 9 + 7 * j;
            if (kept[j] && p[0] != 0 && p[3] == q[3] && p[4] == q[4] && p[5] == q[5] && p[6] == q[6]) drop = true;
        }
        kept[i] = !drop && p[0] != 0;
        if (drop) memset(p, 0, 7);
    }
    for (int f = 0; f < 11; f++)
        if (memcmp(b + first[f], given + first[f], (size_t)bytes[f]) != 0) list[(*listed)++] = (uint8_t)first[f];
    return 0;
}

static unsigned long field_hit[11], count_hit[12], rescue_hit[12];

/* A rescue against the slow one, and what the request says of it. Gives the code. */
static int check_rescue(const uint8_t *image, size_t n)
{
    uint8_t got[80], want[80], list[20], slow_list[11], count = 99;
    int slow_count;
    State s;
    memset(got, 0xEE, sizeof got);
    memcpy(got, image, n);
    memcpy(want, got, sizeof want);
    memset(list, 0xEE, sizeof list);
    const int code = image_rescue(got, n, list, &count);
    CHECK(code == slow_rescue(want, n, slow_list, &slow_count));
    CHECK(memcmp(got, want, sizeof got) == 0);         /* the bytes behind the image too */
    CHECK(count == slow_count && count <= 11 && memcmp(list, slow_list, count < 11 ? count : 11) == 0);
    for (size_t i = count; i < sizeof list; i++) CHECK(list[i] == 0xEE);
    for (int i = 1; i < count; i++) CHECK(list[i - 1] < list[i]);
    rescue_hit[code]++;
    if (code != 0) {                                   /* refused: no byte is changed and nothing is listed */
        CHECK(count == 0 && memcmp(got, image, n) == 0);
        return code;
    }
    /* a byte that changed is 0 now and stands in a listed field; a listed field has a byte that changed */
    for (int i = 0; i < 42; i++)
        if (got[i] != image[i]) {
            bool in = false;
            for (int k = 0; k < count; k++)
                in |= i >= list[k] && i < list[k] + (list[k] < 9 ? 1 : list[k] < 37 ? 7 : 4);
            CHECK(in && got[i] == 0);
        }
    for (int k = 0; k < count; k++)
        CHECK(memcmp(got + list[k], image + list[k], list[k] < 9 ? 1 : list[k] < 37 ? 7 : 4) != 0);
    for (int k = 0; k < count; k++) field_hit[list[k] < 9 ? list[k] - 3 : list[k] < 37 ? 6 + (list[k] - 9) / 7 : 10]++;
    count_hit[count]++;
    /* the result reads; a sound image is unchanged; a second rescue changes nothing */
    CHECK(image_read_new(&s, got, 42) == 0 && sound(&s) && slow_sound(got));
    CHECK((count == 0) == slow_sound(image));
    memcpy(want, got, sizeof want);
    CHECK(image_rescue(got, 42, list, &count) == 0 && count == 0 && memcmp(got, want, sizeof got) == 0);
    return 0;
}

/* The list and the image by hand: the bytes of 'want' at the listed fields, all others as given. */
static bool rescues(const uint8_t *image, int count, ...)
{
    uint8_t b[42], list[11], found;
    memcpy(b, image, 42);
    const int code = image_rescue(b, 42, list, &found);
    bool ok = code == 0 && check_rescue(image, 42) == 0 && found == count;
    uint8_t want[42];
    memcpy(want, image, 42);
    va_list fields;
    va_start(fields, count);
    for (int i = 0; i < count; i++) {
        const int at = va_arg(fields, int);
        ok = ok && i < found && list[i] == at;
        memset(want + at, 0, at < 9 ? 1 : at < 37 ? 7 : 4);
    }
    va_end(fields);
    return ok && memcmp(b, want, 42) == 0;
}

static void rescue(void)
{
    /* X 1 to 2, level 3, mission 2, mode and hole end set; n 5; RBC 010203 Open, incoming; RIU 010203 Contacting, 5;
     * free; RBC 0 Lost, incoming, 4; RBC 000007 known */
    static const uint8_t good[42] = {
        0xA2, 1, 2, 3, 2, 0, 1, 0, 1,
        3, 1, 0, 0, 1, 2, 3, 2, 0, 5, 1, 1, 2, 3, 0, 0, 0, 0, 0, 0, 0, 4, 1, 4, 0, 0, 0, 0,
        5, 1, 0, 0, 7};
    uint8_t b[80], list[11], count;
    CHECK(rescues(good, 0));
#define SPOILT(...) (memcpy(b, good, 42), __VA_ARGS__, b)

    /* refusals: 1 empty, 2, 1, 11, in this order */
    memset(b, 0, sizeof b);
    count = 9;
    CHECK(image_rescue(b, 0, list, &count) == 1 && count == 0);
    count = 9;
    CHECK(image_rescue(NULL, 0, NULL, &count) == 1 && count == 0);
    for (int kind = 0; kind < 256; kind++)
        for (size_t n = 0; n < 70; n++) {
            SPOILT(b[0] = (uint8_t)kind, b[3] = 9);
            CHECK(check_rescue(b, n) == (n == 0 ? 1 : kind != 0xA2 ? 2 : n != 42 ? 1 : 0));
            b[1] = 3;
            CHECK(check_rescue(b, n) == (n == 0 ? 1 : kind != 0xA2 ? 2 : n != 42 ? 1 : 11));
            SPOILT(b[0] = (uint8_t)kind, b[37] = 10);
            CHECK(check_rescue(b, n) == (n == 0 ? 1 : kind != 0xA2 ? 2 : n != 42 ? 1 : 11));
        }
    for (int x = 0; x < 256; x++) {
        for (int y = 0; y < 256; y++) {
            SPOILT(b[1] = (uint8_t)x, b[2] = (uint8_t)y, b[4] = 77);
            CHECK(check_rescue(b, 42) == (x <= y && y <= 7 ? 0 : 11));
        }
        SPOILT(b[37] = (uint8_t)x, b[4] = 77);
        CHECK(check_rescue(b, 42) == (x >= 1 && x <= 9 ? 0 : 11));
    }

    /* level, mission, a mark out of range */
    for (int v = 0; v < 256; v++) {
        CHECK(v <= 4 ? rescues(SPOILT(b[3] = (uint8_t)v), 0) : rescues(SPOILT(b[3] = (uint8_t)v), 1, 3));
        CHECK(v <= 2 ? rescues(SPOILT(b[4] = (uint8_t)v), 0) : rescues(SPOILT(b[4] = (uint8_t)v), 1, 4));
        CHECK(v <= 1 ? rescues(SPOILT(b[6] = (uint8_t)v), 0) : rescues(SPOILT(b[6] = (uint8_t)v), 1, 6));
        CHECK(v <= 1 ? rescues(SPOILT(b[7] = (uint8_t)v), 0) : rescues(SPOILT(b[7] = (uint8_t)v), 1, 7));
        CHECK(v <= 1 ? rescues(SPOILT(b[8] = (uint8_t)v), 0) : rescues(SPOILT(b[8] = (uint8_t)v), 1, 8));
        /* inside: hole end is 1, and is cleared if inside is 1, not if inside is bad and 0 by then */
        CHECK(v == 0 ? rescues(SPOILT(b[5] = 0), 0) :
              v == 1 ? rescues(SPOILT(b[5] = 1), 1, 8) : rescues(SPOILT(b[5] = (uint8_t)v), 1, 5));
        /* a bad hole end with inside 1 is listed once */
        CHECK(v == 0 ? rescues(SPOILT(b[5] = 1, b[8] = 0), 0) : rescues(SPOILT(b[5] = 1, b[8] = (uint8_t)v), 1, 8));
        CHECK(v < 2 || rescues(SPOILT(b[5] = (uint8_t)v, b[8] = (uint8_t)v), 2, 5, 8));
        /* the last known RBC: the flag, its number */
        CHECK(v == 1 ? rescues(SPOILT(b[38] = 1), 0) : rescues(SPOILT(b[38] = (uint8_t)v), 1, 38));
        CHECK(v == 0 ? rescues(SPOILT(b[38] = 0, b[41] = 0), 0) : rescues(SPOILT(b[38] = 0, b[41] = (uint8_t)v), 1, 38));
        CHECK(v % 64 != 63 ? rescues(SPOILT(b[40] = (uint8_t)v, b[41] = 255), 0) :
              rescues(SPOILT(b[40] = (uint8_t)v, b[41] = 255), 1, 38));
        CHECK(rescues(SPOILT(b[39] = (uint8_t)v, b[40] = 63, b[41] = 255), 1, 38));
        CHECK(rescues(SPOILT(b[39] = (uint8_t)v), 0));
        CHECK(v == 0 || rescues(SPOILT(memset(b + 38, 0, 4), b[39] = (uint8_t)v), 1, 38));
        CHECK(v == 0 || rescues(SPOILT(memset(b + 38, 0, 4), b[40] = (uint8_t)v), 1, 38));
    }
    CHECK(rescues(SPOILT(memset(b + 38, 0, 4)), 0));

    /* a place by itself */
    CHECK(rescues(SPOILT(b[18] = 6), 1, 16));              /* tries over the image's n, not over 3 */
    CHECK(rescues(SPOILT(b[18] = 0), 1, 16));
    CHECK(rescues(SPOILT(b[18] = 4), 0));
    CHECK(rescues(SPOILT(b[37] = 9, b[18] = 9), 0));
    CHECK(rescues(SPOILT(b[37] = 4), 1, 16));              /* n is taken as it stands: 5 tries are too many */
    CHECK(rescues(SPOILT(b[37] = 3), 2, 16, 30));
    CHECK(rescues(SPOILT(b[11] = 1), 1, 9));               /* tries in Open */
    CHECK(rescues(SPOILT(b[9] = 6), 1, 9));
    CHECK(rescues(SPOILT(b[10] = 0), 0));
    CHECK(rescues(SPOILT(b[10] = 2), 1, 9));
    CHECK(rescues(SPOILT(b[12] = 2), 1, 9));
    CHECK(rescues(SPOILT(b[17] = 1), 1, 16));              /* Contacting incoming, and an RIU */
    CHECK(rescues(SPOILT(b[16] = 3, b[18] = 0), 0));
    CHECK(rescues(SPOILT(b[16] = 3, b[18] = 0, b[17] = 1), 1, 16));
    CHECK(rescues(SPOILT(b[30] = 1), 1, 30));              /* Connecting, Contacting incoming, an RBC */
    CHECK(rescues(SPOILT(b[30] = 2), 1, 30));
    CHECK(rescues(SPOILT(b[30] = 5), 0));
    CHECK(rescues(SPOILT(b[14] = 63, b[15] = 255), 1, 9)); /* an RBC that means the last known one */
    CHECK(rescues(SPOILT(b[14] = 255, b[15] = 255), 1, 9));
    CHECK(rescues(SPOILT(b[14] = 254, b[15] = 255), 0));
    CHECK(rescues(SPOILT(b[21] = 63, b[22] = 255), 0));    /* an RIU may have the number */
    for (int k = 1; k < 7; k++)                            /* free, with another byte than zero */
        CHECK(rescues(SPOILT(b[23 + k] = 1), 1, 23));
    CHECK(rescues(SPOILT(b[9] = 0), 1, 9));                /* free by its phase alone */

    /* a repeated partner: the lower place is kept; the type counts; a place that was not kept does not */
    CHECK(rescues(SPOILT(b[19] = 0), 1, 16));
    CHECK(rescues(SPOILT(b[12] = 1, b[10] = 0), 1, 16));
    CHECK(rescues(SPOILT(b[19] = 0, b[9] = 7), 1, 9));
    CHECK(rescues(SPOILT(b[19] = 0, b[11] = 9), 1, 9));
    CHECK(rescues(SPOILT(b[19] = 0, b[18] = 9), 1, 16));
    CHECK(rescues(SPOILT(memcpy(b + 23, b + 9, 7), memcpy(b + 30, b + 9, 7)), 2, 23, 30));
    CHECK(rescues(SPOILT(memcpy(b + 16, b + 9, 7), memcpy(b + 23, b + 9, 7), memcpy(b + 30, b + 9, 7)), 3, 16, 23, 30));
    CHECK(rescues(SPOILT(memcpy(b + 16, b + 9, 7), memcpy(b + 23, b + 9, 7), memcpy(b + 30, b + 9, 7), b[10] = 2), 3, 9, 23, 30));
    CHECK(rescues(SPOILT(memcpy(b + 16, b + 9, 7), memcpy(b + 23, b + 9, 7), memcpy(b + 30, b + 9, 7), b[10] = b[17] = 2), 3, 9, 16, 30));
    CHECK(rescues(SPOILT(memcpy(b + 16, b + 9, 7), memcpy(b + 23, b + 9, 7), memcpy(b + 30, b + 9, 7), b[17] = 2), 3, 16, 23, 30));
    CHECK(rescues(SPOILT(b[23] = 3), 1, 30));              /* RBC 0 in place 2 as well; free places are no RBC 0 */
    CHECK(rescues(SPOILT(memset(b + 9, 0, 14)), 0));
    CHECK(rescues(SPOILT(memcpy(b + 9, b + 30, 7), memset(b + 30, 0, 7)), 0));     /* a free place does not repeat RBC 0 */

    /* all eleven */
    static const uint8_t all[42] = {
        0xA2, 0, 7, 5, 3, 2, 3, 4, 5,
        0, 0, 0, 0, 0, 0, 1, 3, 0, 0, 0, 0, 0x3F, 0xFF, 6, 0, 1, 0, 0, 0, 7, 3, 1, 0, 1, 0, 0, 8,
        1, 2, 0, 0, 7};
    CHECK(rescues(all, 11, 3, 4, 5, 6, 7, 8, 9, 16, 23, 30, 38));
    memset(b, 255, 42);
    b[0] = 0xA2;
    CHECK(check_rescue(b, 42) == 11);
    b[1] = b[2] = 7;
    b[37] = 9;
    CHECK(rescues(b, 11, 3, 4, 5, 6, 7, 8, 9, 16, 23, 30, 38));

    /* each byte at each value; two bytes at those that matter */
    static const uint8_t values[] = {0, 1, 2, 3, 4, 5, 6, 7, 9, 10, 63, 127, 255};
    for (int i = 0; i < 42; i++)
        for (int v = 0; v < 256; v++)
            check_rescue(SPOILT(b[i] = (uint8_t)v), 42);
    for (int i = 0; i < 42; i++)
        for (int j = 0; j < i; j++)
            for (size_t v = 0; v < sizeof values; v++)
                for (size_t w = 0; w < sizeof values; w++)
                    check_rescue(SPOILT(b[i] = values[v], b[j] = values[w]), 42);

    /* random sound images as they are, and spoilt: single bytes, bytes of other places, whole places, anything */
    Rng g = {0x0213};
    for (int k = 0; k < 100000; k++) {
        State s;
        random_sound(&g, &s);
        image_store(&s, b);
        if (k % 8 == 0) CHECK(rescues(b, 0));
        for (uint32_t c = 1 + rng_below(&g, k % 4 == 0 ? 20 : 4); c > 0; c--) {
            const uint32_t at = rng_below(&g, 42), place = 9 + 7 * rng_below(&g, 4), other = 9 + 7 * rng_below(&g, 4);
            switch (rng_below(&g, 8)) {
            case 0: case 1: b[3 + at % 39] = values[rng_below(&g, sizeof values)]; break;
            case 2: b[3 + at % 39] ^= (uint8_t)(1u << rng_below(&g, 8)); break;
            case 3: b[place + at % 7] = (uint8_t)rng_below(&g, 256); break;
            case 4: memmove(b + place + 3, b + other + 3, 4); break;
            case 5: memmove(b + place, b + other, 7); break;
            case 6: b[3 + at % 6] = (uint8_t)rng_below(&g, 3); break;
            default: b[at] = (uint8_t)rng_below(&g, at < 3 || at == 37 ? 10 : 256); break;
            }
        }
        check_rescue(b, k % 500 == 0 ? rng_below(&g, 64) : 42);
        if (k % 16 == 0) {                                 /* most fields anything at all */
            image_store(&s, b);
            for (int i = 3; i < 42; i += i < 9 ? 1 : i < 37 ? 7 : 4) {
                if (i == 37) i++;
                const bool any = rng_below(&g, 8) != 0;
                for (int m = i; any && m < i + (i < 9 ? 1 : i < 37 ? 7 : 4); m++) b[m] = (uint8_t)rng_next(&g);
            }
            check_rescue(b, 42);
        }
    }
    for (int f = 0; f < 11; f++) CHECK(field_hit[f] > 1000);
    for (int c = 0; c < 12; c++) CHECK(count_hit[c] > 100);
    CHECK(rescue_hit[0] > 100000 && rescue_hit[1] > 100 && rescue_hit[2] > 100 && rescue_hit[11] > 1000);
#undef SPOILT
}

/* ---- runs ---- */

static uint8_t big[LOG_MOST + 1];

/* A third run, literal, by the slow step. */
static void slow_run(uint8_t *image, const uint8_t *log, size_t n, size_t budget, RunResult *o)
{
    static const int numbers[6] = {21, 22, 154, 155, 156, 159};
    memset(o, 0, sizeof *o);
    if (n > 1048576) { o->code = 12; return; }
    if (!slow_sound(image)) { o->code = 11; return; }
    for (;;) {
        static const int length[12] = {0, 3, 2, 1, 2, 7, 5, 2, 5, 5, 5, 7};
        const size_t left = n - o->offset;
        if (left == 0) { o->stop = 0; return; }
        if (o->read >= budget) { o->stop = 1; return; }
        const int kind = log[o->offset];
        if (kind < 1 || kind > 11) { o->stop = 3; return; }
        if (left < (size_t)length[kind]) { o->stop = 2; return; }
        const Slow w = slow_step(image, log + o->offset, (size_t)length[kind], 20);
        o->offset += (uint32_t)length[kind];
        o->read++;
        if (w.code) o->refused++;
        for (int i = 0; i < w.count; i++)
            for (int k = 0; k < 6; k++)
                if (w.a[5 * i] == numbers[k]) o->total[k]++;
    }
}

static bool same_run(const RunResult *a, const RunResult *b)
{
    return a->code == b->code && a->stop == b->stop && a->offset == b->offset && a->read == b->read &&
           a->refused == b->refused && memcmp(a->total, b->total, sizeof a->total) == 0;
}

static RunResult check_run(const State *s, const uint8_t *log, size_t n, size_t budget)
{
    State a = *s, b = *s;
    uint8_t image[42], ia[42], ib[42];
    RunResult w, x, y;
    memset(&x, 0x5A, sizeof x);
    memset(&y, 0xA5, sizeof y);
    image_store(s, image);
    slow_run(image, log, n, budget, &w);
    run_checked(&a, log, n, budget, &x);
    run_once(&b, log, n, budget, &y);
    image_store(&a, ia);
    image_store(&b, ib);
    CHECK(same_run(&w, &x));
    CHECK(same_run(&w, &y));
    CHECK(memcmp(image, ia, 42) == 0 && memcmp(image, ib, 42) == 0);
    return w;
}

static void runs(void)
{
    static const uint8_t p1[] = {5, 0, 0, 0, 5, 1, 1, 8, 0, 0, 0, 5, 11, 0, 0, 0, 5, 0x20, 0x11,
                                 6, 0, 0, 0, 5, 11, 0, 0, 0, 5, 0x27, 0};
    State s = cold(1, 2), bad = s;
    bad.mission = 3;
    RunResult o = check_run(&s, p1, sizeof p1, 5);
    CHECK(o.code == 0 && o.stop == 0 && o.offset == 31 && o.read == 5 && o.refused == 0);
    CHECK(o.total[0] == 1 && o.total[1] == 1 && o.total[2] == 0 && o.total[3] == 1 && o.total[4] == 1 && o.total[5] == 1);
    o = check_run(&s, p1, sizeof p1, 4);
    CHECK(o.stop == 1 && o.offset == 24 && o.read == 4);
    o = check_run(&s, p1, sizeof p1 - 1, SIZE_MAX);
    CHECK(o.stop == 2 && o.offset == 24 && o.read == 4);
    o = check_run(&s, p1, 0, 0);
    CHECK(o.stop == 0 && o.offset == 0 && o.read == 0);
    o = check_run(&s, NULL, 0, 0);
    CHECK(o.stop == 0);
    o = check_run(&s, p1, 1, 0);
    CHECK(o.stop == 1 && o.offset == 0);
    o = check_run(&s, (const uint8_t[]){3, 0}, 2, 1);
    CHECK(o.stop == 1 && o.offset == 1 && o.read == 1);          /* budget before unknown kind */
    o = check_run(&s, (const uint8_t[]){3, 0}, 2, 2);
    CHECK(o.stop == 3 && o.offset == 1 && o.read == 1);
    o = check_run(&s, (const uint8_t[]){3, 12}, 2, 2);
    CHECK(o.stop == 3);
    o = check_run(&s, (const uint8_t[]){3, 4}, 2, 2);
    CHECK(o.stop == 2 && o.offset == 1);
    o = check_run(&s, (const uint8_t[]){4, 0, 4, 2, 4, 1}, 6, 9); /* refused 7, refused 3, taken */
    CHECK(o.stop == 0 && o.offset == 6 && o.read == 3 && o.refused == 2);
    static const uint8_t to_last[] = {5, 0, 0, 0x3F, 0xFF, 1, 1, 11, 0, 0, 0, 7, 38, 0, 5, 0, 0, 0x3F, 0xFF, 1, 1,
                                      9, 0, 0, 0, 7, 6, 0, 0, 0, 7, 5, 0, 1, 0x7F, 0xFF, 1, 1};
    o = check_run(&s, to_last, sizeof to_last, 9);                /* 15, 159, 5, 21, 22, 21 */
    CHECK(o.stop == 0 && o.read == 6 && o.refused == 2 && o.total[0] == 2 && o.total[1] == 1 && o.total[5] == 1);

    /* sizes; 12 before 11 */
    memset(big, 3, sizeof big);
    o = check_run(&s, big, LOG_MOST, SIZE_MAX);
    CHECK(o.code == 0 && o.stop == 0 && o.read == LOG_MOST && o.offset == LOG_MOST);
    o = check_run(&s, big, LOG_MOST + 1, SIZE_MAX);
    CHECK(o.code == 12 && o.stop == 0 && o.read == 0 && o.offset == 0);
    o = check_run(&bad, big, LOG_MOST + 1, 1);
    CHECK(o.code == 12);
    o = check_run(&bad, big, LOG_MOST, 1);
    CHECK(o.code == 11);
    o = check_run(&s, NULL, SIZE_MAX, 1);
    CHECK(o.code == 12);

    /* random logs: from any sound state, cut anywhere, broken at times */
    Rng g = {7};
    for (int k = 0; k < 30000; k++) {
        State from, t;
        random_sound(&g, &from);
        t = from;
        size_t n = 0;
        for (uint32_t c = rng_below(&g, 60); c > 0; c--) {
            uint8_t r[GEN_MOST], a[20];
            const size_t m = gen_record_last(&g, &t, rng_below(&g, 50) != 0, r);
            step(&t, r, m, a, 20);
            memcpy(big + n, r, m);
            n += m;
        }
        if (n > 0 && rng_below(&g, 3) == 0) n -= rng_below(&g, (uint32_t)n + 1);
        const size_t budget = rng_below(&g, 3) ? SIZE_MAX : rng_below(&g, 60);
        check_run(&from, big, n, budget);
    }
    for (int deep = 0; deep < 2; deep++) {
        State t = s;
        uint8_t r[GEN_MOST], a[20];
        size_t n = 0;
        while (n < LOG_MOST) {
            size_t m = deep ? gen_record_last(&g, &t, true, r) : gen_even(&g, r);
            if (m > LOG_MOST - n) m = LOG_MOST - n;
            else step_trusted(&t, r, a);
            memcpy(big + n, r, m);
            n += m;
        }
        check_run(&s, big, n, SIZE_MAX);
        check_run(&s, big, n, 1000);
    }
}

/* ---- the sheet ---- */

static bool sheet_gives(const uint8_t *input, size_t n, const char *want)
{
    FILE *in = tmpfile(), *out = tmpfile();
    if (!in || !out) return false;
    fwrite(input, 1, n, in);
    rewind(in);
    sheet_model(in, out);
    static char text[1 << 20];
    rewind(out);
    const size_t got = fread(text, 1, sizeof text - 1, out);
    text[got] = '\0';
    fclose(in);
    fclose(out);
    return strlen(want) == got && strcmp(text, want) == 0;
}

static void sheets(void)
{
    static const uint8_t example[] = {
        0x05, 0x00, 0x00, 0x00, 0x05, 0x01, 0x01, 0x08, 0x00, 0x00, 0x00, 0x05, 0x0B, 0x00, 0x00, 0x00,
        0x05, 0x20, 0x11, 0x06, 0x00, 0x00, 0x00, 0x05, 0x0B, 0x00, 0x00, 0x00, 0x05, 0x27, 0x00};
    CHECK(sheet_gives(example, sizeof example,
                      "rec kind code actions\n1 5 0 21:0/5\n2 8 0 155:0/5\n3 11 0 159:0/5\n"
                      "4 6 0 156:0/5\n5 11 0 22:0/5\nend 0 5\n"));
    CHECK(sheet_gives(example, 0, "rec kind code actions\nend 0 0\n"));
    CHECK(sheet_gives(example, 3, "rec kind code actions\nend 2 0\n"));
    CHECK(sheet_gives((const uint8_t *)"\x03\x00", 2, "rec kind code actions\n1 3 0\nend 3 1\n"));
    CHECK(sheet_gives((const uint8_t *)"\x04\x00\x01\x05\x00", 5, "rec kind code actions\n1 4 7\n2 1 3\nend 0 2\n"));
    CHECK(sheet_gives((const uint8_t *)"\x05\x00\xFF\xFF\xFE\x00\x01\x05\x01\xFF\xFF\xFF\x00\x01\x07\x01", 16,
                      "rec kind code actions\n1 5 0 21:0/16777214\n2 5 0 21:1/16777215\n"
                      "3 7 0 22:0/16777214 22:1/16777215\nend 0 3\n"));
    CHECK(sheet_gives((const uint8_t *)"\x05\x00\xFF\xFF\xFF\x00\x01\x08\x00\xFF\xFF\xFF", 12,
                      "rec kind code actions\n1 5 15\n2 8 3\nend 0 2\n"));
    CHECK(sheet_gives((const uint8_t *)"\x05\x00\x00\x00\x05\x01\x01\x0A\x00\x00\x00\x05\x0A\x00\x00\x00\x05\x0A\x00\x00\x00\x05", 22,
                      "rec kind code actions\n1 5 0 21:0/5\n2 10 0 21:0/5\n3 10 0 21:0/5\n4 10 0 22:0/5\nend 0 4\n"));
    static uint8_t many[4097];
    static char want[1 << 17];
    memset(many, 3, sizeof many);
    size_t at = (size_t)sprintf(want, "rec kind code actions\n");
    for (int i = 1; i <= 4096; i++) at += (size_t)sprintf(want + at, "%d 3 0\n", i);
    sprintf(want + at, "end 0 4096\n");
    CHECK(sheet_gives(many, 4096, want));
    CHECK(sheet_gives(many, 4097, "too long\n"));
}

int main(void)
{
    examples();
    table_cells();
    orders();
    refusals();
    images();
    random_steps();
    last_known();
    rescue();
    runs();
    sheets();
    printf("%lu checks, %lu failures\n", checks, failures);
    return failures != 0;
}
