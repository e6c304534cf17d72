#include "gen.h"

#include <string.h>

uint64_t rng_next(Rng *g)
{
    uint64_t z = (g->s += 0x9E3779B97F4A7C15u);
    z = (z ^ (z >> 30)) * 0xBF58476D1CE4E5B9u;
    z = (z ^ (z >> 27)) * 0x94D049BB133111EBu;
    return z ^ (z >> 31);
}

uint32_t rng_below(Rng *g, uint32_t n) { return (uint32_t)((rng_next(g) >> 32) * n >> 32); }

static bool chance(Rng *g, uint32_t percent) { return rng_below(g, 100) < percent; }

/* The pool. RBC 0 has the same bytes as a free place; RBC and RIU share numbers. */
static const uint32_t pool[] = {
    0x00000001, 0x00000002, 0x00000003, 0x00000004, 0x00000005,
    0x01000001, 0x01000002, 0x01000003,
    0x00010203, 0x01010203, 0x00000000, 0x01000000, 0x00FFFFFF,
};
enum { POOL = sizeof pool / sizeof pool[0] };

static uint32_t any_partner(Rng *g)
{
    return pool[rng_below(g, chance(g, 85) ? 9 : POOL)];
}

static bool held(const State *s, uint32_t who)
{
    for (int i = 0; i < PLACES; i++)
        if (s->phase[i] != FREE && s->partner[i] == who)
            return true;
    return false;
}

static uint32_t new_partner(Rng *g, const State *s, bool rbc_only)
{
    uint32_t who;
    do
        who = any_partner(g);
    while (held(s, who) || (rbc_only && who >> 24 != RBC));
    return who;
}

static void put_partner(uint8_t *r, uint32_t who)
{
    r[1] = (uint8_t)(who >> 24);
    r[2] = (uint8_t)(who >> 16);
    r[3] = (uint8_t)(who >> 8);
    r[4] = (uint8_t)who;
}

static uint8_t some_level(Rng *g) { return (uint8_t)(chance(g, 75) ? 2 + rng_below(g, 2) : rng_below(g, 5)); }

/* A body for the kind in r[0], fields in range. */
static size_t fill(Rng *g, uint8_t *r, uint32_t who)
{
    switch (r[0]) {
    case EV_LEVEL:
        r[1] = some_level(g);
        r[2] = (uint8_t)rng_below(g, 2);
        break;
    case EV_MISSION:
        r[1] = (uint8_t)(chance(g, 10) ? 0 : 1 + rng_below(g, 2));
        break;
    case EV_HOLE:
    case EV_END_ALL:
        r[1] = (uint8_t)rng_below(g, 2);
        break;
    case EV_ORDER:
        put_partner(r, who);
        r[5] = (uint8_t)rng_below(g, 2);
        r[6] = (uint8_t)rng_below(g, 5);
        break;
    case EV_DROP:
    case EV_UP:
    case EV_LOST:
    case EV_TIMEOUT:
        put_partner(r, who);
        break;
    case EV_MESSAGE:
        put_partner(r, who);
        r[5] = (uint8_t[]){32, 38, 39}[rng_below(g, 3)];
        r[6] = (uint8_t)(r[5] == 32 ? rng_below(g, 128) : 0);
        break;
    default:
        break;
    }
    return record_length[r[0]];
}

/* One field of a whole record put out of its range. */
static void spoil(Rng *g, uint8_t *r)
{
    const uint8_t over = (uint8_t)(1 + rng_below(g, chance(g, 70) ? 2 : 120));
    switch (r[0]) {
    case EV_LEVEL:
        if (chance(g, 50)) r[1] = (uint8_t)(4 + over);
        else r[2] = (uint8_t)(1 + over);
        break;
    case EV_MISSION:
        r[1] = (uint8_t)(2 + over);
        break;
    case EV_HOLE:
    case EV_END_ALL:
        r[1] = (uint8_t)(1 + over);
        break;
    case EV_ORDER:
        switch (rng_below(g, 3)) {
        case 0: r[1] = (uint8_t)(1 + over); break;
        case 1: r[5] = (uint8_t)(1 + over); break;
        default: r[6] = (uint8_t)(4 + over); break;
        }
        break;
    case EV_DROP:
    case EV_UP:
    case EV_LOST:
    case EV_TIMEOUT:
        r[1] = (uint8_t)(1 + over);
        break;
    case EV_MESSAGE:
        switch (rng_below(g, 4)) {
        case 0: r[1] = (uint8_t)(1 + over); break;
        case 1: r[5] = (uint8_t[]){0, 1, 31, 33, 37, 40, 160, 255}[rng_below(g, 8)]; break;
        case 2: r[5] = 32; r[6] = (uint8_t)(127 + over); break;
        default: r[5] = (uint8_t)(38 + rng_below(g, 2)); r[6] = over; break;
        }
        break;
    default:
        break;
    }
}

static uint8_t version_of(Rng *g, const State *s, bool good)
{
    if (good) {                             /* one draw a statement: the same in every compiler */
        const uint32_t x = s->lowest + rng_below(g, s->highest - s->lowest + 1u);
        return (uint8_t)(16 * x + rng_below(g, 16));
    }
    const uint8_t edge = (uint8_t)(16 * (s->highest + 1));        /* first version over the range */
    const uint8_t under = (uint8_t)(16 * s->lowest - 1);          /* last version under it */
    switch (rng_below(g, 3)) {
    case 0: if (edge < 128) return edge; break;
    case 1: if (s->lowest > 0) return under; break;
    default: break;
    }
    return (uint8_t)rng_below(g, 128);
}

static size_t partner_event(uint8_t *r, uint8_t kind, uint32_t who)
{
    r[0] = kind;
    put_partner(r, who);
    return 5;
}

static size_t message(uint8_t *r, uint32_t who, uint8_t number, uint8_t version)
{
    r[0] = EV_MESSAGE;
    put_partner(r, who);
    r[5] = number;
    r[6] = version;
    return 7;
}

/* Any event of the table for this held place, whether its phase takes it or not. */
static size_t any_of_table(Rng *g, const State *s, unsigned i, uint8_t *r)
{
    static const uint8_t kind[4] = {EV_DROP, EV_UP, EV_LOST, EV_TIMEOUT};
    const uint32_t column = rng_below(g, 7), who = s->partner[i];
    if (column < 4) return partner_event(r, kind[column], who);
    if (column == 6) return message(r, who, 39, 0);
    return message(r, who, 32, version_of(g, s, column == 4));
}

/* An event that the phase of this held place takes. */
static size_t fitting(Rng *g, const State *s, unsigned i, uint8_t *r)
{
    const uint32_t who = s->partner[i];
    const uint32_t d = rng_below(g, 100);
    switch (s->phase[i]) {
    case CONNECTING:
        return partner_event(r, d < 45 ? EV_TIMEOUT : d < 92 ? EV_UP : EV_DROP, who);
    case CONTACTING:
        if (d < 55) return partner_event(r, d < 42 ? EV_TIMEOUT : d < 48 ? EV_LOST : EV_DROP, who);
        return message(r, who, 32, version_of(g, s, d < 85));
    case OPEN:
        return partner_event(r, d < 60 ? EV_LOST : EV_DROP, who);
    case LOST:
        return partner_event(r, d < 50 ? EV_TIMEOUT : d < 92 ? EV_UP : EV_DROP, who);
    default:
        if (d < 75) return partner_event(r, d < 55 ? EV_TIMEOUT : EV_LOST, who);
        return message(r, who, 39, 0);
    }
}

static size_t order_record(Rng *g, const State *s, uint32_t who, uint8_t *r)
{
    const bool level23 = s->level == 2 || s->level == 3;
    uint8_t causes[5];
    uint32_t n = 0;
    if (s->mission == 1 && level23) causes[n++] = 0;
    if (s->mission != 0 && level23 && s->mode) causes[n++] = 2;
    if (level23 && s->manual) causes[n++] = 3;
    if (s->hole_end) causes[n++] = 4;
    if (n == 0 || chance(g, 25)) causes[n++] = 1;     /* always in force: the others first */
    r[0] = EV_ORDER;
    put_partner(r, who);
    r[5] = (uint8_t)chance(g, 45);
    r[6] = chance(g, 85) ? causes[rng_below(g, n)] : (uint8_t)rng_below(g, 5);
    return 7;
}

static uint32_t held_or_any(Rng *g, const State *s)
{
    const unsigned i = rng_below(g, PLACES);
    return s->phase[i] != FREE && chance(g, 75) ? s->partner[i] : any_partner(g);
}

static size_t whole(Rng *g, const State *s, uint8_t *r)
{
    const uint32_t d = rng_below(g, 1000);
    unsigned used = 0;
    for (int i = 0; i < PLACES; i++)
        used += s->phase[i] != FREE;

    if (d < 120) {                          /* any kind, any partner */
        r[0] = (uint8_t)(1 + rng_below(g, KIND_LAST));
        return fill(g, r, held_or_any(g, s));
    }
    if (d < 155) { r[0] = EV_LEVEL; return fill(g, r, 0); }
    if (d < 195) { r[0] = EV_MISSION; r[1] = (uint8_t)(chance(g, 12) ? 0 : 1 + rng_below(g, 2)); return 2; }
    if (d < 230) { r[0] = EV_MODE; return 1; }
    if (d < 275) { r[0] = EV_HOLE; r[1] = !s->inside; return 2; }
    if (d < 281) { r[0] = EV_END_ALL; r[1] = (uint8_t)rng_below(g, 2); return 2; }
    /* with places free, taking one in is more often tried */
    if (d < (used == PLACES ? 320u : used >= 2 ? 450u : 600u)) {
        if (chance(g, 62))
            return order_record(g, s, chance(g, 92) ? new_partner(g, s, chance(g, 60)) : any_partner(g), r);
        return message(r, chance(g, 85) ? new_partner(g, s, true) : any_partner(g), 38, 0);
    }
    /* a held place, one of its own events */
    unsigned i = rng_below(g, PLACES);
    for (int k = 0; k < PLACES && (s->phase[i] == FREE || (s->phase[i] == OPEN && chance(g, 70))); k++)
        i = (i + 1) % PLACES;
    if (s->phase[i] == FREE)
        return order_record(g, s, new_partner(g, s, false), r);
    return chance(g, 15) ? any_of_table(g, s, i, r) : fitting(g, s, i, r);
}

size_t gen_record(Rng *g, const State *s, bool framed, uint8_t *r)
{
    memset(r, 0, GEN_MOST);
    size_t n = whole(g, s, r);
    const uint32_t d = rng_below(g, 100);
    if (d < 4) {
        spoil(g, r);
    } else if (d < 8 && !framed) {
        switch (rng_below(g, 5)) {
        case 0:
            n = 0;
            break;
        case 1:                             /* unknown kind, this length */
            r[0] = (uint8_t)(chance(g, 40) ? 0 : 12 + rng_below(g, chance(g, 50) ? 3 : 244));
            break;
        case 2:                             /* too long */
            n += 1 + rng_below(g, 4);
            break;
        case 3:                             /* another kind with this body */
            r[0] = (uint8_t)(1 + rng_below(g, KIND_LAST));
            break;
        default:                            /* too short */
            n -= 1 + rng_below(g, (uint32_t)n);
            break;
        }
    }
    return n;
}

/* A number with the 14 low bits that mean "the last known RBC"; the upper ten are few, many or any. */
static uint32_t last_number(Rng *g)
{
    switch (rng_below(g, 4)) {
    case 0: return LAST_KNOWN;
    case 1: return 0x00FFFFFF;
    case 2: return LAST_KNOWN | 0x4000u << rng_below(g, 10);
    default: return LAST_KNOWN | rng_below(g, 1024) << 14;
    }
}

size_t gen_record_last(Rng *g, const State *s, bool framed, uint8_t *r)
{
    const uint32_t d = rng_below(g, 100);
    if (d >= 13)
        return gen_record(g, s, framed, r);
    memset(r, 0, GEN_MOST);
    if (d < 7)                              /* an order to the last known RBC */
        return order_record(g, s, last_number(g), r);
    if (d < 9)                              /* an order to an RIU with such a number */
        return order_record(g, s, 0x01000000u | last_number(g), r);
    if (d < 10) {                           /* a near miss; one draw a statement: the same in every compiler */
        const uint32_t number = last_number(g);
        return order_record(g, s, number ^ 1u << rng_below(g, 14), r);
    }
    r[0] = (uint8_t[]){EV_ORDER, EV_DROP, EV_UP, EV_LOST, EV_TIMEOUT, EV_MESSAGE, EV_MESSAGE}[rng_below(g, 7)];
    const uint32_t type = rng_below(g, 3) == 0 ? 0x01000000u : 0;
    const size_t n = fill(g, r, type | last_number(g));
    if (rng_below(g, 8) == 0)
        spoil(g, r);
    return n;
}

enum { RBC_ALL_ONES = 0x00FFFFFF, STAND_IN = 0x00FFFFFE };

void plain_start(Plain *p, uint8_t lowest, uint8_t highest, uint8_t n) { cold_start(&p->s, lowest, highest, n); }

size_t gen_plain(Rng *g, const Plain *p, bool framed, uint8_t *r)
{
    State view = p->s;
    for (int i = 0; i < PLACES; i++)
        if (view.phase[i] != FREE && view.partner[i] == STAND_IN)
            view.partner[i] = RBC_ALL_ONES;
    return gen_record(g, &view, framed, r);
}

void plain_step(Plain *p, const uint8_t *r, size_t length)
{
    uint8_t stood_in[GEN_MOST] = {0}, actions[ACTION_BUFFER];
    memcpy(stood_in, r, length);
    if (length >= 5 && r[1] == RBC && r[2] == 0xFF && r[3] == 0xFF && r[4] == 0xFF)
        stood_in[4] = STAND_IN & 255;
    step(&p->s, stood_in, length, actions, sizeof actions);
}

size_t gen_even(Rng *g, uint8_t *r)
{
    memset(r, 0, GEN_MOST);
    r[0] = (uint8_t)(1 + rng_below(g, KIND_LAST));
    const size_t n = fill(g, r, pool[rng_below(g, 9)]);
    if (rng_below(g, 32) == 0)
        spoil(g, r);
    return n;
}

void gen_x(Rng *g, uint8_t *lowest, uint8_t *highest)
{
    const uint32_t d = rng_below(g, 100);
    if (d < 55) {
        *lowest = 1;
        *highest = 2;
    } else if (d < 65) {
        *lowest = 0;
        *highest = 7;
    } else if (d < 80) {
        *lowest = *highest = (uint8_t)rng_below(g, 8);
    } else {
        const uint8_t a = (uint8_t)rng_below(g, 8), b = (uint8_t)rng_below(g, 8);
        *lowest = a < b ? a : b;
        *highest = a < b ? b : a;
    }
}

uint8_t gen_n(Rng *g)
{
    const uint32_t d = rng_below(g, 100);
    return (uint8_t)(d < 20 ? TRIES_DEFAULT : d < 35 ? TRIES_OLD : 1 + rng_below(g, TRIES_MOST));
}
