#include "model.h"

#include <string.h>

_Static_assert(sizeof(State) == 44, "State has no padding");
_Static_assert(offsetof(State, lowest) == 0 && offsetof(State, inside) == 4 &&
               offsetof(State, hole_end) == 7 && offsetof(State, partner) == 8,
               "the first eight bytes stand as in the image");

const uint8_t record_length[KIND_LAST + 1] = {0, 3, 2, 1, 2, 7, 5, 2, 5, 5, 5, 7};

static inline bool kind_known(uint8_t kind) { return (uint8_t)(kind - 1) < KIND_LAST; }

static inline uint32_t get32(const uint8_t *b)
{
    return (uint32_t)b[0] << 24 | (uint32_t)b[1] << 16 | (uint32_t)b[2] << 8 | b[3];
}

static inline void put32(uint8_t *b, uint32_t v)
{
    b[0] = (uint8_t)(v >> 24);
    b[1] = (uint8_t)(v >> 16);
    b[2] = (uint8_t)(v >> 8);
    b[3] = (uint8_t)v;
}

/* ---- state ---- */

uint8_t cold_start(State *s, uint8_t lowest, uint8_t highest, uint8_t n)
{
    memset(s, 0, sizeof *s);
    s->n = TRIES_OLD;
    if (highest > 7 || lowest > highest || n < TRIES_LEAST || n > TRIES_MOST)
        return 13;
    s->lowest = lowest;
    s->highest = highest;
    s->n = n;
    return 0;
}

uint8_t cold_start_default(State *s, uint8_t lowest, uint8_t highest)
{
    return cold_start(s, lowest, highest, TRIES_DEFAULT);
}

/* An RBC whose number means "the last known RBC": type 0, low 14 bits all one. */
static inline bool means_last(uint32_t who) { return (who & (0xFF000000u | LAST_KNOWN)) == LAST_KNOWN; }

/* For each phase, the allowed (type, direction, tries) as bits 32 * type + 16 * direction + tries;
 * that the tries are at most n is tested for all places at once. */
static const uint64_t place_allowed[ENDING + 1] = {
    [FREE]       = 0x0000000000000001,     /* all zero */
    [CONNECTING] = 0x0000FFFE0000FFFE,     /* outgoing, tries from 1, RBC or RIU */
    [CONTACTING] = 0x0000FFFE0000FFFE,
    [OPEN]       = 0x0000000100010001,     /* tries 0; an RIU only outgoing */
    [LOST]       = 0x0000FFFEFFFEFFFE,     /* tries from 1; an RIU only outgoing */
    [ENDING]     = 0x0000FFFEFFFEFFFE,
};

static inline bool is_sound(const State *s)
{
    /* Four bytes at a time; every test is the same for each of them, so their order does not
     * matter. A phase over 5 shows in bit 7, its own or that of the sum. With n in 1..9 and
     * no tries over 15, tries over n take bit 7 away from the difference. */
    uint32_t marks, phases, directions, tries;
    memcpy(&marks, (const uint8_t *)s + offsetof(State, inside), 4);
    memcpy(&phases, s->phase, 4);
    memcpy(&directions, s->direction, 4);
    memcpy(&tries, s->tries, 4);
    const uint32_t types = s->partner[0] | s->partner[1] | s->partner[2] | s->partner[3];
    if (((marks | directions) & 0xFEFEFEFEu) | (tries & 0xF0F0F0F0u) | (types & 0xFE000000u) |
        ((phases | (phases + 0x7A7A7A7Au)) & 0x80808080u))
        return false;
    if (s->n < TRIES_LEAST || s->n > TRIES_MOST)
        return false;
    if ((((s->n * 0x01010101u | 0x80808080u) - tries) & 0x80808080u) != 0x80808080u)
        return false;
    if (s->last != 0 && (s->last >> 24 != 1 || (s->last & LAST_KNOWN) == LAST_KNOWN))
        return false;
    if (s->highest > 7 || s->lowest > s->highest || s->level > 4 || s->mission > 2)
        return false;
    if (s->inside & s->hole_end)
        return false;
    for (int i = 0; i < PLACES; i++) {
        const uint32_t who = s->partner[i];
        if (!(place_allowed[s->phase[i]] >> (who >> 24 << 5 | s->direction[i] << 4 | s->tries[i]) & 1))
            return false;
        if (s->phase[i] == FREE) {
            if (who != 0)
                return false;
        } else {
            if (means_last(who))
                return false;
            for (int j = 0; j < i; j++)
                if (s->partner[j] == who && s->phase[j] != FREE)
                    return false;
        }
    }
    return true;
}

bool sound(const State *s) { return is_sound(s); }

/* ---- places ---- */

/* Where a partner stands (request Q-6). With a phase 1..5: its place and the phase of that place.
 * With FREE: it has no place, and the place is the lowest free one, or PLACES if none is free. */
typedef struct { unsigned place; uint8_t phase; } Found;

static inline Found find(const State *s, uint32_t who)
{
    unsigned i;
    for (i = 0; i < PLACES; i++)
        if (s->partner[i] == who && s->phase[i] != FREE)
            break;
    if (i < PLACES)
        return (Found){i, s->phase[i]};
    for (i = 0; i < PLACES; i++)
        if (s->phase[i] == FREE)
            break;
    return (Found){i, FREE};
}

static inline void set(State *s, unsigned i, uint8_t phase, uint8_t tries)
{
    s->phase[i] = phase;
    s->tries[i] = tries;
}

static inline void take(State *s, unsigned i, uint32_t who, uint8_t phase, uint8_t direction,
                        uint8_t tries)
{
    s->partner[i] = who;
    s->direction[i] = direction;
    set(s, i, phase, tries);
}

/* A 159 is sent: to an RBC, it becomes the last known one. */
static inline void remember(State *s, uint32_t who)
{
    if (who >> 24 == RBC)
        s->last = KNOWN | who;
}

/* ---- actions: each function writes at a and gives the next place to write ---- */

static inline uint8_t *act(uint8_t *a, uint8_t number, uint32_t who)
{
    a[0] = number;
    put32(a + 1, who);
    return a + ACTION_BYTES;
}

static inline uint8_t *release(State *s, unsigned i, uint8_t *a)
{
    a = act(a, ACT_RELEASE, s->partner[i]);
    take(s, i, 0, FREE, 0, 0);
    return a;
}

/* Closing a held place that is not Ending. */
static inline uint8_t *close_place(State *s, unsigned i, uint8_t *a)
{
    if (s->phase[i] != OPEN)
        return release(s, i, a);
    set(s, i, ENDING, 1);
    return act(a, ACT_TERMINATE, s->partner[i]);
}

static uint8_t *end_all(State *s, uint8_t *a)
{
    for (unsigned i = 0; i < PLACES; i++)
        if (s->phase[i] != FREE && s->phase[i] != ENDING)
            a = close_place(s, i, a);
    return a;
}

/* ---- the step ---- */

/* An answer in the making is one number: code, count, place, phase, from its lowest byte up. It
 * stays in one register; made of four fields, a step takes a tenth more instructions. */
typedef uint32_t Answer;

_Static_assert(sizeof(StepResult) == sizeof(Answer), "StepResult has no padding");

static inline StepResult result(Answer w)
{
#if defined __BYTE_ORDER__ && __BYTE_ORDER__ == __ORDER_LITTLE_ENDIAN__
    StepResult r;
    memcpy(&r, &w, sizeof r);              /* the bytes stand as the fields do */
    return r;
#else
    return (StepResult){(uint8_t)w, (uint8_t)(w >> 8), (uint8_t)(w >> 16), (uint8_t)(w >> 24)};
#endif
}

static inline Answer answer(uint8_t code, unsigned count, unsigned place, uint8_t phase)
{
    return (Answer)phase << 24 | place << 16 | count << 8 | code;
}

/* Place 4 and phase 0: nothing to tell. */
static inline Answer refuse(uint8_t code) { return answer(code, 0, PLACES, FREE); }

/* Refusals 5 and 7 about a partner tell where it stands. */
static inline Answer refuse_at(uint8_t code, Found at) { return answer(code, 0, at.place, at.phase); }

static inline Answer done(const uint8_t *from, const uint8_t *to)
{
    return answer(0, (unsigned)(to - from) / ACTION_BYTES, PLACES, FREE);
}

static inline Answer order(State *s, uint32_t who, uint8_t accepting, uint8_t cause, uint8_t *a)
{
    const bool level23 = s->level == 2 || s->level == 3;
    uint8_t *mark = NULL;                  /* the mark that acceptance clears */
    bool in_force;

    switch (cause) {
    case 0: in_force = s->mission == 1 && level23; break;
    case 1: in_force = true; break;
    case 2: mark = &s->mode; in_force = *mark && s->mission != 0 && level23; break;
    case 3: mark = &s->manual; in_force = *mark && level23; break;
    default: mark = &s->hole_end; in_force = *mark; break;
    }
    if (!in_force)
        return refuse(4);
    if (means_last(who)) {
        if (s->last == 0)
            return refuse(15);
        who = s->last ^ KNOWN;             /* an RBC: type 0 */
    }
    const Found at = find(s, who);         /* the free place before the closings */
    if (at.phase != FREE)
        return refuse_at(5, at);
    if (at.place == PLACES)
        return refuse(8);

    uint8_t *const from = a;
    if (mark)
        *mark = 0;
    if (who >> 24 == RBC && !accepting)
        for (unsigned i = 0; i < PLACES; i++)
            if ((s->phase[i] == OPEN || s->phase[i] == LOST) && s->partner[i] >> 24 == RBC)
                a = close_place(s, i, a);
    take(s, at.place, who, CONNECTING, OUTGOING, 1);
    return done(from, act(a, ACT_REQUEST, who));
}

static inline Answer call(State *s, uint32_t who, uint8_t *a)
{
    if (who >> 24 == RIU)
        return refuse(9);
    const Found at = find(s, who);
    if (at.phase != FREE)
        return refuse_at(5, at);
    if (at.place == PLACES)
        return refuse(8);
    take(s, at.place, who, OPEN, INCOMING, 0);
    remember(s, who);
    return done(a, act(a, ACT_ESTABLISHED, who));
}

/* What a timeout repeats, by phase; 0 where the phase takes no timeout. */
static const uint8_t repeated[ENDING + 1] = {
    [CONNECTING] = ACT_REQUEST, [CONTACTING] = ACT_INITIATE, [LOST] = ACT_REQUEST,
    [ENDING] = ACT_TERMINATE,
};

static inline Answer step_known(State *s, const uint8_t *r, uint8_t *a)
{
    uint8_t *const from = a;
    const uint8_t kind = r[0];

    switch (kind) {                        /* the events without a partner */
    case EV_LEVEL:
        if (r[1] > 4 || r[2] > 1)
            return refuse(3);
        s->level = r[1];
        s->manual |= r[2];
        return done(a, a);
    case EV_MISSION:
        if (r[1] > 2)
            return refuse(3);
        s->mission = r[1];
        return done(from, r[1] == 0 ? end_all(s, a) : a);
    case EV_MODE:
        s->mode = 1;
        return done(a, a);
    case EV_HOLE:
        if (r[1] > 1)
            return refuse(3);
        if (s->inside == r[1])
            return refuse(7);
        s->inside = r[1];
        s->hole_end = !r[1];
        return done(a, a);
    case EV_END_ALL:
        if (r[1] > 1)
            return refuse(3);
        return done(from, end_all(s, a));
    default:
        break;
    }

    const uint32_t who = get32(r + 1);
    if (who >> 24 > RIU)
        return refuse(3);

    if (kind == EV_ORDER) {
        if (r[5] > 1 || r[6] > 4)
            return refuse(3);
        return order(s, who, r[5], r[6], a);
    }
    if (means_last(who))
        return refuse(3);
    if (kind == EV_MESSAGE) {
        if (r[5] == 32 ? r[6] > 127 : (r[5] != 38 && r[5] != 39) || r[6] != 0)
            return refuse(3);
        if (r[5] == 38)
            return call(s, who, a);
    }

    const Found at = find(s, who);
    if (at.phase == FREE)
        return refuse(6);
    const unsigned i = at.place;
    const uint8_t phase = at.phase;

    switch (kind) {
    case EV_DROP:
        if (phase == ENDING)
            return refuse_at(7, at);
        a = close_place(s, i, a);
        break;
    case EV_UP:
        if (phase == CONNECTING) {
            set(s, i, CONTACTING, 1);
            a = act(a, ACT_INITIATE, who);
        } else if (phase == LOST) {
            set(s, i, OPEN, 0);
        } else {
            return refuse_at(7, at);
        }
        break;
    case EV_LOST:
        if (phase == CONTACTING || phase == ENDING) {
            a = release(s, i, a);
        } else if (phase == OPEN) {
            set(s, i, LOST, 1);
            a = act(a, ACT_REQUEST, who);
        } else {
            return refuse_at(7, at);
        }
        break;
    case EV_TIMEOUT:
        if (phase == OPEN)
            return refuse_at(7, at);
        if (s->tries[i] < s->n) {
            s->tries[i]++;
            a = act(a, repeated[phase], who);
        } else {
            a = release(s, i, a);
        }
        break;
    default:                               /* message 32 or 39 */
        if (r[5] == 39) {
            if (phase != ENDING)
                return refuse_at(7, at);
            a = release(s, i, a);
        } else {
            if (phase != CONTACTING)
                return refuse_at(7, at);
            const uint8_t x = r[6] >> 4;   /* version is 16 * X + Y */
            if (s->lowest <= x && x <= s->highest) {
                set(s, i, OPEN, 0);
                remember(s, who);
                a = act(a, ACT_ESTABLISHED, who);
            } else {
                set(s, i, ENDING, 1);
                a = act(a, ACT_NO_VERSION, who);
                a = act(a, ACT_TERMINATE, who);
            }
        }
        break;
    }
    return done(from, a);
}

StepResult step_trusted(State *s, const uint8_t *record, uint8_t *actions)
{
    return result(step_known(s, record, actions));
}

static inline Answer step_tested(State *s, const uint8_t *record, size_t length,
                                 uint8_t *actions, size_t actions_length)
{
    if (actions_length < ACTION_BUFFER)
        return refuse(10);
    if (!is_sound(s))
        return refuse(11);
    if (length == 0)
        return refuse(1);
    if (!kind_known(record[0]))
        return refuse(2);
    if (length != record_length[record[0]])
        return refuse(1);
    return step_known(s, record, actions);
}

StepResult step(State *s, const uint8_t *record, size_t length,
                uint8_t *actions, size_t actions_length)
{
    return result(step_tested(s, record, length, actions, actions_length));
}

/* ---- the images ---- */

enum { BODY_BYTES = OLD_IMAGE_BYTES - 1 };     /* what stands behind the kind in both images */

static inline void body_store(const State *s, uint8_t *body)
{
    memcpy(body, s, 8);                    /* X numbers, level, mission, marks stand in this order */
    uint8_t *p = body + 8;
    for (int i = 0; i < PLACES; i++, p += 7) {
        p[0] = s->phase[i];
        p[1] = s->direction[i];
        p[2] = s->tries[i];
        put32(p + 3, s->partner[i]);
    }
}

static inline void body_load(State *s, const uint8_t *body)
{
    memset(s, 0, sizeof *s);
    memcpy(s, body, 8);
    const uint8_t *p = body + 8;
    for (int i = 0; i < PLACES; i++, p += 7) {
        s->phase[i] = p[0];
        s->direction[i] = p[1];
        s->tries[i] = p[2];
        s->partner[i] = get32(p + 3);
    }
}

void image_store(const State *s, uint8_t image[IMAGE_BYTES])
{
    image[0] = IMAGE_KIND;
    body_store(s, image + 1);
    image[1 + BODY_BYTES] = s->n;
    put32(image + 2 + BODY_BYTES, s->last);    /* 1 and the number, or four zeros */
}

void image_load(State *s, const uint8_t image[IMAGE_BYTES])
{
    body_load(s, image + 1);
    s->n = image[1 + BODY_BYTES];
    s->last = get32(image + 2 + BODY_BYTES);
}

void image_store_old(const State *s, uint8_t image[OLD_IMAGE_BYTES])
{
    image[0] = OLD_IMAGE_KIND;
    body_store(s, image + 1);
}

void image_load_old(State *s, const uint8_t image[OLD_IMAGE_BYTES])
{
    body_load(s, image + 1);
    s->n = TRIES_OLD;                      /* and no last known RBC */
}

uint8_t image_write(const State *s, uint8_t *image, size_t length)
{
    if (length < IMAGE_BYTES)
        return 10;
    if (!is_sound(s))
        return 11;
    image_store(s, image);
    return 0;
}

uint8_t image_write_old(const State *s, uint8_t *image, size_t length)
{
    if (length < OLD_IMAGE_BYTES)
        return 10;
    if (!is_sound(s))
        return 11;
    if (s->n != TRIES_OLD || s->last != 0)
        return 16;
    image_store_old(s, image);
    return 0;
}

/* What a refused cold start or read leaves: X from 0 to 0, n = 3, all else zero. */
static uint8_t read_refused(State *s, uint8_t code)
{
    cold_start(s, 0, 0, TRIES_OLD);
    return code;
}

static inline uint8_t read_as(State *s, const uint8_t *image, size_t length, const bool old_too)
{
    if (length == 0)
        return read_refused(s, 1);
    const bool old = old_too && image[0] == OLD_IMAGE_KIND;
    if (!old && image[0] != IMAGE_KIND)
        return read_refused(s, 2);
    if (length != (old ? OLD_IMAGE_BYTES : IMAGE_BYTES))
        return read_refused(s, 1);
    if (old)
        image_load_old(s, image);
    else
        image_load(s, image);
    return is_sound(s) ? 0 : read_refused(s, 11);
}

uint8_t image_read(State *s, const uint8_t *image, size_t length) { return read_as(s, image, length, true); }
uint8_t image_read_new(State *s, const uint8_t *image, size_t length) { return read_as(s, image, length, false); }

/* ---- the rescue of an A2 image (request Q-13) ---- */

enum {                                     /* where the fields stand in an A2 image */
    LOWEST_AT = 1, HIGHEST_AT = 2, LEVEL_AT = 3, INSIDE_AT = 5, HOLE_END_AT = 8, PLACES_AT = 9,
    PLACE_BYTES = 7, N_AT = 37, LAST_AT = 38
};

/* The greatest value of the level, the mission and each mark. */
static const uint8_t greatest[PLACES_AT - LEVEL_AT] = {4, 2, 1, 1, 1, 1};

/* The seven bytes of a place by themselves, with tries from 1 to n: free, or what may be held. */
static inline bool place_good(const uint8_t *p, uint8_t n)
{
    const uint8_t phase = p[0], direction = p[1], tries = p[2], type = p[3];
    if (phase == FREE)
        return (direction | tries | type | p[4] | p[5] | p[6]) == 0;
    if (phase > ENDING || direction > INCOMING || type > RIU)
        return false;
    if (phase == OPEN ? tries > 0 : tries == 0 || tries > n)
        return false;
    if (direction == INCOMING && (type == RIU || phase < OPEN))
        return false;
    return type == RIU || (p[5] & 0x3F) != 0x3F || p[6] != 0xFF;
}

/* A held place below p, as far down as the first, that has p's partner; those that were not kept
 * are free by now. */
static inline bool repeats(const uint8_t *first, const uint8_t *p)
{
    if (p[0] != FREE)
        for (const uint8_t *q = first; q < p; q += PLACE_BYTES)
            if (q[0] != FREE && memcmp(q + 3, p + 3, 4) == 0)
                return true;
    return false;
}

/* The four bytes of the last known RBC: none, or 1 and the number of an RBC. */
static inline bool last_good(const uint8_t *b)
{
    if (b[0] == 0)
        return (b[1] | b[2] | b[3]) == 0;
    return b[0] == 1 && ((b[2] & 0x3F) != 0x3F || b[3] != 0xFF);
}

uint8_t image_rescue(uint8_t *image, size_t length, uint8_t fields[RESCUE_MOST], uint8_t *count)
{
    *count = 0;
    if (length == 0)
        return 1;
    if (image[0] != IMAGE_KIND)
        return 2;
    if (length != IMAGE_BYTES)
        return 1;
    if (image[HIGHEST_AT] > 7 || image[LOWEST_AT] > image[HIGHEST_AT] ||
        image[N_AT] < TRIES_LEAST || image[N_AT] > TRIES_MOST)
        return 11;

    uint8_t *to = fields;
    for (uint8_t at = LEVEL_AT; at < PLACES_AT; at++)
        if (image[at] > greatest[at - LEVEL_AT] ||
            (at == HOLE_END_AT && image[at] == 1 && image[INSIDE_AT] == 1)) {      /* inside is mended */
            image[at] = 0;
            *to++ = at;
        }
    for (uint8_t at = PLACES_AT; at < N_AT; at += PLACE_BYTES)
        if (!place_good(image + at, image[N_AT]) || repeats(image + PLACES_AT, image + at)) {
            memset(image + at, 0, PLACE_BYTES);
            *to++ = at;
        }
    if (!last_good(image + LAST_AT)) {
        memset(image + LAST_AT, 0, IMAGE_BYTES - LAST_AT);
        *to++ = LAST_AT;
    }
    *count = (uint8_t)(to - fields);
    return 0;
}

/* ---- the run ---- */

static inline void run(State *s, const uint8_t *log, size_t length, size_t budget, RunResult *out,
                       const bool checked)
{
    memset(out, 0, sizeof *out);
    if (length > LOG_MOST) {
        out->code = 12;
        return;
    }
    if (!is_sound(s)) {
        out->code = 11;
        return;
    }

    uint32_t total[8] = {0};               /* by the last three bits of the action's number */
    uint32_t at = 0, read = 0, refused = 0;
    uint8_t actions[ACTION_BUFFER];
    uint8_t stop;
    for (;;) {
        if (at == length) { stop = 0; break; }
        if (read == budget) { stop = 1; break; }
        const uint8_t *const record = log + at;
        if (!kind_known(*record)) { stop = 3; break; }
        const uint32_t n = record_length[*record];
        if (length - at < n) { stop = 2; break; }
        const StepResult r = result(checked ? step_tested(s, record, n, actions, sizeof actions)
                                            : step_known(s, record, actions));
        at += n;
        read++;
        if (r.code != 0)
            refused++;
        for (unsigned i = 0; i < r.count; i++)
            total[actions[ACTION_BYTES * i] & 7]++;
    }

    out->stop = stop;
    out->offset = at;
    out->read = read;
    out->refused = refused;
    out->total[0] = total[ACT_REQUEST & 7];
    out->total[1] = total[ACT_RELEASE & 7];
    out->total[2] = total[ACT_NO_VERSION & 7];
    out->total[3] = total[ACT_INITIATE & 7];
    out->total[4] = total[ACT_TERMINATE & 7];
    out->total[5] = total[ACT_ESTABLISHED & 7];
}

void run_checked(State *s, const uint8_t *log, size_t length, size_t budget, RunResult *out)
{
    run(s, log, length, budget, out, true);
}

void run_once(State *s, const uint8_t *log, size_t length, size_t budget, RunResult *out)
{
    run(s, log, length, budget, out, false);
}
