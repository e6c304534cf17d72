#include "sets_model.h"

#include <string.h>

_Static_assert(sizeof(Member) == 8 && sizeof(Set) == 36 && sizeof(Sets) == 232, "no padding");

enum { MESSAGE_VERSION = 32, MESSAGE_CALL = 38, MESSAGE_DONE = 39 };
enum { VERSION_MOST = 127, LEVEL_MOST = 4, MISSION_MOST = 2, CAUSE_MOST = 4, X_MOST = 7 };

static inline bool kind_known(uint8_t kind) { return kind >= EV_LEVEL && kind <= KIND_LAST; }

static inline uint32_t get32(const uint8_t *b)
{
    return (uint32_t)b[0] << 24 | (uint32_t)b[1] << 16 | (uint32_t)b[2] << 8 | b[3];
}

static inline void put32(uint8_t *b, uint32_t v)
{
    b[0] = (uint8_t)(v >> 24);
    b[1] = (uint8_t)(v >> 16);
    b[2] = (uint8_t)(v >> 8);
    b[3] = (uint8_t)v;
}

static inline bool is_rbc(uint32_t who) { return who >> 24 == RBC; }

/* An RBC whose number means "the last known RBC". */
static inline bool reserved(uint32_t who) { return is_rbc(who) && (who & LAST_KNOWN) == LAST_KNOWN; }

/* ---- state ---- */

uint8_t sets_cold_start(Sets *s, uint8_t lowest, uint8_t highest, uint8_t n)
{
    memset(s, 0, sizeof *s);
    s->n = TRIES_OLD;
    if (lowest > highest || highest > X_MOST || n < TRIES_LEAST || n > TRIES_MOST)
        return 13;
    s->lowest = lowest;
    s->highest = highest;
    s->n = n;
    return 0;
}

/* Limits, train, marks and last known RBC. */
static inline bool others_sound(const Sets *s)
{
    if (s->lowest > s->highest || s->highest > X_MOST || s->n < TRIES_LEAST || s->n > TRIES_MOST)
        return false;
    if (s->level > LEVEL_MOST || s->mission > MISSION_MOST)
        return false;
    if ((s->inside | s->mode | s->manual | s->hole_end) > 1 || (s->inside && s->hole_end))
        return false;
    return s->last == 0 || (s->last >> 24 == KNOWN >> 24 && !reserved(s->last ^ KNOWN));
}

/* The two sets of established sessions: nothing is waited for, and no tries are counted. */
static inline bool established(unsigned set) { return set == SET_INCOMING || set == SET_OUTGOING; }

/* By set, the directions that its members may have: bit 0 outgoing, bit 1 incoming. */
static const uint8_t directions[SETS] = {
    [SET_CALLING] = 1, [SET_CONTACTED] = 1, [SET_INCOMING] = 2, [SET_OUTGOING] = 1, [SET_LOST] = 3, [SET_TERMINATING] = 3,
};

/* A member by itself, in this set, with tries up to n. */
static inline bool member_sound(const Member *m, unsigned set, uint8_t n)
{
    if (m->who >> 24 > RIU || reserved(m->who))
        return false;
    if (m->direction > INCOMING || (directions[set] >> m->direction & 1) == 0)
        return false;
    if (m->direction == INCOMING && !is_rbc(m->who))
        return false;
    return established(set) ? m->tries == 0 : m->tries >= 1 && m->tries <= n;
}

/* Zeros from this rank on. */
static inline bool zeros_from(const Set *of, unsigned rank)
{
    uint64_t any = 0;                      /* the eight bytes of a member, all of them one over the other */
    for (; rank < MEMBERS; rank++) {
        uint64_t one;
        memcpy(&one, &of->member[rank], sizeof one);
        any |= one;
    }
    return any == 0;
}

bool sets_sound(const Sets *s)
{
    if (!others_sound(s))
        return false;
    uint32_t seen[MEMBERS];                /* the partners of all sets so far */
    unsigned many = 0;
    for (unsigned set = 0; set < SETS; set++) {
        const Set *const of = &s->set[set];
        if (of->count > MEMBERS - many)
            return false;
        if (!zeros_from(of, of->count))
            return false;
        for (unsigned rank = 0; rank < of->count; rank++) {
            const Member *const m = &of->member[rank];
            if (!member_sound(m, set, s->n))
                return false;
            for (unsigned i = 0; i < many; i++)
                if (seen[i] == m->who)
                    return false;
            seen[many++] = m->who;
        }
    }
    return true;
}

/* ---- the sets ---- */

static inline unsigned members(const Sets *s)
{
    unsigned many = 0;
    for (unsigned set = 0; set < SETS; set++)
        many += s->set[set].count;
    return many;
}

/* Where a partner stands: its set and its rank there; SETS where it is in none. */
typedef struct { unsigned set, rank; } Where;

static inline Where where(const Sets *s, uint32_t who)
{
    for (unsigned set = 0; set < SETS; set++)
        for (unsigned rank = 0; rank < s->set[set].count; rank++)
            if (s->set[set].member[rank].who == who)
                return (Where){set, rank};
    return (Where){SETS, 0};
}

/* Behind those that are in the set. */
static inline void enter(Sets *s, unsigned set, uint32_t who, uint8_t tries, uint8_t direction)
{
    Set *const to = &s->set[set];
    to->member[to->count++] = (Member){.who = who, .tries = tries, .direction = direction};
}

/* Those behind it move up; gives the member that left. */
static inline Member leave(Sets *s, Where at)
{
    Set *const from = &s->set[at.set];
    const Member gone = from->member[at.rank];
    from->count--;
    for (unsigned i = at.rank; i < from->count; i++)
        from->member[i] = from->member[i + 1];
    from->member[from->count] = (Member){0};
    return gone;
}

/* ---- actions: each function writes at a and gives the next place to write ---- */

static inline uint8_t *act(uint8_t *a, uint8_t number, uint32_t who)
{
    a[0] = number;
    put32(a + 1, who);
    return a + ACTION_BYTES;
}

/* It leaves its set and is in none. */
static inline uint8_t *release(Sets *s, Where at, uint8_t *a) { return act(a, ACT_RELEASE, leave(s, at).who); }

/* A 159 is sent: an RBC becomes the last known one. */
static inline uint8_t *establish(Sets *s, uint32_t who, uint8_t *a)
{
    if (is_rbc(who))
        s->last = KNOWN | who;
    return act(a, ACT_ESTABLISHED, who);
}

/* A member that is not terminating: an established session begins to end, another is given up. */
static inline uint8_t *close_member(Sets *s, Where at, uint8_t *a)
{
    if (!established(at.set))
        return release(s, at, a);
    const Member m = leave(s, at);
    enter(s, SET_TERMINATING, m.who, 1, m.direction);
    return act(a, ACT_TERMINATE, m.who);
}

/* All that are not terminating. */
static uint8_t *close_all(Sets *s, uint8_t *a)
{
    for (unsigned set = SET_CALLING; set < SET_TERMINATING; set++)
        while (s->set[set].count > 0)
            a = close_member(s, (Where){set, 0}, a);
    return a;
}

/* The RBCs that are incoming, outgoing or lost. */
static uint8_t *close_sessions(Sets *s, uint8_t *a)
{
    for (unsigned set = SET_INCOMING; set <= SET_LOST; set++)
        for (unsigned rank = 0; rank < s->set[set].count;) {
            if (is_rbc(s->set[set].member[rank].who))
                a = close_member(s, (Where){set, rank}, a);            /* the next one has its rank now */
            else
                rank++;
        }
    return a;
}

/* ---- the events; each gives where to write next, or NULL for refusal 7, with nothing changed ---- */

static inline uint8_t *drop(Sets *s, Where at, uint8_t *a) { return at.set == SET_TERMINATING ? NULL : close_member(s, at, a); }

static inline uint8_t *up(Sets *s, Where at, uint8_t *a)
{
    if (at.set == SET_CALLING) {
        const Member m = leave(s, at);
        enter(s, SET_CONTACTED, m.who, 1, OUTGOING);
        return act(a, ACT_INITIATE, m.who);
    }
    if (at.set == SET_LOST) {
        const Member m = leave(s, at);
        enter(s, m.direction == INCOMING ? SET_INCOMING : SET_OUTGOING, m.who, 0, m.direction);
        return a;
    }
    return NULL;
}

static inline uint8_t *lose(Sets *s, Where at, uint8_t *a)
{
    if (at.set == SET_CONTACTED || at.set == SET_TERMINATING)
        return release(s, at, a);
    if (established(at.set)) {
        const Member m = leave(s, at);
        enter(s, SET_LOST, m.who, 1, m.direction);
        return act(a, ACT_REQUEST, m.who);
    }
    return NULL;
}

/* What a timeout sends again, by set. */
static const uint8_t sent_again[SETS] = {
    [SET_CALLING] = ACT_REQUEST, [SET_CONTACTED] = ACT_INITIATE, [SET_LOST] = ACT_REQUEST, [SET_TERMINATING] = ACT_TERMINATE,
};

static inline uint8_t *timeout(Sets *s, Where at, uint8_t *a)
{
    if (established(at.set))
        return NULL;
    if (s->set[at.set].member[at.rank].tries >= s->n)
        return release(s, at, a);
    const Member m = leave(s, at);
    enter(s, at.set, m.who, (uint8_t)(m.tries + 1), m.direction);
    return act(a, sent_again[at.set], m.who);
}

/* Message 32. */
static inline uint8_t *judge(Sets *s, Where at, uint8_t version, uint8_t *a)
{
    if (at.set != SET_CONTACTED)
        return NULL;
    const uint32_t who = leave(s, at).who;
    const uint8_t x = version / 16;
    if (x >= s->lowest && x <= s->highest) {
        enter(s, SET_OUTGOING, who, 0, OUTGOING);
        return establish(s, who, a);
    }
    enter(s, SET_TERMINATING, who, 1, OUTGOING);
    return act(act(a, ACT_NO_VERSION, who), ACT_TERMINATE, who);
}

/* Message 39. */
static inline uint8_t *finish(Sets *s, Where at, uint8_t *a) { return at.set == SET_TERMINATING ? release(s, at, a) : NULL; }

/* ---- the step ---- */

static const uint8_t phase_of[SETS + 1] = {
    [SET_CALLING] = CONNECTING, [SET_CONTACTED] = CONTACTING, [SET_INCOMING] = OPEN, [SET_OUTGOING] = OPEN, [SET_LOST] = LOST,
    [SET_TERMINATING] = ENDING, [SETS] = FREE,
};

static inline SetsResult refuse(uint8_t code) { return (SetsResult){code, 0, FREE}; }

static inline SetsResult refuse_at(uint8_t code, Where at) { return (SetsResult){code, 0, phase_of[at.set]}; }

static inline SetsResult done(const uint8_t *from, const uint8_t *to) { return (SetsResult){0, (uint8_t)((to - from) / ACTION_BYTES), FREE}; }

static inline bool in_force(const Sets *s, uint8_t cause)
{
    const bool by_radio = s->level == 2 || s->level == 3;
    switch (cause) {
    case 0: return s->mission == 1 && by_radio;
    case 1: return true;
    case 2: return s->mission != 0 && by_radio && s->mode;
    case 3: return by_radio && s->manual;
    default: return s->hole_end;
    }
}

static inline void use_mark(Sets *s, uint8_t cause)
{
    if (cause == 2)
        s->mode = 0;
    if (cause == 3)
        s->manual = 0;
    if (cause == 4)
        s->hole_end = 0;
}

static inline SetsResult order(Sets *s, uint32_t who, bool accepting, uint8_t cause, uint8_t *a)
{
    if (!in_force(s, cause))
        return refuse(4);
    if (reserved(who)) {
        if (s->last == 0)
            return refuse(15);
        who = s->last ^ KNOWN;
    }
    const Where at = where(s, who);
    if (at.set != SETS)
        return refuse_at(5, at);
    if (members(s) == MEMBERS)
        return refuse(8);
    uint8_t *const from = a;
    use_mark(s, cause);
    if (is_rbc(who) && !accepting)
        a = close_sessions(s, a);
    enter(s, SET_CALLING, who, 1, OUTGOING);
    return done(from, act(a, ACT_REQUEST, who));
}

/* Message 38. */
static inline SetsResult call(Sets *s, uint32_t who, uint8_t *a)
{
    if (!is_rbc(who))
        return refuse(9);
    const Where at = where(s, who);
    if (at.set != SETS)
        return refuse_at(5, at);
    if (members(s) == MEMBERS)
        return refuse(8);
    enter(s, SET_INCOMING, who, 0, INCOMING);
    return done(a, establish(s, who, a));
}

static inline SetsResult hole(Sets *s, bool entered, uint8_t *a)
{
    if (s->inside == entered)
        return refuse(7);
    s->inside = entered;
    s->hole_end = !entered;
    return done(a, a);
}

/* Drop, up, lost, timeout, 32 or 39: of a partner that is in a set. */
static inline SetsResult partner_event(Sets *s, const uint8_t *r, uint8_t *a)
{
    const Where at = where(s, get32(r + 1));
    if (at.set == SETS)
        return refuse(6);
    uint8_t *end;
    switch (r[0]) {
    case EV_DROP: end = drop(s, at, a); break;
    case EV_UP: end = up(s, at, a); break;
    case EV_LOST: end = lose(s, at, a); break;
    case EV_TIMEOUT: end = timeout(s, at, a); break;
    default: end = r[5] == MESSAGE_VERSION ? judge(s, at, r[6], a) : finish(s, at, a); break;
    }
    return end ? done(a, end) : refuse_at(7, at);
}

/* A partner that an event other than an order may name. */
static inline bool partner_in_range(const uint8_t *r) { return r[1] <= RIU && !reserved(get32(r + 1)); }

static inline bool message_in_range(const uint8_t *r)
{
    if (r[5] == MESSAGE_VERSION)
        return r[6] <= VERSION_MOST;
    return (r[5] == MESSAGE_CALL || r[5] == MESSAGE_DONE) && r[6] == 0;
}

/* Every field of a record of a known kind and its kind's length. */
static inline bool fields_in_range(const uint8_t *r)
{
    switch (r[0]) {
    case EV_LEVEL: return r[1] <= LEVEL_MOST && r[2] <= 1;
    case EV_MISSION: return r[1] <= MISSION_MOST;
    case EV_MODE: return true;
    case EV_HOLE: return r[1] <= 1;
    case EV_END_ALL: return r[1] <= 1;
    case EV_ORDER: return r[1] <= RIU && r[5] <= 1 && r[6] <= CAUSE_MOST;
    case EV_MESSAGE: return partner_in_range(r) && message_in_range(r);
    default: return partner_in_range(r);
    }
}

/* One step, for a sound state, a record of a known kind and its kind's length, and at least 20 bytes for the actions; none of the three
 * is tested. */
static inline SetsResult step_known(Sets *s, const uint8_t *r, uint8_t *a)
{
    if (!fields_in_range(r))
        return refuse(3);
    switch (r[0]) {
    case EV_LEVEL:
        s->level = r[1];
        s->manual |= r[2];
        return done(a, a);
    case EV_MISSION:
        s->mission = r[1];
        return done(a, r[1] == 0 ? close_all(s, a) : a);
    case EV_MODE:
        s->mode = 1;
        return done(a, a);
    case EV_HOLE:
        return hole(s, r[1], a);
    case EV_END_ALL:
        return done(a, close_all(s, a));
    case EV_ORDER:
        return order(s, get32(r + 1), r[5], r[6], a);
    case EV_MESSAGE:
        if (r[5] == MESSAGE_CALL)
            return call(s, get32(r + 1), a);
        return partner_event(s, r, a);
    default:
        return partner_event(s, r, a);
    }
}

SetsResult sets_step(Sets *s, const uint8_t *record, size_t length, uint8_t *actions, size_t actions_length)
{
    if (actions_length < ACTION_BUFFER)
        return refuse(10);
    if (!sets_sound(s))
        return refuse(11);
    if (length == 0)
        return refuse(1);
    if (!kind_known(record[0]))
        return refuse(2);
    if (length != record_length[record[0]])
        return refuse(1);
    return step_known(s, record, actions);
}

/* ---- the run ---- */

static inline unsigned total_of(uint8_t number)
{
    switch (number) {
    case ACT_REQUEST: return 0;
    case ACT_RELEASE: return 1;
    case ACT_NO_VERSION: return 2;
    case ACT_INITIATE: return 3;
    case ACT_TERMINATE: return 4;
    default: return 5;
    }
}

void sets_run(Sets *s, const uint8_t *log, size_t length, size_t budget, RunResult *out)
{
    memset(out, 0, sizeof *out);
    if (length > LOG_MOST) {
        out->code = 12;
        return;
    }
    if (!sets_sound(s)) {
        out->code = 11;
        return;
    }
    uint8_t actions[ACTION_BUFFER];
    for (;;) {
        const uint8_t *const record = log + out->offset;
        const size_t left = length - out->offset;
        if (left == 0) { out->stop = 0; break; }
        if (out->read == budget) { out->stop = 1; break; }
        if (!kind_known(record[0])) { out->stop = 3; break; }
        if (left < record_length[record[0]]) { out->stop = 2; break; }
        const SetsResult r = step_known(s, record, actions);
        out->offset += record_length[record[0]];
        out->read++;
        out->refused += r.code != 0;
        for (unsigned i = 0; i < r.count; i++)
            out->total[total_of(actions[ACTION_BYTES * i])]++;
    }
}

/* ---- the bytes of a state ---- */

void sets_load(Sets *s, const uint8_t b[SETS_BYTES])
{
    *s = (Sets){
        .lowest = b[0], .highest = b[1], .level = b[2], .mission = b[3], .inside = b[4], .mode = b[5], .manual = b[6], .hole_end = b[7],
        .n = b[8], .last = get32(b + 9),
    };
    b += SETS_HEAD;
    for (unsigned set = 0; set < SETS; set++) {
        s->set[set].count = *b++;
        for (unsigned i = 0; i < MEMBERS; i++, b += MEMBER_BYTES)
            s->set[set].member[i] = (Member){.who = get32(b), .tries = b[4], .direction = b[5]};
    }
}

void sets_store(const Sets *s, uint8_t b[SETS_BYTES])
{
    const uint8_t head[9] = {s->lowest, s->highest, s->level, s->mission, s->inside, s->mode, s->manual, s->hole_end, s->n};
    memcpy(b, head, sizeof head);
    put32(b + sizeof head, s->last);
    b += SETS_HEAD;
    for (unsigned set = 0; set < SETS; set++) {
        *b++ = s->set[set].count;
        for (unsigned i = 0; i < MEMBERS; i++, b += MEMBER_BYTES) {
            put32(b, s->set[set].member[i].who);
            b[4] = s->set[set].member[i].tries;
            b[5] = s->set[set].member[i].direction;
        }
    }
}
