#include "shunter_model.h"

#include <string.h>

enum { MESSAGE_CALL = 38 };

static inline bool kind_known(uint8_t kind) { return (uint8_t)(kind - 1) < KIND_LAST; }

static inline uint32_t get32(const uint8_t *b)
{
    return (uint32_t)b[0] << 24 | (uint32_t)b[1] << 16 | (uint32_t)b[2] << 8 | b[3];
}

static inline void put32(uint8_t *b, uint32_t v)
{
    b[0] = (uint8_t)(v >> 24);
    b[1] = (uint8_t)(v >> 16);
    b[2] = (uint8_t)(v >> 8);
    b[3] = (uint8_t)v;
}

/* ---- state ---- */

/* How many places are held: bit 7 of each phase plus 127, added up. */
static inline unsigned held_places(const State *box)
{
    uint32_t phases;
    memcpy(&phases, box->phase, sizeof phases);
    return ((phases + 0x7F7F7F7Fu) >> 7 & 0x01010101u) * 0x01010101u >> 24;
}

/* How many of so many held places wait: two have the modems. */
static inline unsigned to_wait(unsigned held) { return held > MODEMS ? held - MODEMS : 0; }

uint8_t shunter_cold_start(Shunter *s, uint8_t lowest, uint8_t highest, uint8_t n)
{
    memset(s->queue, NOBODY, sizeof s->queue);
    return cold_start(&s->box, lowest, highest, n);
}

bool shunter_sound(const Shunter *s)
{
    const State *const box = &s->box;
    if (!sound(box))
        return false;
    const unsigned waiting = to_wait(held_places(box));        /* fewer: a third modem; more: an idle one */
    for (unsigned i = 0; i < QUEUE; i++) {
        const uint8_t place = s->queue[i];
        if (i >= waiting ? place != NOBODY
                         : place >= PLACES || box->phase[place] != CONNECTING || box->tries[place] != 1)
            return false;                                      /* Connecting is outgoing in a sound box */
    }
    return waiting < QUEUE || s->queue[0] != s->queue[1];
}

/* ---- the step ---- */

static inline StepResult refuse(uint8_t code) { return (StepResult){code, 0, PLACES, FREE}; }

static inline void put_action(uint8_t *to, uint8_t number, uint32_t who)
{
    to[0] = number;
    put32(to + 1, who);
}

/* While a modem is free, the 21 of the one of so many that waits longest, behind that many actions; gives how many there are then. */
static inline unsigned serve(Shunter *s, unsigned many, uint8_t *room, unsigned count)
{
    for (const unsigned waiting = to_wait(held_places(&s->box)); many > waiting; many--) {
        put_action(room + ACTION_BYTES * count++, ACT_REQUEST, s->box.partner[s->queue[0]]);
        s->queue[0] = s->queue[1];
        s->queue[1] = NOBODY;
    }
    return count;
}

/* Each of the following is a step for a sound shunter with both modems held. */

/* A call: not taken, whatever the core does. */
static StepResult step_call(const Shunter *s, const uint8_t *record)
{
    State box = s->box;
    uint8_t actions[ACTION_BUFFER];
    const StepResult r = step_trusted(&box, record, actions);
    return r.code != 0 ? r : refuse(17);
}

/* An order: the place that it takes joins the end of the queue, and its 21, the core's last action, is held back. */
static StepResult step_order(Shunter *s, const uint8_t *record, uint8_t *room, unsigned held)
{
    uint8_t was[PLACES], sent[ACTION_BUFFER];
    memcpy(was, s->box.phase, sizeof was);
    StepResult r = step_trusted(&s->box, record, sent);
    if (r.code != 0)
        return r;
    uint8_t place = 0;
    while (was[place] != FREE || s->box.phase[place] == FREE)
        place++;
    unsigned waiting = held - MODEMS;                          /* 0 or 1: there was a free place */
    s->queue[waiting++] = place;
    r.count--;
    for (unsigned i = 0; i < r.count; i++)
        memcpy(room + ACTION_BYTES * i, sent + ACTION_BYTES * i, ACTION_BYTES);
    r.count = (uint8_t)serve(s, waiting, room, r.count);
    return r;
}

/* Another event while a place waits. */
static StepResult step_waiting(Shunter *s, const uint8_t *record, uint8_t *room, unsigned held)
{
    const uint8_t kind = record[0];
    const uint32_t first = s->box.partner[s->queue[0]], last = s->box.partner[s->queue[held - MODEMS - 1]];
    uint8_t sent[ACTION_BUFFER], *to = room;                   /* 'sent' where there may be a 22 of one that waits */
    if (kind == EV_END_ALL || kind == EV_MISSION) {
        to = sent;
    } else if (kind == EV_DROP || kind == EV_UP || kind == EV_LOST || kind == EV_TIMEOUT) {
        const uint32_t who = get32(record + 1);                /* with a place it is a partner in range: no 3 */
        if (who == first || who == last) {
            if (kind != EV_DROP)
                return refuse(18);
            to = sent;
        }
    }
    StepResult r = step_trusted(&s->box, record, to);
    if (r.code != 0)
        return r;

    unsigned waiting = held - MODEMS;
    if (to == sent) {
        const unsigned many = r.count;
        r.count = 0;
        for (const uint8_t *a = sent; a != sent + ACTION_BYTES * many; a += ACTION_BYTES) {
            const uint32_t who = get32(a + 1);
            if (a[0] != ACT_RELEASE || (who != first && who != last))
                memcpy(room + ACTION_BYTES * r.count++, a, ACTION_BYTES);
        }
        for (unsigned i = waiting; i-- > 0;)                   /* those released leave the queue */
            if (s->box.phase[s->queue[i]] == FREE) {
                if (i == 0)
                    s->queue[0] = s->queue[1];
                s->queue[1] = NOBODY;
                waiting--;
            }
    }
    r.count = (uint8_t)serve(s, waiting, room, r.count);
    return r;
}

/* One step, for a sound shunter, a record of a known kind and its kind's length, and at least 20 bytes of room; none of the three
 * is tested. With a modem free nobody waits, and who is taken in has it at once: the core's step. So it is while nobody waits for
 * all that is neither an order nor a call. */
static inline StepResult shunt(Shunter *s, const uint8_t *record, uint8_t *room)
{
    const unsigned held = held_places(&s->box);
    if (held >= MODEMS) {
        if (record[0] == EV_ORDER)
            return step_order(s, record, room, held);
        if (record[0] == EV_MESSAGE && record[5] == MESSAGE_CALL)
            return step_call(s, record);
        if (held > MODEMS)
            return step_waiting(s, record, room, held);
    }
    return step_trusted(&s->box, record, room);
}

StepResult shunter_step(Shunter *s, const uint8_t *record, size_t length, uint8_t *actions, size_t actions_length)
{
    if (actions_length < ACTION_BUFFER)
        return refuse(10);
    if (!shunter_sound(s))
        return refuse(11);
    if (length == 0)
        return refuse(1);
    if (!kind_known(record[0]))
        return refuse(2);
    if (length != record_length[record[0]])
        return refuse(1);
    return shunt(s, record, actions);
}

/* ---- the run ---- */

/* Flat: where the model is at hand, its step is compiled into the loop. */
__attribute__((flatten))
void shunter_run(Shunter *s, const uint8_t *log, size_t length, size_t budget, RunResult *out)
{
    memset(out, 0, sizeof *out);
    if (length > LOG_MOST) {
        out->code = 12;
        return;
    }
    if (!shunter_sound(s)) {
        out->code = 11;
        return;
    }

    uint32_t total[8] = {0};               /* by the last three bits of the action's number */
    uint32_t at = 0, read = 0, refused = 0;
    uint8_t actions[ACTION_BUFFER];
    uint8_t stop;
    for (;;) {
        if (at == length) { stop = 0; break; }
        if (read == budget) { stop = 1; break; }
        const uint8_t *const record = log + at;
        if (!kind_known(*record)) { stop = 3; break; }
        const uint32_t n = record_length[*record];
        if (length - at < n) { stop = 2; break; }
        const StepResult r = shunt(s, record, actions);
        at += n;
        read++;
        if (r.code != 0)
            refused++;
        for (unsigned i = 0; i < r.count; i++)
            total[actions[ACTION_BYTES * i] & 7]++;
    }

    out->stop = stop;
    out->offset = at;
    out->read = read;
    out->refused = refused;
    out->total[0] = total[ACT_REQUEST & 7];
    out->total[1] = total[ACT_RELEASE & 7];
    out->total[2] = total[ACT_NO_VERSION & 7];
    out->total[3] = total[ACT_INITIATE & 7];
    out->total[4] = total[ACT_TERMINATE & 7];
    out->total[5] = total[ACT_ESTABLISHED & 7];
}
