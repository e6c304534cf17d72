#include "judge_model.h"

#include <string.h>

_Static_assert(sizeof(Verdict) == 16, "a verdict is handed back in two registers");

static inline bool known(uint8_t kind) { return (uint8_t)(kind - 1) < KIND_LAST; }

/* ---- the judge ---- */

enum { ENTRY_MOST = 7 + ANSWER_BYTES + ACTION_BUFFER };       /* bytes of the longest entry */

/* What stands at p, where the record of this length is due; it is not the due one, or cut. */
static uint8_t fault_of(const uint8_t *p, const uint8_t *end, const uint8_t *due, size_t length)
{
    if (p == end)
        return MISSING;
    if (*p == *due && (size_t)(end - p) < length)
        return SHORT;
    return WRONG;
}

/* The fault in an entry whose event record ends at p and whose answer or actions are not right. */
static Verdict fault_in(const uint8_t *sheet, const uint8_t *p, const uint8_t *end, StepResult r,
                        const uint8_t *actions, uint32_t records)
{
    const uint8_t answer[ANSWER_BYTES] = {ANSWER_KIND, r.code};
    Verdict v = {.records = records};
    if ((size_t)(end - p) < ANSWER_BYTES || memcmp(p, answer, ANSWER_BYTES) != 0) {
        v.fault = fault_of(p, end, answer, ANSWER_BYTES);
        v.due = DUE_ANSWER;
        v.bytes[0] = r.code;
    } else {
        p += ANSWER_BYTES;
        while ((size_t)(end - p) >= ACTION_BYTES && memcmp(p, actions, ACTION_BYTES) == 0) {
            p += ACTION_BYTES;
            actions += ACTION_BYTES;
        }
        v.fault = fault_of(p, end, actions, ACTION_BYTES);
        v.due = DUE_ACTION;
        memcpy(v.bytes, actions, ACTION_BYTES);
    }
    v.offset = (uint32_t)(p - sheet);
    return v;
}

/* The entries from p to the end of the sheet, every length tested. */
static Verdict judge_rest(State *s, const uint8_t *sheet, const uint8_t *p, const uint8_t *end,
                          uint32_t records)
{
    uint8_t actions[ACTION_BUFFER], fault = RIGHT;
    for (; p != end; records++) {
        if (!known(*p)) { fault = WRONG; break; }
        const size_t own = record_length[*p];
        if ((size_t)(end - p) < own) { fault = SHORT; break; }
        const StepResult r = step_trusted(s, p, actions);
        const size_t sent = (size_t)ACTION_BYTES * r.count;
        p += own;
        if ((size_t)(end - p) < ANSWER_BYTES + sent || p[0] != ANSWER_KIND || p[1] != r.code ||
            memcmp(p + ANSWER_BYTES, actions, sent) != 0)
            return fault_in(sheet, p, end, r, actions, records);
        p += ANSWER_BYTES + sent;
    }
    return (Verdict){.fault = fault, .offset = (uint32_t)(p - sheet), .records = records};
}

Verdict judge(uint8_t lowest, uint8_t highest, uint8_t n, const uint8_t *sheet, size_t length)
{
    State s;
    if (cold_start(&s, lowest, highest, n) != 0)
        return (Verdict){.code = 13};
    if (length > SHEET_LIMIT)
        return (Verdict){.code = 12};

    /* While the longest entry fits, no length is tested. */
    const uint8_t *p = sheet, *const end = sheet + length;
    uint8_t actions[ACTION_BUFFER];
    uint32_t records = 0;
    for (; end - p >= ENTRY_MOST && known(*p); records++) {
        const uint8_t *const answer = p + record_length[*p], *a = actions;
        const StepResult r = step_trusted(&s, p, actions);
        if (answer[0] != ANSWER_KIND || answer[1] != r.code)
            return fault_in(sheet, answer, end, r, actions, records);
        const uint8_t *q = answer + ANSWER_BYTES;
        for (p = q + (size_t)ACTION_BYTES * r.count; q != p; q += ACTION_BYTES, a += ACTION_BYTES)
            if (memcmp(q, a, ACTION_BYTES) != 0)
                return fault_in(sheet, answer, end, r, actions, records);
    }
    return judge_rest(&s, sheet, p, end, records);
}

/* ---- our own sheet ---- */

/* The log's sheet to this place, or with none its length alone; the sheet may be over its limit. */
static inline Made make(State s, const uint8_t *log, size_t length, uint8_t *to)
{
    const uint8_t *p = log, *const end = log + length;
    uint8_t spare[ACTION_BUFFER];
    Made m = {0};
    for (; p != end; m.records++) {
        if (!known(*p)) { m.stop = 3; break; }
        const size_t own = record_length[*p];
        if ((size_t)(end - p) < own) { m.stop = 2; break; }
        const StepResult r = step_trusted(&s, p, spare);
        const size_t sent = (size_t)ACTION_BYTES * r.count;
        if (to) {
            memcpy(to, p, own);
            to += own;
            *to++ = ANSWER_KIND;
            *to++ = r.code;
            memcpy(to, spare, sent);
            to += sent;
        }
        m.written += (uint32_t)(own + ANSWER_BYTES + sent);
        p += own;
    }
    return m;
}

Made produce(uint8_t lowest, uint8_t highest, uint8_t n, const uint8_t *log, size_t length,
             uint8_t *room, size_t room_length)
{
    State s;
    if (cold_start(&s, lowest, highest, n) != 0)
        return (Made){.code = 13};
    if (length > LOG_MOST)
        return (Made){.code = 12};
    const Made m = make(s, log, length, NULL);
    if (m.written > SHEET_LIMIT)
        return (Made){.code = 12};
    if (room_length < m.written)
        return (Made){.code = 10};
    return m.written == 0 ? m : make(s, log, length, room);
}
