#include "marks_model.h"

#include <string.h>

enum { RECORD_MOST = 7 };                  /* bytes of the longest record */

static inline uint32_t get32(const uint8_t *b)
{
    return (uint32_t)b[0] << 24 | (uint32_t)b[1] << 16 | (uint32_t)b[2] << 8 | b[3];
}

static inline void put32(uint8_t *b, uint32_t v)
{
    b[0] = (uint8_t)(v >> 24);
    b[1] = (uint8_t)(v >> 16);
    b[2] = (uint8_t)(v >> 8);
    b[3] = (uint8_t)v;
}

/* The length of a record of this kind; 0 for an unknown one. */
static inline size_t length_of(uint8_t kind) { return kind <= KIND_LAST ? record_length[kind] : 0; }

/* How many whole records of known kinds stand from p on, up to so many. */
static inline size_t count_records(const uint8_t *p, const uint8_t *end, size_t most)
{
    size_t records = 0, own;
    while (records < most && end - p >= RECORD_MOST && (own = length_of(*p)) != 0) {     /* any record fits: no length is tested */
        p += own;
        records++;
    }
    while (records < most && p != end && (own = length_of(*p)) != 0 && own <= (size_t)(end - p)) {
        p += own;
        records++;
    }
    return records;
}

/* Steps that many records from p on, which are there; gives where the next one stands. One function for all, so that the step is
 * compiled into its loop. */
__attribute__((noinline))
static const uint8_t *step_records(State *s, const uint8_t *p, size_t many)
{
    uint8_t actions[ACTION_BUFFER];
    for (; many > 0; many--) {
        step_trusted(s, p, actions);
        p += record_length[*p];
    }
    return p;
}

/* That many marks to this place, from the state before the record at p; their records are there. */
static void write_marks(State *s, const uint8_t *log, const uint8_t *p, size_t many, uint8_t *to)
{
    for (; many > 0; many--, to += MARK_BYTES) {
        p = step_records(s, p, MARK_EVERY);
        to[0] = MARK_KIND;
        put32(to + 1, (uint32_t)(p - log));
        image_store(s, to + MARK_IMAGE_AT);
    }
}

/* The mark's offset and state; false where it is refused with 11. */
static inline bool read_mark(const uint8_t *mark, size_t length, uint32_t *offset, State *s)
{
    *offset = get32(mark + 1);
    return mark[0] == MARK_KIND && *offset <= length && image_read_new(s, mark + MARK_IMAGE_AT, IMAGE_BYTES) == 0;
}

static inline Marked marks_refused(uint8_t code) { return (Marked){.code = code}; }

/* The marks behind those that are held; state and offset are those of the last one. */
static Marked add_marks(State *s, uint32_t offset, const uint8_t *log, size_t length, size_t held,
                        uint8_t *room, size_t room_length)
{
    const size_t more = count_records(log + offset, log + length, LOG_MOST) / MARK_EVERY;
    if (room_length / MARK_BYTES - held < more)            /* the held ones are in the room */
        return marks_refused(10);
    if (more > 0)
        write_marks(s, log, log + offset, more, room + MARK_BYTES * held);
    return (Marked){.marks = held + more};
}

Marked marks_build(uint8_t lowest, uint8_t highest, uint8_t n, const uint8_t *log, size_t length,
                   uint8_t *room, size_t room_length)
{
    State s;
    if (cold_start(&s, lowest, highest, n) != 0)
        return marks_refused(13);
    if (length > LOG_MOST)
        return marks_refused(12);
    return add_marks(&s, 0, log, length, 0, room, room_length);
}

Marked marks_extend(uint8_t lowest, uint8_t highest, uint8_t n, const uint8_t *log, size_t length, size_t held,
                    uint8_t *room, size_t room_length)
{
    State s;
    uint32_t offset = 0;
    if (cold_start(&s, lowest, highest, n) != 0)
        return marks_refused(13);
    if (length > LOG_MOST)
        return marks_refused(12);
    if (held > room_length / MARK_BYTES)
        return marks_refused(10);
    if (held > 0 && !read_mark(room + MARK_BYTES * (held - 1), length, &offset, &s))
        return marks_refused(11);
    return add_marks(&s, offset, log, length, held, room, room_length);
}

static Looked lookup_refused(uint8_t code)
{
    Looked l = {.code = code};
    cold_start(&l.state, 0, 0, TRIES_OLD);
    return l;
}

Looked marks_lookup(uint8_t lowest, uint8_t highest, uint8_t n, const uint8_t *log, size_t length,
                    const uint8_t *marks, size_t marks_length, uint64_t record)
{
    State s;
    uint32_t offset = 0;
    if (cold_start(&s, lowest, highest, n) != 0)
        return lookup_refused(13);
    if (length > LOG_MOST)
        return lookup_refused(12);

    const uint64_t mark = record / MARK_EVERY;             /* from 1; 0: the cold start */
    if (mark > 0) {
        if (mark > marks_length / MARK_BYTES)
            return lookup_refused(19);
        if (!read_mark(marks + MARK_BYTES * (mark - 1), length, &offset, &s))
            return lookup_refused(11);
    }

    const uint32_t steps = (uint32_t)(record % MARK_EVERY);
    const uint8_t *const from = log + offset;
    if (count_records(from, log + length, steps) < steps)
        return lookup_refused(19);
    const uint8_t *const to = step_records(&s, from, steps);
    return (Looked){.state = s, .steps = steps, .offset = (uint32_t)(to - log)};
}
