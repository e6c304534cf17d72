/* judge_vectors write FILE: the vectors of request Q-9; prints how many each group has.
 * judge_vectors spoil FILE: some of them, each followed by copies with one field wrong that has to be compared; prints the number,
 * from 0, of each wrong one.
 * judge_vectors check FILE: the vectors of the file against the model; prints the number of each wrong one.
 *
 * A vector is the length of its body (two bytes, as all numbers the highest first) and the body:
 * judge: 1; lowest X, highest X, tries; expected code, fault, offset (4), records (4), due kind, due bytes (5); the sheet.
 * produce: 2; lowest X, highest X, tries; room (2); expected code, written (4), records (4), stop; the log's length (2), the log;
 * the expected sheet. */
#include "gen.h"
#include "judge_model.h"

#include <stdio.h>
#include <stdlib.h>
#include <string.h>

enum { JUDGE = 1, PRODUCE = 2, JUDGE_HEAD = 20, PRODUCE_HEAD = 18, BODY_MOST = 65535, ROOM_MOST = 4096 };
enum { FILE_MOST = 4 << 20, VECTORS_MOST = 60000, SHEET_MOST = 16384 };

enum { HAND, CUT, DAMAGED, SPOILT_CUT, SHAPED, CODES, TRIES, VERSIONS, BAD_LIMITS, OTHER_START, WALK, RANDOM, RANDOM_CUT, NOISE, MADE,
       MADE_STOPS, MADE_RANDOM, MADE_BAD, GROUPS };

static const char *const group_name[GROUPS] = {
    "judge, sheets of hand-written logs", "judge, cut at every length", "judge, every byte damaged", "judge, cut behind a damaged byte",
    "judge, records left out, doubled, swapped, put in, changed", "judge, every answer with every number", "judge, numbers of tries",
    "judge, versions and X ranges", "judge, bad limits", "judge, random sheets of another cold start",
    "judge, right with a chance at each record", "judge, random sheets", "judge, random sheets damaged, cut or both", "judge, noise",
    "produce, hand-written logs and rooms", "produce, stops", "produce, random logs and rooms", "produce, bad limits",
};

typedef struct { uint8_t b[SHEET_MOST]; size_t n; } Bytes;
typedef struct { uint8_t lo, hi, n; } Limits;

/* ---- the file ---- */

static uint8_t file[FILE_MOST];
static size_t file_length, vectors;
static struct { size_t at; uint8_t group; } index_of[VECTORS_MOST];

static void put16(uint8_t *b, size_t v)
{
    b[0] = (uint8_t)(v >> 8);
    b[1] = (uint8_t)v;
}

static void put32(uint8_t *b, uint32_t v)
{
    put16(b, v >> 16);
    put16(b + 2, v & 0xFFFF);
}

/* Room for a body of this length at the end of the file. */
static uint8_t *body(unsigned group, size_t length)
{
    if (length > BODY_MOST || length + 2 > sizeof file - file_length || vectors == VECTORS_MOST)
        exit(1);
    uint8_t *const at = file + file_length;
    index_of[vectors].at = file_length;
    index_of[vectors++].group = (uint8_t)group;
    put16(at, length);
    file_length += 2 + length;
    return at + 2;
}

static Verdict judge_vector(unsigned group, Limits l, const uint8_t *sheet, size_t length)
{
    const Verdict v = judge(l.lo, l.hi, l.n, sheet, length);
    uint8_t *const b = body(group, JUDGE_HEAD + length);
    const uint8_t head[] = {JUDGE, l.lo, l.hi, l.n, v.code, v.fault};
    memcpy(b, head, sizeof head);
    put32(b + 6, v.offset);
    put32(b + 10, v.records);
    b[14] = v.due;
    memcpy(b + 15, v.bytes, ACTION_BYTES);
    memcpy(b + JUDGE_HEAD, sheet, length);
    return v;
}

static Made produce_vector(unsigned group, Limits l, const uint8_t *log, size_t length, size_t room_length)
{
    uint8_t room[ROOM_MOST];
    const Made m = produce(l.lo, l.hi, l.n, log, length, room, room_length);
    uint8_t *const b = body(group, PRODUCE_HEAD + length + m.written);
    const uint8_t head[] = {PRODUCE, l.lo, l.hi, l.n};
    memcpy(b, head, sizeof head);
    put16(b + 4, room_length);
    b[6] = m.code;
    put32(b + 7, m.written);
    put32(b + 11, m.records);
    b[15] = m.stop;
    put16(b + 16, length);
    memcpy(b + PRODUCE_HEAD, log, length);
    memcpy(b + PRODUCE_HEAD + length, room, m.written);
    return m;
}

/* ---- help ---- */

static Bytes hex(const char *text)
{
    Bytes out = {.n = 0};
    for (; *text; text++) {
        if (*text == ' ')
            continue;
        const char two[3] = {text[0], text[1], 0};
        out.b[out.n++] = (uint8_t)strtoul(two, NULL, 16);
        text++;
    }
    return out;
}

static Bytes sheet_of(Limits l, const Bytes *log)
{
    Bytes out;
    const Made m = produce(l.lo, l.hi, l.n, log->b, log->n, out.b, sizeof out.b);
    if (m.code != 0 || m.stop != 0)
        exit(1);
    out.n = m.written;
    return out;
}

static void append(Bytes *to, const uint8_t *b, size_t n)
{
    if (n > sizeof to->b - to->n)
        exit(1);
    memcpy(to->b + to->n, b, n);
    to->n += n;
}

/* The length of the record at the front of a right sheet. */
static size_t record_at(const uint8_t *p)
{
    return *p <= KIND_LAST ? record_length[*p] : *p == ANSWER_KIND ? ANSWER_BYTES : ACTION_BYTES;
}

static uint8_t some_byte(Rng *g)
{
    static const uint8_t kinds[] = {0, 12, 21, 22, 29, 30, 31, 154, 155, 156, 159, 255};
    switch (rng_below(g, 3)) {
    case 0: return (uint8_t)(1 + rng_below(g, KIND_LAST));
    case 1: return kinds[rng_below(g, sizeof kinds)];
    default: return (uint8_t)rng_below(g, 256);
    }
}

static Limits some_limits(Rng *g)
{
    Limits l;
    gen_x(g, &l.lo, &l.hi);
    l.n = gen_n(g);
    return l;
}

static Bytes random_log(Rng *g, Limits l, size_t records)
{
    Bytes out = {.n = 0};
    uint8_t record[GEN_MOST], actions[ACTION_BUFFER];
    State s;
    cold_start(&s, l.lo, l.hi, l.n);
    while (records-- > 0) {
        append(&out, record, gen_record_last(g, &s, true, record));
        step_trusted(&s, record, actions);
    }
    return out;
}

/* ---- hand-written logs ---- */

#define CALL(k) "0B 000000" k " 26 00 "
#define FOUR CALL("01") CALL("02") CALL("03") CALL("04")
#define OPENED(who) "05 " who " 01 01 08 " who " 0B " who " 20 10 "

typedef struct { Limits l; const char *log; } Hand;

static const Hand hands[] = {
    {{1, 2, 3}, ""},
    /* each kind alone */
    {{1, 2, 3}, "01 02 01"},
    {{1, 2, 3}, "02 01"},
    {{1, 2, 3}, "03"},
    {{1, 2, 3}, "04 01"},
    {{1, 2, 3}, "05 00000005 00 01"},
    {{1, 2, 3}, "06 00000005"},
    {{1, 2, 3}, "07 01"},
    {{1, 2, 3}, "08 01000005"},
    {{1, 2, 3}, "09 00ABCDEF"},
    {{1, 2, 3}, "0A 00000005"},
    {{1, 2, 3}, "0B 00000005 26 00"},
    /* the marked examples P1 to P10 */
    {{1, 2, 3}, "05 00000005 01 01 08 00000005 0B 00000005 20 11 06 00000005 0B 00000005 27 00"},
    {{1, 2, 3}, "05 00000005 01 01 0A 00000005 0A 00000005 0A 00000005"},
    {{1, 2, 3}, "05 00000005 01 01 08 00000005 0B 00000005 20 30 09 00000005"},
    {{1, 2, 3}, "05 00000005 01 01 08 00000005 0B 00000005 20 80 0B 00000005 20 2F"},
    {{1, 2, 3}, FOUR CALL("05") CALL("01") "0B 01000001 26 00"},
    {{1, 2, 3}, CALL("01") OPENED("01000002") "05 00000003 00 01"},
    {{1, 2, 3}, "02 01 01 01 00 05 00000005 01 00 01 02 00 05 00000005 01 00"},
    {{1, 2, 3}, "04 00 04 01 04 00 05 00000005 01 04 05 00000006 01 04"},
    {{1, 2, 3}, "05 00000005 01 01 0A 00000005 0A 00000005 08 00000005 0A 00000005 0A 00000005 0B 00000005 20 11"
                "06 00000005 0A 00000005 0A 00000005 0B 00000005 27 00"},
    /* four actions: end all, mission ended, an order that closes three, one of them Lost */
    {{1, 2, 3}, FOUR "07 00 07 01"},
    {{0, 7, 9}, CALL("01") "05 00000002 01 01 05 01000003 01 01 08 01000003 05 00000004 01 01 02 00"},
    {{1, 2, 3}, CALL("01") CALL("02") CALL("03") "09 00000002 05 00000004 00 01"},
    /* an accepting order closes nothing, nor does one to an RIU; other phases stay */
    {{1, 2, 3}, CALL("01") "05 00000002 01 01 05 01000003 00 01"},
    {{1, 2, 3}, CALL("01") "06 00000001 05 00000002 00 01 05 00000003 00 01"},
    /* the last known RBC */
    {{1, 2, 3}, "05 00003FFF 01 02 05 00003FFF 01 01" CALL("07") "05 00FFFFFF 01 01 06 00000007 0B 00000007 27 00 05 00407FFF 01 01"},
    {{1, 2, 3}, OPENED("00123456") "06 00123456 09 00123456 05 01003FFF 01 01 05 00003FFF 00 01"},
    {{1, 2, 3}, "06 00003FFF 08 00007FFF 09 00FFFFFF 0A 00003FFF 0B 00003FFF 26 00 0B 00003FFF 20 10 06 01003FFF 06 00003FFE"},
    /* each field out of its range: 3 */
    {{1, 2, 3}, "01 05 00 01 00 02 02 03 04 02 07 02 05 02000001 00 01 05 00000001 02 01 05 00000001 00 05"},
    {{1, 2, 3}, "06 02000001 08 FF000001 09 02000001 0A 80000001 0B 02000001 26 00 0B 00000001 21 00 0B 00000001 20 80 0B 00000001 26 01 0B 00000001 27 01"},
    /* partner without a place: 6 */
    {{1, 2, 3}, "06 00000001 08 00000001 09 01000001 0A 00000001 0B 00000001 20 10 0B 00000001 27 00"},
    /* the phase does not take it: 7, phase by phase */
    {{1, 2, 3}, "05 00000001 00 01 09 00000001 0B 00000001 20 10 0B 00000001 27 00 06 00000001"},
    {{1, 2, 3}, "05 00000001 00 01 08 00000001 08 00000001 0B 00000001 27 00 09 00000001"},
    {{1, 2, 3}, CALL("01") "08 00000001 0A 00000001 0B 00000001 20 10 0B 00000001 27 00"},
    {{1, 2, 3}, CALL("01") "09 00000001 09 00000001 0B 00000001 20 10 0B 00000001 27 00 08 00000001"},
    {{1, 2, 3}, CALL("01") "06 00000001 06 00000001 08 00000001 0B 00000001 20 10 09 00000001"},
    /* order: 4, 5, 8 */
    {{1, 2, 3}, "05 00000001 00 00 05 00000001 00 02 05 00000001 00 03 05 00000001 00 04" FOUR "05 00000001 00 01 05 00000005 00 01"},
    /* causes 2 and 3, and the mark used up */
    {{1, 2, 3}, "03 02 02 01 03 00 05 00000001 00 02 05 00000002 00 02"},
    {{1, 2, 3}, "01 02 01 01 03 00 05 00000001 00 03 05 00000002 00 03"},
    /* RBC 0 and RIU 0 */
    {{1, 2, 3}, "05 00000000 01 01 05 01000000 01 01 0A 00000000 06 01000000"},
    /* Lost: timeouts to the end, and up again */
    {{1, 2, 2}, CALL("01") "09 00000001 0A 00000001 0A 00000001"},
    {{1, 2, 2}, CALL("01") "09 00000001 08 00000001 09 00000001 06 00000001"},
    /* one try and nine */
    {{1, 2, 1}, "05 00000005 01 01 0A 00000005 05 00000005 01 01 08 00000005 0A 00000005"},
    {{1, 2, 9}, "05 00000005 01 01 0A 00000005 0A 00000005 0A 00000005 0A 00000005 0A 00000005 0A 00000005 0A 00000005 0A 00000005 0A 00000005"},
};
enum { HANDS = sizeof hands / sizeof hands[0] };

/* Every byte with some other values. */
static void damaged(Limits l, const Bytes *s)
{
    for (size_t i = 0; i < s->n; i++) {
        Bytes t = *s;
        const uint8_t was = s->b[i];
        const uint8_t values[] = {was ^ 1, was ^ 0x80, (uint8_t)(was + 1), 0, ANSWER_KIND};
        for (size_t k = 0; k < sizeof values; k++) {
            bool again = values[k] == was;
            for (size_t j = 0; j < k; j++)
                again = again || values[j] == values[k];
            if (again)
                continue;
            t.b[i] = values[k];
            judge_vector(DAMAGED, l, t.b, t.n);
        }
    }
}

static void cut(Limits l, const Bytes *s)
{
    for (size_t n = 0; n < s->n; n++) {
        judge_vector(CUT, l, s->b, n);
        if (n == 0)
            continue;
        Bytes t = *s;
        t.b[n - 1] ^= 2;
        judge_vector(SPOILT_CUT, l, t.b, n);
        if (n >= 2) {
            t.b[n - 1] ^= 2;
            t.b[n - 2] ^= 0x10;
            judge_vector(SPOILT_CUT, l, t.b, n);
        }
    }
}

/* At each record: left out, doubled, swapped with the next, others put in before it or in its stead, all behind it left out. */
static void shaped(Limits l, const Bytes *s)
{
    static const char *const others[] = {"03", "04 00", "05 00000009 01 01", "1E 00", "15 00000001", "9C 00000001", "00", "FF"};
    for (size_t at = 0, size; at <= s->n; at += size) {
        size = at < s->n ? record_at(s->b + at) : 1;
        const uint8_t *const behind = s->b + at + size;
        const size_t rest = at < s->n ? s->n - at - size : 0;
        for (size_t k = 0; k < sizeof others / sizeof others[0]; k++) {
            const Bytes o = hex(others[k]);
            Bytes t = {.n = 0};
            append(&t, s->b, at);
            append(&t, o.b, o.n);
            append(&t, s->b + at, s->n - at);
            judge_vector(SHAPED, l, t.b, t.n);
            if (at == s->n || k % 2 == 1)
                continue;
            t.n = at + o.n;
            append(&t, behind, rest);
            judge_vector(SHAPED, l, t.b, t.n);
        }
        if (at == s->n)
            break;
        Bytes t = {.n = 0};
        append(&t, s->b, at);
        append(&t, behind, rest);
        judge_vector(SHAPED, l, t.b, t.n);
        t.n = at;
        append(&t, s->b + at, size);
        append(&t, s->b + at, s->n - at);
        judge_vector(SHAPED, l, t.b, t.n);
        if (rest > 0) {
            const size_t next = record_at(behind);
            t.n = at;
            append(&t, behind, next);
            append(&t, s->b + at, size);
            append(&t, behind + next, rest - next);
            judge_vector(SHAPED, l, t.b, t.n);
        }
    }
}

/* Each answer with each number from 0 to 31. */
static void codes(Limits l, const Bytes *s)
{
    for (size_t at = 0; at < s->n; at += record_at(s->b + at))
        if (s->b[at] == ANSWER_KIND)
            for (uint8_t code = 0; code < 32; code++) {
                Bytes t = *s;
                t.b[at + 1] = code;
                judge_vector(CODES, l, t.b, at + 2 + (code % 2 ? s->n - at - 2 : 0));
            }
}

static void hand_vectors(void)
{
    for (size_t i = 0; i < HANDS; i++) {
        const Limits l = hands[i].l;
        const Bytes log = hex(hands[i].log), s = sheet_of(l, &log);
        judge_vector(HAND, l, s.b, s.n);
        if (s.n <= 90)
            damaged(l, &s);
        cut(l, &s);
        if (s.n <= 110)
            shaped(l, &s);
        if (s.n <= 60)
            codes(l, &s);
        const size_t rooms[] = {s.n, s.n + 1, s.n + 100, ROOM_MOST, s.n - 1, s.n / 2, 0, log.n};
        for (size_t k = 0; k < sizeof rooms / sizeof rooms[0]; k++)
            if (rooms[k] <= ROOM_MOST)
                produce_vector(MADE, l, log.b, log.n, rooms[k]);
    }
}

/* A place of each phase with tries, timed out to its end: made with one number of tries, judged with another. */
static void tries_vectors(void)
{
    static const char *const starts[] = {"05 00000005 01 01", "05 00000005 01 01 08 00000005", CALL("05") "09 00000005",
                                         CALL("05") "06 00000005"};
    for (size_t k = 0; k < sizeof starts / sizeof starts[0]; k++)
        for (uint8_t n = 1; n <= TRIES_MOST; n++) {
            Bytes log = hex(starts[k]);
            const Bytes timeout = hex("0A 00000005");
            for (int i = 0; i <= n; i++)
                append(&log, timeout.b, timeout.n);
            const Bytes s = sheet_of((Limits){1, 2, n}, &log);
            for (uint8_t other = 1; other <= TRIES_MOST; other++)
                judge_vector(TRIES, (Limits){1, 2, other}, s.b, s.n);
        }
}

/* Each X as a version's, taken and not taken, judged with each range. */
static void version_vectors(void)
{
    for (uint8_t x = 0; x < 8; x++)
        for (int taken = 0; taken < 2; taken++) {
            Bytes log = hex("05 00000005 01 01 08 00000005 0B 00000005 20 00");
            log.b[log.n - 1] = (uint8_t)(16 * x + (x % 2 ? 15 : 0));
            const uint8_t made = taken ? x : (uint8_t)((x + 1) % 8);
            const Bytes s = sheet_of((Limits){made, made, 3}, &log);
            for (uint8_t lo = 0; lo < 8; lo++)
                for (uint8_t hi = lo; hi < 8; hi++)
                    judge_vector(VERSIONS, (Limits){lo, hi, 3}, s.b, s.n);
        }
}

static void bad_vectors(void)
{
    static const uint8_t some[] = {0, 1, 2, 6, 7, 8, 9, 15, 128, 255}, tries[] = {0, 1, 3, 9, 10, 11, 128, 255};
    static const char *const logs[] = {"", "03", "05 00000005 01 01 0A 00000005"};
    static const char *const sheets[] = {"", "03 1E00", "03 1E01", "03", "00", "05 00000005 01 01 1E00 15 00000005", "1E00"};
    size_t turn = 0;
    for (size_t i = 0; i < sizeof some; i++)
        for (size_t j = 0; j < sizeof some; j++)
            for (size_t k = 0; k < sizeof tries; k++, turn++) {
                const Limits l = {some[i], some[j], tries[k]};
                const Bytes s = hex(sheets[turn % 7]), log = hex(logs[turn % 3]);
                judge_vector(BAD_LIMITS, l, s.b, s.n);
                produce_vector(MADE_BAD, l, log.b, log.n, turn % 2 ? 100 : turn % 4);
            }
}

/* ---- random ---- */

static void random_vectors(void)
{
    Rng g = {901};
    for (int i = 0; i < 240; i++) {
        const Limits l = some_limits(&g), other = some_limits(&g);
        const size_t records = 1 + rng_below(&g, i % 8 == 0 ? 120 : 40);
        const Bytes log = random_log(&g, l, records), s = sheet_of(l, &log);
        judge_vector(RANDOM, l, s.b, s.n);
        judge_vector(OTHER_START, other, s.b, s.n);
        judge_vector(OTHER_START, (Limits){l.lo, l.hi, other.n}, s.b, s.n);
        for (int k = 0; k < 5; k++) {
            Bytes t = s;
            if (k != 1) {
                const size_t at = rng_below(&g, (uint32_t)t.n);
                t.b[at] = some_byte(&g);
            }
            if (k < 3)
                t.n = rng_below(&g, (uint32_t)t.n + 1);
            judge_vector(RANDOM_CUT, l, t.b, t.n);
        }
    }
    /* Entry by entry as due; with a chance at each record it is another one, or a byte of it is another. */
    for (int i = 0; i < 600; i++) {
        const Limits l = some_limits(&g);
        Bytes s = {.n = 0};
        const uint32_t chance = 20 + rng_below(&g, 80);
        State state;
        cold_start(&state, l.lo, l.hi, l.n);
        const size_t entries = 1 + rng_below(&g, 30);
        for (size_t e = 0; e < entries; e++) {
            uint8_t record[GEN_MOST], due[ANSWER_BYTES + ACTION_BUFFER];
            append(&s, record, gen_record_last(&g, &state, true, record));
            const StepResult r = step_trusted(&state, record, due + ANSWER_BYTES);
            due[0] = ANSWER_KIND;
            due[1] = r.code;
            const size_t all = ANSWER_BYTES + ACTION_BYTES * r.count;
            for (size_t at = 0, size; at < all; at += size) {
                size = record_at(due + at);
                const uint32_t d = rng_below(&g, chance);
                if (d == 0)                        /* left out */
                    continue;
                append(&s, due + at, size);
                if (d == 1) {
                    const size_t back = 1 + rng_below(&g, (uint32_t)size);
                    s.b[s.n - back] = some_byte(&g);
                } else if (d == 2) {               /* twice */
                    append(&s, due + at, size);
                } else if (d == 3) {               /* cut */
                    s.n -= rng_below(&g, (uint32_t)size);
                }
            }
        }
        judge_vector(WALK, l, s.b, s.n);
    }
    for (int i = 0; i < 500; i++) {
        uint8_t s[24];
        const Limits l = some_limits(&g);
        const size_t n = 1 + rng_below(&g, sizeof s);
        for (size_t k = 0; k < n; k++)
            s[k] = some_byte(&g);
        judge_vector(NOISE, l, s, n);
    }
    for (unsigned kind = 0; kind < 256; kind++) {          /* each first byte, alone, before zeros, and behind a whole entry */
        const uint8_t s[12] = {3, ANSWER_KIND, 0, (uint8_t)kind, 0};
        judge_vector(NOISE, (Limits){1, 2, 3}, s + 3, 1);
        judge_vector(NOISE, (Limits){1, 2, 3}, s + 3, 9);
        judge_vector(NOISE, (Limits){1, 2, 3}, s, 4);
        judge_vector(NOISE, (Limits){1, 2, 3}, s, 12);
        const uint8_t due[] = {3, (uint8_t)kind, 0, 0};    /* where an answer is due */
        judge_vector(NOISE, (Limits){1, 2, 3}, due, 2);
        judge_vector(NOISE, (Limits){1, 2, 3}, due, 3);
        const uint8_t sent[] = {11, 0, 0, 0, 0, 38, 0, ANSWER_KIND, 0, (uint8_t)kind, 0, 0, 0, 0};     /* where an action is */
        judge_vector(NOISE, (Limits){1, 2, 3}, sent, 10);
        judge_vector(NOISE, (Limits){1, 2, 3}, sent, 14);
    }
}

static void made_vectors(void)
{
    Rng g = {902};
    /* each kind cut short, and each unknown kind, behind nothing and behind records */
    for (unsigned kind = 0; kind < 256; kind++) {
        Bytes log = {.n = 0};
        const Bytes before = hex(kind % 2 ? "03 04 00" : CALL("01"));
        const uint8_t record[7] = {(uint8_t)kind};
        const size_t size = kind >= 1 && kind <= KIND_LAST ? record_length[kind] : 2;
        for (size_t n = 1; n < size; n++) {
            log.n = 0;
            append(&log, record, n);
            produce_vector(MADE_STOPS, (Limits){1, 2, 3}, log.b, log.n, n % 2 ? 0 : 50);
            log.n = 0;
            append(&log, before.b, before.n);
            append(&log, record, n);
            produce_vector(MADE_STOPS, (Limits){1, 2, 3}, log.b, log.n, kind % 3 ? 64 : 13);
        }
    }
    for (int i = 0; i < 220; i++) {
        const Limits l = some_limits(&g);
        const size_t records = rng_below(&g, i % 10 == 0 ? 350 : 40);
        Bytes log = random_log(&g, l, records);
        if (log.n > 0 && i % 3 == 0) {
            const size_t at = rng_below(&g, (uint32_t)log.n);
            log.b[at] = some_byte(&g);
        }
        if (log.n > 0 && i % 5 == 0)
            log.n -= rng_below(&g, (uint32_t)(log.n < 8 ? log.n : 8));
        static uint8_t room[SHEET_LIMIT];
        const size_t due = produce(l.lo, l.hi, l.n, log.b, log.n, room, sizeof room).written;
        const size_t more = due + 1 + rng_below(&g, 50);
        const size_t some = rng_below(&g, (uint32_t)due + 1);
        const size_t rooms[] = {due, more, due - 1, some, ROOM_MOST, 0};
        for (size_t k = 0; k < sizeof rooms / sizeof rooms[0]; k++)
            if (rooms[k] <= ROOM_MOST)
                produce_vector(MADE_RANDOM, l, log.b, log.n, rooms[k]);
    }
}

/* ---- spoilt ones ---- */

static FILE *out;
static size_t written;

static void put(const uint8_t *b, size_t n)
{
    uint8_t head[2];
    put16(head, n);
    if (fwrite(head, 1, 2, out) != 2 || fwrite(b, 1, n, out) != n)
        exit(1);
    written++;
}

/* A copy with this byte another. */
static void spoil_byte(const uint8_t *b, size_t n, size_t at, uint8_t by)
{
    static uint8_t copy[BODY_MOST];
    memcpy(copy, b, n);
    copy[at] ^= by;
    printf("%zu\n", written);
    put(copy, n);
}

static uint32_t get32(const uint8_t *b) { return (uint32_t)b[0] << 24 | (uint32_t)b[1] << 16 | (uint32_t)b[2] << 8 | b[3]; }

static void spoil_vector(const uint8_t *b, size_t n)
{
    put(b, n);
    if (b[0] == JUDGE) {
        /* code, fault, offset by its low and its high byte, records so, due kind, the five due bytes */
        static const uint8_t at[] = {4, 5, 9, 6, 13, 10, 14, 15, 16, 17, 18, 19};
        for (size_t i = 0; i < sizeof at; i++)
            spoil_byte(b, n, at[i], 1);
        return;
    }
    static const uint8_t at[] = {6, 14, 11, 15};       /* code, records by its low and its high byte, stop */
    for (size_t i = 0; i < sizeof at; i++)
        spoil_byte(b, n, at[i], 1);
    /* written: one less, the body as it was; where it is 0, 1 with a byte of zero for it */
    static uint8_t copy[BODY_MOST];
    const uint32_t many = get32(b + 7);
    memcpy(copy, b, n);
    put32(copy + 7, many > 0 ? many - 1 : 1);
    copy[n] = 0;
    printf("%zu\n", written);
    put(copy, n + (many == 0));
    if (many > 0) {                                    /* the sheet's first, middle and last byte */
        spoil_byte(b, n, n - many, 1);
        spoil_byte(b, n, n - many + many / 2, 0x20);
        spoil_byte(b, n, n - 1, 0x80);
    }
}

/* Of each sort of answer two, of different groups: short ones, with something in them. */
static void spoil_some(void)
{
    enum { LEAST = 26, MOST = 300, SORTS = 64 };
    static struct { uint8_t many, group; } taken[SORTS];
    for (size_t i = 0; i < vectors; i++) {
        const uint8_t *const b = file + index_of[i].at + 2, group = index_of[i].group;
        const size_t n = (size_t)b[-2] << 8 | b[-1];
        /* a sort: refused or not, and the fault with what is due, or the stop */
        const unsigned sort = b[0] == JUDGE ? (b[4] != 0) << 4 | b[5] << 2 | b[14]
                                            : 32 | (b[6] == 10) << 4 | (b[6] == 13) << 3 | b[15];
        if (n < LEAST || n > MOST || taken[sort].many == 2 || (taken[sort].many == 1 && taken[sort].group == group))
            continue;
        taken[sort].many++;
        taken[sort].group = group;
        spoil_vector(b, n);
    }
}

/* ---- the check ---- */

/* A body that the model does not give. */
static bool differs(const uint8_t *b, size_t n)
{
    if (n >= JUDGE_HEAD && b[0] == JUDGE) {
        const Verdict v = judge(b[1], b[2], b[3], b + JUDGE_HEAD, n - JUDGE_HEAD);
        return b[4] != v.code || b[5] != v.fault || get32(b + 6) != v.offset || get32(b + 10) != v.records || b[14] != v.due ||
               memcmp(b + 15, v.bytes, ACTION_BYTES) != 0;
    }
    if (n < PRODUCE_HEAD || b[0] != PRODUCE)
        return true;
    uint8_t room[ROOM_MOST];
    const size_t room_length = (size_t)b[4] << 8 | b[5], log = (size_t)b[16] << 8 | b[17];
    if (room_length > ROOM_MOST || log > n - PRODUCE_HEAD)
        return true;
    memset(room, 0xEE, sizeof room);
    const Made m = produce(b[1], b[2], b[3], b + PRODUCE_HEAD, log, room, room_length);
    for (size_t i = m.written; i < sizeof room; i++)
        if (room[i] != 0xEE)
            return true;
    return b[6] != m.code || get32(b + 7) != m.written || get32(b + 11) != m.records || b[15] != m.stop ||
           n - PRODUCE_HEAD - log != m.written || memcmp(b + PRODUCE_HEAD + log, room, m.written) != 0;
}

static int check(FILE *in)
{
    file_length = fread(file, 1, sizeof file, in);
    size_t at = 0, n;
    for (size_t i = 0; at < file_length; i++, at += 2 + n) {
        n = file_length - at < 2 ? BODY_MOST : (size_t)file[at] << 8 | file[at + 1];
        if (file_length - at < 2 + n) {
            puts("the file is cut");
            return 1;
        }
        if (differs(file + at + 2, n))
            printf("%zu\n", i);
    }
    return 0;
}

int main(int argc, char **argv)
{
    const char *const what = argc == 3 ? argv[1] : "";
    const bool spoil = strcmp(what, "spoil") == 0;
    if (!spoil && strcmp(what, "write") != 0 && strcmp(what, "check") != 0) {
        fputs("usage: judge_vectors write|spoil|check FILE\n", stderr);
        return 2;
    }
    if (strcmp(what, "check") == 0) {
        FILE *const in = fopen(argv[2], "rb");
        return in ? check(in) : 1;
    }
    hand_vectors();
    tries_vectors();
    version_vectors();
    bad_vectors();
    random_vectors();
    made_vectors();
    out = fopen(argv[2], "wb");
    if (!out)
        return 1;
    if (spoil) {
        spoil_some();
    } else {
        if (fwrite(file, 1, file_length, out) != file_length)
            return 1;
        for (unsigned group = 0; group < GROUPS; group++) {
            size_t many = 0, bytes = 0;
            for (size_t i = 0; i < vectors; i++)
                if (index_of[i].group == group) {
                    many++;
                    bytes += (i + 1 < vectors ? index_of[i + 1].at : file_length) - index_of[i].at;
                }
            printf("%6zu vectors %8zu bytes  %s\n", many, bytes, group_name[group]);
        }
        printf("%6zu vectors %8zu bytes in all\n", vectors, file_length);
    }
    return fclose(out) == 0 ? 0 : 1;
}
