/* shunter_vectors write FILE: the vectors of request Q-10; prints how many each group has.
 * shunter_vectors spoil FILE: some of them, each followed by copies with one field wrong that has to be compared; prints the number,
 * from 0, of each wrong one.
 * shunter_vectors check FILE: the vectors of the file against the model; prints the number of each wrong one.
 *
 * A vector is the length of its body (two bytes, as all numbers the highest first) and the body:
 * start: 1; lowest X, highest X, tries; expected code, state (41), queue (2).
 * step: 2; state (41), queue (2), room (2), record length (1), record; expected code, count, place, phase, state (41), queue (2), the
 * actions' bytes. The room is so many EE before the call; behind the actions it keeps them.
 * run: 3; state (41), queue (2), budget (4); the log: repeats (2), block length (2), block, tail length (2), tail; it is the block so
 * many times, then the tail; expected code, stop, offset (4), read (4), refused (4), six totals (4 each), state (41), queue (2).
 * A state is an A2 image without its kind. A given one may be unsound, but has a phase 0 to 5 (seven zeros with 0), type, direction,
 * marks and the last RBC's flag 0 or 1 (four zeros with 0), and tries 0 in Open; a wrong expected one too. A queue may be any two
 * bytes. */
#include "gen.h"
#include "shunter_model.h"

#include <stdio.h>
#include <stdlib.h>
#include <string.h>

enum { START = 1, STEP = 2, RUN = 3, BODY_MOST = 65535, ROOM_MOST = 4096, RECORD_MOST = 255, LOG_LONGEST = 65536, UNTOUCHED = 0xEE };
enum { FILE_MOST = 4000000, VECTORS_MOST = 60000, BYTES_MOST = 8192 };
enum { STATE = IMAGE_BYTES - 1, SHUNTER = STATE + QUEUE };                      /* bytes of a state, and with its queue */
enum { START_BODY = 4 + 1 + SHUNTER, STEP_HEAD = 1 + SHUNTER + 3, STEP_ANSWER = 4 + SHUNTER, RUN_HEAD = 1 + SHUNTER + 4 + 6,
       RUN_ANSWER = 2 + 3 * 4 + 6 * 4 + SHUNTER };

enum { STARTS, HAND, EVERY, FORM, FEW, QUEUES, HOLDINGS, BOXES, ORDERED, ROOMS, CUT, KINDS, FIELDS, TRIES, HISTORIES, DEEP,
       R_HAND, R_BUDGETS, R_STOPS, R_DAMAGED, R_REFUSED, R_LONG, R_RANDOM, GROUPS };

static const char *const group_name[GROUPS] = {
    "start, limits", "step, hand-written histories", "step, every sound queue with every two phases that have a modem",
    "step, every two forms that have a modem, every event", "step, one place held or none, every event", "step, every small queue over some boxes",
    "step, holdings that break the rules", "step, unsound boxes", "step, refusals in their order", "step, rooms", "step, records cut at every length",
    "step, every kind", "step, fields out of range", "step, numbers of tries", "step, random histories of few partners", "step, random histories of many",
    "run, hand-written logs", "run, budgets", "run, stops", "run, every byte of a log damaged", "run, refused", "run, long logs", "run, random logs",
};

typedef struct { uint8_t b[BYTES_MOST]; size_t n; } Bytes;
typedef struct { uint8_t lo, hi, n; } Limits;
typedef struct { size_t repeats; Bytes block, tail; } Log;

/* ---- the file ---- */

static uint8_t file[FILE_MOST];
static size_t file_length, vectors;
static struct { size_t at; uint8_t group; } index_of[VECTORS_MOST];

static void put16(uint8_t *b, size_t v)
{
    b[0] = (uint8_t)(v >> 8);
    b[1] = (uint8_t)v;
}

static void put32(uint8_t *b, uint32_t v)
{
    put16(b, v >> 16);
    put16(b + 2, v & 0xFFFF);
}

static size_t get16(const uint8_t *b) { return (size_t)b[0] << 8 | b[1]; }
static uint32_t get32(const uint8_t *b) { return (uint32_t)get16(b) << 16 | (uint32_t)get16(b + 2); }

/* Room for a body of this length at the end of the file. */
static uint8_t *body(unsigned group, size_t length)
{
    if (length > BODY_MOST || length + 2 > sizeof file - file_length || vectors == VECTORS_MOST)
        exit(1);
    uint8_t *const at = file + file_length;
    index_of[vectors].at = file_length;
    index_of[vectors++].group = (uint8_t)group;
    put16(at, length);
    file_length += 2 + length;
    return at + 2;
}

static uint8_t *put_bytes(uint8_t *to, const uint8_t *b, size_t n)
{
    memcpy(to, b, n);
    return to + n;
}

static uint8_t *put_shunter(uint8_t *to, const Shunter *s)
{
    uint8_t image[IMAGE_BYTES];
    image_store(&s->box, image);
    to = put_bytes(to, image + 1, STATE);
    return put_bytes(to, s->queue, QUEUE);
}

static Shunter get_shunter(const uint8_t *b)
{
    Shunter s;
    uint8_t image[IMAGE_BYTES] = {IMAGE_KIND};
    memcpy(image + 1, b, STATE);
    image_load(&s.box, image);
    memcpy(s.queue, b + STATE, QUEUE);
    return s;
}

static uint8_t whole[LOG_LONGEST];         /* the log of the vector in hand */

static size_t expand(const Log *log)
{
    if (log->repeats > 65535 || log->repeats * log->block.n + log->tail.n > sizeof whole)
        exit(1);
    uint8_t *to = whole;
    for (size_t i = 0; i < log->repeats; i++)
        to = put_bytes(to, log->block.b, log->block.n);
    to = put_bytes(to, log->tail.b, log->tail.n);
    return (size_t)(to - whole);
}

static void start_vector(unsigned group, Limits l)
{
    Shunter s;
    const uint8_t head[5] = {START, l.lo, l.hi, l.n, shunter_cold_start(&s, l.lo, l.hi, l.n)};
    put_shunter(put_bytes(body(group, START_BODY), head, sizeof head), &s);
}

/* Leaves the next state in s. */
static StepResult step_vector(unsigned group, Shunter *s, size_t room_length, const uint8_t *record, size_t length)
{
    if (room_length > ROOM_MOST || length > RECORD_MOST)
        exit(1);
    uint8_t room[ROOM_MOST], head[STEP_HEAD] = {STEP};
    put_shunter(head + 1, s);
    put16(head + 1 + SHUNTER, room_length);
    head[STEP_HEAD - 1] = (uint8_t)length;
    const StepResult r = shunter_step(s, record, length, room, room_length);
    const uint8_t answer[4] = {r.code, r.count, r.place, r.phase};
    uint8_t *b = body(group, STEP_HEAD + length + STEP_ANSWER + ACTION_BYTES * (size_t)r.count);
    b = put_bytes(b, head, sizeof head);
    b = put_bytes(b, record, length);
    b = put_bytes(b, answer, sizeof answer);
    b = put_shunter(b, s);
    put_bytes(b, room, ACTION_BYTES * (size_t)r.count);
    return r;
}

/* The same, s stays. */
static void step_on(unsigned group, const Shunter *s, size_t room_length, const uint8_t *record, size_t length)
{
    Shunter t = *s;
    step_vector(group, &t, room_length, record, length);
}

static void run_vector(unsigned group, const Shunter *from, uint32_t budget, const Log *log)
{
    Shunter s = *from;
    RunResult out;
    shunter_run(&s, whole, expand(log), budget, &out);
    uint8_t *b = body(group, RUN_HEAD + log->block.n + log->tail.n + RUN_ANSWER);
    *b++ = RUN;
    b = put_shunter(b, from);
    put32(b, budget);
    put16(b + 4, log->repeats);
    put16(b + 6, log->block.n);
    b = put_bytes(b + 8, log->block.b, log->block.n);
    put16(b, log->tail.n);
    b = put_bytes(b + 2, log->tail.b, log->tail.n);
    *b++ = out.code;
    *b++ = out.stop;
    const uint32_t numbers[3] = {out.offset, out.read, out.refused};
    for (int i = 0; i < 3; i++, b += 4)
        put32(b, numbers[i]);
    for (int i = 0; i < 6; i++, b += 4)
        put32(b, out.total[i]);
    put_shunter(b, &s);
}

/* ---- help ---- */

static void append(Bytes *to, const uint8_t *b, size_t n)
{
    if (n > sizeof to->b - to->n)
        exit(1);
    memcpy(to->b + to->n, b, n);
    to->n += n;
}

static Bytes hex(const char *text)
{
    Bytes out;
    out.n = 0;
    for (; *text; text++) {
        if (*text == ' ')
            continue;
        const char two[3] = {text[0], text[1], 0};
        out.b[out.n++] = (uint8_t)strtoul(two, NULL, 16);
        text++;
    }
    return out;
}

/* The block so many times. */
static Log times(size_t repeats, const Bytes *block)
{
    Log log;
    log.repeats = repeats;
    log.block = *block;
    log.tail.n = 0;
    return log;
}

/* The bytes as a tail. */
static Log once(const uint8_t *b, size_t n)
{
    Log log;
    log.repeats = log.block.n = log.tail.n = 0;
    append(&log.tail, b, n);
    return log;
}

static Shunter cold(Limits l)
{
    Shunter s;
    if (shunter_cold_start(&s, l.lo, l.hi, l.n) != 0)
        exit(1);
    return s;
}

static Limits some_limits(Rng *g)
{
    Limits l;
    gen_x(g, &l.lo, &l.hi);
    l.n = gen_n(g);
    return l;
}

/* What the text's records leave of a cold start. */
static Shunter after(Limits l, const char *text)
{
    const Bytes log = hex(text);
    Shunter s = cold(l);
    RunResult out;
    shunter_run(&s, log.b, log.n, SIZE_MAX, &out);
    if (out.stop != 0)
        exit(1);
    return s;
}

static size_t put_event(uint8_t *r, uint8_t kind, uint32_t who, uint8_t b5, uint8_t b6)
{
    r[0] = kind;
    put32(r + 1, who);
    r[5] = b5;
    r[6] = b6;
    return record_length[kind];
}

/* ---- starts ---- */

static void start_vectors(void)
{
    for (uint8_t lo = 0; lo <= 8; lo++)
        for (uint8_t hi = 0; hi <= 8; hi++)
            for (uint8_t n = 0; n <= 10; n++)
                start_vector(STARTS, (Limits){lo, hi, n});
    static const uint8_t far[] = {9, 15, 16, 127, 128, 255};
    for (size_t i = 0; i < sizeof far; i++) {
        start_vector(STARTS, (Limits){far[i], 7, 3});
        start_vector(STARTS, (Limits){1, far[i], 3});
        start_vector(STARTS, (Limits){far[i], far[i], 5});
        start_vector(STARTS, (Limits){1, 2, far[i]});
        start_vector(STARTS, (Limits){0, 7, far[i]});
        start_vector(STARTS, (Limits){far[i], far[i], far[i]});
    }
}

/* ---- hand-written histories, a sentence or two of the request in each ---- */

#define ORDER(k) "05 000000" k " 01 01 "                   /* accepting, trackside */
#define CLOSING(k) "05 000000" k " 00 01 "                 /* not accepting */
#define ORDER_RIU(k) "05 010000" k " 01 01 "
#define CLOSING_RIU(k) "05 010000" k " 00 01 "
#define ORDER_LAST "05 00003FFF 01 01 "
#define CALL(k) "0B 000000" k " 26 00 "
#define DONE(k) "0B 000000" k " 27 00 "
#define GOOD(k) "0B 000000" k " 20 11 "                    /* a version that is taken with X 1 to 2, and one that is not */
#define WRONG(k) "0B 000000" k " 20 30 "
#define DROP(k) "06 000000" k " "
#define UP(k) "08 000000" k " "
#define LOSS(k) "09 000000" k " "
#define TIME(k) "0A 000000" k " "
#define FOUR ORDER("01") ORDER("02") ORDER("03") ORDER("04")       /* two have the modems, two wait */
#define TWO_CALLS CALL("01") CALL("02")

typedef struct { Limits l; const char *text; } Hand;

static const Hand hands[] = {
    /* the first of four has its modem through Contacting, Open, Lost and Ending until its 22; then the longest waiting is served */
    {{1, 2, 3}, FOUR ORDER("05") UP("01") GOOD("01") LOSS("01") TIME("01") UP("01") DROP("01") TIME("01") DONE("01") TIME("03") ORDER("06") TIME("02")
                TIME("02") TIME("02") UP("03") LOSS("03") DROP("04") ORDER("07") DROP("06") UP("07") WRONG("07") LOSS("07")},
    /* one try: the timeout releases and serves */
    {{1, 2, 1}, ORDER("01") ORDER("02") ORDER("03") TIME("02") ORDER("04") TIME("04") TIME("03") TIME("01") TIME("04") TIME("04")},
    /* RBC 0 and an RIU with an RBC's number wait */
    {{1, 2, 3}, TWO_CALLS ORDER("00") ORDER_RIU("01") TIME("00") "0A 01000001 0A 01000000" LOSS("02") DROP("02") LOSS("01") DROP("01") UP("00") "08 01000001"
                DROP("00") "06 01000001"},
    /* calls: 17 last, behind 3, 9, 5 and 8 */
    {{1, 2, 3}, CALL("01") CALL("02") CALL("03") CALL("01") "0B 01000003 26 00 0B 00003FFF 26 00 0B 00000003 26 01" ORDER("03") CALL("04") CALL("03") CALL("02")
                "0B 01000003 26 00" ORDER("04") CALL("05") CALL("04") "0B 01000005 26 00" DROP("01") CALL("05") DONE("01") CALL("05") DROP("03") CALL("05")
                DROP("04") CALL("05") CALL("05") CALL("06") "05 00003FFF 01 01" DROP("02") DONE("02")},
    /* 17 with the modems in Connecting, Contacting, Ending, Lost; not with one free */
    {{1, 2, 3}, ORDER("01") CALL("02") CALL("03") UP("01") CALL("03") "0B 00000001 20 00" CALL("03") LOSS("02") CALL("03") DONE("01") CALL("03") CALL("04")
                DROP("02") CALL("02") LOSS("03") DROP("03") CALL("04") CALL("01")},
    /* a waiting place: up, lost, timeout 18; 32 and 39 7; order and 38 5; its other type 6; drop with no 22 */
    {{1, 2, 3}, ORDER("01") ORDER("02") ORDER("03") ORDER_RIU("04") UP("03") LOSS("03") TIME("03") "08 01000004 09 01000004 0A 01000004" LOSS("01") UP("04")
                "08 01000003 0A 02000003 0A 00003FFF" GOOD("03") WRONG("03") DONE("03") "0B 01000004 20 11 0B 00000003 20 80" CALL("03") ORDER("03") CLOSING("03")
                ORDER_RIU("04") "05 00000003 01 04" ORDER_LAST DROP("03") UP("03") "08 01000004" ORDER("05") "06 01000004" ORDER("06") DROP("06") DROP("01")
                UP("05")},
    /* timeouts do not count while it waits */
    {{1, 2, 3}, TWO_CALLS ORDER("03") TIME("03") TIME("03") TIME("03") TIME("03") DROP("01") LOSS("01") TIME("03") TIME("03") TIME("03") TIME("03")},
    /* end all, both ways, and mission 0: those that wait leave with no 22; Ending keeps its modem */
    {{1, 2, 3}, ORDER("01") CALL("02") ORDER("03") ORDER("04") "07 00 07 00" ORDER("03") ORDER("04") "07 01" LOSS("02") "07 01"},
    {{1, 2, 3}, "02 02" ORDER("01") CALL("02") ORDER("03") ORDER("04") "02 01 02 00 02 00" ORDER("03") ORDER("04") "02 00" LOSS("02") "02 00"},
    {{1, 2, 3}, FOUR DROP("01") DROP("02") ORDER_RIU("05") ORDER("06") UP("04") "0B 00000004 20 10 07 00" CALL("07") DROP("07") ORDER("08") ORDER("09") "07 00"
                DONE("07") ORDER("08")},
    {{1, 2, 3}, TWO_CALLS ORDER("03") ORDER("04") LOSS("01") LOSS("02") "07 01"},
    {{1, 2, 3}, TWO_CALLS ORDER("03") DROP("01") DROP("02") ORDER("04") "02 00" DONE("01") DONE("02")},
    /* level, mission, mode and hole leave the queue; an order that waits has used its mark */
    {{1, 2, 3}, TWO_CALLS ORDER("03") "02 01 02 02 01 03 01 03 04 01 04 01 04 00 05 00000004 01 02 05 00000005 01 02 05 00000005 01 03" DROP("03")
                "05 00000005 01 02 05 00000005 01 03" DROP("04") "05 00000006 00 04 05 00000007 00 04"},
    {{1, 2, 3}, TWO_CALLS "01 02 00 02 01 05 00000003 01 00 02 02 05 00000004 01 00 05 00000004 01 01 02 01 05 00000005 01 00"},
    /* the request's four actions: two Lost RBCs with the modems, one place waiting */
    {{1, 2, 3}, TWO_CALLS LOSS("01") LOSS("02") ORDER("03") CLOSING("04") UP("03") UP("04") GOOD("04") GOOD("03")},
    {{1, 2, 3}, TWO_CALLS LOSS("02") LOSS("01") ORDER_RIU("03") CLOSING("04") "0A 01000003" TIME("04")},
    {{1, 2, 3}, FOUR DROP("01") DROP("02") CLOSING("05") UP("03") UP("04") GOOD("03") GOOD("04") LOSS("03") LOSS("04") CLOSING("06") TIME("05") TIME("06")},
    /* one Lost, one Open: the one that waited is served, the new one waits; nobody waited: the new one is served */
    {{1, 2, 3}, TWO_CALLS LOSS("02") ORDER("03") CLOSING("04") LOSS("01") DROP("03") DROP("04")},
    {{1, 2, 3}, TWO_CALLS LOSS("02") CLOSING("04") ORDER("05") DONE("01")},
    {{1, 2, 3}, TWO_CALLS LOSS("01") LOSS("02") CLOSING("04") CALL("05") CALL("06")},
    {{1, 2, 3}, CALL("01") LOSS("01") CLOSING("02") UP("02") GOOD("02") CLOSING("03") CLOSING("04") DONE("02")},
    /* both Open: 156, 156, the new one waits; Ending and Connecting stay */
    {{1, 2, 3}, TWO_CALLS CLOSING("04") CLOSING("05") DONE("02") DONE("01") UP("04") UP("05") GOOD("04") GOOD("05") CLOSING("06") CLOSING("07") CLOSING("08")},
    /* RIUs are not closed, and close nothing */
    {{1, 2, 3}, ORDER_RIU("01") CALL("02") "08 01000001 0B 01000001 20 11 09 01000001" LOSS("02") CLOSING_RIU("03") CLOSING("04") "06 01000001"},
    {{1, 2, 3}, ORDER_RIU("01") ORDER_RIU("02") "08 01000001 08 01000002 0B 01000001 20 11 0B 01000002 20 22 09 01000001" CLOSING("03") CLOSING("04") "09 01000002"
                "0A 01000001 0A 01000001 0A 01000001"},
    /* the last known RBC waits, and its 21 names it */
    {{1, 2, 3}, ORDER_LAST CALL("09") DROP("09") DONE("09") ORDER_RIU("01") ORDER_RIU("02") ORDER_LAST TIME("09") "05 0000FFFF 00 01 08 00003FFF 06 01000001" UP("09")},
    {{1, 2, 3}, CALL("09") CALL("08") LOSS("09") LOSS("08") ORDER("07") "05 00FFFFFF 00 01" DROP("08") "05 00FFFFFF 00 01" UP("07") UP("08")},
    /* RIU 16,383 is an RIU like any other */
    {{1, 2, 3}, TWO_CALLS "05 01003FFF 00 01 0A 01003FFF" DROP("01") DONE("01") "0A 01003FFF 06 01003FFF"},
    /* a refused order leaves the queue, and what it would have closed */
    {{1, 2, 3}, FOUR "05 00000005 00 01 05 00000001 00 01" DROP("04") "05 00000005 01 00 05 00000005 01 05 05 00000005 02 01 05 02000005 01 01" ORDER_LAST ORDER("01")
                ORDER("03") DROP("02")},
    {{1, 2, 3}, TWO_CALLS LOSS("01") LOSS("02") ORDER("03") "05 00000004 00 03" CLOSING("02") CLOSING("03") CLOSING("04")},
    /* the bound: one in front and two releases; one in front that leaves; never overtaken */
    {{1, 2, 3}, FOUR DROP("01") DROP("02") ORDER("05") ORDER("06") DROP("05") DROP("03") ORDER("08") ORDER("09") DROP("08") ORDER("0A") DROP("04") DROP("06")},
    {{1, 2, 3}, FOUR DROP("03") ORDER("05") DROP("04") ORDER("06") DROP("01") DROP("02") DROP("05") DROP("06")},
    {{1, 2, 3}, FOUR DROP("04") DROP("03") DROP("02") DROP("01") ORDER("04") ORDER("03") ORDER("02") ORDER("01") DROP("04") DROP("02") DROP("03")},
    /* a partner comes again behind the others */
    {{1, 2, 3}, FOUR DROP("03") ORDER("03") DROP("01") ORDER("01") DROP("04") DROP("02")},
    /* Ending to its end by timeouts, its release serves */
    {{1, 2, 3}, TWO_CALLS ORDER("03") ORDER("04") DROP("01") TIME("01") TIME("01") TIME("01") UP("03") WRONG("03") DROP("03") TIME("03") TIME("03") TIME("03")},
    /* lost in Open keeps the modem, its 21 is not held back; timeouts to the end serve */
    {{1, 2, 3}, TWO_CALLS ORDER("03") LOSS("01") TIME("01") TIME("01") TIME("01") LOSS("02") UP("02") LOSS("02") TIME("02") TIME("02") TIME("02")},
    /* 01's own examples P1 and P10, the core's answers with one partner */
    {{1, 2, 3}, "05 00000005 01 01 08 00000005 0B 00000005 20 11 06 00000005 0B 00000005 27 00"},
    {{1, 2, 3}, ORDER("05") TIME("05") TIME("05") UP("05") TIME("05") TIME("05") GOOD("05") DROP("05") TIME("05") TIME("05") DONE("05")},
    /* other limits */
    {{0, 7, 9}, FOUR UP("01") "0B 00000001 20 7F" UP("02") "0B 00000002 20 00" LOSS("02") TIME("02") TIME("02") TIME("02") TIME("02") DROP("02") "07 00" DONE("01")},
    {{3, 3, 2}, FOUR UP("01") "0B 00000001 20 2F" TIME("01") TIME("01") UP("02") "0B 00000002 20 3F" UP("03") TIME("03") TIME("03") TIME("04") TIME("04")},
};
enum { HANDS = sizeof hands / sizeof hands[0] };

static void hand_vectors(void)
{
    for (size_t i = 0; i < HANDS; i++) {
        const Bytes log = hex(hands[i].text);
        Shunter s = cold(hands[i].l);
        for (size_t at = 0; at < log.n; at += record_length[log.b[at]])
            step_vector(HAND, &s, ACTION_BUFFER, log.b + at, record_length[log.b[at]]);
        /* the same as a run, and again and again from there on */
        const Shunter begin = cold(hands[i].l);
        const Log one = times(1, &log), three = times(3, &log), part = once(log.b, log.n / 2);
        run_vector(R_HAND, &begin, 1000, &one);
        run_vector(R_HAND, &begin, 7 + (uint32_t)i, &three);
        run_vector(R_HAND, &s, 1000, &one);
        run_vector(R_HAND, &s, 1000, &part);
    }
}

/* ---- every small shunter ---- */

enum { FORMS = 12, N_TRIES = 255 };

/* Of a place with a modem; N_TRIES: the last try. */
static const struct { uint8_t phase, direction, tries, type; } forms[FORMS] = {
    {CONNECTING, 0, 1, RBC}, {CONNECTING, 0, N_TRIES, RIU}, {CONTACTING, 0, 1, RIU}, {CONTACTING, 0, N_TRIES, RBC}, {OPEN, 0, 0, RBC}, {OPEN, 1, 0, RBC},
    {OPEN, 0, 0, RIU}, {LOST, 0, N_TRIES, RBC}, {LOST, 1, 1, RBC}, {LOST, 0, 1, RIU}, {ENDING, 1, N_TRIES, RBC}, {ENDING, 0, 1, RIU},
};

/* By phase, forms that stand for it. */
static const uint8_t form_of[ENDING + 1][3] = {{0, 0, 0}, {0, 1, 0}, {3, 2, 3}, {5, 4, 6}, {7, 8, 9}, {10, 11, 10}};

/* Partners: of the same numbers, an RBC and an RIU; RBC 0 has the bytes of a free place. */
static uint32_t partner_at(unsigned place, uint8_t type, unsigned turn)
{
    static const uint32_t numbers[] = {0x000005, 0x000000, 0xABCDEF, 0x003FFE, 0x012345, 0xFFFFFE};
    return (uint32_t)type << 24 | numbers[(place + turn + type) % 6];
}

static void hold(Shunter *s, unsigned place, unsigned form, unsigned turn)
{
    s->box.phase[place] = forms[form].phase;
    s->box.direction[place] = forms[form].direction;
    s->box.tries[place] = forms[form].tries == N_TRIES ? s->box.n : forms[form].tries;
    s->box.partner[place] = partner_at(place, forms[form].type, turn);
}

static void wait_at(Shunter *s, unsigned place, uint8_t type, unsigned turn)
{
    s->box.phase[place] = CONNECTING;
    s->box.direction[place] = OUTGOING;
    s->box.tries[place] = 1;
    s->box.partner[place] = partner_at(place, type, turn);
}

/* The places with the modems and those that wait, longest first. */
typedef struct { uint8_t modem[MODEMS], wait[QUEUE]; } Ranks;

static const Ranks twos[] = {{{0, 1}, {4, 4}}, {{0, 2}, {4, 4}}, {{0, 3}, {4, 4}}, {{1, 2}, {4, 4}}, {{1, 3}, {4, 4}}, {{2, 3}, {4, 4}}};
static const Ranks threes[] = {
    {{0, 1}, {2, 4}}, {{0, 1}, {3, 4}}, {{0, 2}, {1, 4}}, {{0, 2}, {3, 4}}, {{0, 3}, {1, 4}}, {{0, 3}, {2, 4}},
    {{1, 2}, {0, 4}}, {{1, 2}, {3, 4}}, {{1, 3}, {0, 4}}, {{1, 3}, {2, 4}}, {{2, 3}, {0, 4}}, {{2, 3}, {1, 4}},
};
static const Ranks fours[] = {
    {{0, 1}, {2, 3}}, {{0, 1}, {3, 2}}, {{0, 2}, {1, 3}}, {{0, 2}, {3, 1}}, {{0, 3}, {1, 2}}, {{0, 3}, {2, 1}},
    {{1, 2}, {0, 3}}, {{1, 2}, {3, 0}}, {{1, 3}, {0, 2}}, {{1, 3}, {2, 0}}, {{2, 3}, {0, 1}}, {{2, 3}, {1, 0}},
};

static Shunter ranked(const Ranks *ranks, unsigned x, unsigned y, unsigned turn)
{
    Shunter s = cold((Limits){1, 2, (uint8_t)(1 + turn % 4)});
    s.box.mission = (uint8_t)(turn % 3);
    s.box.level = (uint8_t)((2 + turn / 3) % 5);
    s.box.mode = turn / 2 % 2;
    s.box.manual = turn / 3 % 2;
    s.box.hole_end = turn / 5 % 2;
    s.box.inside = !s.box.hole_end && turn % 7 == 0;
    s.box.last = turn % 3 == 0 ? 0 : turn % 3 == 1 ? KNOWN | 0x000777 : KNOWN | (partner_at(turn % 4, RBC, turn) & 0xFFFFFF);
    hold(&s, ranks->modem[0], x, turn);
    hold(&s, ranks->modem[1], y, turn);
    for (unsigned i = 0; i < QUEUE; i++) {
        s.queue[i] = ranks->wait[i];
        if (ranks->wait[i] != NOBODY)
            wait_at(&s, ranks->wait[i], (uint8_t)(turn / (i + 1) % 2), turn);
    }
    if (!shunter_sound(&s))
        exit(1);
    return s;
}

static void event(unsigned group, const Shunter *s, uint8_t kind, uint32_t who, uint8_t b5, uint8_t b6)
{
    uint8_t r[8] = {0};
    step_on(group, s, ACTION_BUFFER, r, put_event(r, kind, who, b5, b6));
}

static void short_event(unsigned group, const Shunter *s, const char *text)
{
    const Bytes r = hex(text);
    step_on(group, s, ACTION_BUFFER, r.b, r.n);
}

/* An event of any kind for each partner and a stranger; the rarer ones by turns. */
static void every_event(unsigned group, const Shunter *s, unsigned turn)
{
    static const struct { uint8_t kind, b5, b6; } named[] = {
        {EV_DROP, 0, 0}, {EV_UP, 0, 0}, {EV_LOST, 0, 0}, {EV_TIMEOUT, 0, 0}, {EV_MESSAGE, 32, 0x10}, {EV_MESSAGE, 32, 0x30}, {EV_MESSAGE, 39, 0},
        {EV_MESSAGE, 38, 0}, {EV_ORDER, 0, 1}, {EV_ORDER, 1, 1},
    };
    enum { NAMED = sizeof named / sizeof named[0] };
    const uint32_t stranger = 0x00000777, riu = 0x01000777;
    unsigned held = 0;
    for (unsigned i = 0; i < PLACES; i++)
        if (s->box.phase[i] != FREE) {
            held++;
            for (size_t k = 0; k < NAMED; k++) {
                if (named[k].kind == EV_ORDER && named[k].b5 != (turn + i) % 2 && held > 1)
                    continue;                                        /* 5 either way */
                if (named[k].b5 == 32 && named[k].b6 == 0x30 && s->box.phase[i] != CONTACTING && (turn + i) % 4 != 0)
                    continue;                                        /* 7 as the other version */
                event(group, s, named[k].kind, s->box.partner[i], named[k].b5, named[k].b6);
            }
            if (turn % 4 == i)                                       /* its number with the other type */
                event(group, s, named[turn / 4 % NAMED].kind, s->box.partner[i] ^ 0x01000000, named[turn / 4 % NAMED].b5, named[turn / 4 % NAMED].b6);
        }
    if (held < PLACES || turn % 4 == 0) {
        event(group, s, EV_ORDER, stranger, 1, 1);
        event(group, s, EV_ORDER, stranger, 0, 1);
        event(group, s, EV_ORDER, riu, turn % 2, 1);
        event(group, s, EV_ORDER, 0x00C03FFF, turn / 2 % 2, 1);      /* the last known RBC */
        static const uint8_t causes[4] = {0, 2, 3, 4};
        event(group, s, EV_ORDER, stranger, turn / 4 % 2, causes[turn % 4]);
    }
    event(group, s, EV_MESSAGE, stranger, 38, 0);
    if (turn % 3 == 0)
        event(group, s, EV_MESSAGE, riu, 38, 0);
    event(group, s, named[turn % 7].kind, turn % 2 ? riu : stranger, named[turn % 7].b5, named[turn % 7].b6);
    static const char *const ends[] = {"07 00", "07 01"}, *const missions[] = {"02 01", "02 02"},
                      *const quiet[] = {"01 02 00", "01 03 01", "03", "04 00", "04 01", "01 04 01"};
    short_event(group, s, ends[turn % 2]);
    short_event(group, s, "02 00");
    short_event(group, s, missions[turn % 2]);
    short_event(group, s, quiet[turn % 6]);
    /* something wrong in front */
    uint8_t r[8] = {0};
    const uint32_t who = s->box.partner[turn % PLACES];
    const size_t length = put_event(r, turn % 2 ? EV_TIMEOUT : EV_ORDER, turn % 2 ? who : stranger, 0, 1);
    switch (turn % 6) {
    case 0: step_on(group, s, ACTION_BUFFER - 1, r, length); break;
    case 1: step_on(group, s, ACTION_BUFFER, r, 0); break;
    case 2: step_on(group, s, ACTION_BUFFER, r, length - 1); break;
    case 3: step_on(group, s, ACTION_BUFFER, r, length + 1); break;
    case 4: r[1] = 2; step_on(group, s, ACTION_BUFFER, r, length); break;
    default: r[0] = (uint8_t)(turn % 4 == 1 ? 12 : 0); step_on(group, s, ACTION_BUFFER, r, length); break;
    }
}

/* The events that change who has a modem and who waits. */
static void moving_event(unsigned group, const Shunter *s, unsigned turn)
{
    unsigned held = 0;
    for (unsigned i = 0; i < PLACES; i++) {
        if (s->box.phase[i] == FREE)
            continue;
        held++;
        event(group, s, s->box.phase[i] == ENDING ? EV_LOST : EV_DROP, s->box.partner[i], 0, 0);
        event(group, s, EV_TIMEOUT, s->box.partner[i], 0, 0);
    }
    if (held < PLACES) {
        event(group, s, EV_ORDER, 0x00000777, 0, 1);
        if (turn % 2)
            event(group, s, EV_ORDER, 0x01000777, 0, 1);
    }
    if (turn % 2)
        event(group, s, EV_MESSAGE, 0x00000777, 38, 0);
    short_event(group, s, turn % 3 == 0 ? "02 00" : turn % 3 == 1 ? "07 00" : "07 01");
}

static void small_vectors(void)
{
    unsigned turn = 0;
    /* every row of ranks with every two phases */
    for (uint8_t x = CONNECTING; x <= ENDING; x++)
        for (uint8_t y = CONNECTING; y <= ENDING; y++) {
            for (unsigned i = 0; i < 6; i++, turn++) {
                const Shunter s = ranked(&twos[i], form_of[x][turn % 3], form_of[y][turn / 2 % 3], turn);
                moving_event(EVERY, &s, turn);
            }
            for (unsigned i = 0; i < 12; i++, turn++) {
                const Shunter s = ranked(&threes[i], form_of[x][turn % 3], form_of[y][turn / 2 % 3], turn);
                moving_event(EVERY, &s, turn);
            }
            for (unsigned i = 0; i < 12; i++, turn++) {
                const Shunter s = ranked(&fours[i], form_of[x][turn % 3], form_of[y][turn / 2 % 3], turn);
                moving_event(EVERY, &s, turn);
            }
        }
    /* every two forms with the ranks by turns */
    turn = 0;
    for (unsigned x = 0; x < FORMS; x++)
        for (unsigned y = 0; y < FORMS; y++, turn += 5) {
            const Shunter two = ranked(&twos[(x + y) % 6], x, y, turn);
            every_event(FORM, &two, turn);
            const Shunter three = ranked(&threes[(x + y) % 12], x, y, turn + 1);
            every_event(FORM, &three, turn + 1);
            const Shunter four = ranked(&fours[(x + 5 * y) % 12], x, y, turn + 2);
            every_event(FORM, &four, turn + 2);
        }
    /* one place held, or none */
    for (unsigned i = 0; i < 12; i++) {
        Shunter s = ranked(&twos[0], 0, 0, i);
        memset(s.box.phase, FREE, PLACES);
        memset(s.box.tries, 0, PLACES);
        memset(s.box.direction, 0, PLACES);
        memset(s.box.partner, 0, sizeof s.box.partner);
        every_event(FEW, &s, i);
        hold(&s, i % PLACES, i, i);
        every_event(FEW, &s, i);
    }
}

/* ---- damaged queues, holdings, boxes ---- */

static const char *const box_logs[] = {                    /* the boxes of these, whatever the queue is then */
    "", ORDER("01"), ORDER("01") ORDER("02"), TWO_CALLS, ORDER("01") CALL("02"), ORDER("01") ORDER("02") ORDER("03"), TWO_CALLS ORDER("03"), TWO_CALLS ORDER_RIU("03"),
    ORDER("01") CALL("02") ORDER("03"), ORDER("01") TIME("01") ORDER("02") ORDER("03"), ORDER("01") UP("01") CALL("02") DROP("02") ORDER("03"),
    FOUR, TWO_CALLS ORDER("03") ORDER("04"), ORDER("01") CALL("02") ORDER_RIU("03") ORDER_RIU("04"), FOUR TIME("01") UP("02"), FOUR DROP("01") TIME("03"),
    FOUR DROP("02") TIME("03") ORDER("05") TIME("03"),
};
enum { BOX_LOGS = sizeof box_logs / sizeof box_logs[0] };

static const Limits usual = {1, 2, 3};

static void queue_vectors(void)
{
    static const char *const records[] = {"03", "0A 00000003", "05 00000007 00 01", "06 00000001", "0B 00000007 26 00", "07 00", "06 00000003", ""};
    static const uint8_t far[][2] = {{255, 4}, {4, 255}, {2, 255}, {255, 255}, {128, 4}, {6, 7}, {16, 17}, {3, 128}, {2, 68}, {0, 132}};
    unsigned turn = 0;
    for (size_t i = 0; i < BOX_LOGS; i++) {
        Shunter s = after(usual, box_logs[i]);
        for (uint8_t one = 0; one <= 5; one++)
            for (uint8_t two = 0; two <= 5; two++) {
                s.queue[0] = one;
                s.queue[1] = two;
                const bool good = shunter_sound(&s);
                for (size_t k = 0; k < (good ? 7 : 2); k++)
                    short_event(QUEUES, &s, records[good ? k : turn++ % 8]);
            }
        for (size_t k = 0; k < sizeof far / sizeof far[0]; k++) {
            memcpy(s.queue, far[k], QUEUE);
            short_event(QUEUES, &s, records[turn++ % 8]);
        }
    }
}

/* From a shunter that is right, one thing about a place or the queue. */
static void holding_vectors(void)
{
    static const char *const logs[] = {TWO_CALLS ORDER("03"), FOUR, ORDER("01") CALL("02") ORDER_RIU("03") ORDER("04"), FOUR DROP("01") ORDER("05")};
    static const char *const records[] = {"03", "0A 00000003", "06 00000004", "05 00000007 00 01", "07 01", "0B 00000007 26 00"};
    unsigned turn = 0;
    for (size_t i = 0; i < sizeof logs / sizeof logs[0]; i++) {
        const Shunter good = after(usual, logs[i]);
        for (uint8_t place = 0; place < PLACES; place++) {
            for (uint8_t phase = FREE; phase <= ENDING; phase++)
                for (uint8_t tries = 1; tries <= 3; tries++)
                    for (uint8_t direction = 0; direction < 2; direction++) {
                        Shunter s = good;
                        if ((phase == FREE && (tries > 1 || direction > 0)) || (phase == OPEN && tries > 1))
                            continue;
                        const bool was_free = s.box.phase[place] == FREE;
                        s.box.phase[place] = phase;
                        s.box.tries[place] = phase == FREE || phase == OPEN ? 0 : tries;
                        s.box.direction[place] = direction;
                        s.box.partner[place] = phase == FREE ? 0 : was_free ? 0x00000055u : s.box.partner[place];
                        short_event(HOLDINGS, &s, records[turn++ % 6]);
                    }
            /* it waits as well, or no longer */
            for (unsigned k = 0; k < QUEUE; k++) {
                Shunter s = good;
                s.queue[k] = place;
                short_event(HOLDINGS, &s, records[turn++ % 6]);
                s.queue[k] = NOBODY;
                short_event(HOLDINGS, &s, records[turn++ % 6]);
            }
        }
    }
}

/* A box that is right but for one thing, by number; false behind the last. */
static bool spoilt_box(State *b, unsigned what)
{
    switch (what) {
    case 0: b->lowest = 3; return true;
    case 1: b->highest = 8; return true;
    case 2: b->lowest = b->highest = 255; return true;
    case 3: b->highest = 0; return true;
    case 4: b->level = 5; return true;
    case 5: b->level = 255; return true;
    case 6: b->mission = 3; return true;
    case 7: b->mission = 128; return true;
    case 8: b->inside = b->hole_end = 1; return true;
    case 9: b->n = 0; return true;
    case 10: b->n = 10; return true;
    case 11: b->n = 255; return true;
    case 12: b->last = KNOWN | LAST_KNOWN; return true;
    case 13: b->last = KNOWN | 0xFFFFFF; return true;
    default: break;
    }
    const unsigned place = (what - 14) / 8;
    if (place >= PLACES)
        return false;
    uint8_t *const tries = b->tries + place;
    switch ((what - 14) % 8) {
    case 0: if (b->phase[place] != OPEN) *tries = 0; else b->direction[place] ^= 1; break;         /* the latter may be sound */
    case 1: if (b->phase[place] != OPEN) *tries = (uint8_t)(b->n + 1); else b->phase[place] = LOST; break;
    case 2: if (b->phase[place] != OPEN) *tries = 255; else b->phase[place] = ENDING; break;
    case 3: b->direction[place] ^= 1; break;                                                       /* sound but for Connecting, Contacting, RIU */
    case 4: b->partner[place] = LAST_KNOWN; break;
    case 5: b->partner[place] = 0x00C07FFF; break;
    case 6: b->partner[place] = b->partner[(place + 1) % PLACES]; break;
    default: b->partner[place] ^= 0x01000000; break;                                               /* sound but for an incoming one */
    }
    return true;
}

static void box_vectors(void)
{
    static const char *const logs[] = {TWO_CALLS ORDER("03") ORDER("04"), FOUR, ORDER("01") CALL("02") LOSS("02") ORDER_RIU("03") ORDER("04"),
                                       ORDER("01") UP("01") CALL("02") DROP("02") ORDER("03") ORDER_RIU("04")};
    static const char *const records[] = {"03", "0A 00000003", "06 00000001", "0B 00000007 26 00", "07 00", ""};
    unsigned turn = 0;
    for (size_t i = 0; i < sizeof logs / sizeof logs[0]; i++) {
        Shunter s = after(usual, logs[i]);
        const Shunter good = s;
        for (unsigned what = 0; spoilt_box(&s.box, what); what++, s = good) {
            short_event(BOXES, &s, "03");
            short_event(BOXES, &s, records[turn % 6]);
            const Bytes r = hex(records[turn++ % 6]);
            if (what % 3 == 0)
                step_on(BOXES, &s, ACTION_BUFFER - 1, r.b, r.n);
            const Log log = once(r.b, r.n);
            run_vector(R_REFUSED, &s, turn % 3, &log);
            s.queue[0] = 7;                                /* and the queue */
            if (what % 5 == 0)
                short_event(BOXES, &s, "03");
        }
    }
}

/* ---- refusals in their order, rooms, records ---- */

static void order_vectors(void)
{
    static const char *const logs[] = {"", CALL("01"), TWO_CALLS, TWO_CALLS ORDER("03"), TWO_CALLS LOSS("01") LOSS("02") ORDER("03"), FOUR};
    static const char *const records[] = {
        "", "00", "0C", "0A", "0A 000000", "0A 00000003 00", TIME("03"), "0A 01000003", "0A 02000003", "0A 00003FFF", UP("03"), LOSS("03"), LOSS("01"), UP("01"),
        CALL("04"), CALL("03"), CALL("01"), "0B 01000004 26 00", "0B 00000004 26 01", "0B 02000004 26 00", "0B 00003FFF 26 00", "0B 00000004 26", GOOD("03"), DONE("03"),
        ORDER("05"), CLOSING("05"), ORDER("03"), ORDER("01"), "05 00000005 01 04", "05 00000003 01 04", "05 00000005 02 01", "05 00000005 01 05", ORDER_LAST, "07 02", "02 03",
        "02 00", "07 00", "04 00", DROP("03"), DROP("09"),
    };
    for (size_t i = 0; i < sizeof logs / sizeof logs[0]; i++)
        for (size_t k = 0; k < sizeof records / sizeof records[0]; k++) {
            const Shunter good = after(usual, logs[i]);
            const Bytes r = hex(records[k]);
            Shunter bad = good, worse = good;
            bad.queue[1] = 0;                              /* 11 by the queue, and by the box */
            worse.box.level = 5;
            step_on(ORDERED, &good, 20, r.b, r.n);
            if ((i + k) % 3 == 0) {
                step_on(ORDERED, &good, 19, r.b, r.n);
                step_on(ORDERED, &bad, 19, r.b, r.n);
            }
            if ((i + k) % 3 == 1)
                step_on(ORDERED, &bad, 20, r.b, r.n);
            if ((i + k) % 3 == 2)
                step_on(ORDERED, &worse, 20, r.b, r.n);
        }
}

static void room_vectors(void)
{
    static const struct { const char *log, *record; } some[] = {
        {TWO_CALLS LOSS("01") LOSS("02") ORDER("03"), CLOSING("04")},        /* four actions */
        {TWO_CALLS LOSS("02") ORDER("03"), CLOSING("04")},                  /* three, one held back */
        {FOUR, DROP("01")}, {FOUR, DROP("03")}, {FOUR, "07 00"}, {FOUR, TIME("03")}, {TWO_CALLS, CALL("03")}, {TWO_CALLS, ORDER("03")}, {TWO_CALLS, CLOSING("03")},
        {"", ORDER("01")}, {"", DROP("01")}, {FOUR, UP("01")}, {TWO_CALLS ORDER("03") ORDER("04"), "02 00"},
    };
    for (size_t i = 0; i < sizeof some / sizeof some[0]; i++) {
        const Shunter s = after(usual, some[i].log);
        const Bytes r = hex(some[i].record);
        for (size_t room = 0; room <= 25; room++)
            step_on(ROOMS, &s, room, r.b, r.n);
        static const uint16_t more[] = {40, 255, 256, 276, 4095, 4096};
        for (size_t k = 0; k < sizeof more / sizeof more[0]; k++)
            step_on(ROOMS, &s, more[k], r.b, r.n);
    }
}

static void record_vectors(void)
{
    static const char *const logs[] = {TWO_CALLS ORDER("03") ORDER("04"), TWO_CALLS ORDER("03"), ORDER("01")};
    static const char *const records[] = {"01 02 01", "02 00", "03", "04 01", CLOSING("05"), DROP("03"), "07 00", UP("03"), LOSS("03"), TIME("03"), CALL("05"),
                                          DROP("01"), GOOD("03"), TIME("01")};
    for (size_t i = 0; i < sizeof logs / sizeof logs[0]; i++) {
        const Shunter s = after(usual, logs[i]);
        for (size_t k = 0; k < sizeof records / sizeof records[0]; k++) {
            Bytes r = hex(records[k]);
            const uint8_t more[3] = {0, 3, 0};
            append(&r, more, sizeof more);
            for (size_t length = 0; length <= r.n; length++)
                step_on(CUT, &s, ACTION_BUFFER, r.b, length);
        }
        static const uint8_t longest[RECORD_MOST] = {EV_TIMEOUT, 0, 0, 0, 3};
        for (size_t length = 16; length <= RECORD_MOST; length = 2 * length - (length == 128))
            step_on(CUT, &s, ACTION_BUFFER, longest, length);
        for (unsigned kind = 0; kind < 256; kind++) {
            if (i == 2 && kind > 20 && kind % 16)
                continue;
            const uint8_t r[7] = {(uint8_t)kind, 0, 0, 0, 3, 0, 1};
            step_on(KINDS, &s, ACTION_BUFFER, r, i == 0 ? 5 : i == 1 ? 1 : 7);
        }
    }
    /* fields */
    static const char *const fields[] = {
        "01 05 00", "01 FF 00", "01 00 02", "01 04 FF", "02 03", "02 FF", "04 02", "04 FF", "07 02", "07 FF", "05 02000005 01 01", "05 FF000005 01 01", "05 00000005 02 01",
        "05 00000005 FF 01", "05 00000005 01 05", "05 00000005 01 FF", "05 02000003 01 01", "05 00000003 01 05", "06 02000003", "06 FF000003", "08 02000003", "08 FF000003",
        "09 02000003", "0A 02000003", "0A 80000003", "0A FFFFFFFF", "08 FFFFFFFF", "06 00003FFF", "08 00003FFF", "09 00FFFFFF", "0A 00007FFF", "0B 00003FFF 20 11", "0B 00FFFFFF 26 00",
        "0B 00003FFF 27 00", "0B 00000003 20 80", "0B 00000003 20 FF", "0B 00000003 26 01", "0B 00000003 27 01", "0B 00000003 00 00", "0B 00000003 1F 00", "0B 00000003 21 00",
        "0B 00000003 25 00", "0B 00000003 28 00", "0B 00000003 FF 00", "0B 02000003 20 11", "0B 02000005 26 00", "0B 00000005 26 80", "0B 00000005 27 00", "0A 01000003", "08 00000000",
        "0A 00000004", "0A 01000004", "0A 00010003", "0A 00000103", "0A 00800003", "08 01003FFF", "06 01FFFFFF", "05 01003FFF 01 01", "05 00FFFFFF 01 01", "05 00003FFE 01 01",
    };
    for (size_t i = 0; i < 2; i++) {
        const Shunter s = after(usual, i == 0 ? TWO_CALLS ORDER("03") : FOUR);
        for (size_t k = 0; k < sizeof fields / sizeof fields[0]; k++)
            short_event(FIELDS, &s, fields[k]);
    }
    /* tries: timeouts to the end while one waits, of one that waited, in each phase */
    for (uint8_t n = 1; n <= TRIES_MOST; n++) {
        Shunter s = after((Limits){1, 2, n}, n % 2 ? ORDER("01") CALL("02") ORDER("03") : ORDER("01") UP("01") CALL("02") DROP("02") ORDER("03") ORDER("04"));
        uint8_t r[8];
        for (uint32_t who = 1; who <= 4; who++)
            for (unsigned k = 0; k < n + 1u; k++) {
                if (n % 2 && who == 2 && k == 0) {
                    put_event(r, EV_LOST, who, 0, 0);
                    step_vector(TRIES, &s, ACTION_BUFFER, r, 5);
                }
                put_event(r, EV_TIMEOUT, who, 0, 0);
                step_vector(TRIES, &s, ACTION_BUFFER, r, 5);
            }
    }
}

/* ---- random ---- */

/* A record about few partners, dense in orders, calls and timeouts; some of its own making, some of the generator's. */
static size_t dense_record(Rng *g, const Shunter *s, uint32_t pool, bool framed, uint8_t *r)
{
    const uint32_t d = rng_below(g, 100), number = 1 + rng_below(g, pool), b5 = rng_below(g, 2), version = 16 * s->box.lowest + rng_below(g, 24);
    const unsigned i = rng_below(g, PLACES);
    const uint32_t any = (number % 3 == 0 ? 0x01000000u : 0) | number;
    const uint32_t who = s->box.phase[i] != FREE ? s->box.partner[i] : any;
    memset(r, 0, GEN_MOST);
    if (d < 24) return put_event(r, EV_ORDER, any, (uint8_t)b5, 1);
    if (d < 31) return put_event(r, EV_MESSAGE, number, 38, 0);
    if (d < 47) return put_event(r, EV_TIMEOUT, who, 0, 0);
    if (d < 60) return put_event(r, EV_UP, who, 0, 0);
    if (d < 69) return put_event(r, EV_MESSAGE, who, 32, (uint8_t)(version & 127));
    if (d < 77) return put_event(r, EV_LOST, who, 0, 0);
    if (d < 84) return put_event(r, EV_DROP, who, 0, 0);
    if (d < 90) return put_event(r, EV_MESSAGE, who, 39, 0);
    if (d < 92) { r[0] = d == 90 ? EV_END_ALL : EV_MISSION; r[1] = (uint8_t)b5; return 2; }
    if (d < 94) return put_event(r, EV_ORDER, LAST_KNOWN, (uint8_t)b5, 1);
    return gen_record_last(g, &s->box, framed, r);
}

static void history_vectors(void)
{
    Rng g = {1010};
    for (int i = 0; i < 54; i++) {
        const Limits l = some_limits(&g);
        Shunter s = cold(l);
        const uint32_t pool = 4 + (uint32_t)i % 3;
        for (int k = 0; k < 75; k++) {
            uint8_t r[GEN_MOST];
            const size_t length = dense_record(&g, &s, pool, false, r), room = k % 8 ? ACTION_BUFFER : 18 + rng_below(&g, 20);
            step_vector(HISTORIES, &s, room, r, length);
        }
    }
    for (int i = 0; i < 12; i++) {
        const Limits l = some_limits(&g);
        Shunter s = cold(l);
        for (int k = 0; k < 60; k++) {
            uint8_t r[GEN_MOST];
            const size_t length = gen_record_last(&g, &s.box, false, r);
            step_vector(DEEP, &s, ACTION_BUFFER, r, length);
        }
    }
}

static Bytes random_log(Rng *g, Shunter s, size_t records)
{
    Bytes out;
    uint8_t r[GEN_MOST], room[ACTION_BUFFER];
    const uint32_t pool = 4 + rng_below(g, 3);
    out.n = 0;
    while (records-- > 0) {
        const size_t n = dense_record(g, &s, pool, true, r);
        append(&out, r, n);
        shunter_step(&s, r, n, room, sizeof room);
    }
    return out;
}

/* ---- runs ---- */

static void run_vectors(void)
{
    const Shunter begin = cold(usual), full = after(usual, FOUR);
    const Bytes log = hex(hands[0].text), five = hex(hands[5].text);
    /* every budget */
    for (uint32_t budget = 0; budget <= 25; budget++) {
        const Log one = times(1, &log), two = times(2, &five);
        run_vector(R_BUDGETS, &begin, budget, &one);
        run_vector(R_BUDGETS, budget % 2 ? &full : &begin, 3 * budget, &two);
    }
    static const uint32_t far[] = {255, 256, 65535, 65536, 0x7FFFFFFF, 0x80000000, 0xFFFFFFFF};
    const Bytes mode = hex("03"), pair = hex("03 03");
    for (size_t i = 0; i < sizeof far / sizeof far[0]; i++) {
        const Log one = times(1, &log), longest = times(LOG_LONGEST / log.n, &log), modes = times(LOG_LONGEST / 2, &pair);
        run_vector(R_BUDGETS, &begin, far[i], &one);
        run_vector(R_LONG, &full, far[i], &longest);
        run_vector(R_LONG, &begin, far[i], &modes);
    }
    /* stops: each kind behind the records, each record cut, nothing; the budget before an unknown kind, that before a short record */
    for (unsigned kind = 0; kind < 256; kind++) {
        if (kind > 14 && kind % 8 != 5)
            continue;
        for (size_t length = 1; length <= 8; length++) {
            if (kind > 11 && length > 2)
                break;
            Log one = times(1, &mode);
            const uint8_t r[8] = {(uint8_t)kind, 0, 0, 0, 3};
            append(&one.tail, r, length);
            run_vector(R_STOPS, &full, length % 3 == 2 ? 1 : length % 3 == 1 ? 9 : 2, &one);
        }
    }
    static const char *const tails[] = {"", "00", "0C 03", "0A 0000", "05 00000005 01", "0B", "00 0A", "FF 03 03", "03 00", "03 0A 00"};
    for (size_t i = 0; i < sizeof tails / sizeof tails[0]; i++)
        for (uint32_t budget = 0; budget <= 6; budget++) {
            Log one = times(1, &log);
            one.block.n = 4 * 7;                           /* four orders */
            one.tail = hex(tails[i]);
            run_vector(R_STOPS, &begin, budget, &one);
        }
    /* every byte of two logs, one or two other values */
    for (size_t k = 0; k < 2; k++) {
        const Bytes good = hex(hands[k ? 14 : 5].text);
        for (size_t at = 0; at < good.n; at++) {
            Bytes t = good;
            t.b[at] ^= 1;
            const Log flipped = once(t.b, t.n);
            run_vector(R_DAMAGED, &begin, 1000, &flipped);
            t.b[at] = (uint8_t)(at % 3 == 0 ? 0 : at % 3 == 1 ? 12 : good.b[at] + 1);
            const Log other = once(t.b, t.n);
            if (k > 0 || at % 2)
                run_vector(R_DAMAGED, k ? &full : &begin, 1000, &other);
        }
    }
    /* refused: queues and holdings; the log and the budget do not matter */
    static const uint8_t queues[][2] = {{4, 4}, {0, 4}, {1, 4}, {2, 4}, {3, 4}, {2, 2}, {2, 3}, {3, 2}, {4, 2}, {4, 3}, {5, 4}, {2, 5}, {0, 1}, {2, 0}, {255, 255}, {3, 0}};
    for (size_t i = 0; i < BOX_LOGS; i++)
        for (size_t k = 0; k < sizeof queues / sizeof queues[0]; k++) {
            Shunter s = after(usual, box_logs[i]);
            memcpy(s.queue, queues[k], QUEUE);
            const Log one = once(log.b, (i + k) % 3 == 0 ? 0 : (i + k) % 3 == 1 ? 6 : 28);
            run_vector(R_REFUSED, &s, (uint32_t)(k % 5), &one);
        }
    /* long ones */
    for (size_t i = 0; i < HANDS; i++) {
        const Bytes block = hex(hands[i].text);
        const Shunter s = cold(hands[i].l);
        const Log many = times(20 + 7 * i, &block), most = times(LOG_LONGEST / block.n, &block);
        run_vector(R_LONG, &s, 100000, &many);
        if (i % 3 == 0)
            run_vector(R_LONG, &s, 100000, &most);
    }
    Rng g = {1011};
    for (int i = 0; i < 120; i++) {
        const Limits l = some_limits(&g);
        const Shunter s = cold(l);
        const size_t records = 5 + rng_below(&g, 60), repeats = i % 4 ? 1 : 2 + rng_below(&g, 150);
        const uint32_t budget = i % 3 ? 100000 : rng_below(&g, (uint32_t)(records * repeats));
        Bytes block = random_log(&g, s, records);
        if (i % 5 == 1) {                                  /* one draw a statement: the same in every compiler */
            const size_t at = rng_below(&g, (uint32_t)block.n);
            block.b[at] = (uint8_t)rng_below(&g, 40);
        }
        Log random = times(repeats, &block);
        if (i % 5 == 2)
            append(&random.tail, block.b, rng_below(&g, (uint32_t)block.n));
        run_vector(R_RANDOM, &s, budget, &random);
        /* from where it ends */
        Shunter t = s;
        RunResult out;
        shunter_run(&t, whole, expand(&random), budget, &out);
        if (i % 2)
            run_vector(R_RANDOM, &t, budget, &random);
    }
}

/* ---- a body taken apart ---- */

typedef struct {
    uint8_t operation;
    Limits l;
    Shunter s;
    size_t room, length;                   /* of a step: its room, its record; of a run: the log, in 'whole' */
    const uint8_t *record;
    uint32_t budget;
    size_t answer;                         /* where the answer begins in the body */
} Parts;

/* False for a body that is none. */
static bool take_apart(const uint8_t *b, size_t n, Parts *p)
{
    if (n < 1 || b[0] < START || b[0] > RUN)
        return false;
    p->operation = b[0];
    if (p->operation == START) {
        if (n != START_BODY)
            return false;
        p->l = (Limits){b[1], b[2], b[3]};
        p->answer = 4;
        return true;
    }
    if (n < STEP_HEAD)
        return false;
    p->s = get_shunter(b + 1);
    const uint8_t *const from = b + 1 + SHUNTER;
    if (p->operation == STEP) {
        p->room = get16(from);
        p->length = from[2];
        p->record = b + STEP_HEAD;
        p->answer = STEP_HEAD + p->length;
        return p->room <= ROOM_MOST && n >= p->answer + STEP_ANSWER;
    }
    if (n < RUN_HEAD)
        return false;
    p->budget = get32(from);
    const size_t repeats = get16(from + 4), block = get16(from + 6);
    if (block > n - RUN_HEAD)
        return false;
    const size_t tail = get16(from + 8 + block);
    p->answer = RUN_HEAD + block + tail;
    if (n != p->answer + RUN_ANSWER || repeats * block + tail > sizeof whole)
        return false;
    uint8_t *to = whole;
    for (size_t i = 0; i < repeats; i++)
        to = put_bytes(to, from + 8, block);
    to = put_bytes(to, from + 10 + block, tail);
    p->length = (size_t)(to - whole);
    return true;
}

/* A body that the model does not give. */
static bool differs(const uint8_t *b, size_t n)
{
    Parts p;
    if (!take_apart(b, n, &p))
        return true;
    const uint8_t *a = b + p.answer;
    uint8_t state[SHUNTER];
    if (p.operation == START) {
        const uint8_t code = shunter_cold_start(&p.s, p.l.lo, p.l.hi, p.l.n);
        put_shunter(state, &p.s);
        return a[0] != code || memcmp(a + 1, state, SHUNTER) != 0;
    }
    if (p.operation == RUN) {
        RunResult out;
        shunter_run(&p.s, whole, p.length, p.budget, &out);
        put_shunter(state, &p.s);
        if (a[0] != out.code || a[1] != out.stop || get32(a + 2) != out.offset || get32(a + 6) != out.read || get32(a + 10) != out.refused)
            return true;
        a += 14;
        for (int i = 0; i < 6; i++, a += 4)
            if (get32(a) != out.total[i])
                return true;
        return memcmp(a, state, SHUNTER) != 0;
    }
    uint8_t room[ROOM_MOST + 1];
    memset(room, UNTOUCHED, sizeof room);
    const StepResult r = shunter_step(&p.s, p.record, p.length, room, p.room);
    put_shunter(state, &p.s);
    const size_t sent = n - p.answer - STEP_ANSWER;
    if (a[0] != r.code || a[1] != r.count || a[2] != r.place || a[3] != r.phase || memcmp(a + 4, state, SHUNTER) != 0 ||
        sent != ACTION_BYTES * (size_t)r.count || memcmp(a + STEP_ANSWER, room, sent) != 0)
        return true;
    for (size_t i = sent; i < sizeof room; i++)
        if (room[i] != UNTOUCHED)
            return true;
    return false;
}

/* ---- spoilt ones ---- */

static FILE *out;
static size_t written;

static void put(const uint8_t *b, size_t n)
{
    uint8_t head[2];
    put16(head, n);
    if (fwrite(head, 1, 2, out) != 2 || fwrite(b, 1, n, out) != n)
        exit(1);
    written++;
}

static void put_spoilt(const uint8_t *b, size_t n)
{
    if (!differs(b, n))
        exit(1);
    printf("%zu\n", written);
    put(b, n);
}

/* A copy with this byte another. */
static void spoil_byte(const uint8_t *b, size_t n, size_t at, uint8_t by)
{
    static uint8_t copy[BODY_MOST];
    memcpy(copy, b, n);
    copy[at] ^= by;
    put_spoilt(copy, n);
}

/* The state at this offset and the queue behind it: each field alone, to a value that it can hold. */
static void spoil_state(const uint8_t *b, size_t n, size_t at)
{
    for (size_t i = 0; i < 8; i++)                         /* X numbers, level, mission, marks */
        spoil_byte(b, n, at + i, 1);
    for (size_t place = 0; place < PLACES; place++) {
        const size_t from = at + 8 + 7 * place;
        static const uint8_t other[ENDING + 1] = {FREE ^ CONNECTING, CONNECTING ^ CONTACTING, CONTACTING ^ CONNECTING, OPEN ^ LOST, LOST ^ ENDING, ENDING ^ LOST};
        spoil_byte(b, n, from, other[b[from]]);
        if (b[from] == FREE)
            continue;
        spoil_byte(b, n, from + 1, 1);
        if (b[from] != OPEN)
            spoil_byte(b, n, from + 2, 2);
        for (size_t i = 3; i < 7; i++)                     /* type and number */
            if (place == 0 || i == 3 || i == 3 + place)
                spoil_byte(b, n, from + i, i == 3 ? 1 : 0x10);
    }
    spoil_byte(b, n, at + 36, 1);                          /* n, the last RBC */
    if ((b[at + 37] | b[at + 38] | b[at + 39] | b[at + 40]) == 0 || (b[at + 38] | b[at + 39] | b[at + 40]) == 0)
        spoil_byte(b, n, at + 37, 1);
    if (b[at + 37] == 1)
        for (size_t i = 38; i < 41; i++)
            spoil_byte(b, n, at + i, 1);
    spoil_byte(b, n, at + STATE, 1);
    spoil_byte(b, n, at + STATE + 1, 1);
    spoil_byte(b, n, at + STATE, 0x80);
    if (b[at + STATE] != b[at + STATE + 1]) {              /* the other order */
        static uint8_t copy[BODY_MOST];
        memcpy(copy, b, n);
        copy[at + STATE] = b[at + STATE + 1];
        copy[at + STATE + 1] = b[at + STATE];
        put_spoilt(copy, n);
    }
}

static void spoil_vector(const uint8_t *b, size_t n)
{
    static uint8_t copy[BODY_MOST + ACTION_BYTES];
    Parts p;
    if (!take_apart(b, n, &p))
        exit(1);
    put(b, n);
    const size_t at = p.answer;
    spoil_byte(b, n, at, 1);                               /* the code by one bit, and refused or not */
    spoil_byte(b, n, at, b[at] == 0 ? 11 : b[at]);
    if (p.operation == START) {
        spoil_state(b, n, at + 1);
        return;
    }
    if (p.operation == RUN) {
        spoil_byte(b, n, at + 1, 1);                       /* stop */
        spoil_byte(b, n, at + 1, 2);
        for (size_t i = 2; i < 2 + 9 * 4; i++)             /* offset, read, refused, totals: lowest byte, and one other */
            if (i % 4 == 1 || i / 4 % 3 == i % 4)
                spoil_byte(b, n, at + i, 1);
        spoil_state(b, n, at + 2 + 9 * 4);
        return;
    }
    for (size_t i = 1; i < 4; i++)                         /* count, place, phase */
        spoil_byte(b, n, at + i, 1);
    spoil_byte(b, n, at + 2, 4);
    spoil_state(b, n, at + 4);
    const size_t from = at + STEP_ANSWER;
    for (size_t i = from; i < n; i++)                      /* each action's number, and some bytes of its partner */
        if ((i - from) % ACTION_BYTES == 0 || (i - from) % 3 == 0)
            spoil_byte(b, n, i, 1);
    if (n > from) {
        memcpy(copy, b, n);                                /* an action less */
        copy[at + 1]--;
        put_spoilt(copy, n - ACTION_BYTES);
        if (n > from + ACTION_BYTES) {                     /* the last one first */
            memcpy(copy + from, b + n - ACTION_BYTES, ACTION_BYTES);
            memcpy(copy + from + ACTION_BYTES, b + from, n - from - ACTION_BYTES);
            copy[at + 1] = b[at + 1];
            put_spoilt(copy, n);
        }
    }
    if (b[at] == 0 && b[at + 1] < 4) {                     /* an action more: 22 or 21 to the record's partner */
        memcpy(copy, b, n);
        copy[at + 1]++;
        memset(copy + n, 0, ACTION_BYTES);
        copy[n] = n > from ? ACT_RELEASE : ACT_REQUEST;
        memcpy(copy + n + 1, b + STEP_HEAD + 1, p.length >= 5 ? 4 : 0);
        put_spoilt(copy, n + ACTION_BYTES);
    }
}

enum { ACTIONS_AT = 8 };                                   /* where a sort has the number of actions */

/* The sort of the vector of this number: operation, code, actions, how many wait before and after; 0 for a long one. */
static uint32_t sort_of(size_t i)
{
    enum { MOST = 500 };
    const uint8_t *const b = file + index_of[i].at + 2;
    const size_t n = get16(b - 2);
    Parts p;
    if (n > MOST || !take_apart(b, n, &p))
        return 0;
    const uint8_t *const queue = p.operation == STEP ? b + p.answer + 4 + STATE : b + n - QUEUE;
    const unsigned before = p.operation == START ? 0 : (p.s.queue[0] != NOBODY) + (p.s.queue[1] != NOBODY);
    const unsigned behind = (queue[0] != NOBODY) + (queue[1] != NOBODY);
    const unsigned actions = p.operation == STEP ? b[p.answer + 1] : 0;
    return (uint32_t)p.operation << 24 | (uint32_t)b[p.answer] << 16 | actions << ACTIONS_AT | before << 4 | behind;
}

/* The group's first vector of a sort that is none of these, and its first where each is. */
static size_t first_other(unsigned group, const uint32_t *sorts, size_t many)
{
    size_t first = vectors;
    for (size_t i = 0; i < vectors; i++) {
        const uint32_t sort = index_of[i].group == group ? sort_of(i) : 0;
        if (sort == 0)
            continue;
        size_t k = 0;
        while (k < many && sorts[k] != sort)
            k++;
        if (k == many)
            return i;
        if (first == vectors)
            first = i;
    }
    return first;
}

static void spoil_at(size_t i)
{
    if (i == vectors)
        exit(1);
    spoil_vector(file + index_of[i].at + 2, get16(file + index_of[i].at));
}

/* Of each group one, of a sort that no group before it gave where there is one; and the first step with four actions. */
static void spoil_some(void)
{
    uint32_t sorts[GROUPS];
    for (unsigned group = 0; group < GROUPS; group++) {
        const size_t i = first_other(group, sorts, group);
        spoil_at(i);
        sorts[group] = sort_of(i);
    }
    size_t four = 0;
    while (four < vectors && (sort_of(four) >> ACTIONS_AT & 0xFF) != 4)
        four++;
    spoil_at(four);
}

/* ---- the check ---- */

static int check(FILE *in)
{
    file_length = fread(file, 1, sizeof file, in);
    size_t at = 0, n;
    for (size_t i = 0; at < file_length; i++, at += 2 + n) {
        n = file_length - at < 2 ? BODY_MOST : get16(file + at);
        if (file_length - at < 2 + n) {
            puts("the file is cut");
            return 1;
        }
        if (differs(file + at + 2, n))
            printf("%zu\n", i);
    }
    return 0;
}

int main(int argc, char **argv)
{
    const char *const what = argc == 3 ? argv[1] : "";
    const bool spoil = strcmp(what, "spoil") == 0;
    if (!spoil && strcmp(what, "write") != 0 && strcmp(what, "check") != 0) {
        fputs("usage: shunter_vectors write|spoil|check FILE\n", stderr);
        return 2;
    }
    if (strcmp(what, "check") == 0) {
        FILE *const in = fopen(argv[2], "rb");
        return in ? check(in) : 1;
    }
    start_vectors();
    hand_vectors();
    small_vectors();
    queue_vectors();
    holding_vectors();
    box_vectors();
    order_vectors();
    room_vectors();
    record_vectors();
    history_vectors();
    run_vectors();
    out = fopen(argv[2], "wb");
    if (!out)
        return 1;
    if (spoil) {
        spoil_some();
    } else {
        if (fwrite(file, 1, file_length, out) != file_length)
            return 1;
        for (unsigned group = 0; group < GROUPS; group++) {
            size_t many = 0, bytes = 0;
            for (size_t i = 0; i < vectors; i++)
                if (index_of[i].group == group) {
                    many++;
                    bytes += (i + 1 < vectors ? index_of[i + 1].at : file_length) - index_of[i].at;
                }
            printf("%6zu vectors %8zu bytes  %s\n", many, bytes, group_name[group]);
        }
        printf("%6zu vectors %8zu bytes in all\n", vectors, file_length);
    }
    return fclose(out) == 0 ? 0 : 1;
}
