/* sets_vectors write FILE: the vectors of request Q-7; prints how many each group has.
 * sets_vectors spoil FILE: some of them, each followed by copies with one field wrong that has to be compared; prints the number, from 0,
 * of each wrong one.
 * sets_vectors check FILE: the vectors of the file against the model; prints the number of each wrong one.
 *
 * A vector is the length of its body (two bytes, as all numbers the highest first) and the body:
 * start: 1; lowest X, highest X, tries; expected code, state (163).
 * step: 2; state (163), room (2), record length (1), record; expected code, count of actions, phase, state (163), the actions' bytes. The
 * room is so many EE before the call; behind the actions it keeps them. It is at most 4,096.
 * run: 3; state (163), budget (4); the log: repeats (2), block length (2), block, tail length (2), tail; it is the block so many times,
 * then the tail, at most 65,536 bytes; expected code, stop, offset (4), read (4), refused (4), six totals (4 each), state (163).
 * A state: lowest X, highest X, level, mission, inside, mode, manual, hole end, n; the last known RBC, 1 and three bytes or four zeros; then
 * calling, contacted, incoming, outgoing, lost, terminating, each its count and four members of type, number (3), tries, direction. A given
 * one may be unsound in any way, but has marks, directions and the last RBC's flag 0 or 1; a wrong expected one too. */
#include "gen.h"
#include "sets_model.h"

#include <stdio.h>
#include <stdlib.h>
#include <string.h>

enum { START = 1, STEP = 2, RUN = 3, BODY_MOST = 65535, ROOM_MOST = 4096, RECORD_MOST = 255, LOG_LONGEST = 65536, UNTOUCHED = 0xEE };
enum { FILE_MOST = 4000000, VECTORS_MOST = 20000, BYTES_MOST = 8192 };
enum { START_BODY = 4 + 1 + SETS_BYTES, STEP_HEAD = 1 + SETS_BYTES + 3, STEP_ANSWER = 3 + SETS_BYTES, RUN_HEAD = 1 + SETS_BYTES + 4 + 6,
       RUN_ANSWER = 2 + 3 * 4 + 6 * 4 + SETS_BYTES };

enum { STARTS, HAND, EVERY, AMONG, APART, NEAR, CLOSED, ORDERS, CAUSES, BEHIND, COUNTS, MEMBER, TWICE, FIVE, OTHERS, DAMAGED, ORDERED, ROOMS, CUT, KINDS, FIELDS, TRIES,
       HISTORIES, DEEP, R_HAND, R_BUDGETS, R_STOPS, R_DAMAGED, R_REFUSED, R_LONG, R_RANDOM, GROUPS };

static const char *const group_name[GROUPS] = {
    "start, limits", "step, hand-written histories", "step, every event in every set, direction and tries", "step, every event at every rank of a set",
    "step, every event with four sets of one", "step, partners that are nearly a member", "step, end of all and of the mission, every mix of sets",
    "step, orders over every mix of sets", "step, causes of orders", "step, every byte behind a count", "step, counts", "step, members that do not fit their set",
    "step, a partner twice", "step, more than four members", "step, other fields unsound", "step, random states with some bytes changed", "step, refusals in their order", "step, rooms",
    "step, records cut at every length", "step, every kind", "step, fields out of range", "step, numbers of tries", "step, random histories of few partners",
    "step, random histories of many", "run, hand-written logs", "run, budgets", "run, stops", "run, every byte of a log damaged", "run, refused",
    "run, long logs", "run, random logs",
};

typedef struct { uint8_t b[BYTES_MOST]; size_t n; } Bytes;
typedef struct { uint8_t lo, hi, n; } Limits;
typedef struct { size_t repeats; Bytes block, tail; } Log;

/* ---- the file ---- */

static uint8_t file[FILE_MOST];
static size_t file_length, vectors;
static struct { size_t at; uint8_t group; } index_of[VECTORS_MOST];

static void put16(uint8_t *b, size_t v)
{
    b[0] = (uint8_t)(v >> 8);
    b[1] = (uint8_t)v;
}

static void put32(uint8_t *b, uint32_t v)
{
    put16(b, v >> 16);
    put16(b + 2, v & 0xFFFF);
}

static size_t get16(const uint8_t *b) { return (size_t)b[0] << 8 | b[1]; }
static uint32_t get32(const uint8_t *b) { return (uint32_t)get16(b) << 16 | (uint32_t)get16(b + 2); }

/* Room for a body of this length at the end of the file. */
static uint8_t *body(unsigned group, size_t length)
{
    if (length > BODY_MOST || length + 2 > sizeof file - file_length || vectors == VECTORS_MOST) {
        fputs("too many vectors\n", stderr);
        exit(1);
    }
    uint8_t *const at = file + file_length;
    index_of[vectors].at = file_length;
    index_of[vectors++].group = (uint8_t)group;
    put16(at, length);
    file_length += 2 + length;
    return at + 2;
}

static uint8_t *put_bytes(uint8_t *to, const uint8_t *b, size_t n)
{
    memcpy(to, b, n);
    return to + n;
}

static uint8_t *put_sets(uint8_t *to, const Sets *s)
{
    sets_store(s, to);
    return to + SETS_BYTES;
}

static uint8_t whole[LOG_LONGEST];         /* the log of the vector in hand */

static size_t expand(const Log *log)
{
    if (log->repeats > 65535 || log->repeats * log->block.n + log->tail.n > sizeof whole)
        exit(1);
    uint8_t *to = whole;
    for (size_t i = 0; i < log->repeats; i++)
        to = put_bytes(to, log->block.b, log->block.n);
    to = put_bytes(to, log->tail.b, log->tail.n);
    return (size_t)(to - whole);
}

static void start_vector(unsigned group, Limits l)
{
    Sets s;
    const uint8_t head[5] = {START, l.lo, l.hi, l.n, sets_cold_start(&s, l.lo, l.hi, l.n)};
    put_sets(put_bytes(body(group, START_BODY), head, sizeof head), &s);
}

/* Leaves the next state in s. */
static SetsResult step_vector(unsigned group, Sets *s, size_t room_length, const uint8_t *record, size_t length)
{
    if (room_length > ROOM_MOST || length > RECORD_MOST)
        exit(1);
    uint8_t room[ROOM_MOST], head[STEP_HEAD] = {STEP};
    put_sets(head + 1, s);
    put16(head + 1 + SETS_BYTES, room_length);
    head[STEP_HEAD - 1] = (uint8_t)length;
    const SetsResult r = sets_step(s, record, length, room, room_length);
    const uint8_t answer[3] = {r.code, r.count, r.phase};
    uint8_t *b = body(group, STEP_HEAD + length + STEP_ANSWER + ACTION_BYTES * (size_t)r.count);
    b = put_bytes(b, head, sizeof head);
    b = put_bytes(b, record, length);
    b = put_bytes(b, answer, sizeof answer);
    b = put_sets(b, s);
    put_bytes(b, room, ACTION_BYTES * (size_t)r.count);
    return r;
}

/* The same, s stays. */
static void step_on(unsigned group, const Sets *s, size_t room_length, const uint8_t *record, size_t length)
{
    Sets t = *s;
    step_vector(group, &t, room_length, record, length);
}

static void run_vector(unsigned group, const Sets *from, uint32_t budget, const Log *log)
{
    Sets s = *from;
    RunResult out;
    sets_run(&s, whole, expand(log), budget, &out);
    uint8_t *b = body(group, RUN_HEAD + log->block.n + log->tail.n + RUN_ANSWER);
    *b++ = RUN;
    b = put_sets(b, from);
    put32(b, budget);
    put16(b + 4, log->repeats);
    put16(b + 6, log->block.n);
    b = put_bytes(b + 8, log->block.b, log->block.n);
    put16(b, log->tail.n);
    b = put_bytes(b + 2, log->tail.b, log->tail.n);
    *b++ = out.code;
    *b++ = out.stop;
    const uint32_t numbers[3] = {out.offset, out.read, out.refused};
    for (int i = 0; i < 3; i++, b += 4)
        put32(b, numbers[i]);
    for (int i = 0; i < 6; i++, b += 4)
        put32(b, out.total[i]);
    put_sets(b, &s);
}

/* ---- help ---- */

static void append(Bytes *to, const uint8_t *b, size_t n)
{
    if (n > sizeof to->b - to->n)
        exit(1);
    memcpy(to->b + to->n, b, n);
    to->n += n;
}

static Bytes hex(const char *text)
{
    Bytes out;
    out.n = 0;
    for (; *text; text++) {
        if (*text == ' ')
            continue;
        const char two[3] = {text[0], text[1], 0};
        out.b[out.n++] = (uint8_t)strtoul(two, NULL, 16);
        text++;
    }
    return out;
}

/* The block so many times. */
static Log times(size_t repeats, const Bytes *block)
{
    Log log;
    log.repeats = repeats;
    log.block = *block;
    log.tail.n = 0;
    return log;
}

/* The bytes as a tail. */
static Log once(const uint8_t *b, size_t n)
{
    Log log;
    log.repeats = log.block.n = log.tail.n = 0;
    append(&log.tail, b, n);
    return log;
}

static const Limits usual = {1, 2, 3};

static Sets cold(Limits l)
{
    Sets s;
    if (sets_cold_start(&s, l.lo, l.hi, l.n) != 0)
        exit(1);
    return s;
}

static Limits some_limits(Rng *g)
{
    Limits l;
    gen_x(g, &l.lo, &l.hi);
    l.n = gen_n(g);
    return l;
}

/* What the text's records leave of a cold start. */
static Sets after(Limits l, const char *text)
{
    const Bytes log = hex(text);
    Sets s = cold(l);
    RunResult out;
    sets_run(&s, log.b, log.n, SIZE_MAX, &out);
    if (out.stop != 0)
        exit(1);
    return s;
}

static size_t put_event(uint8_t *r, uint8_t kind, uint32_t who, uint8_t b5, uint8_t b6)
{
    r[0] = kind;
    put32(r + 1, who);
    r[5] = b5;
    r[6] = b6;
    return record_length[kind];
}

static void event(unsigned group, const Sets *s, uint8_t kind, uint32_t who, uint8_t b5, uint8_t b6)
{
    uint8_t r[8] = {0};
    step_on(group, s, ACTION_BUFFER, r, put_event(r, kind, who, b5, b6));
}

static void short_event(unsigned group, const Sets *s, const char *text)
{
    const Bytes r = hex(text);
    step_on(group, s, ACTION_BUFFER, r.b, r.n);
}

/* Behind the others of its set, whether that is sound or not. */
static void add(Sets *s, unsigned set, uint32_t who, uint8_t tries, uint8_t direction)
{
    Set *const to = &s->set[set];
    if (to->count >= MEMBERS)
        exit(1);
    to->member[to->count++] = (Member){.who = who, .tries = tries, .direction = direction};
}

static bool established(unsigned set) { return set == SET_INCOMING || set == SET_OUTGOING; }

/* ---- starts ---- */

static void start_vectors(void)
{
    for (uint8_t lo = 0; lo <= 8; lo++)
        for (uint8_t hi = 0; hi <= 8; hi++) {
            start_vector(STARTS, (Limits){lo, hi, 3});
            start_vector(STARTS, (Limits){lo, hi, (uint8_t)((lo + 2 * hi) % 11)});
        }
    for (uint8_t n = 0; n <= 10; n++) {
        start_vector(STARTS, (Limits){1, 2, n});
        start_vector(STARTS, (Limits){0, 7, n});
        start_vector(STARTS, (Limits){2, 1, n});
    }
    static const uint8_t far[] = {9, 15, 16, 127, 128, 255};
    for (size_t i = 0; i < sizeof far; i++) {
        start_vector(STARTS, (Limits){far[i], 7, 3});
        start_vector(STARTS, (Limits){1, far[i], 3});
        start_vector(STARTS, (Limits){far[i], far[i], 5});
        start_vector(STARTS, (Limits){1, 2, far[i]});
        start_vector(STARTS, (Limits){far[i], far[i], far[i]});
    }
}

/* ---- hand-written histories ---- */

#define ORDER(k) "05 000000" k " 01 01 "                   /* accepting, trackside */
#define CLOSING(k) "05 000000" k " 00 01 "                 /* not accepting */
#define ORDER_RIU(k) "05 010000" k " 01 01 "
#define CLOSING_RIU(k) "05 010000" k " 00 01 "
#define ORDER_LAST "05 00003FFF 01 01 "
#define CLOSING_LAST "05 00C03FFF 00 01 "
#define CALL(k) "0B 000000" k " 26 00 "
#define DONE(k) "0B 000000" k " 27 00 "
#define GOOD(k) "0B 000000" k " 20 11 "                    /* a version that is taken with X 1 to 2, and one that is not */
#define WRONG(k) "0B 000000" k " 20 30 "
#define GOOD_RIU(k) "0B 010000" k " 20 22 "
#define DROP(k) "06 000000" k " "
#define UP(k) "08 000000" k " "
#define UP_RIU(k) "08 010000" k " "
#define LOSS(k) "09 000000" k " "
#define LOSS_RIU(k) "09 010000" k " "
#define TIME(k) "0A 000000" k " "
#define TIME_RIU(k) "0A 010000" k " "
#define CONTACT(k) ORDER(k) UP(k)
#define OPENED(k) ORDER(k) UP(k) GOOD(k)
#define OPENED_RIU(k) ORDER_RIU(k) UP_RIU(k) GOOD_RIU(k)

typedef struct { Limits l; const char *text; } Hand;

static const Hand hands[] = {
    /* P1 to P10 of 01 */
    {{1, 2, 3}, "05 00000005 01 01 08 00000005 0B 00000005 20 11 06 00000005 0B 00000005 27 00"},
    {{1, 2, 3}, ORDER("05") TIME("05") TIME("05") TIME("05") TIME("05")},
    {{1, 2, 3}, CONTACT("05") "0B 00000005 20 30"},
    {{1, 2, 3}, CONTACT("05") "0B 00000005 20 80 0B 00000005 20 2F"},
    {{1, 2, 3}, CALL("01") CALL("02") CALL("03") CALL("04") CALL("05") CALL("01") "0B 01000001 26 00"},
    {{1, 2, 3}, OPENED("01") OPENED_RIU("02") CLOSING("03")},
    {{1, 2, 3}, CALL("01") OPENED_RIU("02") CLOSING("03")},
    {{1, 2, 3}, "02 01 01 01 00 05 00000005 01 00 01 02 00 05 00000005 01 00"},
    {{1, 2, 3}, "04 00 04 01 04 01 04 00 05 00000005 01 04 05 00000006 01 04"},
    {{1, 2, 3}, ORDER("05") TIME("05") TIME("05") UP("05") TIME("05") TIME("05") GOOD("05") DROP("05") TIME("05") TIME("05") DONE("05")},
    /* one more try: it leaves and enters again, the others keep their order */
    {{1, 2, 3}, ORDER("01") ORDER("02") ORDER("03") ORDER("04") TIME("01") TIME("03") TIME("03") TIME("04") TIME("03") DROP("01") ORDER("01") UP("04") UP("02")
                TIME("04") UP("01") TIME("02") TIME("01") TIME("04") TIME("02") TIME("02") "07 00"},
    /* lost and terminating keep the direction, through tries and back */
    {{1, 2, 3}, CALL("01") OPENED("02") LOSS("02") LOSS("01") TIME("02") TIME("01") UP("01") UP("02") LOSS("01") TIME("01") TIME("01") UP("01") DROP("01") DROP("02")
                TIME("01") TIME("02") TIME("01") DONE("01") LOSS("02")},
    {{1, 2, 3}, CALL("04") CALL("03") CALL("02") CALL("01") LOSS("03") LOSS("04") LOSS("01") TIME("04") TIME("03") UP("04") UP("01") DROP("02") DROP("04") TIME("02") DROP("01")
                DONE("04") CALL("04") "07 01" TIME("04") TIME("02") TIME("02")},
    /* all six sets in one history */
    {{1, 2, 3}, OPENED("01") CALL("02") LOSS("01") CONTACT("03") ORDER("04") ORDER("05") DROP("02") TIME("02") TIME("03") TIME("01") WRONG("03") UP("04") UP("01") GOOD("04")
                LOSS("02") CALL("05") LOSS("05") LOSS("04") TIME("05") "02 00" DONE("03") DONE("01")},
    /* end all and mission 0 set by set; with nobody; what is terminating stays */
    {{1, 2, 3}, "07 00" ORDER("09") CONTACT("08") CALL("07") OPENED("06") "07 00 07 01" TIME("07") TIME("06") "02 00" ORDER("01") CALL("02") "02 01 02 02 02 00" DONE("07") DONE("06")},
    {{1, 2, 3}, CALL("03") OPENED("02") OPENED_RIU("01") LOSS("03") CALL("04") "07 01" TIME("02") LOSS("04")},
    {{1, 2, 3}, OPENED_RIU("03") CALL("02") OPENED("01") CALL("04") "02 00 07 00" DONE("04") "0B 01000003 27 00"},
    /* orders that are not accepting */
    {{1, 2, 3}, OPENED("02") CALL("03") LOSS("02") OPENED("01") CLOSING("09") CLOSING("08") DONE("03") CLOSING("08") UP("09") UP("08") GOOD("08") GOOD("09") CLOSING("07")},
    {{1, 2, 3}, OPENED_RIU("03") OPENED("02") OPENED_RIU("01") CLOSING("09") LOSS_RIU("03") DROP("09") LOSS("02") CLOSING_RIU("02") TIME_RIU("03") UP_RIU("03")},
    {{1, 2, 3}, CALL("01") CALL("02") OPENED("03") CLOSING("09") CLOSING("0A") TIME("02") DONE("01") CLOSING("0A") "07 00"},
    {{1, 2, 3}, CALL("01") CALL("02") CALL("03") LOSS("02") LOSS("03") LOSS("01") CLOSING("09") ORDER("01") ORDER("02")},
    {{1, 2, 3}, CALL("01") LOSS("01") CALL("02") LOSS("02") CALL("03") LOSS("03") CALL("04") CLOSING("09") CLOSING("01") ORDER("04") CALL("02")},
    {{1, 2, 3}, CALL("01") OPENED("02") CLOSING_RIU("01") ORDER("03") CLOSING("04") CLOSING("05")},
    /* the last known RBC */
    {{1, 2, 3}, ORDER_LAST CALL("09") ORDER_LAST DROP("09") CLOSING_LAST DONE("09") OPENED_RIU("01") CALL("08") LOSS("08") CLOSING_LAST DROP("08") CLOSING_LAST TIME("08") UP("08")
                WRONG("08") LOSS("08") CONTACT("07") GOOD("07") DROP("07") LOSS("07") ORDER_LAST},
    {{1, 2, 3}, CALL("01") CALL("02") LOSS("01") UP("01") DROP("02") DONE("02") "05 0007FFFF 00 01" LOSS("01") "05 00FFFFFF 01 01"},
    {{1, 2, 3}, "05 01003FFF 00 01 08 01003FFF 0B 01003FFF 20 10 05 00003FFF 01 01 06 00003FFF 06 01003FFF 0B 01003FFF 27 00 0B 00003FFF 27 00"},
    /* RBC 0 has the bytes that stand behind a count */
    {{1, 2, 3}, DROP("00") ORDER("00") ORDER_RIU("00") CALL("00") UP("00") GOOD("00") CLOSING_LAST LOSS("00") "06 01000000" UP("00") DROP("00") LOSS("00") CLOSING_LAST CALL("01") "07 00"},
    {{1, 2, 3}, CALL("00") CALL("01") LOSS("00") LOSS("01") TIME("00") CLOSING("02") CALL("00") "07 00" DONE("00") DONE("01")},
    /* causes, and marks that a refused order leaves */
    {{1, 2, 3}, "02 01 01 03 01 03 04 01 04 00 05 00000001 01 02 05 00000001 01 03 05 00000002 01 02 05 00000002 00 03 05 00000003 01 04 05 00000004 01 00 05 00000005 01 04 02 02"
                "05 00000005 01 00 03 05 00000001 00 02" DROP("01") "05 00000001 01 02 05 00000009 01 02"},
    {{1, 2, 3}, "03 05 00000001 01 02 02 02 05 00000001 01 02 01 02 00 05 00000001 01 02 01 01 01 05 00000002 01 03 01 04 00 05 00000002 01 03 01 03 00 05 00000002 01 03 02 00 05 00000003 01 03"},
    {{1, 2, 3}, CALL("01") CALL("02") CALL("03") CALL("04") "04 01 04 00 05 00000005 00 04 05 00000001 00 04 05 01000005 00 04" DROP("04") DONE("04") "05 00000001 00 04 05 00000005 00 04"},
    /* partners that differ in one byte */
    {{1, 2, 3}, "05 00000105 01 01 05 00000005 01 01 05 00010005 01 01 05 01000005 01 01 06 00000006 08 00000105 08 01000005 0A 00000005 06 00010005 0B 00000105 20 10 0B 01000005 20 00 0A 00000105 06 00000105"},
    /* other limits and numbers of tries */
    {{1, 2, 1}, ORDER("01") CALL("02") LOSS("02") CONTACT("03") ORDER("04") TIME("02") TIME("01") TIME("03") CALL("05") DROP("05") TIME("05") TIME("04")},
    {{0, 7, 9}, CONTACT("01") "0B 00000001 20 7F" CONTACT("02") "0B 00000002 20 00" LOSS("02") TIME("02") TIME("02") TIME("02") TIME("02") TIME("02") TIME("02") TIME("02") TIME("02") TIME("02")
                DROP("01")},
    {{3, 3, 2}, CONTACT("01") "0B 00000001 20 2F" TIME("01") TIME("01") CONTACT("02") "0B 00000002 20 3F" CONTACT("03") "0B 00000003 20 40" TIME("03") DONE("03")},
    {{5, 7, 5}, CONTACT("01") "0B 00000001 20 4F" CONTACT("02") "0B 00000002 20 50" CONTACT("03") "0B 00000003 20 7F 07 00" TIME("02") TIME("02") TIME("02") TIME("02") TIME("02")},
};
enum { HANDS = sizeof hands / sizeof hands[0] };

static void hand_vectors(void)
{
    for (size_t i = 0; i < HANDS; i++) {
        const Bytes log = hex(hands[i].text);
        Sets s = cold(hands[i].l);
        for (size_t at = 0; at < log.n; at += record_length[log.b[at]])
            step_vector(HAND, &s, ACTION_BUFFER, log.b + at, record_length[log.b[at]]);
        /* the same as a run, and again from there on */
        const Sets begin = cold(hands[i].l);
        const Log one = times(1, &log), three = times(3, &log);
        run_vector(R_HAND, &begin, 1000, &one);
        run_vector(R_HAND, &begin, 7 + (uint32_t)i, &three);
        run_vector(R_HAND, &s, 1000, &one);
    }
}

/* ---- every event ---- */

enum { FORMS = 13 };

/* What a member can be. */
static const struct { uint8_t set, type, direction; } forms[FORMS] = {
    {SET_CALLING, RBC, 0}, {SET_CALLING, RIU, 0}, {SET_CONTACTED, RBC, 0}, {SET_CONTACTED, RIU, 0}, {SET_INCOMING, RBC, 1}, {SET_OUTGOING, RBC, 0}, {SET_OUTGOING, RIU, 0},
    {SET_LOST, RBC, 0}, {SET_LOST, RBC, 1}, {SET_LOST, RIU, 0}, {SET_TERMINATING, RBC, 0}, {SET_TERMINATING, RBC, 1}, {SET_TERMINATING, RIU, 0},
};

/* By set, forms that stand for it. */
static const uint8_t form_of[SETS][3] = {{0, 1, 0}, {3, 2, 3}, {4, 4, 4}, {5, 6, 5}, {8, 9, 7}, {11, 12, 10}};

/* Partners: of the same numbers, an RBC and an RIU; RBC 0 has the bytes that stand behind a count. */
static uint32_t partner_at(unsigned i, uint8_t type, unsigned turn)
{
    static const uint32_t numbers[] = {0x000005, 0x000000, 0xABCDEF, 0x003FFE, 0x012345, 0xFFFFFE};
    return (uint32_t)type << 24 | numbers[(i + turn + type) % 6];
}

enum { STRANGER = 0x00000777, STRANGER_RIU = 0x01000777 };

/* Nobody in the sets; the other fields by turns. */
static Sets nobody(unsigned turn, uint8_t n)
{
    Sets s = cold((Limits){1, 2, n});
    s.mission = (uint8_t)(turn % 3);
    s.level = (uint8_t)((2 + turn / 3) % 5);
    s.mode = turn / 2 % 2;
    s.manual = turn / 3 % 2;
    s.hole_end = turn / 5 % 2;
    s.inside = !s.hole_end && turn % 7 == 0;
    s.last = turn % 3 == 0 ? 0 : turn % 3 == 1 ? KNOWN | 0x000777 : KNOWN | (partner_at(turn % 4, RBC, turn) & 0xFFFFFF);
    return s;
}

/* The member of this number among those of a state, with these tries where they count. */
static void add_form(Sets *s, unsigned form, uint8_t tries, unsigned i, unsigned turn)
{
    add(s, forms[form].set, partner_at(i, forms[form].type, turn), established(forms[form].set) ? 0 : tries, forms[form].direction);
}

/* A set of so many, sound members. */
static void fill(Sets *s, unsigned set, unsigned many, unsigned turn)
{
    for (unsigned i = 0; i < many; i++)
        add_form(s, form_of[set][(i + turn) % 3], (uint8_t)(1 + (i + turn) % s->n), i, turn);
}

static const struct { uint8_t kind, b5, b6; } named[] = {
    {EV_DROP, 0, 0}, {EV_UP, 0, 0}, {EV_LOST, 0, 0}, {EV_TIMEOUT, 0, 0}, {EV_MESSAGE, 32, 0x10}, {EV_MESSAGE, 39, 0}, {EV_MESSAGE, 32, 0x30},
    {EV_MESSAGE, 38, 0}, {EV_ORDER, 0, 1}, {EV_ORDER, 1, 1},
};
enum { NAMED = sizeof named / sizeof named[0], OF_TABLE = 6 };

/* The events of the table for the member of this set and rank. */
static void table_events(unsigned group, const Sets *s, unsigned set, unsigned rank)
{
    const uint32_t who = s->set[set].member[rank].who;
    for (size_t k = 0; k < OF_TABLE + (set == SET_CONTACTED); k++)
        event(group, s, named[k].kind, who, named[k].b5, named[k].b6);
}

static void every_vectors(void)
{
    unsigned turn = 0;
    /* one member, in every set, of either type and direction, with every number of tries */
    for (unsigned form = 0; form < FORMS; form++)
        for (uint8_t tries = 1; tries <= (established(forms[form].set) ? 1 : 3); tries++, turn++) {
            Sets s = nobody(turn, 3);
            add_form(&s, form, tries, 0, turn);
            const uint32_t who = s.set[forms[form].set].member[0].who;
            for (size_t k = 0; k < NAMED; k++)
                event(EVERY, &s, named[k].kind, who, named[k].b5, named[k].b6);
            event(EVERY, &s, named[turn % NAMED].kind, who ^ 0x01000000, named[turn % NAMED].b5, named[turn % NAMED].b6);
            event(EVERY, &s, EV_ORDER, STRANGER, 0, 1);
            event(EVERY, &s, EV_ORDER, turn % 2 ? STRANGER : STRANGER_RIU, turn / 2 % 2, (uint8_t)(turn % 5));
            event(EVERY, &s, EV_ORDER, 0x00C03FFF, turn / 2 % 2, 1);
            event(EVERY, &s, EV_MESSAGE, turn % 3 ? STRANGER : STRANGER_RIU, 38, 0);
            static const char *const ends[] = {"07 00", "07 01", "02 00"}, *const quiet[] = {"01 02 00", "01 03 01", "03", "04 00", "04 01", "01 04 01", "02 01", "02 02"};
            short_event(EVERY, &s, ends[turn % 3]);
            short_event(EVERY, &s, quiet[turn % 8]);
        }
    /* nobody */
    for (unsigned k = 0; k < NAMED; k++) {
        const Sets s = nobody(k, 3);
        event(EVERY, &s, named[k].kind, k % 2 ? STRANGER : STRANGER_RIU, named[k].b5, named[k].b6);
        event(EVERY, &s, named[k].kind, 0, named[k].b5, named[k].b6);
    }
    /* at every rank of a set of two, three and four */
    turn = 0;
    for (unsigned set = 0; set < SETS; set++)
        for (unsigned many = 2; many <= MEMBERS; many++) {
            Sets s = nobody(turn, 3);
            for (unsigned i = 0; i < many; i++)
                add_form(&s, form_of[set][(i + turn) % 3], (uint8_t)(1 + (i + turn) % 3), i, turn);
            for (unsigned rank = 0; rank < many; rank++)
                table_events(AMONG, &s, set, rank);
            event(AMONG, &s, EV_ORDER, STRANGER, 0, 1);
            event(AMONG, &s, EV_MESSAGE, STRANGER, 38, 0);
            short_event(AMONG, &s, turn % 2 ? "07 00" : "02 00");
            turn++;
        }
    /* four sets of one, and two of two */
    for (unsigned a = 0; a < SETS; a++)
        for (unsigned b = a + 1; b < SETS; b++, turn++) {
            Sets s = nobody(turn, 3), pairs = s;
            unsigned i = 0;
            for (unsigned set = 0; set < SETS; set++) {
                if (set != a && set != b)                  /* those that are not a and not b have one each */
                    add_form(&s, form_of[set][turn % 3], (uint8_t)(1 + (i + turn) % 3), i, turn);
                else
                    for (unsigned k = 0; k < 2; k++)
                        add_form(&pairs, form_of[set][(k + turn) % 3], (uint8_t)(1 + (k + turn) % 3), 2 * (set == b) + k, turn);
                i += set != a && set != b;
            }
            for (unsigned set = 0; set < SETS; set++) {
                if (set != a && set != b)
                    table_events(APART, &s, set, 0);
                else
                    table_events(APART, &pairs, set, turn % 2);
            }
            event(APART, &s, EV_ORDER, STRANGER, turn % 2, 1);
            event(APART, &pairs, EV_MESSAGE, STRANGER, 38, 0);
        }
}

/* The number of a member but for one byte, or its other type. */
static void near_vectors(void)
{
    static const uint32_t by[] = {0x01000000, 0x00010000, 0x00800000, 0x00000100, 0x00002000, 0x00000001, 0x00000080};
    unsigned turn = 0;
    for (unsigned set = 0; set < SETS; set++) {
        Sets s = nobody(3, 3);
        for (unsigned i = 0; i < 3; i++)
            add(&s, set, 0x00000040u + 0x101 * i, established(set) ? 0 : 2, set == SET_INCOMING);
        for (size_t k = 0; k < sizeof by / sizeof by[0]; k++, turn++) {
            const uint32_t who = s.set[set].member[turn % 3].who ^ by[k];
            event(NEAR, &s, named[turn % OF_TABLE].kind, who, named[turn % OF_TABLE].b5, named[turn % OF_TABLE].b6);
            event(NEAR, &s, k % 2 ? EV_ORDER : EV_MESSAGE, who, k % 2 ? 1 : 38, k % 2);
        }
    }
}

/* ---- every mix of sets ---- */

enum { CLASSES = 8 };

/* Forms that a closing tells apart, and those that stand for them by turns. */
static const uint8_t class_forms[CLASSES][3] = {{0, 1, 0}, {2, 3, 2}, {4, 4, 4}, {5, 5, 5}, {6, 6, 6}, {7, 8, 8}, {9, 9, 9}, {10, 11, 12}};

static void mix_vectors(void)
{
    static const char *const ends[] = {"07 00", "07 01", "02 00"};
    unsigned turn = 0;
    for (unsigned a = 0; a <= CLASSES; a++)
        for (unsigned b = a; b <= CLASSES; b++)
            for (unsigned c = b; c <= CLASSES; c++)
                for (unsigned d = c; d <= CLASSES; d++, turn++) {
                    const unsigned classes[MEMBERS] = {a, b, c, d};
                    Sets s = nobody(turn, (uint8_t)(3 + turn % 3));
                    for (unsigned i = 0; i < MEMBERS; i++)
                        if (classes[i] < CLASSES)
                            add_form(&s, class_forms[classes[i]][(i + turn) % 3], (uint8_t)(1 + (i + turn) % 3), i, turn);
                    short_event(CLOSED, &s, ends[turn % 3]);
                    if (d < CLASSES) {                     /* four members: 8 */
                        if (turn % 4 == 0)
                            event(ORDERS, &s, EV_ORDER, STRANGER, 0, 1);
                        continue;
                    }
                    short_event(CLOSED, &s, ends[(turn + 1) % 3]);
                    event(ORDERS, &s, EV_ORDER, STRANGER, 0, 1);
                    Sets t = nobody(turn, 3);              /* the same the other way round */
                    for (unsigned i = MEMBERS; i-- > 0;)
                        if (classes[i] < CLASSES)
                            add_form(&t, class_forms[classes[i]][(i + turn) % 3], (uint8_t)(1 + (i + turn) % 3), i, turn);
                    event(ORDERS, &t, EV_ORDER, STRANGER, 0, 1);
                    switch (turn % 4) {
                    case 0: event(ORDERS, &s, EV_ORDER, STRANGER, 1, 1); break;
                    case 1: event(ORDERS, &s, EV_ORDER, STRANGER_RIU, 0, 1); break;
                    case 2: event(ORDERS, &s, EV_ORDER, 0x00003FFF, 0, 1); break;
                    default: event(ORDERS, &s, EV_ORDER, STRANGER, 0, (uint8_t)(turn / 4 % 5)); break;
                    }
                }
}

/* RBCs and RIUs of two sets in every order: those that an order closes, and those that stay. */
static void type_vectors(void)
{
    static const uint8_t of[][3] = {{SET_OUTGOING, SET_OUTGOING, SET_OUTGOING}, {SET_LOST, SET_LOST, SET_LOST}, {SET_OUTGOING, SET_OUTGOING, SET_LOST}, {SET_OUTGOING, SET_LOST, SET_LOST}};
    for (unsigned k = 0; k < sizeof of / sizeof of[0]; k++)
        for (unsigned types = 0; types < 8; types++) {
            Sets s = cold(usual);
            for (unsigned i = 0; i < 3; i++)
                add(&s, of[k][i], (types >> i & 1) << 24 | (9 - i), established(of[k][i]) ? 0 : (uint8_t)(1 + i), of[k][i] == SET_LOST && (types >> i & 1) == RBC && i % 2);
            event(ORDERS, &s, EV_ORDER, STRANGER, 0, 1);
            if (types % 3 == 0)
                event(ORDERS, &s, EV_ORDER, STRANGER_RIU, 0, 1);
        }
}

/* Every level, mission and cause, with the cause's own mark alone and with all others; an order that is refused for another reason leaves them. */
static void cause_vectors(void)
{
    unsigned turn = 0;
    for (uint8_t level = 0; level <= 4; level++)
        for (uint8_t mission = 0; mission <= 2; mission++)
            for (uint8_t cause = 0; cause <= 4; cause++)
                for (unsigned own = 0; own < 2; own++, turn++) {
                    Sets s = cold(usual);
                    s.level = level;
                    s.mission = mission;
                    s.mode = (cause == 2) == own;
                    s.manual = (cause == 3) == own;
                    s.hole_end = (cause == 4) == own;
                    fill(&s, turn % SETS, turn % 11 == 0 ? MEMBERS : turn % 3, turn);
                    const uint32_t member = s.set[turn % SETS].member[0].who;
                    event(CAUSES, &s, EV_ORDER, turn % 7 == 0 && s.set[turn % SETS].count > 0 ? member : turn % 13 == 0 ? LAST_KNOWN : STRANGER, turn % 2, cause);
                }
}

/* ---- unsound states ---- */

/* An event on a state that is not sound: most often the one that is always taken, and a run at times. */
static void unsound_event(unsigned group, const Sets *s, unsigned turn)
{
    static const char *const records[] = {"03", "03", "07 00", "03", "05 00000777 00 01", "03", "0B 00000777 26 00", "02 00", "03", "0A 00000005", "06 00000005", ""};
    const Bytes r = hex(records[turn % 12]);
    step_on(group, s, ACTION_BUFFER, r.b, r.n);
    if (turn % 7 == 0) {
        const Log log = once(r.b, r.n);
        run_vector(R_REFUSED, s, turn / 7 % 4, &log);
    }
}

static void behind_vectors(void)
{
    unsigned turn = 0;
    static const uint8_t values[] = {1, 2, 0x80, 0xFF};
    for (unsigned set = 0; set < SETS; set++)
        for (unsigned count = 0; count < MEMBERS; count++)
            for (unsigned at = count; at < MEMBERS; at++)
                for (unsigned byte = 0; byte < MEMBER_BYTES; byte++, turn++) {
                    Sets s = nobody(turn, 3);
                    uint8_t b[SETS_BYTES];
                    fill(&s, set, count, turn);
                    sets_store(&s, b);
                    b[SETS_HEAD + SET_BYTES * set + 1 + MEMBER_BYTES * at + byte] = byte == 5 ? 1 : values[turn / 6 % 4];
                    sets_load(&s, b);
                    unsound_event(BEHIND, &s, turn);
                }
    /* a whole member behind, and one that another set has */
    for (unsigned set = 0; set < SETS; set++)
        for (unsigned at = 1; at < MEMBERS; at++, turn++) {
            Sets s = nobody(turn, 3);
            fill(&s, set, 1, turn);
            s.set[set].member[at] = s.set[set].member[0];
            unsound_event(BEHIND, &s, turn);
            s.set[set].member[at].who ^= 0x10;
            unsound_event(BEHIND, &s, turn + 1);
            memset(&s.set[set].member[at], 0, sizeof(Member));
            s.set[(set + 1) % SETS].member[at] = s.set[set].member[0];
            unsound_event(BEHIND, &s, turn + 2);
        }
}

static void count_vectors(void)
{
    static const uint8_t values[] = {0, 1, 2, 3, 4, 5, 8, 128, 255};
    unsigned turn = 0;
    for (unsigned set = 0; set < SETS; set++)
        for (unsigned many = 0; many <= MEMBERS; many++)
            for (size_t k = 0; k < sizeof values; k++, turn++) {
                if (values[k] == many)
                    continue;
                Sets s = nobody(turn, 3);
                fill(&s, set, many, turn);
                s.set[set].count = values[k];
                unsound_event(COUNTS, &s, turn);           /* sound with RBC 0 alone, outgoing, in or out */
            }
    static const char *const zeros[] = {"03", "06 00000000", "09 00000000", "0A 00000000", "08 00000000", "05 00000000 01 01", "05 00000777 00 01", "07 00"};
    for (size_t k = 0; k < sizeof zeros / sizeof zeros[0]; k++)
        for (uint8_t count = 0; count <= 2; count++) {
            Sets s = cold(usual);
            s.set[SET_OUTGOING].count = count;
            short_event(COUNTS, &s, zeros[k]);
        }
}

/* One thing about a member, by number; some leave it sound. */
static void change_member(Member *m, unsigned set, uint8_t n, unsigned what)
{
    switch (what) {
    case 0: m->who = (m->who & 0x00FFFFFF) | 0x02000000; break;
    case 1: m->who |= 0xFF000000; break;
    case 2: m->who = LAST_KNOWN; break;
    case 3: m->who = 0x00FFFFFF; break;
    case 4: m->who = 0x00C07FFF; break;
    case 5: m->tries = established(set) ? 1 : 0; break;
    case 6: m->tries = established(set) ? n : (uint8_t)(n + 1); break;
    case 7: m->tries = 255; break;
    case 8: m->direction ^= 1; break;
    case 9: m->who |= 0x01000000; m->direction = 1; break;
    case 10: m->who = 0x01003FFF; m->direction = 0; break;
    case 11: m->who |= 0x01000000; break;
    default: m->who = 0x80000000; break;
    }
}

static void member_vectors(void)
{
    unsigned turn = 0;
    for (unsigned set = 0; set < SETS; set++)
        for (unsigned at = 0; at < MEMBERS; at++)
            for (unsigned what = 0; what <= 12; what++, turn++) {
                Sets s = nobody(turn, (uint8_t)(3 + turn % 7));
                fill(&s, set, turn % 3 ? MEMBERS : at + 1, turn);
                change_member(&s.set[set].member[at], set, s.n, what);
                unsound_event(MEMBER, &s, turn);
            }
    /* tries that n allows or not */
    for (uint8_t n = 1; n <= TRIES_MOST; n++)
        for (unsigned set = 0; set < SETS; set++)
            for (unsigned more = 0; more < 2; more++, turn++) {
                if (established(set))
                    continue;
                Sets s = nobody(turn, n);
                add_form(&s, form_of[set][turn % 3], (uint8_t)(n + more), 0, turn);
                short_event(MEMBER, &s, "03");
            }
}

/* The same partner at two ranks of a set and in two sets; by turns as RBC and RIU, which is sound where it may be. */
static void twice(Sets *s, unsigned set, unsigned rank, unsigned other, unsigned other_rank, unsigned turn)
{
    Member *const m = &s->set[other].member[other_rank];
    m->who = s->set[set].member[rank].who;
    if (turn % 4 == 3)
        m->who ^= 0x01000000;
    unsound_event(TWICE, s, turn);
}

static void twice_vectors(void)
{
    unsigned turn = 0;
    for (unsigned set = 0; set < SETS; set++)
        for (unsigned i = 0; i < MEMBERS; i++)
            for (unsigned k = i + 1; k < MEMBERS; k++, turn++) {
                Sets s = nobody(turn, 3);
                fill(&s, set, MEMBERS, turn);
                twice(&s, set, i, set, k, turn);
            }
    static const uint8_t sizes[][2] = {{1, 1}, {2, 2}, {1, 3}, {3, 1}};
    for (unsigned set = 0; set < SETS; set++)
        for (unsigned other = set + 1; other < SETS; other++)
            for (unsigned size = 0; size < 4; size++)
                for (unsigned i = 0; i < sizes[size][0]; i++)
                    for (unsigned k = 0; k < sizes[size][1]; k++) {
                        if (size > 0 && (i + k + set + other) % 2)
                            continue;
                        Sets s = nobody(turn, 3);
                        for (unsigned m = 0; m < sizes[size][0]; m++)
                            add_form(&s, form_of[set][(m + turn) % 3], 1, m, turn);
                        for (unsigned m = 0; m < sizes[size][1]; m++)
                            add_form(&s, form_of[other][(m + turn) % 3], 2, sizes[size][0] + m, turn);
                        twice(&s, set, i, other, k, turn++);
                    }
}

/* Different partners, so many in each set. */
static Sets crowd(const uint8_t *sizes, unsigned turn)
{
    Sets s = nobody(turn, 3);
    uint32_t number = 0x20;
    for (unsigned set = 0; set < SETS; set++)
        for (unsigned i = 0; i < sizes[set]; i++)
            add(&s, set, number++, established(set) ? 0 : 1, set == SET_INCOMING || (set >= SET_LOST && i % 2));
    return s;
}

static void five_vectors(void)
{
    unsigned turn = 0;
    for (unsigned a = 0; a < SETS; a++)
        for (unsigned b = a + 1; b < SETS; b++)
            for (uint8_t in_a = 1; in_a <= 4; in_a++)
                for (uint8_t in_b = 1; in_b <= 4; in_b++, turn++) {
                    if (in_a + in_b < 4 || in_a + in_b > 6 || (in_a + in_b == 6 && turn % 4))
                        continue;                          /* four is sound */
                    uint8_t sizes[SETS] = {0};
                    sizes[a] = in_a;
                    sizes[b] = in_b;
                    const Sets s = crowd(sizes, turn);
                    unsound_event(FIVE, &s, turn);
                }
    for (unsigned out = 0; out <= SETS; out++, turn++) {
        uint8_t sizes[SETS] = {1, 1, 1, 1, 1, 1};
        if (out < SETS)
            sizes[out] = 0;                                /* five sets of one, and six */
        const Sets s = crowd(sizes, turn);
        short_event(FIVE, &s, "03");
        for (unsigned more = 0; more < SETS; more++) {     /* four sets of one, and five with another one out */
            uint8_t less[SETS];
            memcpy(less, sizes, sizeof less);
            less[more] = more % 2 ? 0 : 2;
            const Sets t = crowd(less, turn + more);
            unsound_event(FIVE, &t, turn + more);
        }
    }
    static const uint8_t most[SETS] = {4, 4, 4, 4, 4, 4};
    const Sets s = crowd(most, 0);
    short_event(FIVE, &s, "03");
}

/* A state that is right but for one thing, by number; false behind the last. */
static bool spoil_others(Sets *s, unsigned what)
{
    switch (what) {
    case 0: s->lowest = 3; return true;
    case 1: s->highest = 8; return true;
    case 2: s->lowest = s->highest = 255; return true;
    case 3: s->highest = 0; return true;
    case 4: s->level = 5; return true;
    case 5: s->level = 255; return true;
    case 6: s->mission = 3; return true;
    case 7: s->mission = 128; return true;
    case 8: s->inside = s->hole_end = 1; return true;
    case 9: s->inside = s->hole_end = s->mode = s->manual = 1; return true;
    case 10: s->n = 0; return true;
    case 11: s->n = 10; return true;
    case 12: s->n = 255; return true;
    case 13: s->n = 2; return true;                        /* sound with nobody, or few tries */
    case 14: s->last = KNOWN | LAST_KNOWN; return true;
    case 15: s->last = KNOWN | 0xFFFFFF; return true;
    case 16: s->last = KNOWN | 0x407FFF; return true;
    case 17: s->last = KNOWN | 0x003FFE; return true;      /* these three are sound */
    case 18: s->lowest = 0, s->highest = 7; return true;
    case 19: s->inside = s->mode = s->manual = 1; return true;
    default: return false;
    }
}

static void other_vectors(void)
{
    static const char *const logs[] = {"", OPENED("01") CALL("02") LOSS("01") ORDER("03") TIME("03") TIME("03") ORDER_RIU("04"), CALL("01") CALL("02") CALL("03") DROP("03"),
                                       CONTACT("01") TIME("01") OPENED_RIU("02")};
    static const char *const records[] = {"0A 00000003", "06 00000001", "0B 00000007 26 00", "07 00", ""};
    unsigned turn = 0;
    for (size_t i = 0; i < sizeof logs / sizeof logs[0]; i++) {
        const Sets good = after(usual, logs[i]);
        Sets s = good;
        for (unsigned what = 0; spoil_others(&s, what); what++, turn++, s = good) {
            short_event(OTHERS, &s, "03");
            const Bytes r = hex(records[turn % 5]);
            if (turn % 2)
                step_on(OTHERS, &s, ACTION_BUFFER - turn % 3 / 2, r.b, r.n);
            else {
                const Log log = once(r.b, r.n);
                run_vector(R_REFUSED, &s, turn % 3, &log);
            }
        }
    }
}

/* Up to five members of few numbers, then up to two bytes changed; marks, directions and the last RBC's flag stay 0 or 1. */
static void damaged_vectors(void)
{
    enum { MANY = 160 };
    Rng g = {712};
    for (unsigned turn = 0; turn < MANY; turn++) {
        Sets s = nobody(turn, gen_n(&g));
        uint8_t b[SETS_BYTES];
        for (uint32_t many = rng_below(&g, 6); many > 0; many--) {                 /* one draw a statement: the same in every compiler */
            const unsigned form = rng_below(&g, FORMS);
            const uint32_t number = rng_below(&g, 8);
            const uint8_t tries = (uint8_t)(1 + rng_below(&g, s.n));
            if (s.set[forms[form].set].count < MEMBERS)
                add(&s, forms[form].set, (uint32_t)forms[form].type << 24 | number, established(forms[form].set) ? 0 : tries, forms[form].direction);
        }
        sets_store(&s, b);
        for (uint32_t many = rng_below(&g, 3); many > 0; many--) {
            const size_t at = SETS_HEAD + rng_below(&g, SETS * SET_BYTES), in_set = (at - SETS_HEAD) % SET_BYTES;
            const uint32_t bit = rng_below(&g, 8);
            b[at] ^= (uint8_t)(in_set > 0 && in_set % MEMBER_BYTES == 0 ? 1 : 1u << bit);         /* a direction is the last byte of a member */
        }
        sets_load(&s, b);
        unsound_event(DAMAGED, &s, turn);
    }
}

/* ---- refusals in their order, rooms, records ---- */

static void order_vectors(void)
{
    static const char *const logs[] = {"", CALL("01"), OPENED("01") CALL("02") LOSS("01") ORDER("03"), CALL("01") CALL("02") CALL("03") CALL("04"),
                                       CONTACT("03") OPENED_RIU("01") CALL("01") DROP("01") CALL("02")};
    static const char *const records[] = {
        "", "00", "0C", "0A", "0A 000000", "0A 00000003 00", TIME("03"), "0A 01000003", "0A 02000003", "0A 00003FFF", UP("03"), LOSS("03"), LOSS("01"), UP("01"),
        CALL("04"), CALL("03"), CALL("01"), "0B 01000004 26 00", "0B 01000001 26 00", "0B 00000004 26 01", "0B 02000004 26 00", "0B 00003FFF 26 00", "0B 00000004 26", GOOD("03"), DONE("03"),
        DONE("01"), ORDER("05"), CLOSING("05"), ORDER("03"), ORDER("01"), "05 00000005 01 04", "05 00000001 01 04", "05 00003FFF 01 04", "05 00000005 02 01", "05 00000005 01 05",
        ORDER_LAST, "07 02", "02 03", "02 00", "07 00", "04 00", DROP("03"), DROP("09"),
    };
    for (size_t i = 0; i < sizeof logs / sizeof logs[0]; i++)
        for (size_t k = 0; k < sizeof records / sizeof records[0]; k++) {
            const Sets good = after(usual, logs[i]);
            const Bytes r = hex(records[k]);
            Sets bad = good;
            if ((i + k) % 2)                               /* 11 by a set, and by another field */
                bad.set[SET_LOST].member[3].tries = 1;
            else
                bad.level = 5;
            step_on(ORDERED, &good, 20, r.b, r.n);
            if ((i + k) % 3 == 0)
                step_on(ORDERED, &good, 19, r.b, r.n);
            if ((i + k) % 3 == 1)
                step_on(ORDERED, &bad, 20, r.b, r.n);
            if ((i + k) % 6 == 2)
                step_on(ORDERED, &bad, 19, r.b, r.n);
        }
    /* no last known RBC, all four there: 4, 15, 5, 8 */
    Sets full = nobody(0, 3);
    fill(&full, SET_CALLING, MEMBERS, 0);
    short_event(ORDERED, &full, "05 00003FFF 01 04");
    short_event(ORDERED, &full, ORDER_LAST);
    full.last = KNOWN | 0x777;
    short_event(ORDERED, &full, ORDER_LAST);
    full.last = KNOWN | full.set[SET_CALLING].member[2].who;
    short_event(ORDERED, &full, CLOSING_LAST);
}

static void room_vectors(void)
{
    static const struct { const char *log, *record; } some[] = {
        {CALL("01") CALL("02") OPENED("03") LOSS("02"), CLOSING("04")},       /* four actions */
        {CALL("01") ORDER("02") CONTACT("03") OPENED("04"), "07 00"}, {CALL("01") CALL("02"), "02 00"}, {CALL("01"), LOSS("01")}, {CALL("01") LOSS("01"), UP("01")},
        {"", ORDER("01")}, {"", DROP("01")}, {CONTACT("01"), WRONG("01")},
    };
    for (size_t i = 0; i < sizeof some / sizeof some[0]; i++) {
        const Sets s = after(usual, some[i].log);
        const Bytes r = hex(some[i].record);
        for (size_t room = 0; room <= 25; room++)
            if (i < 2 || room >= 18 || room % 5 == 0)
                step_on(ROOMS, &s, room, r.b, r.n);
        static const uint16_t more[] = {40, 255, 256, 276, 4095, 4096};
        for (size_t k = 0; k < sizeof more / sizeof more[0]; k++)
            step_on(ROOMS, &s, more[k], r.b, r.n);
    }
}

static void record_vectors(void)
{
    static const char *const logs[] = {CALL("01") OPENED("02") LOSS("02") CONTACT("03"), ORDER("03")};
    static const char *const records[] = {"01 02 01", "02 00", "03", "04 01", CLOSING("05"), DROP("03"), "07 00", UP("02"), LOSS("01"), TIME("03"), CALL("05"), GOOD("03")};
    for (size_t i = 0; i < sizeof logs / sizeof logs[0]; i++) {
        const Sets s = after(usual, logs[i]);
        for (size_t k = 0; k < sizeof records / sizeof records[0]; k++) {
            Bytes r = hex(records[k]);
            const uint8_t more[3] = {0, 3, 0};
            append(&r, more, sizeof more);
            for (size_t length = 0; length <= r.n; length++)
                if (i == 0 || length + 3 >= r.n)
                    step_on(CUT, &s, ACTION_BUFFER, r.b, length);
        }
        static const uint8_t longest[RECORD_MOST] = {EV_TIMEOUT, 0, 0, 0, 3};
        for (size_t length = 16; length <= RECORD_MOST; length = 2 * length - (length == 128))
            step_on(CUT, &s, ACTION_BUFFER, longest, length);
        for (unsigned kind = 0; kind < 256; kind++) {
            if (i == 1 && kind > 20 && kind % 16)
                continue;
            const uint8_t r[7] = {(uint8_t)kind, 0, 0, 0, 3, 0, 1};
            step_on(KINDS, &s, ACTION_BUFFER, r, i == 0 ? 5 : 7);
        }
    }
    /* fields */
    static const char *const fields[] = {
        "01 05 00", "01 FF 00", "01 00 02", "01 04 FF", "02 03", "02 FF", "04 02", "04 FF", "07 02", "07 FF", "05 02000005 01 01", "05 FF000005 01 01", "05 00000005 02 01",
        "05 00000005 FF 01", "05 00000005 01 05", "05 00000005 01 FF", "05 02000003 01 01", "05 00000003 01 05", "06 02000003", "06 FF000003", "08 02000003", "08 FF000003",
        "09 02000003", "0A 02000003", "0A 80000003", "0A FFFFFFFF", "08 FFFFFFFF", "06 00003FFF", "08 00003FFF", "09 00FFFFFF", "0A 00007FFF", "0B 00003FFF 20 11", "0B 00FFFFFF 26 00",
        "0B 00003FFF 27 00", "0B 00000003 20 80", "0B 00000003 20 FF", "0B 00000003 26 01", "0B 00000003 27 01", "0B 00000003 00 00", "0B 00000003 1F 00", "0B 00000003 21 00",
        "0B 00000003 25 00", "0B 00000003 28 00", "0B 00000003 FF 00", "0B 02000003 20 11", "0B 02000005 26 00", "0B 00000005 26 80", "0B 00000005 27 00", "0A 01000003", "08 00000000",
        "0A 00000004", "0A 01000004", "0A 00010003", "0A 00000103", "0A 00800003", "08 01003FFF", "06 01FFFFFF", "05 01003FFF 01 01", "05 00FFFFFF 01 01", "05 00003FFE 01 01",
        "0B 00000003 20 0F", "0B 00000003 20 10", "0B 00000003 20 1F", "0B 00000003 20 2F", "0B 00000003 20 30", "0B 00000003 20 7F", "0B 00000003 20 00",
    };
    for (size_t i = 0; i < 2; i++) {
        const Sets s = after(usual, i == 0 ? CALL("01") CONTACT("03") : ORDER_RIU("04") OPENED("03") LOSS("03"));
        for (size_t k = 0; k < sizeof fields / sizeof fields[0]; k++)
            short_event(FIELDS, &s, fields[k]);
    }
}

static void step_named(Sets *s, uint8_t kind, uint32_t who, uint8_t b5, uint8_t b6)
{
    uint8_t r[8] = {0};
    step_vector(TRIES, s, ACTION_BUFFER, r, put_event(r, kind, who, b5, b6));
}

/* Timeouts to the end in each set, with another member in the set, for each number of tries. */
static void tries_vectors(void)
{
    for (uint8_t n = 1; n <= TRIES_MOST; n++) {
        Sets s = after((Limits){1, 2, n}, n % 2 ? ORDER("01") CALL("07") : CONTACT("07"));
        const unsigned most = n > 5 ? n - 3u : 0;          /* the first of many tries are alike */
        step_named(&s, EV_ORDER, 5, 1, 1);
        for (unsigned k = 1; k < n; k++)
            step_named(&s, EV_TIMEOUT, 5, 0, 0);
        step_named(&s, EV_UP, 5, 0, 0);
        for (unsigned k = 1; k < n; k++)
            step_named(&s, EV_TIMEOUT, 5, 0, 0);
        step_named(&s, EV_MESSAGE, 5, 32, n % 4 == 1 ? 0x50 : 0x20);
        if (n % 4 != 1)
            step_named(&s, EV_DROP, 5, 0, 0);
        for (unsigned k = 0; k < n; k++)
            step_named(&s, EV_TIMEOUT, 5, 0, 0);
        step_named(&s, EV_TIMEOUT, 5, 0, 0);
        /* a call, lost; then calling and contacted to the end */
        Sets t = after((Limits){1, 2, n}, CALL("05") LOSS("05") CALL("06") LOSS("06"));
        t.set[SET_LOST].member[0].tries = (uint8_t)(most + 1);
        for (unsigned k = most; k < n; k++)
            step_named(&t, EV_TIMEOUT, 5, 0, 0);
        Sets u = after((Limits){1, 2, n}, ORDER("05") ORDER("06") CONTACT("08") CONTACT("09"));
        u.set[SET_CALLING].member[0].tries = u.set[SET_CONTACTED].member[0].tries = n;
        step_named(&u, EV_TIMEOUT, 6, 0, 0);
        step_named(&u, EV_TIMEOUT, 5, 0, 0);
        step_named(&u, EV_TIMEOUT, 9, 0, 0);
        step_named(&u, EV_TIMEOUT, 8, 0, 0);
    }
}

/* ---- random ---- */

/* The members in places, for the generator to look at. */
static State view_of(const Sets *s)
{
    static const uint8_t phases[SETS] = {CONNECTING, CONTACTING, OPEN, OPEN, LOST, ENDING};
    State v;
    unsigned place = 0;
    cold_start(&v, s->lowest, s->highest, s->n);
    v.level = s->level;
    v.mission = s->mission;
    v.inside = s->inside;
    v.mode = s->mode;
    v.manual = s->manual;
    v.hole_end = s->hole_end;
    v.last = s->last;
    for (unsigned set = 0; set < SETS; set++)
        for (unsigned i = 0; i < s->set[set].count; i++, place++) {
            v.phase[place] = phases[set];
            v.partner[place] = s->set[set].member[i].who;
            v.tries[place] = s->set[set].member[i].tries;
            v.direction[place] = s->set[set].member[i].direction;
        }
    return v;
}

/* A record about few partners, dense in orders, calls and timeouts; some of its own making, some of the generator's. */
static size_t dense_record(Rng *g, const Sets *s, uint32_t pool, bool framed, uint8_t *r)
{
    const State view = view_of(s);
    const uint32_t d = rng_below(g, 100), number = 1 + rng_below(g, pool), b5 = rng_below(g, 2), version = 16 * s->lowest + rng_below(g, 24);
    const unsigned i = rng_below(g, PLACES);
    const uint32_t any = (number % 3 == 0 ? 0x01000000u : 0) | number;
    const uint32_t who = view.phase[i] != FREE ? view.partner[i] : any;
    memset(r, 0, GEN_MOST);
    if (d < 22) return put_event(r, EV_ORDER, any, (uint8_t)b5, 1);
    if (d < 31) return put_event(r, EV_MESSAGE, number, 38, 0);
    if (d < 48) return put_event(r, EV_TIMEOUT, who, 0, 0);
    if (d < 61) return put_event(r, EV_UP, who, 0, 0);
    if (d < 71) return put_event(r, EV_MESSAGE, who, 32, (uint8_t)(version & 127));
    if (d < 79) return put_event(r, EV_LOST, who, 0, 0);
    if (d < 84) return put_event(r, EV_DROP, who, 0, 0);
    if (d < 89) return put_event(r, EV_MESSAGE, who, 39, 0);
    if (d < 91) { r[0] = d == 89 ? EV_END_ALL : EV_MISSION; r[1] = (uint8_t)b5; return 2; }
    if (d < 93) return put_event(r, EV_ORDER, LAST_KNOWN, (uint8_t)b5, 1);
    return gen_record_last(g, &view, framed, r);
}

enum { DENSE_HISTORIES = 33, DEEP_HISTORIES = 10, DENSE_LONG = 72, DEEP_LONG = 56 };

static void history_vectors(void)
{
    Rng g = {710};
    for (int i = 0; i < DENSE_HISTORIES; i++) {
        const Limits l = some_limits(&g);
        Sets s = cold(l);
        const uint32_t pool = 4 + (uint32_t)i % 3;
        for (int k = 0; k < DENSE_LONG; k++) {
            uint8_t r[GEN_MOST];
            const size_t length = dense_record(&g, &s, pool, false, r), room = k % 8 ? ACTION_BUFFER : 18 + rng_below(&g, 20);
            step_vector(HISTORIES, &s, room, r, length);
        }
    }
    for (int i = 0; i < DEEP_HISTORIES; i++) {
        const Limits l = some_limits(&g);
        Sets s = cold(l);
        for (int k = 0; k < DEEP_LONG; k++) {
            uint8_t r[GEN_MOST];
            const State view = view_of(&s);
            const size_t length = gen_record_last(&g, &view, false, r);
            step_vector(DEEP, &s, ACTION_BUFFER, r, length);
        }
    }
}

static Bytes random_log(Rng *g, Sets s, size_t records)
{
    Bytes out;
    uint8_t r[GEN_MOST], room[ACTION_BUFFER];
    const uint32_t pool = 4 + rng_below(g, 3);
    out.n = 0;
    while (records-- > 0) {
        const size_t n = dense_record(g, &s, pool, true, r);
        append(&out, r, n);
        sets_step(&s, r, n, room, sizeof room);
    }
    return out;
}

/* ---- runs ---- */

enum { HAND_TRIES = 10, HAND_SETS = 13 };                  /* two of the hand-written histories */

static void run_vectors(void)
{
    const Sets begin = cold(usual), full = after(usual, CALL("01") OPENED("02") LOSS("02") CONTACT("03") ORDER("04"));
    const Bytes log = hex(hands[HAND_TRIES].text), all = hex(hands[HAND_SETS].text);
    /* every budget */
    for (uint32_t budget = 0; budget <= 25; budget++) {
        const Log one = times(1, &log), two = times(2, &all);
        run_vector(R_BUDGETS, &begin, budget, &one);
        run_vector(R_BUDGETS, budget % 2 ? &full : &begin, 3 * budget, &two);
    }
    static const uint32_t far[] = {255, 256, 65535, 65536, 0x7FFFFFFF, 0x80000000, 0xFFFFFFFF};
    const Bytes mode = hex("03"), pair = hex("03 03");
    for (size_t i = 0; i < sizeof far / sizeof far[0]; i++) {
        const Log one = times(1, &log), longest = times(LOG_LONGEST / log.n, &log), modes = times(LOG_LONGEST / 2, &pair);
        run_vector(R_BUDGETS, &begin, far[i], &one);
        run_vector(R_LONG, &full, far[i], &longest);
        run_vector(R_LONG, &begin, far[i], &modes);
    }
    /* stops: each kind behind the records, each record cut, nothing; the budget before an unknown kind, that before a short record */
    for (unsigned kind = 0; kind < 256; kind++) {
        if (kind > 14 && kind % 16 != 5)
            continue;
        for (size_t length = 1; length <= 8; length++) {
            if (kind > 11 && length > 2)
                break;
            Log one = times(1, &mode);
            const uint8_t r[8] = {(uint8_t)kind, 0, 0, 0, 3};
            append(&one.tail, r, length);
            run_vector(R_STOPS, &full, length % 3 == 2 ? 1 : length % 3 == 1 ? 9 : 2, &one);
        }
    }
    static const char *const tails[] = {"", "00", "0C 03", "0A 0000", "05 00000005 01", "0B", "00 0A", "FF 03 03", "03 00", "03 0A 00"};
    for (size_t i = 0; i < sizeof tails / sizeof tails[0]; i++)
        for (uint32_t budget = 3; budget <= 6; budget++) {
            Log one = times(1, &log);
            one.block.n = 4 * 7;                           /* four orders */
            one.tail = hex(tails[i]);
            run_vector(R_STOPS, &begin, budget, &one);
        }
    /* every byte of two logs, one or two other values */
    for (size_t k = 0; k < 2; k++) {
        const Bytes good = k ? all : log;
        for (size_t at = 0; at < good.n; at++) {
            Bytes t = good;
            t.b[at] ^= 1;
            const Log flipped = once(t.b, t.n);
            run_vector(R_DAMAGED, k ? &full : &begin, 1000, &flipped);
            t.b[at] = (uint8_t)(at % 3 == 0 ? 0 : at % 3 == 1 ? 12 : good.b[at] + 1);
            const Log other = once(t.b, t.n);
            if (at % 2 == k)
                run_vector(R_DAMAGED, &begin, 1000, &other);
        }
    }
    /* long ones */
    for (size_t i = 0; i < HANDS; i++) {
        const Bytes block = hex(hands[i].text);
        const Sets s = cold(hands[i].l);
        const Log many = times(20 + 7 * i, &block), most = times(LOG_LONGEST / block.n, &block);
        run_vector(R_LONG, &s, 100000, &many);
        if (i % 3 == 0)
            run_vector(R_LONG, &s, 100000, &most);
    }
    Rng g = {711};
    for (int i = 0; i < 100; i++) {
        const Limits l = some_limits(&g);
        const Sets s = cold(l);
        const size_t records = 5 + rng_below(&g, 60), repeats = i % 4 ? 1 : 2 + rng_below(&g, 150);
        const uint32_t budget = i % 3 ? 100000 : rng_below(&g, (uint32_t)(records * repeats));
        Bytes block = random_log(&g, s, records);
        if (i % 5 == 1) {                                  /* one draw a statement: the same in every compiler */
            const size_t at = rng_below(&g, (uint32_t)block.n);
            block.b[at] = (uint8_t)rng_below(&g, 40);
        }
        Log random = times(repeats, &block);
        if (i % 5 == 2)
            append(&random.tail, block.b, rng_below(&g, (uint32_t)block.n));
        run_vector(R_RANDOM, &s, budget, &random);
        /* from where it ends */
        Sets t = s;
        RunResult out;
        sets_run(&t, whole, expand(&random), budget, &out);
        if (i % 2)
            run_vector(R_RANDOM, &t, budget, &random);
    }
}

/* ---- a body taken apart ---- */

typedef struct {
    uint8_t operation;
    Limits l;
    Sets s;
    size_t room, length;                   /* of a step: its room, its record; of a run: the log, in 'whole' */
    const uint8_t *record;
    uint32_t budget;
    size_t answer;                         /* where the answer begins in the body */
} Parts;

/* False for a body that is none. */
static bool take_apart(const uint8_t *b, size_t n, Parts *p)
{
    if (n < 1 || b[0] < START || b[0] > RUN)
        return false;
    p->operation = b[0];
    if (p->operation == START) {
        if (n != START_BODY)
            return false;
        p->l = (Limits){b[1], b[2], b[3]};
        p->answer = 4;
        return true;
    }
    if (n < STEP_HEAD)
        return false;
    sets_load(&p->s, b + 1);
    const uint8_t *const from = b + 1 + SETS_BYTES;
    if (p->operation == STEP) {
        p->room = get16(from);
        p->length = from[2];
        p->record = b + STEP_HEAD;
        p->answer = STEP_HEAD + p->length;
        return p->room <= ROOM_MOST && n >= p->answer + STEP_ANSWER;
    }
    if (n < RUN_HEAD)
        return false;
    p->budget = get32(from);
    const size_t repeats = get16(from + 4), block = get16(from + 6);
    if (block > n - RUN_HEAD)
        return false;
    const size_t tail = get16(from + 8 + block);
    p->answer = RUN_HEAD + block + tail;
    if (n != p->answer + RUN_ANSWER || repeats * block + tail > sizeof whole)
        return false;
    uint8_t *to = whole;
    for (size_t i = 0; i < repeats; i++)
        to = put_bytes(to, from + 8, block);
    to = put_bytes(to, from + 10 + block, tail);
    p->length = (size_t)(to - whole);
    return true;
}

/* A body that the model does not give. */
static bool differs(const uint8_t *b, size_t n)
{
    Parts p;
    if (!take_apart(b, n, &p))
        return true;
    const uint8_t *a = b + p.answer;
    uint8_t state[SETS_BYTES];
    if (p.operation == START) {
        const uint8_t code = sets_cold_start(&p.s, p.l.lo, p.l.hi, p.l.n);
        put_sets(state, &p.s);
        return a[0] != code || memcmp(a + 1, state, SETS_BYTES) != 0;
    }
    if (p.operation == RUN) {
        RunResult out;
        sets_run(&p.s, whole, p.length, p.budget, &out);
        put_sets(state, &p.s);
        if (a[0] != out.code || a[1] != out.stop || get32(a + 2) != out.offset || get32(a + 6) != out.read || get32(a + 10) != out.refused)
            return true;
        a += 14;
        for (int i = 0; i < 6; i++, a += 4)
            if (get32(a) != out.total[i])
                return true;
        return memcmp(a, state, SETS_BYTES) != 0;
    }
    uint8_t room[ROOM_MOST + 1];
    memset(room, UNTOUCHED, sizeof room);
    const SetsResult r = sets_step(&p.s, p.record, p.length, room, p.room);
    put_sets(state, &p.s);
    const size_t sent = n - p.answer - STEP_ANSWER;
    if (a[0] != r.code || a[1] != r.count || a[2] != r.phase || memcmp(a + 3, state, SETS_BYTES) != 0 ||
        sent != ACTION_BYTES * (size_t)r.count || memcmp(a + STEP_ANSWER, room, sent) != 0)
        return true;
    for (size_t i = sent; i < sizeof room; i++)
        if (room[i] != UNTOUCHED)
            return true;
    return false;
}

/* ---- spoilt ones ---- */

static FILE *out;
static size_t written;

static void put(const uint8_t *b, size_t n)
{
    uint8_t head[2];
    put16(head, n);
    if (fwrite(head, 1, 2, out) != 2 || fwrite(b, 1, n, out) != n)
        exit(1);
    written++;
}

static void put_spoilt(const uint8_t *b, size_t n)
{
    if (!differs(b, n))
        exit(1);
    printf("%zu\n", written);
    put(b, n);
}

/* A copy with this byte another. */
static void spoil_byte(const uint8_t *b, size_t n, size_t at, uint8_t by)
{
    static uint8_t copy[BODY_MOST];
    memcpy(copy, b, n);
    copy[at] ^= by;
    put_spoilt(copy, n);
}

/* A copy with these two pieces exchanged. */
static void spoil_order(const uint8_t *b, size_t n, size_t one, size_t two, size_t length)
{
    static uint8_t copy[BODY_MOST];
    memcpy(copy, b, n);
    memcpy(copy + one, b + two, length);
    memcpy(copy + two, b + one, length);
    put_spoilt(copy, n);
}

/* The bytes of the last known RBC, which begin at this offset. */
static void spoil_last(const uint8_t *b, size_t n, size_t at)
{
    if ((b[at + 1] | b[at + 2] | b[at + 3]) == 0)
        spoil_byte(b, n, at, 1);
    if (b[at] == 1)
        for (size_t i = 1; i < 4; i++)
            spoil_byte(b, n, at + i, 1);
}

enum { SPREAD = 7 };                       /* of what stands behind the counts, the bytes that one vector spoils: one in so many */

/* The state at this offset: each field alone, to a value that it can hold; behind the counts every byte, or those whose turn it is. */
static void spoil_state(const uint8_t *b, size_t n, size_t at, bool each)
{
    static size_t turn;
    for (size_t i = 0; i < 9; i++)                         /* X numbers, level, mission, marks, n */
        spoil_byte(b, n, at + i, 1);
    spoil_last(b, n, at + 9);
    for (size_t set = 0; set < SETS; set++) {
        const size_t from = at + SETS_HEAD + SET_BYTES * set, members = b[from];
        spoil_byte(b, n, from, 1);
        for (size_t i = 0; i < MEMBERS * MEMBER_BYTES; i++)
            if (each || i / MEMBER_BYTES < members || turn++ % SPREAD == 0)
                spoil_byte(b, n, from + 1 + i, 1);
        for (size_t i = 1; i < members && i < MEMBERS; i++)                    /* the other order */
            if (memcmp(b + from + 1 + MEMBER_BYTES * (i - 1), b + from + 1 + MEMBER_BYTES * i, MEMBER_BYTES) != 0)
                spoil_order(b, n, from + 1 + MEMBER_BYTES * (i - 1), from + 1 + MEMBER_BYTES * i, MEMBER_BYTES);
        if (set > 0 && memcmp(b + from, b + from - SET_BYTES, SET_BYTES) != 0)     /* the one set for the other */
            spoil_order(b, n, from - SET_BYTES, from, SET_BYTES);
    }
}

static void spoil_vector(const uint8_t *b, size_t n, bool each)
{
    static uint8_t copy[BODY_MOST + ACTION_BYTES];
    Parts p;
    if (!take_apart(b, n, &p))
        exit(1);
    put(b, n);
    const size_t at = p.answer;
    spoil_byte(b, n, at, 1);                               /* the code by one bit, and refused or not */
    spoil_byte(b, n, at, b[at] == 0 ? 11 : b[at]);
    if (p.operation == START) {
        spoil_state(b, n, at + 1, each);
        return;
    }
    if (p.operation == RUN) {
        spoil_byte(b, n, at + 1, 1);                       /* stop */
        spoil_byte(b, n, at + 1, 2);
        for (size_t i = 2; i < 2 + 9 * 4; i++)             /* offset, read, refused, totals: lowest byte, and one other */
            if (each || i % 4 == 1 || i / 4 % 3 == i % 4)
                spoil_byte(b, n, at + i, 1);
        spoil_state(b, n, at + 2 + 9 * 4, each);
        return;
    }
    spoil_byte(b, n, at + 1, 1);                           /* count, phase */
    spoil_byte(b, n, at + 2, 1);
    spoil_byte(b, n, at + 2, 4);
    spoil_state(b, n, at + 3, each);
    const size_t from = at + STEP_ANSWER;
    for (size_t i = from; i < n; i++)                      /* each action's number, and some bytes of its partner */
        if (each || (i - from) % ACTION_BYTES == 0 || (i - from) % 3 == 0)
            spoil_byte(b, n, i, 1);
    for (size_t i = from + ACTION_BYTES; i < n; i += ACTION_BYTES)              /* the other order */
        spoil_order(b, n, i - ACTION_BYTES, i, ACTION_BYTES);
    if (n > from) {
        memcpy(copy, b, n);                                /* an action less */
        copy[at + 1]--;
        put_spoilt(copy, n - ACTION_BYTES);
    }
    if (b[at] == 0 && b[at + 1] < 4) {                     /* an action more: 22 or 21 to the record's partner */
        memcpy(copy, b, n);
        copy[at + 1]++;
        memset(copy + n, 0, ACTION_BYTES);
        copy[n] = n > from ? ACT_RELEASE : ACT_REQUEST;
        memcpy(copy + n + 1, b + STEP_HEAD + 1, p.length >= 5 ? 4 : 0);
        put_spoilt(copy, n + ACTION_BYTES);
    }
}

enum { ACTIONS_AT = 8 };                                   /* where a sort has the number of actions */

/* The sort of the vector of this number: operation, code, actions, which sets have members afterwards; 0 for a long one. */
static uint32_t sort_of(size_t i)
{
    enum { MOST = 700 };
    const uint8_t *const b = file + index_of[i].at + 2;
    const size_t n = get16(b - 2);
    Parts p;
    if (n > MOST || !take_apart(b, n, &p))
        return 0;
    const unsigned actions = p.operation == STEP ? b[p.answer + 1] : 0;
    const uint8_t *const state = p.operation == STEP ? b + p.answer + 3 : b + n - SETS_BYTES;
    uint32_t filled = 0;
    for (unsigned set = 0; set < SETS; set++)
        filled |= (uint32_t)(state[SETS_HEAD + SET_BYTES * set] > 0) << set;
    return (uint32_t)p.operation << 24 | (uint32_t)b[p.answer] << 16 | actions << ACTIONS_AT | filled;
}

/* The group's first vector of a sort that is none of these, and its first where each is. */
static size_t first_other(unsigned group, const uint32_t *sorts, size_t many)
{
    size_t first = vectors;
    for (size_t i = 0; i < vectors; i++) {
        const uint32_t sort = index_of[i].group == group ? sort_of(i) : 0;
        if (sort == 0)
            continue;
        size_t k = 0;
        while (k < many && sorts[k] != sort)
            k++;
        if (k == many)
            return i;
        if (first == vectors)
            first = i;
    }
    return first;
}

static void spoil_at(size_t i, bool each)
{
    if (i == vectors)
        exit(1);
    spoil_vector(file + index_of[i].at + 2, get16(file + index_of[i].at), each);
}

/* Of each group one, of a sort that no group before it gave where there is one; the first step with four actions; the first step that leaves
 * two members in a set, for each set. Every byte of the answer: of a start, of two steps and of a run. */
static void spoil_some(void)
{
    uint32_t sorts[GROUPS];
    for (unsigned group = 0; group < GROUPS; group++) {
        const size_t i = first_other(group, sorts, group);
        spoil_at(i, group == STARTS || group == HAND || group == R_HAND);
        sorts[group] = sort_of(i);
    }
    size_t four = 0;
    while (four < vectors && (sort_of(four) >> ACTIONS_AT & 0xFF) != 4)
        four++;
    spoil_at(four, true);
    for (unsigned set = 0; set < SETS; set++) {
        size_t i = 0;
        for (; i < vectors; i++) {
            const uint8_t *const b = file + index_of[i].at + 2;
            Parts p;
            if (index_of[i].group == AMONG && take_apart(b, get16(b - 2), &p) && b[p.answer] == 0 && b[p.answer + 3 + SETS_HEAD + SET_BYTES * set] >= 2)
                break;
        }
        spoil_at(i, false);
    }
}

/* ---- the check ---- */

static int check(FILE *in)
{
    file_length = fread(file, 1, sizeof file, in);
    size_t at = 0, n;
    for (size_t i = 0; at < file_length; i++, at += 2 + n) {
        n = file_length - at < 2 ? BODY_MOST : get16(file + at);
        if (file_length - at < 2 + n) {
            puts("the file is cut");
            return 1;
        }
        if (differs(file + at + 2, n))
            printf("%zu\n", i);
    }
    return 0;
}

int main(int argc, char **argv)
{
    const char *const what = argc == 3 ? argv[1] : "";
    const bool spoil = strcmp(what, "spoil") == 0;
    if (!spoil && strcmp(what, "write") != 0 && strcmp(what, "check") != 0) {
        fputs("usage: sets_vectors write|spoil|check FILE\n", stderr);
        return 2;
    }
    if (strcmp(what, "check") == 0) {
        FILE *const in = fopen(argv[2], "rb");
        return in ? check(in) : 1;
    }
    start_vectors();
    hand_vectors();
    every_vectors();
    near_vectors();
    mix_vectors();
    type_vectors();
    cause_vectors();
    behind_vectors();
    count_vectors();
    member_vectors();
    twice_vectors();
    five_vectors();
    other_vectors();
    damaged_vectors();
    order_vectors();
    room_vectors();
    record_vectors();
    tries_vectors();
    history_vectors();
    run_vectors();
    out = fopen(argv[2], "wb");
    if (!out)
        return 1;
    if (spoil) {
        spoil_some();
    } else {
        if (fwrite(file, 1, file_length, out) != file_length)
            return 1;
        for (unsigned group = 0; group < GROUPS; group++) {
            size_t many = 0, bytes = 0;
            for (size_t i = 0; i < vectors; i++)
                if (index_of[i].group == group) {
                    many++;
                    bytes += (i + 1 < vectors ? index_of[i + 1].at : file_length) - index_of[i].at;
                }
            printf("%6zu vectors %8zu bytes  %s\n", many, bytes, group_name[group]);
        }
        printf("%6zu vectors %8zu bytes in all\n", vectors, file_length);
    }
    return fclose(out) == 0 ? 0 : 1;
}
