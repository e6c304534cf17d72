/* Test of the shunter against request Q-10. The steps of the first parts are written out by hand; afterwards every small shunter and
 * random histories are held to a slow telling of the request over partners, with the modems read from the actions that went out. */
#include "gen.h"
#include "shunter_model.h"

#include <stdio.h>
#include <stdlib.h>
#include <string.h>

static unsigned long checks, failures, steps, waited, refused_17, refused_18, fours;

static void check_at(bool ok, int line, const char *text)
{
    checks++;
    if (!ok && failures++ < 20)
        printf("line %d: %s\n", line, text);
}
#define CHECK(c) check_at((c), __LINE__, #c)

/* ---- help ---- */

enum { BYTES_MOST = 8192, BUFFER = 64 };

typedef struct { uint8_t b[BYTES_MOST]; size_t n; } Bytes;

static Bytes hex(const char *text)
{
    Bytes out;
    out.n = 0;
    for (; *text; text++) {
        if (*text == ' ' || *text == '|')
            continue;
        const char two[3] = {text[0], text[1], 0};
        out.b[out.n++] = (uint8_t)strtoul(two, NULL, 16);
        text++;
    }
    return out;
}

/* Actions as the sheet writes them: number:type/partner, blanks between. */
static Bytes actions_of(const char *text)
{
    Bytes out;
    out.n = 0;
    while (*text) {
        char *p;
        const unsigned long number = strtoul(text, &p, 10), type = strtoul(p + 1, &p, 10), who = strtoul(p + 1, &p, 10);
        const uint8_t action[5] = {(uint8_t)number, (uint8_t)type, (uint8_t)(who >> 16), (uint8_t)(who >> 8), (uint8_t)who};
        memcpy(out.b + out.n, action, sizeof action);
        out.n += sizeof action;
        for (text = p; *text == ' '; text++)
            ;
    }
    return out;
}

static uint32_t partner_in(const uint8_t *b) { return (uint32_t)b[0] << 24 | (uint32_t)b[1] << 16 | (uint32_t)b[2] << 8 | b[3]; }

static bool same(const Shunter *a, const Shunter *b)
{
    return memcmp(&a->box, &b->box, sizeof a->box) == 0 && memcmp(a->queue, b->queue, sizeof a->queue) == 0;
}

static bool queued(const Shunter *s, unsigned place) { return s->queue[0] == place || s->queue[1] == place; }

static bool has_modem(const Shunter *s, unsigned place) { return s->box.phase[place] != FREE && !queued(s, place); }

static unsigned modems(const Shunter *s)
{
    unsigned n = 0;
    for (unsigned i = 0; i < PLACES; i++)
        n += has_modem(s, i);
    return n;
}

/* The rules of the state, sentence by sentence. */
static bool slow_sound(const Shunter *s)
{
    const uint8_t one = s->queue[0], two = s->queue[1];
    if (!sound(&s->box) || one > 4 || two > 4 || (one == 4 && two != 4) || (one == two && one != 4))
        return false;
    for (int i = 0; i < 2; i++) {
        const uint8_t place = s->queue[i];
        if (place < 4 && (s->box.phase[place] != 1 || s->box.tries[place] != 1 || s->box.direction[place] != 0))
            return false;
    }
    return modems(s) <= 2 && (one == 4 || modems(s) == 2);
}

/* A step, held to what every step promises: the record stays; a refusal changes neither box, queue nor any byte; an accepted one
 * writes its actions alone, at most four, and what it leaves is sound. */
static StepResult stepped(Shunter *s, const uint8_t *record, size_t length, uint8_t *room, size_t room_length)
{
    const Shunter was = *s;
    uint8_t *const lent = malloc(length + 1);
    if (!lent || room_length > BUFFER)
        exit(1);
    memcpy(lent + 1, record, length);                      /* at the end of its own allocation */
    memset(room, 0xEE, BUFFER);
    const StepResult r = shunter_step(s, lent + 1, length, room, room_length);
    CHECK(memcmp(lent + 1, record, length) == 0);
    free(lent);
    steps++;
    waited += s->queue[0] != NOBODY;
    refused_17 += r.code == 17;
    refused_18 += r.code == 18;
    fours += r.count == 4;
    if (r.code != 0) {
        CHECK(same(s, &was) && r.count == 0);
        CHECK(r.code == 5 || r.code == 7 || (r.place == 4 && r.phase == 0));
    } else {
        CHECK(r.count <= 4 && r.place == 4 && r.phase == 0 && shunter_sound(s) && slow_sound(s));
    }
    for (size_t i = ACTION_BYTES * r.count; i < BUFFER; i++)
        if (room[i] != 0xEE) {
            CHECK(!"a later byte");
            break;
        }
    return r;
}

/* ---- steps written out ---- */

static Shunter now;

static void begin(uint8_t lo, uint8_t hi, uint8_t n) { CHECK(shunter_cold_start(&now, lo, hi, n) == 0); }

static void goes_at(int line, const char *record_text, const char *actions_text, const char *holders, const char *queue)
{
    const Bytes record = hex(record_text), want = actions_of(actions_text);
    uint8_t room[BUFFER];
    const StepResult r = stepped(&now, record.b, record.n, room, ACTION_BUFFER);
    check_at(r.code == 0, line, "accepted");
    check_at(ACTION_BYTES * (size_t)r.count == want.n && memcmp(room, want.b, want.n) == 0, line, "what goes out");
    for (unsigned i = 0; i < PLACES; i++)
        check_at(has_modem(&now, i) == (strchr(holders, '0' + (int)i) != NULL), line, "the modems");
    for (size_t i = 0; i < 2; i++)
        check_at(now.queue[i] == (i < strlen(queue) ? (uint8_t)(queue[i] - '0') : 4), line, "the queue");
}
/* the record, what goes out, the places that have a modem then, those that wait then */
#define GOES(...) goes_at(__LINE__, __VA_ARGS__)

static void refused_at(int line, const char *record_text, size_t room_length, uint8_t code, uint8_t place, uint8_t phase)
{
    const Bytes record = hex(record_text);
    uint8_t room[BUFFER];
    const StepResult r = stepped(&now, record.b, record.n, room, room_length);
    check_at(r.code == code && r.count == 0 && r.place == place && r.phase == phase, line, "the refusal");
}
#define REFUSED(record, code) refused_at(__LINE__, record, 20, code, 4, 0)
#define REFUSED_AT(record, code, place, phase) refused_at(__LINE__, record, 20, code, place, phase)
#define REFUSED_IN(room, record, code) refused_at(__LINE__, record, room, code, 4, 0)

#define ORDER(k) "05 000000" k " 01 01"                    /* accepting, trackside */
#define ORDER_CLOSING(k) "05 000000" k " 00 01"
#define ORDER_RIU(k) "05 010000" k " 01 01"
#define CALL(k) "0B 000000" k " 26 00"
#define DONE(k) "0B 000000" k " 27 00"
#define VERSION(k, v) "0B 000000" k " 20 " v
#define DROP(k) "06 000000" k
#define UP(k) "08 000000" k
#define LOST_(k) "09 000000" k
#define TIMEOUT(k) "0A 000000" k

static void place_at(int line, unsigned i, uint8_t phase, uint8_t direction, uint8_t tries, uint32_t who)
{
    const State *const b = &now.box;
    check_at(b->phase[i] == phase && b->direction[i] == direction && b->tries[i] == tries && b->partner[i] == who, line, "the place");
}
#define PLACE(...) place_at(__LINE__, __VA_ARGS__)

static void test_start(void)
{
    for (unsigned lo = 0; lo < 256; lo += lo < 12 ? 1 : 61)
        for (unsigned hi = 0; hi < 256; hi += hi < 12 ? 1 : 61)
            for (unsigned n = 0; n < 256; n += n < 12 ? 1 : 61) {
                const bool good = hi <= 7 && lo <= hi && n >= 1 && n <= 9;
                Shunter s;
                State core;
                memset(&s, 0x5A, sizeof s);
                CHECK(shunter_cold_start(&s, (uint8_t)lo, (uint8_t)hi, (uint8_t)n) == (good ? 0 : 13));
                CHECK(cold_start(&core, (uint8_t)lo, (uint8_t)hi, (uint8_t)n) == (good ? 0 : 13));
                CHECK(memcmp(&s.box, &core, sizeof core) == 0 && s.queue[0] == 4 && s.queue[1] == 4);
                CHECK(shunter_sound(&s) && slow_sound(&s) && modems(&s) == 0);
                CHECK(good || (s.box.lowest == 0 && s.box.highest == 0 && s.box.n == 3));
            }
}

/* "A newly ordered place joins the end of a queue and its 21 is held back." "Each free modem goes to the place waiting longest." */
static void test_queue(void)
{
    begin(1, 2, 3);
    GOES(ORDER("01"), "21:0/1", "0", "");                  /* a free modem: it joins and is served */
    GOES(ORDER("02"), "21:0/2", "01", "");
    GOES(ORDER("03"), "", "01", "2");
    PLACE(2, CONNECTING, OUTGOING, 1, 3);
    GOES(ORDER("04"), "", "01", "23");
    PLACE(3, CONNECTING, OUTGOING, 1, 4);
    REFUSED(ORDER("05"), 8);
    /* a modem from the first 21 on: up, Contacting, Open, Lost, Ending keep it */
    GOES(UP("01"), "155:0/1", "01", "23");
    GOES(VERSION("01", "11"), "159:0/1", "01", "23");
    GOES(LOST_("01"), "21:0/1", "01", "23");
    GOES(TIMEOUT("01"), "21:0/1", "01", "23");
    GOES(UP("01"), "", "01", "23");
    GOES(DROP("01"), "156:0/1", "01", "23");
    GOES(TIMEOUT("01"), "156:0/1", "01", "23");
    /* until its 22; the longest waiting is served behind it */
    GOES(DONE("01"), "22:0/1 21:0/3", "12", "3");
    PLACE(2, CONNECTING, OUTGOING, 1, 3);
    GOES(TIMEOUT("03"), "21:0/3", "12", "3");              /* now it takes its events */
    PLACE(2, CONNECTING, OUTGOING, 2, 3);
    /* the lowest free place, the end of the queue */
    GOES(ORDER("06"), "", "12", "30");
    PLACE(0, CONNECTING, OUTGOING, 1, 6);
    GOES(TIMEOUT("02"), "21:0/2", "12", "30");
    GOES(TIMEOUT("02"), "21:0/2", "12", "30");
    GOES(TIMEOUT("02"), "22:0/2 21:0/4", "23", "0");       /* at the last try */
    GOES(UP("03"), "155:0/3", "23", "0");
    GOES(LOST_("03"), "22:0/3 21:0/6", "03", "");          /* lost in Contacting */
    GOES(DROP("04"), "22:0/4", "0", "");                   /* nobody waits */
    GOES(ORDER("07"), "21:0/7", "01", "");
    GOES(DROP("06"), "22:0/6", "1", "");
    GOES(UP("07"), "155:0/7", "1", "");
    GOES(VERSION("07", "30"), "154:0/7 156:0/7", "1", "");
    GOES(LOST_("07"), "22:0/7", "", "");                   /* lost in Ending */
    /* a timeout that releases at once, one try */
    begin(1, 2, 1);
    GOES(ORDER("01"), "21:0/1", "0", "");
    GOES(ORDER("02"), "21:0/2", "01", "");
    GOES(ORDER("03"), "", "01", "2");
    GOES(TIMEOUT("02"), "22:0/2 21:0/3", "02", "");
    GOES(TIMEOUT("03"), "22:0/3", "0", "");
    /* RBC 0, with the bytes of a free place, and an RIU with an RBC's number wait like any other */
    begin(1, 2, 3);
    GOES(CALL("01"), "159:0/1", "0", "");
    GOES(CALL("02"), "159:0/2", "01", "");
    GOES(ORDER("00"), "", "01", "2");
    GOES(ORDER_RIU("01"), "", "01", "23");
    GOES(LOST_("02"), "21:0/2", "01", "23");
    GOES(DROP("02"), "22:0/2 21:0/0", "02", "3");
    GOES(LOST_("01"), "21:0/1", "02", "3");
    GOES(DROP("01"), "22:0/1 21:1/1", "23", "");
}

/* A call 38 holds a modem from the start; 17 is the last refusal. */
static void test_call(void)
{
    begin(1, 2, 3);
    GOES(CALL("01"), "159:0/1", "0", "");
    GOES(CALL("02"), "159:0/2", "01", "");                 /* one modem free: taken */
    REFUSED(CALL("03"), 17);
    REFUSED_AT(CALL("01"), 5, 0, OPEN);
    REFUSED("0B 01000003 26 00", 9);
    REFUSED("0B 00003FFF 26 00", 3);
    REFUSED("0B 00000003 26 01", 3);
    GOES(ORDER("03"), "", "01", "2");                      /* an order waits where a call is refused */
    REFUSED(CALL("04"), 17);
    REFUSED_AT(CALL("03"), 5, 2, CONNECTING);              /* the partner that waits has a place */
    REFUSED_AT(CALL("02"), 5, 1, OPEN);
    REFUSED("0B 01000003 26 00", 9);
    GOES(ORDER("04"), "", "01", "23");
    REFUSED(CALL("05"), 8);                                /* no place: 8 before 17 */
    REFUSED_AT(CALL("04"), 5, 3, CONNECTING);
    REFUSED("0B 01000005 26 00", 9);
    /* what 17 refuses is forgotten: the last known RBC stays 2 */
    CHECK(now.box.last == (KNOWN | 2));
    GOES(DROP("01"), "156:0/1", "01", "23");
    REFUSED(CALL("05"), 8);
    GOES(DONE("01"), "22:0/1 21:0/3", "12", "3");
    REFUSED(CALL("05"), 17);
    GOES(DROP("03"), "22:0/3 21:0/4", "13", "");
    REFUSED(CALL("05"), 17);
    GOES(DROP("04"), "22:0/4", "1", "");
    GOES(CALL("05"), "159:0/5", "01", "");
    REFUSED_AT(CALL("05"), 5, 0, OPEN);
    REFUSED(CALL("06"), 17);
    /* modems in Connecting, Contacting, Lost, Ending count as well */
    begin(1, 2, 3);
    GOES(ORDER("01"), "21:0/1", "0", "");
    GOES(ORDER("02"), "21:0/2", "01", "");
    REFUSED(CALL("03"), 17);
    GOES(UP("01"), "155:0/1", "01", "");
    GOES(VERSION("01", "00"), "154:0/1 156:0/1", "01", "");
    REFUSED(CALL("03"), 17);
    GOES(UP("02"), "155:0/2", "01", "");
    GOES(VERSION("02", "2F"), "159:0/2", "01", "");
    GOES(LOST_("02"), "21:0/2", "01", "");
    REFUSED(CALL("03"), 17);
    GOES(DONE("01"), "22:0/1", "1", "");
    GOES(CALL("03"), "159:0/3", "01", "");
}

/* "18, up, lost or timeout for a waiting place, after 3 and before 7"; its other events are the core's. */
static void test_waiting(void)
{
    begin(1, 2, 3);
    GOES(ORDER("01"), "21:0/1", "0", "");
    GOES(ORDER("02"), "21:0/2", "01", "");
    GOES(ORDER("03"), "", "01", "2");
    GOES(ORDER_RIU("04"), "", "01", "23");
    REFUSED(UP("03"), 18);
    REFUSED(LOST_("03"), 18);                              /* 7 in the core */
    REFUSED(TIMEOUT("03"), 18);
    REFUSED("08 01000004", 18);
    REFUSED("09 01000004", 18);
    REFUSED("0A 01000004", 18);
    REFUSED_AT(LOST_("01"), 7, 0, CONNECTING);             /* one that has a modem */
    REFUSED(UP("04"), 6);                                  /* the other type */
    REFUSED("08 01000003", 6);
    REFUSED("0A 02000003", 3);
    REFUSED("0A 00003FFF", 3);
    REFUSED_AT(VERSION("03", "11"), 7, 2, CONNECTING);
    REFUSED_AT(DONE("03"), 7, 2, CONNECTING);
    REFUSED_AT("0B 01000004 20 11", 7, 3, CONNECTING);
    REFUSED(VERSION("03", "80"), 3);
    REFUSED_AT(ORDER("03"), 5, 2, CONNECTING);
    REFUSED_AT(ORDER_CLOSING("03"), 5, 2, CONNECTING);
    REFUSED_AT(ORDER_RIU("04"), 5, 3, CONNECTING);
    REFUSED("05 00000003 01 04", 4);
    REFUSED("05 00003FFF 01 01", 15);
    /* a drop: it leaves with no 22, the one behind it moves up */
    GOES(DROP("03"), "", "01", "3");
    PLACE(2, FREE, 0, 0, 0);
    REFUSED(UP("03"), 6);
    REFUSED("08 01000004", 18);
    GOES(ORDER("05"), "", "01", "32");
    GOES("06 01000004", "", "01", "2");
    GOES(ORDER("06"), "", "01", "23");
    GOES(DROP("06"), "", "01", "2");                       /* the one behind */
    GOES(DROP("01"), "22:0/1 21:0/5", "12", "");           /* one that has a modem: 22, then 21 */
    GOES(UP("05"), "155:0/5", "12", "");
    /* tries are not counted while it waits: all three later */
    begin(1, 2, 3);
    GOES(CALL("01"), "159:0/1", "0", "");
    GOES(CALL("02"), "159:0/2", "01", "");
    GOES(ORDER("03"), "", "01", "2");
    for (int i = 0; i < 10; i++)
        REFUSED(TIMEOUT("03"), 18);
    GOES(DROP("01"), "156:0/1", "01", "2");
    GOES(LOST_("01"), "22:0/1 21:0/3", "12", "");
    GOES(TIMEOUT("03"), "21:0/3", "12", "");
    GOES(TIMEOUT("03"), "21:0/3", "12", "");
    GOES(TIMEOUT("03"), "22:0/3", "1", "");
}

/* "A waiting place that is released leaves the queue without any 22 going out." */
static void test_released(void)
{
    static const char *const ends[] = {"07 00", "07 01", "02 00"};
    for (size_t i = 0; i < 3; i++) {
        begin(1, 2, 3);
        GOES(ORDER("01"), "21:0/1", "0", "");
        GOES(CALL("02"), "159:0/2", "01", "");
        GOES(ORDER("03"), "", "01", "2");
        GOES(ORDER("04"), "", "01", "23");
        GOES(ends[i], "22:0/1 156:0/2", "1", "");          /* Ending keeps its modem, nobody is left to be served */
        PLACE(0, FREE, 0, 0, 0);
        PLACE(1, ENDING, INCOMING, 1, 2);
        PLACE(2, FREE, 0, 0, 0);
        PLACE(3, FREE, 0, 0, 0);
        GOES(ends[i], "", "1", "");
        GOES(ORDER("03"), "21:0/3", "01", "");
        GOES(ORDER("04"), "", "01", "2");
        GOES(ends[i], "22:0/3", "1", "");
        GOES(LOST_("02"), "22:0/2", "", "");
        GOES(ends[i], "", "", "");
        /* the places that wait stand lower than those that have the modems */
        GOES(ORDER("01"), "21:0/1", "0", "");
        GOES(ORDER("02"), "21:0/2", "01", "");
        GOES(ORDER("03"), "", "01", "2");
        GOES(ORDER("04"), "", "01", "23");
        GOES(DROP("01"), "22:0/1 21:0/3", "12", "3");
        GOES(DROP("02"), "22:0/2 21:0/4", "23", "");
        GOES(ORDER_RIU("05"), "", "23", "0");
        GOES(ORDER("06"), "", "23", "01");
        GOES(UP("04"), "155:0/4", "23", "01");
        GOES(VERSION("04", "10"), "159:0/4", "23", "01");
        GOES(ends[i], "22:0/3 156:0/4", "3", "");
        /* both modems in Ending: those that wait leave all the same */
        GOES(CALL("07"), "159:0/7", "03", "");
        GOES(DROP("07"), "156:0/7", "03", "");
        GOES(ORDER("08"), "", "03", "1");
        GOES(ORDER("09"), "", "03", "12");
        GOES(ends[i], "", "03", "");
        PLACE(1, FREE, 0, 0, 0);
        PLACE(2, FREE, 0, 0, 0);
    }
    /* another mission, level, mode, hole: the queue stays */
    begin(1, 2, 3);
    GOES(CALL("01"), "159:0/1", "0", "");
    GOES(CALL("02"), "159:0/2", "01", "");
    GOES(ORDER("03"), "", "01", "2");
    GOES("02 01", "", "01", "2");
    GOES("02 02", "", "01", "2");
    GOES("01 03 01", "", "01", "2");
    GOES("03", "", "01", "2");
    GOES("04 01", "", "01", "2");
    REFUSED("04 01", 7);
    GOES("04 00", "", "01", "2");
    GOES("05 00000004 01 02", "", "01", "23");             /* the mark of its cause is used up by the order that waits */
    CHECK(now.box.mode == 0 && now.box.manual == 1 && now.box.hole_end == 1);
    REFUSED("05 00000005 01 02", 4);
    REFUSED("05 00000005 01 03", 8);
    CHECK(now.box.manual == 1);
}

/* Orders that are not accepting: the core's closings first, in their order, then those served, longest waiting first. */
static void test_closing(void)
{
    /* two Lost RBCs with the modems, one place waiting: 22, 22, 21, 21 */
    begin(1, 2, 3);
    GOES(CALL("01"), "159:0/1", "0", "");
    GOES(CALL("02"), "159:0/2", "01", "");
    GOES(LOST_("01"), "21:0/1", "01", "");
    GOES(LOST_("02"), "21:0/2", "01", "");
    GOES(ORDER("03"), "", "01", "2");
    GOES(ORDER_CLOSING("04"), "22:0/1 22:0/2 21:0/3 21:0/4", "23", "");
    PLACE(0, FREE, 0, 0, 0);
    PLACE(1, FREE, 0, 0, 0);
    PLACE(3, CONNECTING, OUTGOING, 1, 4);
    /* one Lost: the one that waited is served, the new one waits */
    begin(1, 2, 3);
    GOES(CALL("01"), "159:0/1", "0", "");
    GOES(CALL("02"), "159:0/2", "01", "");
    GOES(LOST_("02"), "21:0/2", "01", "");
    GOES(ORDER("03"), "", "01", "2");
    GOES(ORDER_CLOSING("04"), "156:0/1 22:0/2 21:0/3", "02", "3");
    PLACE(0, ENDING, INCOMING, 1, 1);
    GOES(LOST_("01"), "22:0/1 21:0/4", "23", "");
    /* none waited: the new one is served itself, the core's own row */
    begin(1, 2, 3);
    GOES(CALL("01"), "159:0/1", "0", "");
    GOES(CALL("02"), "159:0/2", "01", "");
    GOES(LOST_("02"), "21:0/2", "01", "");
    GOES(ORDER_CLOSING("04"), "156:0/1 22:0/2 21:0/4", "02", "");
    /* both Open: 156, 156, and the new one waits */
    begin(1, 2, 3);
    GOES(CALL("01"), "159:0/1", "0", "");
    GOES(CALL("02"), "159:0/2", "01", "");
    GOES(ORDER_CLOSING("04"), "156:0/1 156:0/2", "01", "2");
    GOES(ORDER_CLOSING("05"), "", "01", "23");             /* Ending and Connecting stay */
    GOES(DONE("02"), "22:0/2 21:0/4", "02", "3");
    GOES(DONE("01"), "22:0/1 21:0/5", "23", "");
    /* both Lost, none waited: 22, 22, 21 with a modem left */
    begin(1, 2, 3);
    GOES(CALL("01"), "159:0/1", "0", "");
    GOES(CALL("02"), "159:0/2", "01", "");
    GOES(LOST_("01"), "21:0/1", "01", "");
    GOES(LOST_("02"), "21:0/2", "01", "");
    GOES(ORDER_CLOSING("04"), "22:0/1 22:0/2 21:0/4", "2", "");
    /* an RIU ordered closes nothing, an RIU is not closed */
    begin(1, 2, 3);
    GOES(ORDER_RIU("01"), "21:1/1", "0", "");
    GOES(CALL("02"), "159:0/2", "01", "");
    GOES("08 01000001", "155:1/1", "01", "");
    GOES("0B 01000001 20 11", "159:1/1", "01", "");
    GOES("09 01000001", "21:1/1", "01", "");
    GOES(LOST_("02"), "21:0/2", "01", "");
    GOES("05 01000003 00 01", "", "01", "2");
    GOES(ORDER_CLOSING("04"), "22:0/2 21:1/3", "02", "3");
    /* the last known RBC waits, and its 21 names it */
    begin(1, 2, 3);
    GOES(CALL("09"), "159:0/9", "0", "");
    GOES(DROP("09"), "156:0/9", "0", "");
    GOES(DONE("09"), "22:0/9", "", "");
    GOES(ORDER_RIU("01"), "21:1/1", "0", "");
    GOES(ORDER_RIU("02"), "21:1/2", "01", "");
    GOES("05 00003FFF 01 01", "", "01", "2");
    PLACE(2, CONNECTING, OUTGOING, 1, 9);
    REFUSED(TIMEOUT("09"), 18);
    REFUSED_AT("05 0000FFFF 00 01", 5, 2, CONNECTING);
    REFUSED("08 00003FFF", 3);
    GOES("06 01000001", "22:1/1 21:0/9", "12", "");
}

/* Refusals in their order: 10, 11, 1, 2, 1, 3, then 18 or the core's, 17 last. */
static void test_refused(void)
{
    begin(1, 2, 3);
    GOES(CALL("01"), "159:0/1", "0", "");
    GOES(CALL("02"), "159:0/2", "01", "");
    GOES(ORDER("03"), "", "01", "2");
    static const char *const records[] = {"", "00", "0C", "FF", "08", "08 000000", TIMEOUT("03"), TIMEOUT("03") "00", CALL("04"), "05",
                                          ORDER("04"), "0A 02000003", "03", "03 00", "06 00000003", "02 03"};
    static const uint8_t codes[] = {1, 2, 2, 2, 1, 1, 18, 1, 17, 1, 0, 3, 0, 1, 0, 3};
    const Shunter good = now;
    for (size_t i = 0; i < sizeof codes; i++) {
        for (size_t room = 0; room < 20; room++)
            REFUSED_IN(room, records[i], 10);
        now.queue[0] = 4;                                  /* a third modem */
        for (size_t room = 0; room < 30; room++)
            REFUSED_IN(room, records[i], room < 20 ? 10 : 11);
        now = good;
        now.box.level = 5;
        REFUSED_IN(19, records[i], 10);
        REFUSED_IN(20, records[i], 11);
        now = good;
        if (codes[i] != 0)
            REFUSED_IN(20, records[i], codes[i]);
    }
    /* every length of a record about the partner that waits, and of a call */
    for (size_t length = 0; length <= 9; length++) {
        static const uint8_t up[9] = {8, 0, 0, 0, 3}, call[9] = {11, 0, 0, 0, 4, 38};
        uint8_t room[BUFFER];
        CHECK(stepped(&now, up, length, room, 20).code == (length == 5 ? 18 : 1));
        CHECK(stepped(&now, call, length, room, 20).code == (length == 7 ? 17 : 1));
    }
    for (unsigned kind = 0; kind < 256; kind++) {
        const uint8_t record[1] = {(uint8_t)kind};
        uint8_t room[BUFFER];
        CHECK(stepped(&now, record, 1, room, 20).code == (kind == 3 ? 0 : kind >= 1 && kind <= 11 ? 1 : 2));
    }
    /* a refused order leaves the queue */
    begin(1, 2, 3);
    GOES(ORDER("01"), "21:0/1", "0", "");
    GOES(ORDER("02"), "21:0/2", "01", "");
    GOES(ORDER("03"), "", "01", "2");
    REFUSED("05 00000004 01 00", 4);
    REFUSED("05 00000004 01 05", 3);
    REFUSED("05 00000004 02 01", 3);
    REFUSED("05 00003FFF 01 01", 15);
    REFUSED_AT(ORDER("01"), 5, 0, CONNECTING);
    GOES(DROP("02"), "22:0/2 21:0/3", "02", "");
}

/* ---- which shunters are sound ---- */

enum { FORMS = 12 };

static const struct { uint8_t phase, direction, tries, type; } forms[FORMS] = {     /* of a place with a modem; tries 9: the last one */
    {CONNECTING, 0, 1, 0}, {CONNECTING, 0, 9, 1}, {CONTACTING, 0, 1, 1}, {CONTACTING, 0, 9, 0}, {OPEN, 0, 0, 0}, {OPEN, 1, 0, 0},
    {OPEN, 0, 0, 1}, {LOST, 0, 9, 0}, {LOST, 1, 1, 0}, {LOST, 0, 1, 1}, {ENDING, 1, 9, 0}, {ENDING, 0, 1, 1},
};

static void hold(Shunter *s, unsigned place, size_t form)
{
    s->box.phase[place] = forms[form].phase;
    s->box.direction[place] = forms[form].direction;
    s->box.tries[place] = forms[form].tries == 9 ? s->box.n : forms[form].tries;
    s->box.partner[place] = (uint32_t)forms[form].type << 24 | place;          /* RBC 0 to 3, RIU 0 to 3 */
}

static void wait_there(Shunter *s, unsigned place, uint32_t type)
{
    s->box.phase[place] = CONNECTING;
    s->box.direction[place] = OUTGOING;
    s->box.tries[place] = 1;
    s->box.partner[place] = type << 24 | place;
}

/* Every box of free, modem and waiting forms with every small queue: the model's soundness and the slow one. */
static void test_sound(void)
{
    static const uint8_t values[] = {0, 1, 2, 3, 4, 5, 255};
    unsigned long good = 0;
    for (unsigned code = 0; code < 13 * 13 * 13 * 13; code++) {
        Shunter s;
        shunter_cold_start(&s, 1, 2, (uint8_t)(1 + code % 5));
        for (unsigned i = 0, rest = code; i < PLACES; i++, rest /= 13)
            if (rest % 13 != 12)
                hold(&s, i, rest % 13);
        for (size_t i = 0; i < sizeof values; i++)
            for (size_t j = 0; j < sizeof values; j++) {
                s.queue[0] = values[i];
                s.queue[1] = values[j];
                const bool ok = slow_sound(&s);
                good += ok;
                if (shunter_sound(&s) != ok)
                    CHECK(!"sound");
            }
    }
    CHECK(good > 5000);
    /* every two bytes as the queue, over some boxes */
    for (unsigned held = 0; held <= 4; held++) {
        Shunter s;
        shunter_cold_start(&s, 1, 2, 3);
        for (unsigned i = 0; i < held; i++)
            wait_there(&s, i, i % 2);
        unsigned many = 0;
        for (unsigned q = 0; q < 65536; q++) {
            s.queue[0] = (uint8_t)(q >> 8);
            s.queue[1] = (uint8_t)q;
            if (shunter_sound(&s) != slow_sound(&s))
                CHECK(!"sound");
            many += shunter_sound(&s);
        }
        static const unsigned queues[] = {1, 1, 1, 3, 12};
        CHECK(many == queues[held]);
    }
    /* one thing wrong */
    Shunter s, t;
    uint8_t room[BUFFER];
    const uint8_t mode[1] = {3};
    shunter_cold_start(&s, 1, 2, 3);
    hold(&s, 0, 5);
    hold(&s, 1, 4);
    wait_there(&s, 2, 0);
    s.queue[0] = 2;
    CHECK(shunter_sound(&s));
#define BAD(change) do { t = s; change; CHECK(!shunter_sound(&t) && !slow_sound(&t)); CHECK(stepped(&t, mode, 1, room, 20).code == 11); } while (0)
    BAD(t.queue[0] = 4);                                   /* three modems */
    BAD(t.queue[0] = 5);
    BAD(t.queue[1] = 5);
    BAD(t.queue[1] = 2);                                   /* twice the same */
    BAD((t.queue[0] = 4, t.queue[1] = 2));                 /* nobody in front of it */
    BAD(t.queue[0] = 3);                                   /* a free place */
    BAD(t.queue[0] = 0);                                   /* Open */
    BAD(t.queue[1] = 0);
    BAD(t.box.tries[2] = 2);
    BAD(t.box.tries[2] = 0);
    BAD(t.box.direction[2] = 1);
    BAD(t.box.phase[2] = CONTACTING);
    BAD(t.box.phase[2] = LOST);
    BAD(hold(&t, 3, 5));                                   /* a third modem */
    BAD(memset(t.box.phase, 0, 1));                        /* the box */
    BAD(t.box.level = 5);
    BAD(t.box.n = 0);
    BAD(t.box.partner[2] = t.box.partner[1]);
    t = s;
    hold(&t, 3, 0);
    CHECK(!shunter_sound(&t));
    t.queue[1] = 3;
    CHECK(shunter_sound(&t));
    t.queue[0] = 3;
    t.queue[1] = 2;
    CHECK(shunter_sound(&t));
    t.box.phase[0] = t.box.direction[0] = 0;               /* an idle modem while two wait, RBC 0's place now free */
    CHECK(sound(&t.box) && !shunter_sound(&t) && !slow_sound(&t));
}

/* ---- the request, straight, over partners ---- */

typedef struct {
    State core;
    uint32_t line[PLACES + 1];             /* the partners that wait, longest first */
    uint32_t has[PLACES + 1];              /* those with a modem, as the actions that went out say */
    unsigned waiting, modems;
} Slow;

static bool in(const uint32_t *list, unsigned many, uint32_t who)
{
    for (unsigned i = 0; i < many; i++)
        if (list[i] == who)
            return true;
    return false;
}

static void out_of(uint32_t *list, unsigned *many, uint32_t who)
{
    unsigned kept = 0;
    for (unsigned i = 0; i < *many; i++)
        if (list[i] != who)
            list[kept++] = list[i];
    *many = kept;
}

static StepResult slow_step(Slow *w, const uint8_t *record, size_t length, uint8_t *out, size_t room)
{
    State next = w->core;
    uint8_t sent[ACTION_BUFFER];
    StepResult r = step(&next, record, length, sent, room < 20 ? room : 20);
    const bool named = r.code != 10 && r.code != 11 && r.code != 1 && r.code != 2 && r.code != 3;
    if (named && record[0] >= EV_UP && record[0] <= EV_TIMEOUT && in(w->line, w->waiting, partner_in(record + 1)))
        return (StepResult){18, 0, 4, 0};
    if (r.code != 0)
        return r;
    const bool call = record[0] == EV_MESSAGE && record[5] == 38;
    if (call && w->modems == 2)
        return (StepResult){17, 0, 4, 0};
    w->core = next;
    uint8_t *to = out;
    for (unsigned i = 0; i < r.count; i++) {
        const uint8_t *const a = sent + ACTION_BYTES * i;
        const uint32_t who = partner_in(a + 1);
        if (record[0] == EV_ORDER && i + 1 == r.count) {
            w->line[w->waiting++] = who;                   /* joins the end; its 21 is held back */
        } else if (a[0] == ACT_RELEASE && in(w->line, w->waiting, who)) {
            out_of(w->line, &w->waiting, who);             /* leaves, no 22 goes out */
        } else {
            memcpy(to, a, ACTION_BYTES);
            to += ACTION_BYTES;
            if (a[0] == ACT_RELEASE)
                out_of(w->has, &w->modems, who);
            if (call)
                w->has[w->modems++] = who;
        }
    }
    while (w->modems < 2 && w->waiting > 0) {              /* each free modem to the one waiting longest */
        const uint32_t who = w->line[0];
        const uint8_t a[ACTION_BYTES] = {ACT_REQUEST, (uint8_t)(who >> 24), (uint8_t)(who >> 16), (uint8_t)(who >> 8), (uint8_t)who};
        memcpy(to, a, ACTION_BYTES);
        to += ACTION_BYTES;
        out_of(w->line, &w->waiting, who);
        w->has[w->modems++] = who;
    }
    r.count = (uint8_t)((to - out) / ACTION_BYTES);
    return r;
}

static Slow slow_of(const Shunter *s)
{
    Slow w = {.core = s->box};
    for (unsigned i = 0; i < 2 && s->queue[i] < 4; i++)
        w.line[w.waiting++] = s->box.partner[s->queue[i]];
    for (unsigned i = 0; i < PLACES; i++)
        if (has_modem(s, i))
            w.has[w.modems++] = s->box.partner[i];
    return w;
}

/* The same box, the same that wait, the same that have a modem. */
static bool agrees(const Shunter *s, const Slow *w)
{
    bool ok = memcmp(&s->box, &w->core, sizeof s->box) == 0;
    for (unsigned i = 0; i < 2; i++)
        ok = ok && (i < w->waiting ? s->queue[i] < 4 && s->box.phase[s->queue[i]] != FREE && s->box.partner[s->queue[i]] == w->line[i]
                                   : s->queue[i] == 4);
    for (unsigned i = 0; i < PLACES; i++)
        ok = ok && has_modem(s, i) == (s->box.phase[i] != FREE && in(w->has, w->modems, s->box.partner[i]));
    return ok && modems(s) == w->modems;
}

/* One step of both; what goes out is left in 'room'. */
static StepResult both(Shunter *s, Slow *w, const uint8_t *record, size_t length, uint8_t *room, size_t room_length)
{
    uint8_t out[BUFFER];
    const StepResult want = slow_step(w, record, length, out, room_length), r = stepped(s, record, length, room, room_length);
    CHECK(memcmp(&want, &r, sizeof r) == 0 && memcmp(out, room, ACTION_BYTES * (size_t)r.count) == 0);
    CHECK(agrees(s, w));
    CHECK(w->modems <= 2 && (w->waiting == 0 || w->modems == 2));
    return r;
}

static size_t put_event(uint8_t *r, uint8_t kind, uint32_t who, uint8_t b5, uint8_t b6)
{
    const uint8_t record[7] = {kind, (uint8_t)(who >> 24), (uint8_t)(who >> 16), (uint8_t)(who >> 8), (uint8_t)who, b5, b6};
    memcpy(r, record, sizeof record);
    return record_length[kind];
}

/* Every event, on this shunter. */
static void every_event(const Shunter *s)
{
    static const struct { uint8_t kind, b5, b6; } named[] = {
        {EV_DROP, 0, 0}, {EV_UP, 0, 0}, {EV_LOST, 0, 0}, {EV_TIMEOUT, 0, 0}, {EV_MESSAGE, 32, 0x1F}, {EV_MESSAGE, 32, 0x30}, {EV_MESSAGE, 32, 0x80},
        {EV_MESSAGE, 39, 0}, {EV_MESSAGE, 38, 0}, {EV_MESSAGE, 38, 1}, {EV_ORDER, 0, 1}, {EV_ORDER, 1, 1}, {EV_ORDER, 0, 0}, {EV_ORDER, 0, 2},
        {EV_ORDER, 1, 3}, {EV_ORDER, 0, 4}, {EV_ORDER, 1, 5}, {EV_ORDER, 2, 1},
    };
    static const char *const others[] = {"07 00", "07 01", "07 02", "02 00", "02 01", "02 03", "01 03 01", "01 05 00", "03", "04 00", "04 01",
                                         "", "00", "0C", "05", "08 00000002 00"};
    static const uint32_t strangers[] = {0x00000007, 0x01000007, 0x00003FFF, 0x01003FFF, 0x02000001};
    uint8_t record[GEN_MOST], room[BUFFER];
    for (size_t i = 0; i < PLACES + sizeof strangers / sizeof strangers[0]; i++) {
        if (i < PLACES && s->box.phase[i] == FREE)
            continue;
        for (size_t k = 0; k < sizeof named / sizeof named[0]; k++) {
            Shunter t = *s;
            Slow w = slow_of(s);
            const uint32_t who = i < PLACES ? s->box.partner[i] : strangers[i - PLACES];
            both(&t, &w, record, put_event(record, named[k].kind, who, named[k].b5, named[k].b6), room, 20);
        }
    }
    for (size_t i = 0; i < sizeof others / sizeof others[0]; i++) {
        Shunter t = *s;
        Slow w = slow_of(s);
        const Bytes r = hex(others[i]);
        both(&t, &w, r.b, r.n, room, 20);
    }
}

/* Every sound shunter of these forms: which places have the modems, which wait in which order, every two forms. */
static void test_every(void)
{
    unsigned long many = 0;
    for (unsigned a = 0; a <= PLACES; a++)                 /* the modems' places; 4: not held */
        for (unsigned b = 0; b <= PLACES; b++)
            for (unsigned c = 0; c <= PLACES; c++)         /* those that wait */
                for (unsigned d = 0; d <= PLACES; d++) {
                    if ((b == 4 ? c != 4 : b <= a) || (a == 4 && b != 4) || (c == 4 && d != 4) || (c != 4 && (c == a || c == b)) ||
                        (d != 4 && (d == a || d == b || d == c)))
                        continue;
                    for (size_t x = 0; x < (a == 4 ? 1 : FORMS); x++)
                        for (size_t y = 0; y < (b == 4 ? 1 : FORMS); y++, many++) {
                            Shunter s;
                            shunter_cold_start(&s, 1, 2, (uint8_t)(1 + (x + y) % 3));
                            s.box.mission = (uint8_t)((x + c) % 3);
                            s.box.level = (uint8_t)(y % 5);
                            s.box.mode = x % 2;
                            s.box.manual = y % 2;
                            s.box.hole_end = (x + y + d) % 2;
                            s.box.last = d % 2 ? KNOWN | 9 : 0;
                            if (a < 4)
                                hold(&s, a, x);
                            if (b < 4)
                                hold(&s, b, y);
                            if (c < 4)
                                wait_there(&s, c, x % 2);
                            if (d < 4)
                                wait_there(&s, d, y % 2);
                            s.queue[0] = (uint8_t)c;
                            s.queue[1] = (uint8_t)d;
                            CHECK(shunter_sound(&s));
                            every_event(&s);
                        }
                }
    CHECK(many == 1 + 4 * FORMS + (6 + 12 + 12) * FORMS * FORMS);
}

/* ---- histories ---- */

/* A record about few partners, dense in orders, calls and timeouts. */
static size_t dense_record(Rng *g, const Shunter *s, uint32_t pool, uint8_t *r)
{
    const uint32_t d = rng_below(g, 100), number = rng_below(g, pool);
    const unsigned i = rng_below(g, PLACES);
    const uint32_t any = (number % 3 == 2 ? 0x01000000u : 0) | number;
    const uint32_t who = s->box.phase[i] != FREE ? s->box.partner[i] : any;
    memset(r, 0, GEN_MOST);
    if (d < 24) return put_event(r, EV_ORDER, any, (uint8_t)rng_below(g, 2), 1);
    if (d < 30) return put_event(r, EV_MESSAGE, number, 38, 0);
    if (d < 48) return put_event(r, EV_TIMEOUT, who, 0, 0);
    if (d < 61) return put_event(r, EV_UP, who, 0, 0);
    if (d < 70) return put_event(r, EV_MESSAGE, who, 32, (uint8_t)(rng_below(g, 4) ? 0x10 + rng_below(g, 32) : rng_below(g, 130)));
    if (d < 78) return put_event(r, EV_LOST, who, 0, 0);
    if (d < 84) return put_event(r, EV_DROP, who, 0, 0);
    if (d < 91) return put_event(r, EV_MESSAGE, who, 39, 0);
    if (d < 92) { r[0] = EV_END_ALL; return 2; }
    if (d < 93) return put_event(r, EV_ORDER, LAST_KNOWN, (uint8_t)rng_below(g, 2), 1);
    return gen_record_last(g, &s->box, d < 97, r);
}

/* What is kept of a partner from its order or call to its end. */
typedef struct {
    uint32_t who;
    bool held, waits, ordered, first;      /* first: its first 21 went out */
    int left;                              /* it is served in the step of this many more releases; a step may have two, both before its 21 */
} Kept;

static Kept *kept_of(Kept *k, uint32_t who)
{
    for (unsigned i = 0; i < PLACES; i++)
        if (k[i].held && k[i].who == who)
            return k + i;
    return NULL;
}

static unsigned long at_bound, at_once, leaves;            /* served by the last release that may be waited for; without any; left */

/* A history from a cold start: modems, fairness and first 21s from the actions that went out; the core's state from the records
 * that reached it. */
static void history(Rng *g, unsigned many)
{
    Shunter s;
    Slow w;
    Kept kept[PLACES] = {{0}};
    uint8_t lo, hi;
    static uint8_t reached[1 << 16];
    size_t reached_length = 0, out_many = 0, core_many = 0;
    gen_x(g, &lo, &hi);
    const uint8_t n = gen_n(g);
    const uint32_t pool = 4 + rng_below(g, 3);
    CHECK(shunter_cold_start(&s, lo, hi, n) == 0);
    w = slow_of(&s);
    while (many-- > 0) {
        uint8_t r[GEN_MOST], room[BUFFER], sent[ACTION_BUFFER];
        const size_t length = dense_record(g, &s, pool, r);
        const State core = w.core;
        const StepResult a = both(&s, &w, r, length, room, 20 + rng_below(g, 10));
        if (a.code == 17 || a.code == 18 || a.code == 1 || a.code == 2)
            continue;                                      /* 17 and 18 never reach the core; 1 and 2 would end a log */
        if (reached_length + length > sizeof reached)
            break;
        memcpy(reached + reached_length, r, length);
        reached_length += length;
        State next = core;
        const StepResult c = step(&next, r, length, sent, sizeof sent);
        CHECK(c.code == a.code && memcmp(&next, &s.box, sizeof next) == 0);
        out_many += a.count;
        core_many += c.count;
        CHECK(out_many <= core_many);
        if (a.code != 0)
            continue;

        /* those that came */
        const bool call = r[0] == EV_MESSAGE && r[5] == 38;
        if (r[0] == EV_ORDER || call) {
            const uint32_t who = partner_in(sent + ACTION_BYTES * (c.count - 1u) + 1);
            unsigned i = 0, front = 0;
            while (kept[i].held)
                i++;
            for (unsigned k = 0; k < PLACES; k++)
                front += kept[k].held && kept[k].waits;
            kept[i] = (Kept){.who = who, .held = true, .waits = !call, .ordered = !call, .left = (int)front + 1};
        }
        /* what went out, in turn */
        int releases = 0;
        for (unsigned i = 0; i < a.count; i++) {
            const uint8_t *const act = room + ACTION_BYTES * i;
            Kept *const k = kept_of(kept, partner_in(act + 1));
            CHECK(k != NULL);
            if (!k)
                return;
            if (act[0] == ACT_RELEASE) {
                CHECK(!k->waits);
                k->held = false;
                releases++;
            } else if (act[0] == ACT_REQUEST && k->waits) {
                CHECK(!k->first && k->ordered);
                k->first = true;
                k->waits = false;
                at_bound += k->left == releases;
                at_once += releases == 0;
            } else {
                CHECK(!k->waits);                          /* nothing else goes out to one that waits */
            }
        }
        /* those that left: free in the core, no 22 */
        for (unsigned i = 0; i < PLACES; i++)
            if (kept[i].held) {
                bool there = false;
                for (unsigned k = 0; k < PLACES; k++)
                    there = there || (s.box.phase[k] != FREE && s.box.partner[k] == kept[i].who);
                if (!there) {
                    CHECK(kept[i].waits && (r[0] == EV_DROP || r[0] == EV_END_ALL || (r[0] == EV_MISSION && r[1] == 0)));
                    kept[i].held = false;
                    leaves++;
                }
            }
        /* at most two modems, none idle; each that waits is served after at most as many releases as it has in front plus one */
        unsigned with = 0, wait = 0;
        for (unsigned i = 0; i < PLACES; i++) {
            with += kept[i].held && !kept[i].waits;
            wait += kept[i].held && kept[i].waits;
        }
        CHECK(with <= 2 && (wait == 0 || with == 2) && with == w.modems && wait == w.waiting);
        for (unsigned i = 0; i < w.waiting; i++) {
            Kept *const k = kept_of(kept, w.line[i]);
            CHECK(k && k->waits);
            if (!k)
                return;
            k->left -= releases;
            CHECK(k->left >= 1);
            if (k->left > (int)i + 1)                      /* one before it left: the bound from here on is the smaller one */
                k->left = (int)i + 1;
        }
        CHECK(releases <= 2);
    }
    State core;
    RunResult out;
    cold_start(&core, lo, hi, n);
    run_checked(&core, reached, reached_length, SIZE_MAX, &out);
    CHECK(out.code == 0 && out.stop == 0 && memcmp(&core, &s.box, sizeof core) == 0);
}

static void test_histories(void)
{
    Rng g = {1001};
    for (int i = 0; i < 3000; i++)
        history(&g, 20 + rng_below(&g, 400));
    CHECK(at_bound > 1000 && at_once > 1000 && leaves > 1000 && waited > 100000 && refused_17 > 1000 && refused_18 > 1000 && fours > 20);
}

/* The bound is reached: one in front, both releases come, and the second serves it; nobody in front, the first. */
static void test_bound(void)
{
    begin(1, 2, 3);
    GOES(ORDER("01"), "21:0/1", "0", "");
    GOES(ORDER("02"), "21:0/2", "01", "");
    GOES(ORDER("03"), "", "01", "2");                      /* nobody in front */
    GOES(ORDER("04"), "", "01", "23");                     /* one in front */
    GOES(DROP("01"), "22:0/1 21:0/3", "12", "3");          /* release 1 */
    GOES(DROP("02"), "22:0/2 21:0/4", "23", "");           /* release 2 */
    /* one in front leaves: one release */
    GOES(ORDER("05"), "", "23", "0");
    GOES(ORDER("06"), "", "23", "01");
    GOES(DROP("05"), "", "23", "1");
    GOES(DROP("03"), "22:0/3 21:0/6", "13", "");
    /* never overtaken: the place number does not count */
    GOES(ORDER("08"), "", "13", "0");
    GOES(ORDER("09"), "", "13", "02");
    GOES(DROP("08"), "", "13", "2");
    GOES(ORDER("0A"), "", "13", "20");
    GOES(DROP("04"), "22:0/4 21:0/9", "12", "0");
    GOES(DROP("06"), "22:0/6 21:0/10", "02", "");
}

/* ---- the run ---- */

static void run_at(int line, const char *log_text, size_t budget, uint8_t stop, uint32_t offset, uint32_t read, uint32_t refused,
                   uint32_t t21, uint32_t t22, uint32_t t154, uint32_t t155, uint32_t t156, uint32_t t159)
{
    const Bytes log = hex(log_text);
    RunResult out;
    memset(&out, 0x5A, sizeof out);
    begin(1, 2, 3);
    shunter_run(&now, log.b, log.n, budget, &out);
    check_at(out.code == 0 && out.stop == stop && out.offset == offset && out.read == read && out.refused == refused, line, "the run");
    const uint32_t want[6] = {t21, t22, t154, t155, t156, t159};
    check_at(memcmp(out.total, want, sizeof want) == 0, line, "the totals");
}
#define RUN(...) run_at(__LINE__, __VA_ARGS__)

/* The run is the steps in turn, with 01's stops. */
static void run_is_steps(const Shunter *from, const uint8_t *log, size_t length, size_t budget)
{
    Shunter s = *from, t = *from;
    RunResult out, want;
    memset(&out, 0x5A, sizeof out);
    memset(&want, 0, sizeof want);
    shunter_run(&s, log, length, budget, &out);
    static const uint8_t numbers[6] = {21, 22, 154, 155, 156, 159};
    size_t at = 0;
    for (;; want.read++) {
        if (at == length) { want.stop = 0; break; }
        if (want.read == budget) { want.stop = 1; break; }
        if (log[at] < 1 || log[at] > 11) { want.stop = 3; break; }
        if (length - at < record_length[log[at]]) { want.stop = 2; break; }
        uint8_t room[BUFFER];
        const StepResult r = stepped(&t, log + at, record_length[log[at]], room, 20);
        want.refused += r.code != 0;
        for (unsigned i = 0; i < r.count; i++)
            for (int k = 0; k < 6; k++)
                want.total[k] += room[ACTION_BYTES * i] == numbers[k];
        at += record_length[log[at]];
    }
    CHECK(out.code == 0 && out.stop == want.stop && out.offset == at && out.read == want.read && out.refused == want.refused);
    CHECK(memcmp(out.total, want.total, sizeof out.total) == 0 && same(&s, &t));
}

static uint8_t over[LOG_MOST + 1];

static void test_run(void)
{
    RUN("", 0, 0, 0, 0, 0, 0, 0, 0, 0, 0, 0);
    RUN("03", 0, 1, 0, 0, 0, 0, 0, 0, 0, 0, 0);
    RUN("00", 0, 1, 0, 0, 0, 0, 0, 0, 0, 0, 0);
    RUN("00", 1, 3, 0, 0, 0, 0, 0, 0, 0, 0, 0);
    RUN("03 0C", 9, 3, 1, 1, 0, 0, 0, 0, 0, 0, 0);
    RUN("03 08 000000", 9, 2, 1, 1, 0, 0, 0, 0, 0, 0, 0);
    RUN("03 03", 2, 0, 2, 2, 0, 0, 0, 0, 0, 0, 0);
    /* three orders: two 21; the first one's drop: 22, 21 */
#define THREE ORDER("01") ORDER("02") ORDER("03")
    RUN(THREE, 9, 0, 21, 3, 0, 2, 0, 0, 0, 0, 0);
    RUN(THREE DROP("01"), 9, 0, 26, 4, 0, 3, 1, 0, 0, 0, 0);
    RUN(THREE DROP("03"), 9, 0, 26, 4, 0, 2, 0, 0, 0, 0, 0);
    RUN(THREE "07 00", 9, 0, 23, 4, 0, 2, 2, 0, 0, 0, 0);
    /* 18 and 17 count as refused */
    RUN(THREE TIMEOUT("03") UP("03") CALL("04"), 9, 0, 38, 6, 3, 2, 0, 0, 0, 0, 0);
    RUN(THREE TIMEOUT("03") UP("03") CALL("04"), 5, 1, 31, 5, 2, 2, 0, 0, 0, 0, 0);
    /* an order that closes two lost places */
    RUN(CALL("01") CALL("02") LOST_("01") LOST_("02") ORDER("03") ORDER_CLOSING("04"), 9, 0, 38, 6, 0, 4, 2, 0, 0, 0, 2);
    /* refused runs */
    const Bytes log = hex(THREE);
    RunResult out;
    const RunResult none = {0};
    for (int i = 0; i < 4; i++) {
        begin(1, 2, 3);
        if (i & 1)
            now.queue[0] = 0;
        const Shunter was = now;
        memset(over, EV_MODE, sizeof over);
        memset(&out, 0x5A, sizeof out);
        shunter_run(&now, i < 2 ? over : log.b, i < 2 ? sizeof over : log.n, 9, &out);
        CHECK(same(&now, &was) || i == 2);
        if (i != 2) {
            CHECK(out.code == (i < 2 ? 12 : 11));
            out.code = 0;
            CHECK(out.stop == none.stop && out.offset == 0 && out.read == 0 && out.refused == 0 && memcmp(out.total, none.total, sizeof out.total) == 0);
        } else {
            CHECK(out.code == 0 && out.read == 3);
        }
    }
    begin(1, 2, 3);
    shunter_run(&now, over, LOG_MOST, SIZE_MAX, &out);
    CHECK(out.code == 0 && out.read == LOG_MOST && out.stop == 0);

    /* random logs: the run is the steps, whole and in parts; from a history's state too */
    Rng g = {1002};
    for (int i = 0; i < 600; i++) {
        Shunter s, t, u;
        uint8_t lo, hi, room[BUFFER];
        gen_x(&g, &lo, &hi);
        shunter_cold_start(&s, lo, hi, gen_n(&g));
        static uint8_t bytes[8192];
        size_t length = 0;
        const uint32_t pool = 4 + rng_below(&g, 3);
        const Shunter cold = s;
        for (uint32_t k = rng_below(&g, 300); k > 0; k--) {
            uint8_t r[GEN_MOST];
            const size_t n = dense_record(&g, &s, pool, r);
            if (n == 0 || r[0] < 1 || r[0] > 11 || n != record_length[r[0]])
                continue;
            memcpy(bytes + length, r, n);
            length += n;
            stepped(&s, r, n, room, 20);
        }
        if (i % 3 == 1 && length > 0) {
            const size_t at = rng_below(&g, (uint32_t)length);
            bytes[at] = (uint8_t)rng_below(&g, 256);
        }
        if (i % 3 == 2 && length > 6)
            length -= rng_below(&g, 6);
        run_is_steps(&cold, bytes, length, SIZE_MAX);
        run_is_steps(&cold, bytes, length, rng_below(&g, 300));
        run_is_steps(&s, bytes, length, SIZE_MAX);
        /* in two parts */
        RunResult one, two, whole;
        t = u = cold;
        const uint32_t part = rng_below(&g, 200);
        shunter_run(&t, bytes, length, SIZE_MAX, &whole);
        shunter_run(&u, bytes, length, part, &one);
        shunter_run(&u, bytes + one.offset, length - one.offset, SIZE_MAX, &two);
        CHECK(same(&t, &u) && whole.stop == two.stop && whole.offset == one.offset + two.offset && whole.read == one.read + two.read &&
              whole.refused == one.refused + two.refused && whole.total[0] == one.total[0] + two.total[0] && whole.total[1] == one.total[1] + two.total[1]);
    }
    /* with two partners it is the core */
    const Bytes p1 = hex("05 00000005 01 01 08 00000005 0B 00000005 20 11 06 00000005 0B 00000005 27 00");
    State core;
    RunResult core_out;
    begin(1, 2, 3);
    cold_start(&core, 1, 2, 3);
    shunter_run(&now, p1.b, p1.n, SIZE_MAX, &out);
    run_checked(&core, p1.b, p1.n, SIZE_MAX, &core_out);
    CHECK(memcmp(&core, &now.box, sizeof core) == 0 && out.read == 5 && out.refused == 0 && memcmp(out.total, core_out.total, sizeof out.total) == 0);
}

int main(void)
{
    test_start();
    test_queue();
    test_call();
    test_waiting();
    test_released();
    test_closing();
    test_refused();
    test_sound();
    test_every();
    test_bound();
    test_histories();
    test_run();
    printf("shunter: %lu checks, %lu failures; %lu steps, %lu with one waiting, %lu of four actions, %lu times 17, %lu times 18\n", checks,
           failures, steps, waited, fours, refused_17, refused_18);
    return failures != 0;
}
