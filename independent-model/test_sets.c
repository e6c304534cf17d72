/* test_sets [first]: test of the set engine against request Q-7; with 'first' it ends at the first failure. The steps of the first parts are written out by hand. Afterwards every mix of four members of
 * some forms, and random histories, are held step by step to the model's places, to a slow telling of soundness over a state's bytes, and
 * to the form: who stays keeps its rank among those that stay, who comes stands behind them, closings act set by set. */
#include "gen.h"
#include "sets_model.h"

#include <stdio.h>
#include <stdlib.h>
#include <string.h>

static unsigned long checks, failures, steps, accepted, closings, fours, repeats;
static bool first_only;

static void check_at(bool ok, int line, const char *text)
{
    checks++;
    if (ok)
        return;
    if (failures++ < 20)
        printf("line %d: %s\n", line, text);
    if (first_only)
        exit(1);
}
#define CHECK(c) check_at((c), __LINE__, #c)

/* ---- help ---- */

enum { BYTES_MOST = 8192, BUFFER = 64 };

typedef struct { uint8_t b[BYTES_MOST]; size_t n; } Bytes;

static Bytes hex(const char *text)
{
    Bytes out;
    out.n = 0;
    for (; *text; text++) {
        if (*text == ' ')
            continue;
        const char two[3] = {text[0], text[1], 0};
        out.b[out.n++] = (uint8_t)strtoul(two, NULL, 16);
        text++;
    }
    return out;
}

/* Actions as the sheet writes them: number:type/partner, blanks between. */
static Bytes actions_of(const char *text)
{
    Bytes out;
    out.n = 0;
    while (*text) {
        char *p;
        const unsigned long number = strtoul(text, &p, 10), type = strtoul(p + 1, &p, 10), who = strtoul(p + 1, &p, 10);
        const uint8_t action[5] = {(uint8_t)number, (uint8_t)type, (uint8_t)(who >> 16), (uint8_t)(who >> 8), (uint8_t)who};
        memcpy(out.b + out.n, action, sizeof action);
        out.n += sizeof action;
        for (text = p; *text == ' '; text++)
            ;
    }
    return out;
}

static uint32_t partner_in(const uint8_t *b) { return (uint32_t)b[0] << 24 | (uint32_t)b[1] << 16 | (uint32_t)b[2] << 8 | b[3]; }

static bool same(const Sets *a, const Sets *b)
{
    uint8_t one[SETS_BYTES], two[SETS_BYTES];
    sets_store(a, one);
    sets_store(b, two);
    return memcmp(one, two, sizeof one) == 0;
}

static void add(Sets *s, unsigned set, uint32_t who, uint8_t tries, uint8_t direction)
{
    Set *const to = &s->set[set];
    if (to->count >= MEMBERS)
        exit(1);
    to->member[to->count].who = who;
    to->member[to->count].tries = tries;
    to->member[to->count++].direction = direction;
}

/* The sets of a text: a set's name, then its members as type/number:tries, with < behind for one that is incoming; those of the sets
 * incoming and outgoing as type/number. */
static void put_sets(Sets *s, const char *text)
{
    static const char *const names[SETS] = {"calling", "contacted", "incoming", "outgoing", "lost", "terminating"};
    unsigned set = SETS;
    memset(s->set, 0, sizeof s->set);
    while (*text) {
        if (*text >= 'a') {
            const size_t length = strcspn(text, " ");
            for (set = 0; set < SETS && (strlen(names[set]) != length || memcmp(names[set], text, length) != 0); set++)
                ;
            text += length;
        } else {
            char *p;
            const unsigned long type = strtoul(text, &p, 10), who = strtoul(p + 1, &p, 10), tries = *p == ':' ? strtoul(p + 1, &p, 10) : 0;
            const bool in = *p == '<';
            if (set == SETS)
                exit(1);
            add(s, set, (uint32_t)(type << 24 | who), (uint8_t)tries, in || set == SET_INCOMING);
            text = p + in;
        }
        while (*text == ' ')
            text++;
    }
}

static unsigned members(const Sets *s)
{
    unsigned many = 0;
    for (unsigned set = 0; set < SETS; set++)
        many += s->set[set].count;
    return many;
}

/* ---- soundness, sentence by sentence over the bytes ---- */

static bool reserved_number(const uint8_t *three) { return (three[1] & 0x3F) == 0x3F && three[2] == 0xFF; }

/* Six bytes of a member of this set. */
static bool slow_member(const uint8_t *m, unsigned set, uint8_t n)
{
    const uint8_t type = m[0], tries = m[4], direction = m[5];
    if (type > 1 || direction > 1)
        return false;
    if (type == 0 && reserved_number(m + 1))
        return false;
    if (type == 1 && direction == 1)
        return false;
    switch (set) {
    case SET_CALLING:
    case SET_CONTACTED: return direction == 0 && tries >= 1 && tries <= n;
    case SET_INCOMING: return direction == 1 && tries == 0;
    case SET_OUTGOING: return direction == 0 && tries == 0;
    default: return tries >= 1 && tries <= n;
    }
}

static bool slow_sound(const Sets *s)
{
    uint8_t b[SETS_BYTES];
    sets_store(s, b);
    if (b[0] > 7 || b[1] > 7 || b[0] > b[1] || b[2] > 4 || b[3] > 2 || b[8] < 1 || b[8] > 9)
        return false;
    if (b[4] > 1 || b[5] > 1 || b[6] > 1 || b[7] > 1 || (b[4] == 1 && b[7] == 1))
        return false;
    if (b[9] > 1 || (b[9] == 0 && (b[10] || b[11] || b[12])) || (b[9] == 1 && reserved_number(b + 10)))
        return false;
    const uint8_t *found[SETS * MEMBERS];
    unsigned many = 0;
    for (unsigned set = 0; set < SETS; set++) {
        const uint8_t *const at = b + SETS_HEAD + SET_BYTES * set;
        if (at[0] > 4)
            return false;
        for (unsigned i = 0; i < 4; i++) {
            const uint8_t *const m = at + 1 + 6 * i;
            if (i < at[0]) {
                if (!slow_member(m, set, b[8]))
                    return false;
                found[many++] = m;
            } else if (m[0] || m[1] || m[2] || m[3] || m[4] || m[5]) {
                return false;
            }
        }
    }
    for (unsigned i = 0; i < many; i++)
        for (unsigned k = 0; k < i; k++)
            if (memcmp(found[i], found[k], 4) == 0)
                return false;
    return many <= 4;
}

/* ---- a step, held to what every step promises ---- */

static bool has_member(const Set *set, const Member *m)
{
    for (unsigned i = 0; i < set->count; i++)
        if (memcmp(&set->member[i], m, sizeof *m) == 0)
            return true;
    return false;
}

/* Those that came to the set, of this set before: at most four, behind 'many'. */
static unsigned put_came(const Set *was, const Set *now, const Set *of, Member *to, unsigned many)
{
    for (unsigned i = 0; i < of->count; i++)
        for (unsigned k = 0; k < now->count; k++)
            if (now->member[k].who == of->member[i].who && !has_member(was, &now->member[k]))
                to[many++] = now->member[k];
    return many;
}

/* Members that stay as they are, in their order; then those of incoming, then those of outgoing, then one from elsewhere. */
static bool in_form(const Sets *was, const Sets *now)
{
    for (unsigned set = 0; set < SETS; set++) {
        const Set *const before = &was->set[set], *const behind = &now->set[set];
        Member want[3 * MEMBERS];
        unsigned many = 0;
        for (unsigned i = 0; i < before->count; i++)
            if (has_member(behind, &before->member[i]))
                want[many++] = before->member[i];
        const unsigned stay = many;
        many = put_came(before, behind, &was->set[SET_INCOMING], want, many);
        many = put_came(before, behind, &was->set[SET_OUTGOING], want, many);
        if (set != SET_TERMINATING && many > stay + 1)
            return false;
        if (many == stay && behind->count == stay + 1)     /* from elsewhere */
            want[many++] = behind->member[stay];
        if (many != behind->count || memcmp(want, behind->member, many * sizeof(Member)) != 0)
            return false;
    }
    return true;
}

static SetsResult stepped(Sets *s, const uint8_t *record, size_t length, uint8_t *room, size_t room_length)
{
    const Sets was = *s;
    uint8_t *const lent = malloc(length + 1);
    if (!lent || room_length > BUFFER)
        exit(1);
    memcpy(lent + 1, record, length);                      /* at the end of its own allocation */
    memset(room, 0xEE, BUFFER);
    const SetsResult r = sets_step(s, lent + 1, length, room, room_length);
    CHECK(memcmp(lent + 1, record, length) == 0);
    free(lent);
    steps++;
    accepted += r.code == 0;
    if (r.code != 0) {
        CHECK(same(s, &was) && r.count == 0);
        CHECK(r.code == 5 || r.code == 7 || r.phase == 0);
        CHECK(r.code != 5 || (r.phase >= 1 && r.phase <= 5));
        CHECK(r.code != 7 || (record[0] == EV_HOLE ? r.phase == 0 : r.phase >= 1 && r.phase <= 5));
    } else {
        CHECK(r.count <= 4 && r.phase == 0 && sets_sound(s) && slow_sound(s) && members(s) <= MEMBERS);
        CHECK(in_form(&was, s));
        CHECK(s->lowest == was.lowest && s->highest == was.highest && s->n == was.n);
    }
    for (size_t i = ACTION_BYTES * r.count; i < BUFFER; i++)
        if (room[i] != 0xEE) {
            CHECK(!"a later byte");
            break;
        }
    return r;
}

/* ---- steps written out ---- */

static Sets now;

static void begin(uint8_t lo, uint8_t hi, uint8_t n) { CHECK(sets_cold_start(&now, lo, hi, n) == 0); }

/* The sets of the text; other fields of a cold start with X 1 to 2 and three tries. */
static void begin_with(const char *text)
{
    begin(1, 2, 3);
    put_sets(&now, text);
    CHECK(sets_sound(&now));
}

static void sets_at(int line, const char *text)
{
    Sets want = now;
    put_sets(&want, text);
    check_at(same(&now, &want), line, "the sets");
}
#define IN(text) sets_at(__LINE__, text)

static void goes_at(int line, const char *record_text, const char *actions_text, const char *sets_text)
{
    const Bytes record = hex(record_text), want = actions_of(actions_text);
    uint8_t room[BUFFER];
    const SetsResult r = stepped(&now, record.b, record.n, room, ACTION_BUFFER);
    check_at(r.code == 0, line, "accepted");
    check_at(ACTION_BYTES * (size_t)r.count == want.n && memcmp(room, want.b, want.n) == 0, line, "the actions");
    sets_at(line, sets_text);
}
/* the record, its actions, the sets then */
#define GOES(...) goes_at(__LINE__, __VA_ARGS__)

static void refused_at(int line, const char *record_text, size_t room_length, uint8_t code, uint8_t phase)
{
    const Bytes record = hex(record_text);
    uint8_t room[BUFFER];
    const SetsResult r = stepped(&now, record.b, record.n, room, room_length);
    check_at(r.code == code && r.count == 0 && r.phase == phase, line, "the refusal");
}
#define REFUSED(record, code) refused_at(__LINE__, record, 20, code, 0)
#define REFUSED_AT(record, code, phase) refused_at(__LINE__, record, 20, code, phase)
#define REFUSED_IN(room, record, code) refused_at(__LINE__, record, room, code, 0)

static void last_at(int line, uint32_t last) { check_at(now.last == last, line, "the last known RBC"); }
#define LAST(last) last_at(__LINE__, last)

static void marks_at(int line, uint8_t inside, uint8_t mode, uint8_t manual, uint8_t hole_end)
{
    check_at(now.inside == inside && now.mode == mode && now.manual == manual && now.hole_end == hole_end, line, "the marks");
}
#define MARKS(...) marks_at(__LINE__, __VA_ARGS__)

#define ORDER(k) "05 000000" k " 01 01 "                   /* accepting, trackside */
#define CLOSING(k) "05 000000" k " 00 01 "                 /* not accepting */
#define ORDER_RIU(k) "05 010000" k " 01 01 "
#define CALL(k) "0B 000000" k " 26 00 "
#define DONE(k) "0B 000000" k " 27 00 "
#define VERSION(k, v) "0B 000000" k " 20 " v " "
#define DROP(k) "06 000000" k " "
#define UP(k) "08 000000" k " "
#define LOSS(k) "09 000000" k " "
#define TIME(k) "0A 000000" k " "

static void test_start(void)
{
    for (unsigned lo = 0; lo < 256; lo += lo < 12 ? 1 : 61)
        for (unsigned hi = 0; hi < 256; hi += hi < 12 ? 1 : 61)
            for (unsigned n = 0; n < 256; n += n < 12 ? 1 : 61) {
                const bool good = hi <= 7 && lo <= hi && n >= 1 && n <= 9;
                Sets s;
                uint8_t b[SETS_BYTES];
                memset(&s, 0x5A, sizeof s);
                CHECK(sets_cold_start(&s, (uint8_t)lo, (uint8_t)hi, (uint8_t)n) == (good ? 0 : 13));
                CHECK(s.lowest == (good ? lo : 0) && s.highest == (good ? hi : 0) && s.n == (good ? n : 3));
                sets_store(&s, b);
                b[0] = b[1] = b[8] = 0;
                for (size_t i = 0; i < sizeof b; i++)
                    if (b[i] != 0)
                        CHECK(!"all else is zero");
                CHECK(sets_sound(&s) && slow_sound(&s));
            }
}

/* The marked examples of 01. */
static void test_examples(void)
{
    /* P1 */
    begin(1, 2, 3);
    GOES("05 00000005 01 01", "21:0/5", "calling 0/5:1");
    GOES("08 00000005", "155:0/5", "contacted 0/5:1");
    GOES("0B 00000005 20 11", "159:0/5", "outgoing 0/5");
    GOES("06 00000005", "156:0/5", "terminating 0/5:1");
    GOES("0B 00000005 27 00", "22:0/5", "");
    LAST(KNOWN | 5);
    /* P2 */
    begin(1, 2, 3);
    GOES(ORDER("05"), "21:0/5", "calling 0/5:1");
    GOES(TIME("05"), "21:0/5", "calling 0/5:2");
    GOES(TIME("05"), "21:0/5", "calling 0/5:3");
    GOES(TIME("05"), "22:0/5", "");
    REFUSED(TIME("05"), 6);
    /* P3 */
    begin(1, 2, 3);
    GOES(ORDER("05"), "21:0/5", "calling 0/5:1");
    GOES(UP("05"), "155:0/5", "contacted 0/5:1");
    REFUSED(VERSION("05", "80"), 3);                       /* P4, version 128 */
    GOES(VERSION("05", "30"), "154:0/5 156:0/5", "terminating 0/5:1");
    LAST(0);
    /* P4 */
    begin(1, 2, 3);
    GOES(ORDER("05"), "21:0/5", "calling 0/5:1");
    GOES(UP("05"), "155:0/5", "contacted 0/5:1");
    GOES(VERSION("05", "2F"), "159:0/5", "outgoing 0/5");
    /* P5, P6 */
    begin(1, 2, 3);
    GOES(CALL("01"), "159:0/1", "incoming 0/1");
    GOES(CALL("02"), "159:0/2", "incoming 0/1 0/2");
    GOES(CALL("03"), "159:0/3", "incoming 0/1 0/2 0/3");
    GOES(CALL("04"), "159:0/4", "incoming 0/1 0/2 0/3 0/4");
    REFUSED(CALL("05"), 8);
    REFUSED_AT(CALL("01"), 5, OPEN);
    REFUSED("0B 01000001 26 00", 9);
    LAST(KNOWN | 4);
    /* P7, RBC 1 outgoing and incoming */
    begin_with("outgoing 0/1 1/2");
    GOES("05 00000003 00 01", "156:0/1 21:0/3", "calling 0/3:1 outgoing 1/2 terminating 0/1:1");
    begin_with("incoming 0/1 outgoing 1/2");
    GOES("05 00000003 00 01", "156:0/1 21:0/3", "calling 0/3:1 outgoing 1/2 terminating 0/1:1<");
    /* P8 */
    begin(1, 2, 3);
    GOES("02 01", "", "");
    GOES("01 01 00", "", "");
    REFUSED("05 00000005 01 00", 4);
    GOES("01 02 00", "", "");
    GOES("05 00000005 01 00", "21:0/5", "calling 0/5:1");
    /* P9 */
    begin(1, 2, 3);
    REFUSED("04 00", 7);
    GOES("04 01", "", "");
    MARKS(1, 0, 0, 0);
    REFUSED("04 01", 7);
    GOES("04 00", "", "");
    MARKS(0, 0, 0, 1);
    GOES("05 00000005 01 04", "21:0/5", "calling 0/5:1");
    MARKS(0, 0, 0, 0);
    REFUSED("05 00000006 01 04", 4);
    /* P10: eleven actions */
    begin(1, 2, 3);
    GOES(ORDER("05"), "21:0/5", "calling 0/5:1");
    GOES(TIME("05"), "21:0/5", "calling 0/5:2");
    GOES(TIME("05"), "21:0/5", "calling 0/5:3");
    GOES(UP("05"), "155:0/5", "contacted 0/5:1");
    GOES(TIME("05"), "155:0/5", "contacted 0/5:2");
    GOES(TIME("05"), "155:0/5", "contacted 0/5:3");
    GOES(VERSION("05", "11"), "159:0/5", "outgoing 0/5");
    GOES(DROP("05"), "156:0/5", "terminating 0/5:1");
    GOES(TIME("05"), "156:0/5", "terminating 0/5:2");
    GOES(TIME("05"), "156:0/5", "terminating 0/5:3");
    GOES(DONE("05"), "22:0/5", "");
}

/* The table of 01, each set in turn. */
static void test_table(void)
{
#define TABLE(from, drop_does, up_does, lost_does, time_does, good_does, done_does) \
    do { \
        begin_with(from); drop_does; begin_with(from); up_does; begin_with(from); lost_does; begin_with(from); time_does; \
        begin_with(from); good_does; begin_with(from); done_does; \
    } while (0)
#define NO(record, phase) REFUSED_AT(record, 7, phase)
    TABLE("calling 0/9:2", GOES(DROP("09"), "22:0/9", ""), GOES(UP("09"), "155:0/9", "contacted 0/9:1"), NO(LOSS("09"), 1),
          GOES(TIME("09"), "21:0/9", "calling 0/9:3"), NO(VERSION("09", "11"), 1), NO(DONE("09"), 1));
    TABLE("contacted 0/9:2", GOES(DROP("09"), "22:0/9", ""), NO(UP("09"), 2), GOES(LOSS("09"), "22:0/9", ""),
          GOES(TIME("09"), "155:0/9", "contacted 0/9:3"), GOES(VERSION("09", "11"), "159:0/9", "outgoing 0/9"), NO(DONE("09"), 2));
    TABLE("incoming 0/9", GOES(DROP("09"), "156:0/9", "terminating 0/9:1<"), NO(UP("09"), 3), GOES(LOSS("09"), "21:0/9", "lost 0/9:1<"),
          NO(TIME("09"), 3), NO(VERSION("09", "11"), 3), NO(DONE("09"), 3));
    TABLE("outgoing 0/9", GOES(DROP("09"), "156:0/9", "terminating 0/9:1"), NO(UP("09"), 3), GOES(LOSS("09"), "21:0/9", "lost 0/9:1"),
          NO(TIME("09"), 3), NO(VERSION("09", "11"), 3), NO(DONE("09"), 3));
    TABLE("lost 0/9:2<", GOES(DROP("09"), "22:0/9", ""), GOES(UP("09"), "", "incoming 0/9"), NO(LOSS("09"), 4),
          GOES(TIME("09"), "21:0/9", "lost 0/9:3<"), NO(VERSION("09", "11"), 4), NO(DONE("09"), 4));
    TABLE("lost 0/9:2", GOES(DROP("09"), "22:0/9", ""), GOES(UP("09"), "", "outgoing 0/9"), NO(LOSS("09"), 4),
          GOES(TIME("09"), "21:0/9", "lost 0/9:3"), NO(VERSION("09", "11"), 4), NO(DONE("09"), 4));
    TABLE("terminating 0/9:2<", NO(DROP("09"), 5), NO(UP("09"), 5), GOES(LOSS("09"), "22:0/9", ""),
          GOES(TIME("09"), "156:0/9", "terminating 0/9:3<"), NO(VERSION("09", "11"), 5), GOES(DONE("09"), "22:0/9", ""));
    TABLE("terminating 0/9:3", NO(DROP("09"), 5), NO(UP("09"), 5), GOES(LOSS("09"), "22:0/9", ""), GOES(TIME("09"), "22:0/9", ""),
          NO(VERSION("09", "11"), 5), GOES(DONE("09"), "22:0/9", ""));
    /* at the last try, and with an RIU */
    begin_with("calling 0/9:3 contacted 1/9:3 lost 0/8:3< 1/8:3");
    GOES(TIME("08"), "22:0/8", "calling 0/9:3 contacted 1/9:3 lost 1/8:3");
    GOES("0A 01000009", "22:1/9", "calling 0/9:3 lost 1/8:3");
    GOES("0A 01000008", "22:1/8", "calling 0/9:3");
    GOES(TIME("09"), "22:0/9", "");
    /* X alone is judged */
    static const struct { const char *version; bool good; } some[] = {{"00", false}, {"0F", false}, {"10", true}, {"1F", true}, {"20", true}, {"2F", true}, {"30", false}, {"7F", false}};
    for (size_t i = 0; i < sizeof some / sizeof some[0]; i++) {
        char record[32];
        snprintf(record, sizeof record, "0B 01000009 20 %s", some[i].version);
        begin_with("contacted 1/9:3");
        GOES(record, some[i].good ? "159:1/9" : "154:1/9 156:1/9", some[i].good ? "outgoing 1/9" : "terminating 1/9:1");
        LAST(0);                                           /* an RIU is never the last known RBC */
    }
}

/* Who stays, who comes: the order within a set. */
static void test_form(void)
{
    /* one more try: last in its set, the others keep their order */
    begin_with("calling 0/1:1 0/2:1 0/3:1 0/4:1");
    GOES(TIME("01"), "21:0/1", "calling 0/2:1 0/3:1 0/4:1 0/1:2");
    GOES(TIME("03"), "21:0/3", "calling 0/2:1 0/4:1 0/1:2 0/3:2");
    GOES(TIME("03"), "21:0/3", "calling 0/2:1 0/4:1 0/1:2 0/3:3");
    GOES(TIME("04"), "21:0/4", "calling 0/2:1 0/1:2 0/3:3 0/4:2");
    GOES(TIME("03"), "22:0/3", "calling 0/2:1 0/1:2 0/4:2");
    GOES(DROP("01"), "22:0/1", "calling 0/2:1 0/4:2");
    GOES(ORDER("01"), "21:0/1", "calling 0/2:1 0/4:2 0/1:1");
    GOES(UP("04"), "155:0/4", "calling 0/2:1 0/1:1 contacted 0/4:1");
    GOES(UP("02"), "155:0/2", "calling 0/1:1 contacted 0/4:1 0/2:1");
    GOES(TIME("04"), "155:0/4", "calling 0/1:1 contacted 0/2:1 0/4:2");
    GOES(VERSION("04", "20"), "159:0/4", "calling 0/1:1 contacted 0/2:1 outgoing 0/4");
    GOES(VERSION("02", "40"), "154:0/2 156:0/2", "calling 0/1:1 outgoing 0/4 terminating 0/2:1");
    GOES(CALL("09"), "159:0/9", "calling 0/1:1 incoming 0/9 outgoing 0/4 terminating 0/2:1");
    GOES(LOSS("09"), "21:0/9", "calling 0/1:1 outgoing 0/4 lost 0/9:1< terminating 0/2:1");
    GOES(LOSS("04"), "21:0/4", "calling 0/1:1 lost 0/9:1< 0/4:1 terminating 0/2:1");
    GOES(TIME("09"), "21:0/9", "calling 0/1:1 lost 0/4:1 0/9:2< terminating 0/2:1");
    GOES(UP("04"), "", "calling 0/1:1 outgoing 0/4 lost 0/9:2< terminating 0/2:1");
    GOES(DROP("04"), "156:0/4", "calling 0/1:1 lost 0/9:2< terminating 0/2:1 0/4:1");
    GOES(TIME("02"), "156:0/2", "calling 0/1:1 lost 0/9:2< terminating 0/4:1 0/2:2");
    GOES(UP("09"), "", "calling 0/1:1 incoming 0/9 terminating 0/4:1 0/2:2");
    GOES(DROP("09"), "156:0/9", "calling 0/1:1 terminating 0/4:1 0/2:2 0/9:1<");
    GOES(DONE("02"), "22:0/2", "calling 0/1:1 terminating 0/4:1 0/9:1<");
    /* with one try */
    begin(1, 2, 1);
    put_sets(&now, "calling 0/1:1 terminating 0/2:1 0/3:1< 0/4:1");
    GOES(TIME("03"), "22:0/3", "calling 0/1:1 terminating 0/2:1 0/4:1");
    GOES(TIME("01"), "22:0/1", "terminating 0/2:1 0/4:1");
    /* RBC 0 has the bytes that stand behind a count, and is a member like any other */
    begin(1, 2, 3);
    REFUSED(DROP("00"), 6);
    REFUSED("06 01000000", 6);
    GOES(ORDER("00"), "21:0/0", "calling 0/0:1");
    GOES(ORDER_RIU("00"), "21:1/0", "calling 0/0:1 1/0:1");
    REFUSED_AT(CALL("00"), 5, 1);
    GOES(UP("00"), "155:0/0", "calling 1/0:1 contacted 0/0:1");
    GOES(VERSION("00", "1F"), "159:0/0", "calling 1/0:1 outgoing 0/0");
    LAST(KNOWN);
    REFUSED_AT("05 00003FFF 00 01", 5, 3);
    GOES(DROP("00"), "156:0/0", "calling 1/0:1 terminating 0/0:1");
    GOES(LOSS("00"), "22:0/0", "calling 1/0:1");
    GOES("05 0003FFFF 00 01", "21:0/0", "calling 1/0:1 0/0:1");
}

/* End all, mission 0, and orders that are not accepting. */
static void test_closing(void)
{
    static const char *const ends[] = {"07 00", "07 01", "02 00"};
    for (size_t i = 0; i < 3; i++) {
        begin_with("");
        GOES(ends[i], "", "");
        /* one of each: calling, contacted, incoming, outgoing, lost in this order */
        begin_with("calling 0/9:2 contacted 1/8:3 incoming 0/7 outgoing 1/6");
        GOES(ends[i], "22:0/9 22:1/8 156:0/7 156:1/6", "terminating 0/7:1< 1/6:1");
        GOES(ends[i], "", "terminating 0/7:1< 1/6:1");
        begin_with("incoming 0/3 outgoing 0/2 lost 0/1:1< terminating 0/4:3");
        GOES(ends[i], "156:0/3 156:0/2 22:0/1", "terminating 0/4:3 0/3:1< 0/2:1");
        /* within a set in its order */
        begin_with("calling 0/4:1 0/2:3 1/3:2 0/1:1");
        GOES(ends[i], "22:0/4 22:0/2 22:1/3 22:0/1", "");
        begin_with("incoming 0/4 0/2 outgoing 1/3 0/1");
        GOES(ends[i], "156:0/4 156:0/2 156:1/3 156:0/1", "terminating 0/4:1< 0/2:1< 1/3:1 0/1:1");
        begin_with("calling 0/5:1 lost 0/4:1< 1/2:3 0/3:2");
        GOES(ends[i], "22:0/5 22:0/4 22:1/2 22:0/3", "");
        /* terminating members stay as they are, tries and order too */
        begin_with("terminating 0/4:2< 1/3:3 0/2:1 0/1:2<");
        GOES(ends[i], "", "terminating 0/4:2< 1/3:3 0/2:1 0/1:2<");
        begin_with("incoming 0/1 terminating 0/4:2< 1/3:3");
        GOES(ends[i], "156:0/1", "terminating 0/4:2< 1/3:3 0/1:1<");
    }
    /* mission 1 and 2 close nothing */
    begin_with("calling 0/9:2 incoming 0/7");
    GOES("02 01", "", "calling 0/9:2 incoming 0/7");
    CHECK(now.mission == 1);
    GOES("02 02", "", "calling 0/9:2 incoming 0/7");
    CHECK(now.mission == 2);
    GOES("02 00", "22:0/9 156:0/7", "terminating 0/7:1<");
    CHECK(now.mission == 0);
    /* an order that is not accepting closes the RBCs of incoming, outgoing and lost */
    begin_with("incoming 0/3 outgoing 0/2 lost 0/1:2<");
    GOES(CLOSING("09"), "156:0/3 156:0/2 22:0/1 21:0/9", "calling 0/9:1 terminating 0/3:1< 0/2:1");
    begin_with("incoming 0/1 0/2 outgoing 0/3");
    GOES(CLOSING("09"), "156:0/1 156:0/2 156:0/3 21:0/9", "calling 0/9:1 terminating 0/1:1< 0/2:1< 0/3:1");
    begin_with("outgoing 0/3 lost 0/2:1 0/1:3<");
    GOES(CLOSING("09"), "156:0/3 22:0/2 22:0/1 21:0/9", "calling 0/9:1 terminating 0/3:1");
    begin_with("lost 0/3:2 0/2:1 0/1:3<");
    GOES(CLOSING("09"), "22:0/3 22:0/2 22:0/1 21:0/9", "calling 0/9:1");
    /* not those of the other sets, and no RIU */
    begin_with("calling 0/3:2 contacted 0/2:3 terminating 0/1:3<");
    GOES(CLOSING("09"), "21:0/9", "calling 0/3:2 0/9:1 contacted 0/2:3 terminating 0/1:3<");
    begin_with("outgoing 1/3 0/2 1/1");
    GOES(CLOSING("09"), "156:0/2 21:0/9", "calling 0/9:1 outgoing 1/3 1/1 terminating 0/2:1");
    begin_with("outgoing 1/3 lost 1/2:3 0/1:2");
    GOES(CLOSING("09"), "22:0/1 21:0/9", "calling 0/9:1 outgoing 1/3 lost 1/2:3");
    /* behind those that were terminating */
    begin_with("incoming 0/5 outgoing 0/4 terminating 1/3:2");
    GOES(CLOSING("09"), "156:0/5 156:0/4 21:0/9", "calling 0/9:1 terminating 1/3:2 0/5:1< 0/4:1");
    /* an accepting one, and one to an RIU, close nothing */
    begin_with("incoming 0/3 outgoing 0/2 lost 0/1:2<");
    GOES(ORDER("09"), "21:0/9", "calling 0/9:1 incoming 0/3 outgoing 0/2 lost 0/1:2<");
    begin_with("incoming 0/3 outgoing 0/2 lost 0/1:2<");
    GOES("05 01000003 00 01", "21:1/3", "calling 1/3:1 incoming 0/3 outgoing 0/2 lost 0/1:2<");
    /* four members: 8, although the order would make room */
    begin_with("incoming 0/3 lost 0/2:1 0/1:2< 0/4:1");
    REFUSED(CLOSING("09"), 8);
    REFUSED(ORDER_RIU("09"), 8);
    REFUSED(CALL("09"), 8);
    REFUSED_AT(CLOSING("03"), 5, 3);
    REFUSED_AT(CLOSING("02"), 5, 4);
    /* the last known RBC is among those closed by an order to another */
    begin_with("calling 0/5:1");
    GOES(CALL("07"), "159:0/7", "calling 0/5:1 incoming 0/7");
    GOES(CLOSING("08"), "156:0/7 21:0/8", "calling 0/5:1 0/8:1 terminating 0/7:1<");
    REFUSED_AT("05 00003FFF 00 01", 5, 5);
    GOES(DONE("07"), "22:0/7", "calling 0/5:1 0/8:1");
    GOES("05 00003FFF 00 01", "21:0/7", "calling 0/5:1 0/8:1 0/7:1");
    LAST(KNOWN | 7);
}

/* Causes, marks, train, last known RBC. */
static void test_train(void)
{
    for (unsigned level = 0; level <= 4; level++)
        for (unsigned mission = 0; mission <= 2; mission++)
            for (unsigned marks = 0; marks < 8; marks++)
                for (unsigned cause = 0; cause <= 4; cause++) {
                    begin(1, 2, 3);
                    now.level = (uint8_t)level;
                    now.mission = (uint8_t)mission;
                    now.mode = marks & 1;
                    now.manual = marks >> 1 & 1;
                    now.hole_end = marks >> 2 & 1;
                    const bool two = level == 2 || level == 3;
                    const bool force = cause == 0 ? mission == 1 && two : cause == 1 ? true : cause == 2 ? mission > 0 && two && (marks & 1) :
                                       cause == 3 ? two && (marks & 2) : (marks & 4) != 0;
                    const uint8_t record[7] = {5, 1, 0, 0, 7, 0, (uint8_t)cause};
                    uint8_t room[BUFFER];
                    const SetsResult r = stepped(&now, record, 7, room, 20);
                    CHECK(r.code == (force ? 0 : 4) && now.level == level && now.mission == mission && now.inside == 0);
                    const unsigned used = force && cause >= 2 ? 1u << (cause - 2) : 0;
                    CHECK((now.mode | now.manual << 1 | now.hole_end << 2) == (int)(marks & ~used));
                }
    begin(1, 2, 3);
    GOES("01 03 01", "", "");
    MARKS(0, 0, 1, 0);
    GOES("01 04 00", "", "");                              /* manual 0 leaves the mark */
    MARKS(0, 0, 1, 0);
    CHECK(now.level == 4);
    GOES("03", "", "");
    GOES("03", "", "");
    MARKS(0, 1, 1, 0);
    GOES("04 01", "", "");
    GOES("04 00", "", "");
    MARKS(0, 1, 1, 1);
    GOES("02 00", "", "");                                 /* the end of a mission leaves the marks */
    GOES("07 01", "", "");
    MARKS(0, 1, 1, 1);
    GOES("04 01", "", "");
    MARKS(1, 1, 1, 0);
    GOES("01 02 00", "", "");
    GOES("02 02", "", "");
    put_sets(&now, "incoming 0/1 0/2 0/3 0/4");
    REFUSED("05 00000009 00 02", 8);                       /* refused: no mark is used */
    REFUSED_AT("05 00000001 00 03", 5, 3);
    REFUSED("05 00003FFF 00 02", 15);
    MARKS(1, 1, 1, 0);
    /* the last known RBC: of the last 159 to an RBC */
    begin(1, 2, 3);
    REFUSED("05 00003FFF 01 01", 15);
    REFUSED("05 00003FFF 01 04", 4);
    REFUSED("05 00003FFF 02 01", 3);
    GOES(CALL("01"), "159:0/1", "incoming 0/1");
    GOES(CALL("02"), "159:0/2", "incoming 0/1 0/2");
    LAST(KNOWN | 2);
    GOES(ORDER("03"), "21:0/3", "calling 0/3:1 incoming 0/1 0/2");
    GOES(UP("03"), "155:0/3", "contacted 0/3:1 incoming 0/1 0/2");
    LAST(KNOWN | 2);
    REFUSED_AT("05 00FFFFFF 01 01", 5, 3);
    GOES(LOSS("01"), "21:0/1", "contacted 0/3:1 incoming 0/2 lost 0/1:1<");
    GOES(UP("01"), "", "contacted 0/3:1 incoming 0/2 0/1"); /* no 159 */
    LAST(KNOWN | 2);
    GOES(VERSION("03", "29"), "159:0/3", "incoming 0/2 0/1 outgoing 0/3");
    LAST(KNOWN | 3);
    GOES(DROP("03"), "156:0/3", "incoming 0/2 0/1 terminating 0/3:1");
    GOES(DONE("03"), "22:0/3", "incoming 0/2 0/1");
    GOES("05 0007FFFF 00 01", "156:0/2 156:0/1 21:0/3", "calling 0/3:1 terminating 0/2:1< 0/1:1<");
    LAST(KNOWN | 3);
    /* RIU 16,383 is an RIU like any other; RBC 16,383 in another event is 3 */
    begin(1, 2, 3);
    GOES("05 01003FFF 00 01", "21:1/16383", "calling 1/16383:1");
    GOES("08 01003FFF", "155:1/16383", "contacted 1/16383:1");
    static const char *const others[] = {"06 00003FFF", "08 00FFFFFF", "09 00007FFF", "0A 00003FFF", "0B 00003FFF 20 11", "0B 00003FFF 26 00", "0B 00003FFF 27 00"};
    for (size_t i = 0; i < sizeof others / sizeof others[0]; i++)
        REFUSED(others[i], 3);
}

/* Refusals in their order: 10, 11, 1, 2, 1, 3, then by event. */
static void test_refused(void)
{
    static const char *const records[] = {
        "", "00", "0C", "FF", "08", "08 000000", TIME("03") "00", "05", "0A 02000003", "03", "03 00", "02 03", "01 05 00", "01 00 02", "04 02", "07 02", "05 02000003 01 01",
        "05 00000009 02 01", "05 00000009 01 05", "0B 00000003 21 00", "0B 00000003 20 80", "0B 00000003 26 01", "0B 00000003 27 01", TIME("09"), TIME("01"), LOSS("03"), "04 00",
        ORDER("03"), CALL("03"), "0B 01000009 26 00", "05 00000009 01 00", "05 00003FFF 01 01",
    };
    static const uint8_t codes[] = {1, 2, 2, 2, 1, 1, 1, 1, 3, 0, 1, 3, 3, 3, 3, 3, 3, 3, 3, 3, 3, 3, 3, 6, 7, 7, 7, 5, 5, 9, 4, 15};
    static const uint8_t phases[sizeof codes] = {[24] = 3, [25] = 1, [27] = 1, [28] = 1};
    begin_with("calling 0/3:1 incoming 0/1 0/2");
    const Sets good = now;
    for (size_t i = 0; i < sizeof codes; i++) {
        for (size_t room = 0; room < 20; room++)
            REFUSED_IN(room, records[i], 10);
        now.set[SET_CALLING].count = 2;                    /* a member with no tries */
        for (size_t room = 0; room < 30; room++)
            REFUSED_IN(room, records[i], room < 20 ? 10 : 11);
        now = good;
        now.level = 5;
        REFUSED_IN(19, records[i], 10);
        REFUSED_IN(20, records[i], 11);
        now = good;
        if (codes[i] != 0)
            REFUSED_AT(records[i], codes[i], phases[i]);
    }
    for (unsigned kind = 0; kind < 256; kind++)
        for (size_t length = 0; length < 12; length++) {
            const uint8_t record[12] = {(uint8_t)kind, 0, 0, 0, 3, 0, 1};
            uint8_t room[BUFFER];
            now = good;
            const uint8_t code = stepped(&now, record, length, room, 20).code;
            static const uint8_t lengths[12] = {0, 3, 2, 1, 2, 7, 5, 2, 5, 5, 5, 7};
            if (length == 0)
                CHECK(code == 1);
            else if (kind < 1 || kind > 11)
                CHECK(code == 2);
            else
                CHECK((code == 1) == (length != lengths[kind]) && code != 2);
        }
    /* 4 before 15 before 5 before 8; 9 before 5 before 8; 6 before 7 */
    begin_with("incoming 0/1 0/2 0/3 0/4");
    REFUSED("05 00000001 01 04", 4);
    REFUSED("05 00003FFF 01 04", 4);
    REFUSED("05 00003FFF 01 01", 15);
    REFUSED_AT(ORDER("01"), 5, 3);
    REFUSED(ORDER("09"), 8);
    REFUSED("0B 01000001 26 00", 9);
    REFUSED_AT(CALL("04"), 5, 3);
    REFUSED(CALL("09"), 8);
    REFUSED(DROP("09"), 6);
    REFUSED("06 01000001", 6);
    now.last = KNOWN | 4;
    REFUSED_AT("05 00003FFF 01 01", 5, 3);
    now.last = KNOWN | 9;
    REFUSED("05 00003FFF 01 01", 8);
}

/* ---- beside the places ---- */

static const uint8_t phases[SETS] = {CONNECTING, CONTACTING, OPEN, OPEN, LOST, ENDING};

static bool established(unsigned set) { return set == SET_INCOMING || set == SET_OUTGOING; }

/* The same members in places, from this place on, round about; at most four members. */
static State places_of(const Sets *s, unsigned place)
{
    State p;
    memset(&p, 0, sizeof p);
    p.lowest = s->lowest;
    p.highest = s->highest;
    p.level = s->level;
    p.mission = s->mission;
    p.inside = s->inside;
    p.mode = s->mode;
    p.manual = s->manual;
    p.hole_end = s->hole_end;
    p.last = s->last;
    p.n = s->n;
    for (unsigned set = 0; set < SETS; set++)
        for (unsigned i = 0; i < s->set[set].count; i++, place++) {
            const Member *const m = &s->set[set].member[i];
            const unsigned at = place % PLACES;
            p.phase[at] = phases[set];
            p.partner[at] = m->who;
            p.tries[at] = m->tries;
            p.direction[at] = m->direction;
        }
    return p;
}

/* The set of a held place. */
static unsigned set_of(uint8_t phase, uint8_t direction)
{
    switch (phase) {
    case CONNECTING: return SET_CALLING;
    case CONTACTING: return SET_CONTACTED;
    case OPEN: return direction == INCOMING ? SET_INCOMING : SET_OUTGOING;
    case LOST: return SET_LOST;
    default: return SET_TERMINATING;
    }
}

/* The same other fields; each held place is a member of its set, with its tries and direction, and there is no other member. */
static bool agrees(const Sets *s, const State *p)
{
    unsigned held = 0;
    for (unsigned i = 0; i < PLACES; i++)
        if (p->phase[i] != FREE) {
            const Member m = {.who = p->partner[i], .tries = p->tries[i], .direction = p->direction[i]};
            if (!has_member(&s->set[set_of(p->phase[i], p->direction[i])], &m))
                return false;
            held++;
        }
    return held == members(s) && s->lowest == p->lowest && s->highest == p->highest && s->level == p->level && s->mission == p->mission &&
           s->inside == p->inside && s->mode == p->mode && s->manual == p->manual && s->hole_end == p->hole_end && s->n == p->n && s->last == p->last;
}

static int by_bytes(const void *a, const void *b) { return memcmp(a, b, ACTION_BYTES); }

/* The same number of each action for each partner. */
static bool same_collection(const uint8_t *a, const uint8_t *b, unsigned count)
{
    uint8_t one[ACTION_BUFFER], two[ACTION_BUFFER];
    memcpy(one, a, ACTION_BYTES * count);
    memcpy(two, b, ACTION_BYTES * count);
    qsort(one, count, ACTION_BYTES, by_bytes);
    qsort(two, count, ACTION_BYTES, by_bytes);
    return memcmp(one, two, ACTION_BYTES * count) == 0;
}

static void put_action(Bytes *to, uint8_t number, uint32_t who)
{
    const uint8_t action[ACTION_BYTES] = {number, (uint8_t)(who >> 24), (uint8_t)(who >> 16), (uint8_t)(who >> 8), (uint8_t)who};
    memcpy(to->b + to->n, action, sizeof action);
    to->n += sizeof action;
}

/* The actions of a closing: of all, or of the RBCs that are incoming, outgoing or lost. */
static void put_closings(Bytes *to, const Sets *s, bool all)
{
    static const unsigned sets[] = {SET_CALLING, SET_CONTACTED, SET_INCOMING, SET_OUTGOING, SET_LOST};
    for (unsigned k = all ? 0 : 2; k < 5; k++)
        for (unsigned i = 0; i < s->set[sets[k]].count; i++) {
            const uint32_t who = s->set[sets[k]].member[i].who;
            if (all || who >> 24 == RBC)
                put_action(to, established(sets[k]) ? ACT_TERMINATE : ACT_RELEASE, who);
        }
}

/* The actions in their order: those of a closing set by set; any other accepted event has them in the places' order. */
static bool actions_in_order(const Sets *was, const uint8_t *record, const uint8_t *room, const uint8_t *sent, unsigned count)
{
    Bytes want;
    want.n = 0;
    if (record[0] == EV_END_ALL || (record[0] == EV_MISSION && record[1] == 0)) {
        put_closings(&want, was, true);
    } else if (record[0] == EV_ORDER) {
        const uint8_t *const last = sent + ACTION_BYTES * (count - 1);
        if (last[1] == RBC && record[5] == 0)
            put_closings(&want, was, false);
        put_action(&want, ACT_REQUEST, partner_in(last + 1));
    } else {
        return memcmp(room, sent, ACTION_BYTES * count) == 0;
    }
    closings += count > 1;
    fours += count == 4;
    return want.n == ACTION_BYTES * count && memcmp(room, want.b, want.n) == 0;
}

/* One step of both engines. */
static SetsResult both(Sets *s, State *p, const uint8_t *record, size_t length, uint8_t *room, size_t room_length)
{
    const Sets was = *s;
    uint8_t sent[BUFFER];
    const StepResult want = step(p, record, length, sent, room_length);
    const SetsResult r = stepped(s, record, length, room, room_length);
    CHECK(r.code == want.code && r.count == want.count && r.phase == want.phase);
    CHECK(agrees(s, p));
    if (r.code == 0) {
        CHECK(same_collection(room, sent, r.count));
        CHECK(actions_in_order(&was, record, room, sent, r.count));
        repeats += record[0] == EV_TIMEOUT && members(s) == members(&was) && members(s) > 1;
    }
    return r;
}

static size_t put_event(uint8_t *r, uint8_t kind, uint32_t who, uint8_t b5, uint8_t b6)
{
    const uint8_t record[7] = {kind, (uint8_t)(who >> 24), (uint8_t)(who >> 16), (uint8_t)(who >> 8), (uint8_t)who, b5, b6};
    memcpy(r, record, sizeof record);
    return record_length[kind];
}

static void event(const Sets *s, const State *p, uint8_t kind, uint32_t who, uint8_t b5, uint8_t b6)
{
    Sets t = *s;
    State q = *p;
    uint8_t record[GEN_MOST], room[BUFFER];
    both(&t, &q, record, put_event(record, kind, who, b5, b6), room, 20);
}

/* Every event, on this state. */
static void every_event(const Sets *s, unsigned turn)
{
    static const struct { uint8_t kind, b5, b6; } named[] = {
        {EV_DROP, 0, 0}, {EV_UP, 0, 0}, {EV_LOST, 0, 0}, {EV_TIMEOUT, 0, 0}, {EV_MESSAGE, 32, 0x1F}, {EV_MESSAGE, 32, 0x30}, {EV_MESSAGE, 39, 0},
        {EV_MESSAGE, 38, 0}, {EV_ORDER, 0, 1}, {EV_ORDER, 1, 1},
    };
    enum { NAMED = sizeof named / sizeof named[0] };
    static const uint8_t odd[][3] = {{EV_MESSAGE, 32, 0x80}, {EV_MESSAGE, 38, 1}, {EV_ORDER, 0, 0}, {EV_ORDER, 0, 2}, {EV_ORDER, 1, 3}, {EV_ORDER, 0, 4}, {EV_ORDER, 1, 5}, {EV_ORDER, 2, 1}};
    static const uint32_t strangers[] = {0x00000007, 0x01000007, 0x00003FFF, 0x01003FFF, 0x02000001};
    static const char *const others[] = {"07 00", "07 01", "07 02", "02 00", "02 01", "02 03", "01 03 01", "01 05 00", "03", "04 00", "04 01", "", "00", "0C", "05", "08 00000002 00"};
    const State p = places_of(s, turn);
    CHECK(sets_sound(s) && sound(&p) && agrees(s, &p));
    for (unsigned set = 0; set < SETS; set++)
        for (unsigned i = 0; i < s->set[set].count; i++)
            for (size_t k = 0; k < NAMED; k++)
                event(s, &p, named[k].kind, s->set[set].member[i].who, named[k].b5, named[k].b6);
    for (size_t i = 0; i < sizeof strangers / sizeof strangers[0]; i++) {
        for (size_t k = 0; k < (turn % 4 == 0 ? NAMED : 0); k++)
            event(s, &p, named[k].kind, strangers[i], named[k].b5, named[k].b6);
        const uint8_t *const o = odd[(turn + i) % 8];
        event(s, &p, o[0], strangers[i], o[1], o[2]);
        event(s, &p, EV_ORDER, strangers[i], turn % 2, 1);
    }
    event(s, &p, EV_MESSAGE, strangers[0], 38, 0);
    event(s, &p, EV_ORDER, strangers[0], 0, 1);
    for (size_t i = turn % 4 == 0 ? 0 : turn % 5; i < sizeof others / sizeof others[0]; i += turn % 4 == 0 ? 1 : 5) {
        Sets t = *s;
        State q = p;
        uint8_t room[BUFFER];
        const Bytes r = hex(others[i]);
        both(&t, &q, r.b, r.n, room, 20);
    }
}

enum { FORMS = 14, LAST_TRY = 255 };

static const struct { uint8_t set, type, tries, direction; } forms[FORMS] = {
    {SET_CALLING, RBC, 1, 0}, {SET_CALLING, RIU, LAST_TRY, 0}, {SET_CONTACTED, RIU, 1, 0}, {SET_CONTACTED, RBC, LAST_TRY, 0}, {SET_INCOMING, RBC, 0, 1},
    {SET_OUTGOING, RBC, 0, 0}, {SET_OUTGOING, RIU, 0, 0}, {SET_LOST, RBC, LAST_TRY, 0}, {SET_LOST, RBC, 1, 1}, {SET_LOST, RIU, 1, 0},
    {SET_TERMINATING, RBC, LAST_TRY, 1}, {SET_TERMINATING, RIU, 1, 0}, {SET_TERMINATING, RBC, 1, 0}, {SETS, 0, 0, 0},      /* nobody */
};

static void test_every(void)
{
    for (unsigned code = 0; code < FORMS * FORMS * FORMS * FORMS; code++) {
        Sets s;
        sets_cold_start(&s, 1, 2, (uint8_t)(1 + code % 5));
        s.mission = (uint8_t)(code % 3);
        s.level = (uint8_t)(code / 3 % 5);
        s.mode = code / 2 % 2;
        s.manual = code / 4 % 2;
        s.hole_end = code / 8 % 2;
        s.inside = !s.hole_end && code % 5 == 0;
        s.last = code % 3 == 0 ? 0 : code % 3 == 1 ? KNOWN | 9 : KNOWN | (code / 3 % 4);
        for (unsigned i = 0, rest = code; i < MEMBERS; i++, rest /= FORMS) {
            const unsigned f = rest % FORMS;
            if (forms[f].set != SETS)                      /* RBC 0 to 3, RIU 0 to 3, the later first by turns */
                add(&s, forms[f].set, (uint32_t)forms[f].type << 24 | (code % 2 ? i : 3 - i), forms[f].tries == LAST_TRY ? s.n : forms[f].tries, forms[f].direction);
        }
        every_event(&s, code);
    }
}

/* ---- histories ---- */

/* A record about few partners, dense in orders, calls and timeouts. */
static size_t dense_record(Rng *g, const State *p, uint32_t pool, uint8_t *r)
{
    const uint32_t d = rng_below(g, 100), number = rng_below(g, pool);
    const unsigned i = rng_below(g, PLACES);
    const uint32_t any = (number % 3 == 2 ? 0x01000000u : 0) | number;
    const uint32_t who = p->phase[i] != FREE ? p->partner[i] : any;
    memset(r, 0, GEN_MOST);
    if (d < 22) return put_event(r, EV_ORDER, any, (uint8_t)rng_below(g, 2), 1);
    if (d < 30) return put_event(r, EV_MESSAGE, number, 38, 0);
    if (d < 48) return put_event(r, EV_TIMEOUT, who, 0, 0);
    if (d < 61) return put_event(r, EV_UP, who, 0, 0);
    if (d < 70) return put_event(r, EV_MESSAGE, who, 32, (uint8_t)(rng_below(g, 4) ? 0x10 + rng_below(g, 32) : rng_below(g, 130)));
    if (d < 78) return put_event(r, EV_LOST, who, 0, 0);
    if (d < 83) return put_event(r, EV_DROP, who, 0, 0);
    if (d < 89) return put_event(r, EV_MESSAGE, who, 39, 0);
    if (d < 91) { r[0] = d == 89 ? EV_END_ALL : EV_MISSION; return 2; }
    if (d < 93) return put_event(r, EV_ORDER, LAST_KNOWN, (uint8_t)rng_below(g, 2), 1);
    return gen_record_last(g, p, d < 96, r);
}

static unsigned long by_code[20];

static void history(Rng *g, unsigned many)
{
    Sets s;
    State p;
    uint8_t lo, hi;
    gen_x(g, &lo, &hi);
    const uint8_t n = gen_n(g);
    const uint32_t pool = 4 + rng_below(g, 4);
    const bool dense = rng_below(g, 3) != 0;
    CHECK(sets_cold_start(&s, lo, hi, n) == 0 && cold_start(&p, lo, hi, n) == 0);
    while (many-- > 0) {
        uint8_t r[GEN_MOST], room[BUFFER];
        const size_t length = dense ? dense_record(g, &p, pool, r) : gen_record_last(g, &p, false, r);
        by_code[both(&s, &p, r, length, room, rng_below(g, 50) ? 20 + rng_below(g, 10) : rng_below(g, 20)).code]++;
    }
}

static void test_histories(void)
{
    Rng g = {701};
    for (int i = 0; i < 9000; i++)
        history(&g, 20 + rng_below(&g, 500));
    static const uint8_t codes[] = {0, 1, 2, 3, 4, 5, 6, 7, 8, 9, 10, 15};
    for (size_t i = 0; i < sizeof codes; i++)
        CHECK(by_code[codes[i]] > 1000);
    CHECK(closings > 10000 && fours > 1000 && repeats > 10000);
}

/* Request Q-3's bounds, for each n: 3n + 2 actions for an order, n + 2 for a call, n for a loss. */
static void test_tries(void)
{
    for (uint8_t n = 1; n <= TRIES_MOST; n++) {
        uint8_t r[GEN_MOST], room[BUFFER];
        unsigned actions = 0;
        begin(1, 2, n);
#define DOES(kind, b5, b6) do { const SetsResult a = stepped(&now, r, put_event(r, kind, 5, b5, b6), room, 20); CHECK(a.code == 0); actions += a.count; } while (0)
        DOES(EV_ORDER, 1, 1);
        for (unsigned i = 1; i < n; i++)
            DOES(EV_TIMEOUT, 0, 0);
        DOES(EV_UP, 0, 0);
        for (unsigned i = 1; i < n; i++)
            DOES(EV_TIMEOUT, 0, 0);
        DOES(EV_MESSAGE, 32, 0x10);
        DOES(EV_DROP, 0, 0);
        for (unsigned i = 1; i <= n; i++)
            DOES(EV_TIMEOUT, 0, 0);
        CHECK(actions == 3u * n + 2 && members(&now) == 0);
        actions = 0;
        DOES(EV_MESSAGE, 38, 0);
        DOES(EV_LOST, 0, 0);
        for (unsigned i = 1; i < n; i++)
            DOES(EV_TIMEOUT, 0, 0);
        CHECK(actions == 1u + n && now.set[SET_LOST].count == 1 && now.set[SET_LOST].member[0].tries == n && now.set[SET_LOST].member[0].direction == 1);
        DOES(EV_UP, 0, 0);
        CHECK(now.set[SET_INCOMING].count == 1 && now.set[SET_INCOMING].member[0].tries == 0);
        actions = 1;
        DOES(EV_DROP, 0, 0);
        for (unsigned i = 1; i <= n; i++)
            DOES(EV_TIMEOUT, 0, 0);
        CHECK(actions == 2u + n && members(&now) == 0);
    }
}

/* ---- which states are sound ---- */

/* By the places: what cannot be told there is told first. */
static bool sound_by_places(const Sets *s)
{
    static const Member none = {0};
    unsigned many = 0;
    for (unsigned set = 0; set < SETS; set++) {
        const Set *const of = &s->set[set];
        if (of->count > MEMBERS)
            return false;
        for (unsigned i = 0; i < MEMBERS; i++)
            if (i >= of->count ? memcmp(&of->member[i], &none, sizeof none) != 0 : established(set) && of->member[i].direction != (set == SET_INCOMING))
                return false;
        many += of->count;
    }
    if (many > MEMBERS)
        return false;
    const State p = places_of(s, 0);
    return sound(&p);
}

static bool judged(const Sets *s)
{
    const bool ok = sets_sound(s);
    CHECK(ok == slow_sound(s) && ok == sound_by_places(s));
    Sets t = *s;
    uint8_t room[BUFFER];
    const uint8_t mode[1] = {EV_MODE};
    RunResult out;
    CHECK(stepped(&t, mode, 1, room, 20).code == (ok ? 0 : 11));
    t = *s;
    sets_run(&t, mode, 1, 1, &out);
    CHECK(out.code == (ok ? 0 : 11) && out.read == ok && (ok || same(&t, s)));
    return ok;
}

/* The most that a member has had; 1 where none counts. */
static unsigned most_tries(const Sets *s)
{
    unsigned most = 1;
    for (unsigned set = 0; set < SETS; set++)
        for (unsigned i = 0; i < s->set[set].count; i++)
            if (s->set[set].member[i].tries > most)
                most = s->set[set].member[i].tries;
    return most;
}

static void test_sound(void)
{
    Sets t;
#define BAD(change) do { t = now; change; CHECK(!judged(&t)); } while (0)
#define FINE(change) do { t = now; change; CHECK(judged(&t)); } while (0)
    static const char *const some[] = {
        "", "calling 0/1:1 0/2:2 0/3:3 1/1:1", "contacted 0/1:1 0/2:2 0/3:3 1/1:1", "incoming 0/1 0/2 0/3 0/4", "outgoing 0/1 0/2 0/3 1/1", "lost 0/1:1 0/2:2< 0/3:3< 1/1:1",
        "terminating 0/1:1 0/2:2< 0/3:3< 1/1:1", "calling 0/1:1 contacted 0/2:1 incoming 0/3 outgoing 0/4", "incoming 0/1 outgoing 0/2 lost 0/3:1< terminating 0/4:3<", "outgoing 0/0",
    };
    for (size_t k = 0; k < sizeof some / sizeof some[0]; k++) {
        begin_with(some[k]);
        FINE((void)0);
        BAD(t.lowest = 3);
        BAD(t.highest = 8);
        BAD(t.highest = 0);
        BAD(t.lowest = t.highest = 255);
        FINE((t.lowest = 0, t.highest = 7));
        FINE((t.lowest = t.highest = 7));
        BAD((t.lowest = t.highest = 8));
        for (unsigned v = 0; v < 256; v++) {
            t = now;
            t.level = (uint8_t)v;
            CHECK(judged(&t) == (v <= 4));
            t = now;
            t.mission = (uint8_t)v;
            CHECK(judged(&t) == (v <= 2));
            t = now;
            t.n = (uint8_t)v;
            CHECK(judged(&t) == (v >= most_tries(&now) && v <= 9));
            for (unsigned set = 0; set < SETS; set++) {
                t = now;
                t.set[set].count = (uint8_t)v;
                /* one more or one less that is still sound: RBC 0, outgoing, has the zeros that stand behind a count */
                const bool zeros = set == SET_OUTGOING && (now.set[set].count == 0 ? v == 1 && members(&now) < MEMBERS : k == 9 && v == 0);
                CHECK(judged(&t) == (v == now.set[set].count || zeros));
            }
        }
        for (unsigned marks = 0; marks < 16; marks++) {
            t = now;
            t.inside = marks & 1;
            t.mode = marks >> 1 & 1;
            t.manual = marks >> 2 & 1;
            t.hole_end = marks >> 3;
            CHECK(judged(&t) == ((marks & 9) != 9));
        }
        BAD(t.inside = 2);
        BAD(t.mode = 2);
        BAD(t.manual = 128);
        BAD(t.hole_end = 255);
        FINE(t.last = KNOWN);
        FINE(t.last = KNOWN | 0x003FFE);
        FINE(t.last = KNOWN | 0xFFFFFE);
        BAD(t.last = KNOWN | 0x003FFF);
        BAD(t.last = KNOWN | 0xFFFFFF);
        BAD(t.last = KNOWN | 0x407FFF);
        BAD(t.last = 1);
        BAD(t.last = 2 * KNOWN);
        /* each byte of each member and of what stands behind the counts */
        uint8_t b[SETS_BYTES];
        for (size_t at = SETS_HEAD; at < SETS_BYTES; at++)
            for (unsigned v = 0; v < 256; v++) {
                sets_store(&now, b);
                b[at] = (uint8_t)v;
                sets_load(&t, b);
                judged(&t);
            }
    }
    begin_with("lost 0/1:1 0/2:1< terminating 1/1:1");
    BAD(t.set[SET_LOST].member[1].who = 1);                /* twice in a set, twice in two */
    BAD(t.set[SET_TERMINATING].member[0].who = 1);
    BAD(t.set[SET_TERMINATING].member[0].who = 2);
    BAD(t.set[SET_TERMINATING].member[0].direction = 1);   /* an RIU that was incoming */
    BAD(t.set[SET_LOST].member[1].who = 0x01000002);
    FINE(t.set[SET_LOST].member[0].who = 0x01000002);
    FINE(t.set[SET_LOST].member[0].who = 0x01003FFF);
    BAD(t.set[SET_LOST].member[0].who = 0x00003FFF);
    BAD(t.set[SET_LOST].member[0].who = 0x02000002);
    FINE(add(&t, SET_OUTGOING, 9, 0, 0));
    BAD((add(&t, SET_OUTGOING, 9, 0, 0), add(&t, SET_OUTGOING, 8, 0, 0)));                 /* five */
    BAD((add(&t, SET_CALLING, 9, 1, 0), add(&t, SET_CONTACTED, 8, 1, 0)));
    BAD((add(&t, SET_INCOMING, 9, 0, 1), add(&t, SET_TERMINATING, 8, 1, 0)));
    /* random states of up to six members, then one to three bytes changed */
    Rng g = {702};
    unsigned long good = 0, bad = 0;
    for (int i = 0; i < 400000; i++) {
        sets_cold_start(&t, 1, 2, gen_n(&g));
        for (uint32_t many = rng_below(&g, 6); many > 0; many--) {
            const unsigned set = rng_below(&g, SETS);
            const uint32_t number = rng_below(&g, 8);
            const uint8_t tries = established(set) ? 0 : (uint8_t)(1 + rng_below(&g, t.n)), direction = set == SET_INCOMING || (set >= SET_LOST && rng_below(&g, 2));
            if (t.set[set].count < MEMBERS)
                add(&t, set, number | (direction == 0 && rng_below(&g, 3) == 0 ? 0x01000000u : 0), tries, direction);
        }
        if (i % 2) {
            uint8_t b[SETS_BYTES];
            sets_store(&t, b);
            for (uint32_t k = 1 + rng_below(&g, 3); k > 0; k--) {
                const size_t at = rng_below(&g, SETS_BYTES);
                b[at] = (uint8_t)(rng_below(&g, 2) ? b[at] ^ 1u << rng_below(&g, 8) : rng_below(&g, 256));
            }
            sets_load(&t, b);
        }
        if (judged(&t))
            good++;
        else
            bad++;
    }
    CHECK(good > 50000 && bad > 100000);
}

/* ---- the run ---- */

static void run_at(int line, const char *log_text, size_t budget, uint8_t stop, uint32_t offset, uint32_t read, uint32_t refused,
                   uint32_t t21, uint32_t t22, uint32_t t154, uint32_t t155, uint32_t t156, uint32_t t159)
{
    const Bytes log = hex(log_text);
    RunResult out;
    memset(&out, 0x5A, sizeof out);
    begin(1, 2, 3);
    sets_run(&now, log.b, log.n, budget, &out);
    check_at(out.code == 0 && out.stop == stop && out.offset == offset && out.read == read && out.refused == refused, line, "the run");
    const uint32_t want[6] = {t21, t22, t154, t155, t156, t159};
    check_at(memcmp(out.total, want, sizeof want) == 0, line, "the totals");
}
#define RUN(...) run_at(__LINE__, __VA_ARGS__)

/* The run is the steps in turn, with 01's stops, and the places' run has the same answer. */
static void run_is_steps(const Sets *from, const uint8_t *log, size_t length, size_t budget)
{
    Sets s = *from, t = *from;
    State p = places_of(from, 1);
    RunResult out, want, by_places;
    memset(&out, 0x5A, sizeof out);
    memset(&want, 0, sizeof want);
    sets_run(&s, log, length, budget, &out);
    static const uint8_t numbers[6] = {21, 22, 154, 155, 156, 159};
    size_t at = 0;
    for (;; want.read++) {
        if (at == length) { want.stop = 0; break; }
        if (want.read == budget) { want.stop = 1; break; }
        if (log[at] < 1 || log[at] > 11) { want.stop = 3; break; }
        if (length - at < record_length[log[at]]) { want.stop = 2; break; }
        uint8_t room[BUFFER];
        const SetsResult r = stepped(&t, log + at, record_length[log[at]], room, 20);
        want.refused += r.code != 0;
        for (unsigned i = 0; i < r.count; i++)
            for (int k = 0; k < 6; k++)
                want.total[k] += room[ACTION_BYTES * i] == numbers[k];
        at += record_length[log[at]];
    }
    CHECK(out.code == 0 && out.stop == want.stop && out.offset == at && out.read == want.read && out.refused == want.refused);
    CHECK(memcmp(out.total, want.total, sizeof out.total) == 0 && same(&s, &t));
    run_once(&p, log, length, budget, &by_places);
    CHECK(by_places.stop == out.stop && by_places.offset == out.offset && by_places.read == out.read && by_places.refused == out.refused);
    CHECK(memcmp(out.total, by_places.total, sizeof out.total) == 0 && agrees(&s, &p));
}

static uint8_t over[LOG_MOST + 1];

static void test_run(void)
{
    RUN("", 0, 0, 0, 0, 0, 0, 0, 0, 0, 0, 0);
    RUN("03", 0, 1, 0, 0, 0, 0, 0, 0, 0, 0, 0);
    RUN("00", 0, 1, 0, 0, 0, 0, 0, 0, 0, 0, 0);
    RUN("00", 1, 3, 0, 0, 0, 0, 0, 0, 0, 0, 0);
    RUN("03 0C", 9, 3, 1, 1, 0, 0, 0, 0, 0, 0, 0);
    RUN("03 08 000000", 9, 2, 1, 1, 0, 0, 0, 0, 0, 0, 0);
    RUN("03 03", 2, 0, 2, 2, 0, 0, 0, 0, 0, 0, 0);
    /* P1 and P10 of 01 */
    RUN("05 00000005 01 01 08 00000005 0B 00000005 20 11 06 00000005 0B 00000005 27 00", 9, 0, 31, 5, 0, 1, 1, 0, 1, 1, 1);
#define P10 ORDER("05") TIME("05") TIME("05") UP("05") TIME("05") TIME("05") VERSION("05", "11") DROP("05") TIME("05") TIME("05") DONE("05")
    RUN(P10, 99, 0, 61, 11, 0, 3, 1, 0, 3, 3, 1);
    RUN(P10, 4, 1, 22, 4, 0, 3, 0, 0, 1, 0, 0);
    RUN(ORDER("05") UP("05") VERSION("05", "30"), 99, 0, 19, 3, 0, 1, 0, 1, 1, 1, 0);
    /* refused records are counted */
    RUN(TIME("05") ORDER("05") ORDER("05") "05 00003FFF 01 01 0A 02000005", 99, 0, 31, 5, 4, 1, 0, 0, 0, 0, 0);
    /* refused runs */
    const Bytes log = hex(P10);
    RunResult out;
    const RunResult none = {0};
    memset(over, EV_MODE, sizeof over);
    for (int i = 0; i < 4; i++) {
        begin(1, 2, 3);
        if (i & 1)
            now.set[SET_LOST].count = 1;
        const Sets was = now;
        memset(&out, 0x5A, sizeof out);
        sets_run(&now, i < 2 ? over : log.b, i < 2 ? sizeof over : log.n, 99, &out);
        if (i == 2) {
            CHECK(out.code == 0 && out.read == 11);
            continue;
        }
        CHECK(out.code == (i < 2 ? 12 : 11) && same(&now, &was) && out.stop == 0 && out.offset == 0 && out.read == 0 && out.refused == 0);
        CHECK(memcmp(out.total, none.total, sizeof out.total) == 0);
    }
    begin(1, 2, 3);
    sets_run(&now, over, LOG_MOST, SIZE_MAX, &out);
    CHECK(out.code == 0 && out.read == LOG_MOST && out.stop == 0 && now.mode == 1);

    /* random logs: the run is the steps, whole and in parts; from a history's state too */
    Rng g = {703};
    for (int i = 0; i < 600; i++) {
        Sets s, t, u;
        State p;
        uint8_t lo, hi, room[BUFFER];
        gen_x(&g, &lo, &hi);
        const uint8_t n = gen_n(&g);
        sets_cold_start(&s, lo, hi, n);
        cold_start(&p, lo, hi, n);
        static uint8_t bytes[8192];
        size_t length = 0;
        const uint32_t pool = 4 + rng_below(&g, 3);
        const Sets cold = s;
        for (uint32_t k = rng_below(&g, 300); k > 0; k--) {
            uint8_t r[GEN_MOST];
            const size_t one = dense_record(&g, &p, pool, r);
            if (one == 0 || r[0] < 1 || r[0] > 11 || one != record_length[r[0]])
                continue;
            memcpy(bytes + length, r, one);
            length += one;
            both(&s, &p, r, one, room, 20);
        }
        if (i % 3 == 1 && length > 0) {
            const size_t at = rng_below(&g, (uint32_t)length);
            bytes[at] = (uint8_t)rng_below(&g, 256);
        }
        if (i % 3 == 2 && length > 6)
            length -= rng_below(&g, 6);
        run_is_steps(&cold, bytes, length, SIZE_MAX);
        run_is_steps(&cold, bytes, length, rng_below(&g, 300));
        run_is_steps(&s, bytes, length, SIZE_MAX);
        /* in two parts */
        RunResult one, two, whole;
        t = u = cold;
        const uint32_t part = rng_below(&g, 200);
        sets_run(&t, bytes, length, SIZE_MAX, &whole);
        sets_run(&u, bytes, length, part, &one);
        sets_run(&u, bytes + one.offset, length - one.offset, SIZE_MAX, &two);
        CHECK(same(&t, &u) && whole.stop == two.stop && whole.offset == one.offset + two.offset && whole.read == one.read + two.read &&
              whole.refused == one.refused + two.refused && whole.total[0] == one.total[0] + two.total[0] && whole.total[1] == one.total[1] + two.total[1]);
    }
}

int main(int argc, char **argv)
{
    first_only = argc > 1 && strcmp(argv[1], "first") == 0;
    test_start();
    test_examples();
    test_table();
    test_form();
    test_closing();
    test_train();
    test_refused();
    test_sound();
    test_every();
    test_tries();
    test_histories();
    test_run();
    printf("sets: %lu checks, %lu failures; %lu steps, %lu accepted, %lu closings of two or more, %lu of four actions, %lu tries more\n", checks, failures, steps,
           accepted, closings, fours, repeats);
    return failures != 0;
}
