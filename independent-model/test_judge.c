/* Test of the judge and of our own sheet against request Q-9. The sheets and verdicts of the first parts are written out by hand;
 * afterwards damaged sheets are held to what our own sheet of the same events says. */
#include "gen.h"
#include "judge_model.h"

#include <stdio.h>
#include <stdlib.h>
#include <string.h>

static unsigned long checks, failures;

static void check_at(bool ok, int line, const char *text)
{
    checks++;
    if (!ok && failures++ < 20)
        printf("line %d: %s\n", line, text);
}
#define CHECK(c) check_at((c), __LINE__, #c)

/* ---- help ---- */

enum { BYTES_MOST = 4096 };

typedef struct { uint8_t b[BYTES_MOST]; size_t n; } Bytes;

/* Hexadecimal digits in pairs; blanks and bars between them. */
static Bytes hex(const char *text)
{
    Bytes out = {.n = 0};
    for (; *text; text++) {
        if (*text == ' ' || *text == '|')
            continue;
        const char two[3] = {text[0], text[1], 0};
        out.b[out.n++] = (uint8_t)strtoul(two, NULL, 16);
        text++;
    }
    return out;
}

static void print_verdict(const char *name, Verdict v)
{
    printf("    %s: code %u fault %u offset %u records %u due %u", name, v.code, v.fault, v.offset, v.records, v.due);
    for (int i = 0; i < ACTION_BYTES; i++)
        printf(" %02x", v.bytes[i]);
    printf("\n");
}

static bool same(Verdict a, Verdict b)
{
    return a.code == b.code && a.fault == b.fault && a.offset == b.offset && a.records == b.records && a.due == b.due &&
           memcmp(a.bytes, b.bytes, ACTION_BYTES) == 0;
}

static void verdict_is(int line, Verdict want, Verdict got)
{
    const bool ok = same(want, got);
    check_at(ok, line, "the verdict");
    if (!ok && failures < 20) {
        print_verdict("want", want);
        print_verdict("got ", got);
    }
}

static Verdict verdict(uint8_t fault, uint32_t offset, uint32_t records, uint8_t due, const char *bytes)
{
    Verdict v = {.fault = fault, .offset = offset, .records = records, .due = due};
    const Bytes b = hex(bytes);
    memcpy(v.bytes, b.b, b.n);
    return v;
}

/* The sheet stands at the end of its own allocation, so that a reader past it would be found. */
static Verdict judged(uint8_t lo, uint8_t hi, uint8_t n, const uint8_t *sheet, size_t length)
{
    uint8_t *const copy = calloc(length + 1, 1);
    memcpy(copy + 1, sheet, length);
    const Verdict v = judge(lo, hi, n, copy + 1, length);
    CHECK(memcmp(copy + 1, sheet, length) == 0);
    free(copy);
    return v;
}

/* With X 1 to 2 and three tries. */
static void sheet_at(int line, const char *text, uint8_t fault, uint32_t offset, uint32_t records, uint8_t due, const char *bytes)
{
    const Bytes s = hex(text);
    verdict_is(line, verdict(fault, offset, records, due, bytes), judged(1, 2, 3, s.b, s.n));
}
#define SHEET(...) sheet_at(__LINE__, __VA_ARGS__)

static void accepted_at(int line, uint8_t lo, uint8_t hi, uint8_t n, uint32_t records, const char *text)
{
    const Bytes s = hex(text);
    verdict_is(line, verdict(RIGHT, (uint32_t)s.n, records, DUE_EVENT, ""), judged(lo, hi, n, s.b, s.n));
}
#define ACCEPTED(records, text) accepted_at(__LINE__, 1, 2, 3, records, text)
#define ACCEPTED_WITH(lo, hi, n, records, text) accepted_at(__LINE__, lo, hi, n, records, text)

/* ---- sheets accepted ---- */

#define P1 "05 00000005 01 01 | 1E00 | 15 00000005" \
           "08 00000005 | 1E00 | 9B 00000005" \
           "0B 00000005 20 11 | 1E00 | 9F 00000005" \
           "06 00000005 | 1E00 | 9C 00000005" \
           "0B 00000005 27 00 | 1E00 | 16 00000005"
#define CALL(k) "0B 000000" k " 26 00 | 1E00 | 9F 000000" k

static void test_accepted(void)
{
    ACCEPTED(0, "");
    verdict_is(__LINE__, verdict(RIGHT, 0, 0, DUE_EVENT, ""), judge(1, 2, 3, NULL, 0));
    ACCEPTED(5, P1);
    /* P2, and with other numbers of tries */
    ACCEPTED(4, "05 00000005 01 01 1E00 15 00000005 | 0A 00000005 1E00 15 00000005 | 0A 00000005 1E00 15 00000005 |"
                "0A 00000005 1E00 16 00000005");
    ACCEPTED_WITH(1, 2, 1, 2, "05 00000005 01 01 1E00 15 00000005 | 0A 00000005 1E00 16 00000005");
    ACCEPTED_WITH(1, 2, 2, 3, "05 00000005 01 01 1E00 15 00000005 | 0A 00000005 1E00 15 00000005 | 0A 00000005 1E00 16 00000005");
    /* P3 and P4: two actions; a version in range; a version out of its field's range */
    ACCEPTED(3, "05 00000005 01 01 1E00 15 00000005 | 08 00000005 1E00 9B 00000005 |"
                "0B 00000005 20 30 1E00 9A 00000005 9C 00000005");
    ACCEPTED(4, "05 00000005 01 01 1E00 15 00000005 | 08 00000005 1E00 9B 00000005 |"
                "0B 00000005 20 80 1E03 | 0B 00000005 20 2F 1E00 9F 00000005");
    ACCEPTED_WITH(0, 3, 3, 3, "05 00000005 01 01 1E00 15 00000005 | 08 00000005 1E00 9B 00000005 |"
                              "0B 00000005 20 30 1E00 9F 00000005");
    /* P5, P6, and four actions */
    ACCEPTED(8, CALL("01") CALL("02") CALL("03") CALL("04") "0B 00000005 26 00 1E08 | 0B 00000001 26 00 1E05 | 0B 01000001 26 00 1E09 |"
                "07 00 1E00 9C 00000001 9C 00000002 9C 00000003 9C 00000004");
    /* P7 */
    ACCEPTED(5, CALL("01") "05 01000002 00 01 1E00 15 01000002 | 08 01000002 1E00 9B 01000002 | 0B 01000002 20 10 1E00 9F 01000002 |"
                "05 00000003 00 01 1E00 9C 00000001 15 00000003");
    /* three closed by an order, one of them Lost, and 21 last */
    ACCEPTED(5, CALL("01") CALL("02") CALL("03") "09 00000002 1E00 15 00000002 |"
                "05 00000004 00 01 1E00 9C 00000001 16 00000002 9C 00000003 15 00000004");
    /* P8, P9: events with no action, refusals 4 and 7 */
    ACCEPTED(5, "02 01 1E00 | 01 01 00 1E00 | 05 00000005 01 00 1E04 | 01 02 00 1E00 | 05 00000005 01 00 1E00 15 00000005");
    ACCEPTED(5, "04 00 1E07 | 04 01 1E00 | 04 00 1E00 | 05 00000005 01 04 1E00 15 00000005 | 05 00000006 01 04 1E04");
    /* the last known RBC: 4 before 15, none known, then the meant partner in the action; 3 for another event */
    ACCEPTED(8, "05 00003FFF 01 02 1E04 | 05 00003FFF 01 01 1E0F |" CALL("07")
                "05 00FFFFFF 01 01 1E05 | 06 00000007 1E00 9C 00000007 | 0B 00000007 27 00 1E00 16 00000007 |"
                "05 00FFFFFF 01 01 1E00 15 00000007 | 08 00003FFF 1E03");
    /* an RIU with such a number is any RIU; no partner: 6 */
    ACCEPTED(3, "05 01003FFF 01 01 1E00 15 01003FFF | 08 00003FFE 1E06 | 08 01003FFF 1E00 9B 01003FFF");
    /* a mode change alone, and the mark used */
    ACCEPTED(1, "03 1E00");
    ACCEPTED(4, "03 1E00 | 02 02 1E00 | 01 03 01 1E00 | 05 00000001 00 02 1E00 15 00000001");
    /* the mark is used up */
    ACCEPTED(3, "01 03 01 1E00 | 05 00000001 00 03 1E00 15 00000001 | 05 00000002 00 03 1E04");
    /* mission ended ends all; end all with nothing to end */
    ACCEPTED(4, CALL("01") "02 00 1E00 9C 00000001 | 07 01 1E00 | 02 00 1E00");
    /* fields out of range: refused with 3, no action */
    ACCEPTED(5, "01 05 00 1E03 | 02 03 1E03 | 04 02 1E03 | 07 02 1E03 | 05 02000001 01 01 1E03");
    /* RBC 0: the partner's bytes are zeros */
    ACCEPTED(2, "05 00000000 01 01 1E00 15 00000000 | 0A 00000000 1E00 15 00000000");
}

/* ---- wrong ---- */

static void test_wrong(void)
{
    /* an unknown kind where an event is due, whole sheet and later */
    static const char *const unknown[] = {"00", "0C", "FF", "1D", "1F", "80", "A1"};
    for (size_t i = 0; i < sizeof unknown / sizeof unknown[0]; i++) {
        char text[200];
        SHEET(unknown[i], WRONG, 0, 0, DUE_EVENT, "");
        snprintf(text, sizeof text, "03 1E00 | 04 01 1E00 | %s 00 00 00 00 00 00 00", unknown[i]);
        SHEET(text, WRONG, 7, 2, DUE_EVENT, "");
        snprintf(text, sizeof text, "03 1E00 | 04 01 1E00 | %s", unknown[i]);
        SHEET(text, WRONG, 7, 2, DUE_EVENT, "");
    }
    /* an answer or an action where an event is due; cut too */
    SHEET("1E 00", WRONG, 0, 0, DUE_EVENT, "");
    SHEET("1E", WRONG, 0, 0, DUE_EVENT, "");
    SHEET("15 00000001", WRONG, 0, 0, DUE_EVENT, "");
    SHEET("15", WRONG, 0, 0, DUE_EVENT, "");
    SHEET("03 1E00 1E00", WRONG, 3, 1, DUE_EVENT, "");
    SHEET("03 1E00 1E", WRONG, 3, 1, DUE_EVENT, "");
    SHEET("03 1E00 15 00000001", WRONG, 3, 1, DUE_EVENT, "");
    SHEET("03 1E00 9F", WRONG, 3, 1, DUE_EVENT, "");
    SHEET(CALL("01") "9F 00000001", WRONG, 14, 1, DUE_EVENT, "");
    /* a refused step has no actions */
    SHEET("05 00000001 01 04 1E04 15 00000001", WRONG, 9, 1, DUE_EVENT, "");
    /* an event, an action or an unknown kind where an answer is due */
    SHEET("03 03 1E00", WRONG, 1, 0, DUE_ANSWER, "00");
    SHEET("03 03", WRONG, 1, 0, DUE_ANSWER, "00");
    SHEET("0B 00000001 26 00 | 9F 00000001", WRONG, 7, 0, DUE_ANSWER, "00");
    SHEET("0B 00000001 26 00 | 00", WRONG, 7, 0, DUE_ANSWER, "00");
    SHEET("03 1E00 04 00 00 1E07", WRONG, 5, 1, DUE_ANSWER, "07");
    /* another number in the answer */
    SHEET("03 1E01", WRONG, 1, 0, DUE_ANSWER, "00");
    SHEET("04 00 1E00", WRONG, 2, 0, DUE_ANSWER, "07");
    SHEET("04 00 1E06", WRONG, 2, 0, DUE_ANSWER, "07");
    SHEET("05 00003FFF 01 01 1E03", WRONG, 7, 0, DUE_ANSWER, "0F");
    SHEET("03 1E00 | 0B 01000001 26 00 1E00 9F 01000001", WRONG, 10, 1, DUE_ANSWER, "09");
    SHEET("05 00000001 01 04 1E00 15 00000001", WRONG, 7, 0, DUE_ANSWER, "04");
    /* an answer of 0 is due and a refusal stands, even with the actions behind it */
    SHEET("0B 00000001 26 00 1E08 9F 00000001", WRONG, 7, 0, DUE_ANSWER, "00");
    /* an action missing in mid-sheet: an event stands there */
    SHEET("0B 00000001 26 00 1E00 | 03 1E00", WRONG, 9, 0, DUE_ACTION, "9F 00000001");
    SHEET("0B 00000001 26 00 1E00 | 03", WRONG, 9, 0, DUE_ACTION, "9F 00000001");
    SHEET(CALL("01") CALL("02") "07 00 1E00 9C 00000001 | 03 1E00", WRONG, 37, 2, DUE_ACTION, "9C 00000002");
    /* an answer where an action is due */
    SHEET("0B 00000001 26 00 1E00 1E00 9F 00000001", WRONG, 9, 0, DUE_ACTION, "9F 00000001");
    SHEET("0B 00000001 26 00 1E00 1E", WRONG, 9, 0, DUE_ACTION, "9F 00000001");
    /* another number, type or partner in the action */
    SHEET("0B 00000001 26 00 1E00 15 00000001", WRONG, 9, 0, DUE_ACTION, "9F 00000001");
    SHEET("0B 00000001 26 00 1E00 9F 01000001", WRONG, 9, 0, DUE_ACTION, "9F 00000001");
    SHEET("0B 00000001 26 00 1E00 9F 00010001", WRONG, 9, 0, DUE_ACTION, "9F 00000001");
    SHEET("0B 00000001 26 00 1E00 9F 00000101", WRONG, 9, 0, DUE_ACTION, "9F 00000001");
    SHEET("0B 00000001 26 00 1E00 9F 00000002", WRONG, 9, 0, DUE_ACTION, "9F 00000001");
    /* another kind is wrong although the sheet ends within it */
    SHEET("0B 00000001 26 00 1E00 15 00", WRONG, 9, 0, DUE_ACTION, "9F 00000001");
    SHEET("0B 00000001 26 00 1E00 9C", WRONG, 9, 0, DUE_ACTION, "9F 00000001");
    SHEET("0B 00000001 26 00 9F 00", WRONG, 7, 0, DUE_ANSWER, "00");
    /* actions in another order */
    SHEET("05 00000005 01 01 1E00 15 00000005 | 08 00000005 1E00 9B 00000005 | 0B 00000005 20 30 1E00 9C 00000005 9A 00000005",
          WRONG, 35, 2, DUE_ACTION, "9A 00000005");
    SHEET(CALL("01") CALL("02") "07 00 1E00 9C 00000002 9C 00000001", WRONG, 32, 2, DUE_ACTION, "9C 00000001");
    /* the named number instead of the meant partner */
    SHEET(CALL("07") "06 00000007 1E00 9C 00000007 | 0B 00000007 27 00 1E00 16 00000007 | 05 00003FFF 01 01 1E00 15 00003FFF",
          WRONG, 49, 3, DUE_ACTION, "15 00000007");
    /* the state is carried: after the third timeout the place is free */
    SHEET("05 00000005 01 01 1E00 15 00000005 | 0A 00000005 1E00 15 00000005 | 0A 00000005 1E00 15 00000005 |"
          "0A 00000005 1E00 15 00000005", WRONG, 45, 3, DUE_ACTION, "16 00000005");
    SHEET("04 01 1E00 | 04 01 1E00", WRONG, 6, 1, DUE_ANSWER, "07");
    /* the first fault counts */
    SHEET("03 1E01 | 04 00 1E00 | 00", WRONG, 1, 0, DUE_ANSWER, "00");
}

/* ---- short and missing ---- */

static void test_short(void)
{
    for (unsigned kind = 1; kind <= KIND_LAST; kind++)
        for (uint8_t fill = 0; fill < 2; fill++)
            for (size_t n = 1; n <= record_length[kind]; n++) {
                uint8_t s[16] = {0x03, 0x1E, 0x00, (uint8_t)kind};
                memset(s + 4, fill ? 0xEE : 0, 8);
                const Verdict v = judged(1, 2, 3, s, 3 + n), w = judged(1, 2, 3, s + 3, n);
                if (n < record_length[kind]) {
                    verdict_is(__LINE__, verdict(SHORT, 3, 1, DUE_EVENT, ""), v);
                    verdict_is(__LINE__, verdict(SHORT, 0, 0, DUE_EVENT, ""), w);
                } else {
                    CHECK(v.code == 0 && v.fault == MISSING && v.offset == 3 + n && v.records == 1 && v.due == DUE_ANSWER);
                    CHECK(w.code == 0 && w.fault == MISSING && w.offset == n && w.records == 0 && w.due == DUE_ANSWER);
                }
            }
    SHEET("03 1E", SHORT, 1, 0, DUE_ANSWER, "00");
    SHEET("04 00 1E", SHORT, 2, 0, DUE_ANSWER, "07");
    SHEET("0B 00000001 26 00 1E00 9F", SHORT, 9, 0, DUE_ACTION, "9F 00000001");
    SHEET("0B 00000001 26 00 1E00 9F 000000", SHORT, 9, 0, DUE_ACTION, "9F 00000001");
    /* also when the bytes that are there are wrong already */
    SHEET("0B 00000001 26 00 1E00 9F 01", SHORT, 9, 0, DUE_ACTION, "9F 00000001");
    SHEET("0B 00000001 26 00 1E00 9F EEEEEE", SHORT, 9, 0, DUE_ACTION, "9F 00000001");
    SHEET("05 EE", SHORT, 0, 0, DUE_EVENT, "");
    SHEET(CALL("01") CALL("02") "07 00 1E00 9C 00000001 9C 000000", SHORT, 37, 2, DUE_ACTION, "9C 00000002");
    /* the longest entry, cut, with the right bytes behind the end */
    const Bytes s = hex(CALL("01") CALL("02") CALL("03") "05 00000004 00 01 1E00 9C 00000001 9C 00000002 9C 00000003 15 00000004");
    CHECK(s.n == 42 + 29);
    verdict_is(__LINE__, verdict(SHORT, 66, 3, DUE_ACTION, "15 00000004"), judge(1, 2, 3, s.b, s.n - 1));
    verdict_is(__LINE__, verdict(MISSING, 66, 3, DUE_ACTION, "15 00000004"), judge(1, 2, 3, s.b, s.n - 5));
    verdict_is(__LINE__, verdict(SHORT, 61, 3, DUE_ACTION, "9C 00000003"), judge(1, 2, 3, s.b, s.n - 6));
    verdict_is(__LINE__, verdict(MISSING, 51, 3, DUE_ACTION, "9C 00000001"), judge(1, 2, 3, s.b, s.n - 20));
    verdict_is(__LINE__, verdict(SHORT, 49, 3, DUE_ANSWER, "00"), judge(1, 2, 3, s.b, s.n - 21));
    verdict_is(__LINE__, verdict(MISSING, 49, 3, DUE_ANSWER, "00"), judge(1, 2, 3, s.b, s.n - 22));
    verdict_is(__LINE__, verdict(SHORT, 42, 3, DUE_EVENT, ""), judge(1, 2, 3, s.b, s.n - 23));
    verdict_is(__LINE__, verdict(RIGHT, 42, 3, DUE_EVENT, ""), judge(1, 2, 3, s.b, s.n - 29));
}

static void test_missing(void)
{
    SHEET("03", MISSING, 1, 0, DUE_ANSWER, "00");
    SHEET("04 00", MISSING, 2, 0, DUE_ANSWER, "07");
    SHEET("01 05 00", MISSING, 3, 0, DUE_ANSWER, "03");
    SHEET("05 00003FFF 00 01", MISSING, 7, 0, DUE_ANSWER, "0F");
    SHEET("08 00000001", MISSING, 5, 0, DUE_ANSWER, "06");
    SHEET("0B 01000001 26 00", MISSING, 7, 0, DUE_ANSWER, "09");
    SHEET("0B 00000001 26 00 1E00", MISSING, 9, 0, DUE_ACTION, "9F 00000001");
    SHEET(CALL("01") CALL("02") "07 00 1E00 9C 00000001", MISSING, 37, 2, DUE_ACTION, "9C 00000002");
    SHEET(P1 "03", MISSING, 62 + 5, 5, DUE_ANSWER, "00");
}

/* ---- refusals ---- */

static uint8_t big[SHEET_LIMIT + 5], big_log[LOG_MOST + 3], big_sheet[SHEET_LIMIT + 64];

static void test_refused(void)
{
    static const uint8_t bad[][3] = {{2, 1, 3}, {0, 8, 3}, {8, 8, 3}, {1, 255, 3}, {255, 255, 3}, {7, 6, 9}, {1, 2, 0}, {1, 2, 10}, {1, 2, 255}};
    for (size_t i = 0; i < sizeof bad / sizeof bad[0]; i++) {
        const Verdict want = {.code = 13};
        const uint8_t *const c = bad[i];
        verdict_is(__LINE__, want, judge(c[0], c[1], c[2], (const uint8_t *)"", 0));
        verdict_is(__LINE__, want, judge(c[0], c[1], c[2], (const uint8_t *)"\003\036\000", 3));
        verdict_is(__LINE__, want, judge(c[0], c[1], c[2], (const uint8_t *)"\000", 1));
        verdict_is(__LINE__, want, judge(c[0], c[1], c[2], big, SHEET_LIMIT + 1));
    }
    for (size_t i = 0; i < sizeof big; i += 3)
        memcpy(big + i, "\003\036", 3);
    verdict_is(__LINE__, (Verdict){.code = 12}, judge(1, 2, 3, big, SHEET_LIMIT + 1));
    verdict_is(__LINE__, (Verdict){.code = 12}, judge(1, 2, 3, big, SHEET_LIMIT + 2));
    /* at the limit: 1,048,576 is one more than a multiple of three, so a mode change's answer is missing */
    verdict_is(__LINE__, verdict(MISSING, SHEET_LIMIT, SHEET_LIMIT / 3, DUE_ANSWER, "00"), judge(1, 2, 3, big, SHEET_LIMIT));
    verdict_is(__LINE__, verdict(RIGHT, SHEET_LIMIT - 1, SHEET_LIMIT / 3, DUE_EVENT, ""), judge(1, 2, 3, big, SHEET_LIMIT - 1));
    /* one that is accepted at exactly the limit: four bytes for a hole entered */
    memcpy(big, "\004\001\036", 4);
    for (size_t i = 4; i < SHEET_LIMIT; i += 3)
        memcpy(big + i, "\003\036", 3);
    verdict_is(__LINE__, verdict(RIGHT, SHEET_LIMIT, SHEET_LIMIT / 3, DUE_EVENT, ""), judge(1, 2, 3, big, SHEET_LIMIT));
    big[SHEET_LIMIT - 1] = 1;
    verdict_is(__LINE__, verdict(WRONG, SHEET_LIMIT - 2, SHEET_LIMIT / 3 - 1, DUE_ANSWER, "00"), judge(1, 2, 3, big, SHEET_LIMIT));
}

/* ---- our own sheet ---- */

static bool made(Made m, uint8_t code, uint32_t written, uint32_t records, uint8_t stop)
{
    return m.code == code && m.written == written && m.records == records && m.stop == stop;
}

static bool untouched(const uint8_t *b, size_t n)
{
    for (size_t i = 0; i < n; i++)
        if (b[i] != 0xEE)
            return false;
    return true;
}

/* With X 1 to 2 and three tries: rooms of the exact length, more, one less, none. */
static void made_at(int line, const char *log, const char *sheet, uint32_t records, uint8_t stop)
{
    const Bytes l = hex(log), s = hex(sheet);
    uint8_t room[BYTES_MOST];
    for (size_t more = 0; more < 9; more++) {
        memset(room, 0xEE, sizeof room);
        check_at(made(produce(1, 2, 3, l.b, l.n, room, s.n + more), 0, (uint32_t)s.n, records, stop), line, "the answer");
        check_at(memcmp(room, s.b, s.n) == 0, line, "the sheet");
        check_at(untouched(room + s.n, sizeof room - s.n), line, "the later bytes");
    }
    for (size_t n = 0; n < s.n; n++) {
        memset(room, 0xEE, sizeof room);
        check_at(made(produce(1, 2, 3, l.b, l.n, room, n), 10, 0, 0, 0), line, "room too small");
        check_at(untouched(room, sizeof room), line, "nothing written");
    }
    check_at(made(produce(2, 1, 3, l.b, l.n, room, 0), 13, 0, 0, 0), line, "the cold start before the room");
    check_at(made(produce(1, 2, 0, l.b, l.n, room, BYTES_MOST), 13, 0, 0, 0), line, "the tries");
    check_at(made(produce(1, 2, 10, l.b, l.n, room, BYTES_MOST), 13, 0, 0, 0), line, "the tries");
}
#define MADE(...) made_at(__LINE__, __VA_ARGS__)

static void test_made(void)
{
    MADE("", "", 0, 0);
    CHECK(made(produce(1, 2, 3, NULL, 0, NULL, 0), 0, 0, 0, 0));
    MADE("03", "03 1E00", 1, 0);
    MADE("05 00000005 01 01 08 00000005 0B 00000005 20 11 06 00000005 0B 00000005 27 00", P1, 5, 0);
    /* the stops: unknown kinds first and later, short records */
    MADE("00", "", 0, 3);
    MADE("1E 00", "", 0, 3);
    MADE("05 00000005 01", "", 0, 2);
    MADE("04 00 0C 03", "04 00 1E07", 1, 3);
    MADE("03 04 00 1E", "03 1E00 04 00 1E07", 2, 3);
    MADE("03 0A 000000", "03 1E00", 1, 2);
    MADE("03 0B 00000001 26 00 0B 00000001 26", "03 1E00" CALL("01"), 2, 2);
    /* refusals stand in the sheet */
    MADE("05 00003FFF 00 01 08 00000001 01 05 00", "05 00003FFF 00 01 1E0F 08 00000001 1E06 01 05 00 1E03", 3, 0);
    MADE("0B 00000001 26 00 0B 00000002 26 00 07 00", CALL("01") CALL("02") "07 00 1E00 9C 00000001 9C 00000002", 3, 0);
}

static void test_made_limits(void)
{
    /* a log over the limit; at the limit with a stop at once the sheet is short */
    memset(big_log, 0, sizeof big_log);
    memset(big_sheet, 0xEE, sizeof big_sheet);
    CHECK(made(produce(1, 2, 3, big_log, LOG_MOST + 1, big_sheet, sizeof big_sheet), 12, 0, 0, 0));
    CHECK(made(produce(1, 2, 3, big_log, LOG_MOST + 1, big_sheet, 0), 12, 0, 0, 0));
    CHECK(made(produce(3, 2, 3, big_log, LOG_MOST + 1, big_sheet, 0), 13, 0, 0, 0));
    CHECK(made(produce(1, 2, 3, big_log, LOG_MOST, big_sheet, 0), 0, 0, 0, 3));
    /* a sheet over the limit, by a whole mebibyte of log, and by one byte; 12 comes before 10 */
    memset(big_log, EV_MODE, sizeof big_log);
    CHECK(made(produce(1, 2, 3, big_log, LOG_MOST, big_sheet, sizeof big_sheet), 12, 0, 0, 0));
    CHECK(made(produce(1, 2, 3, big_log, LOG_MOST, big_sheet, 0), 12, 0, 0, 0));
    const size_t third = SHEET_LIMIT / 3;      /* with one byte left over */
    CHECK(made(produce(1, 2, 3, big_log, third + 1, big_sheet, sizeof big_sheet), 12, 0, 0, 0));
    CHECK(untouched(big_sheet, sizeof big_sheet));
    CHECK(made(produce(1, 2, 3, big_log, third, big_sheet, 3 * third - 1), 10, 0, 0, 0));
    CHECK(untouched(big_sheet, sizeof big_sheet));
    CHECK(made(produce(1, 2, 3, big_log, third, big_sheet, 3 * third), 0, SHEET_LIMIT - 1, SHEET_LIMIT / 3, 0));
    CHECK(untouched(big_sheet + 3 * third, sizeof big_sheet - 3 * third));
    /* exactly the limit: a hole entered takes four bytes */
    big_log[0] = EV_HOLE;
    big_log[1] = 1;
    memset(big_sheet, 0xEE, sizeof big_sheet);
    CHECK(made(produce(1, 2, 3, big_log, third + 1, big_sheet, SHEET_LIMIT - 1), 10, 0, 0, 0));
    CHECK(untouched(big_sheet, sizeof big_sheet));
    CHECK(made(produce(1, 2, 3, big_log, third + 1, big_sheet, sizeof big_sheet), 0, SHEET_LIMIT, SHEET_LIMIT / 3, 0));
    CHECK(untouched(big_sheet + SHEET_LIMIT, sizeof big_sheet - SHEET_LIMIT));
    CHECK(same(judge(1, 2, 3, big_sheet, SHEET_LIMIT), verdict(RIGHT, SHEET_LIMIT, SHEET_LIMIT / 3, DUE_EVENT, "")));
    /* one byte over it: two holes */
    big_log[2] = EV_HOLE;
    big_log[3] = 0;
    memset(big_sheet, 0xEE, sizeof big_sheet);
    CHECK(made(produce(1, 2, 3, big_log, third + 2, big_sheet, sizeof big_sheet), 12, 0, 0, 0));
    CHECK(made(produce(1, 2, 3, big_log, third + 2, big_sheet, SHEET_LIMIT), 12, 0, 0, 0));
    CHECK(untouched(big_sheet, sizeof big_sheet));
    CHECK(made(produce(1, 2, 3, big_log, third + 1, big_sheet, sizeof big_sheet), 0, SHEET_LIMIT - 2, SHEET_LIMIT / 3 - 1, 0));
    big_log[2] = big_log[3] = EV_MODE;
    /* a stop behind it: the records before count */
    big_log[third + 1] = 0;
    CHECK(made(produce(1, 2, 3, big_log, LOG_MOST, big_sheet, sizeof big_sheet), 0, SHEET_LIMIT, SHEET_LIMIT / 3, 3));
}

/* ---- damaged sheets ---- */

/* The record at this offset of a sheet that is right so far. */
static size_t record_at(const uint8_t *p)
{
    return *p >= 1 && *p <= KIND_LAST ? record_length[*p] : *p == ANSWER_KIND ? ANSWER_BYTES : ACTION_BYTES;
}

/* Holds a verdict to our own sheet of the same events: the sheet stands as ours up to the offset; there ours ends, or it goes on
 * with what is due and the sheet does not; the fault is the kind of what stands there. */
static bool holds(uint8_t lo, uint8_t hi, uint8_t n, const uint8_t *s, size_t length, Verdict v)
{
    static uint8_t log[2 * BYTES_MOST], ours[8 * BYTES_MOST];
    static const uint8_t zeros[ACTION_BYTES];
    if (v.code != 0 || v.offset > length)
        return false;
    /* the events before the offset; one more than the whole entries where an answer or an action is due */
    size_t events = 0, log_length = 0, at = 0;
    while (at < v.offset) {
        const size_t size = record_at(s + at);
        if (s[at] >= 1 && s[at] <= KIND_LAST) {
            memcpy(log + log_length, s + at, size);
            log_length += size;
            events++;
        }
        at += size;
    }
    const Made m = produce(lo, hi, n, log, log_length, ours, sizeof ours);
    if (at != v.offset || events != v.records + (v.due != DUE_EVENT) || m.code != 0 || m.stop != 0 || m.records != events)
        return false;
    if (m.written < at || memcmp(ours, s, at) != 0)
        return false;
    const size_t left = length - at;
    const uint8_t *const p = s + at;
    if (v.due == DUE_EVENT) {
        if (m.written != at || memcmp(v.bytes, zeros, ACTION_BYTES) != 0)
            return false;
        const bool event = left > 0 && p[0] >= 1 && p[0] <= KIND_LAST;
        return left == 0 ? v.fault == RIGHT : !event ? v.fault == WRONG : v.fault == SHORT && left < record_length[p[0]];
    }
    const uint8_t *const due = ours + at;
    const size_t size = v.due == DUE_ANSWER ? ANSWER_BYTES : ACTION_BYTES;
    if (m.written < at + size || (v.due == DUE_ANSWER) != (due[0] == ANSWER_KIND))
        return false;
    if (v.due == DUE_ANSWER ? v.bytes[0] != due[1] || memcmp(v.bytes + 1, zeros, ACTION_BYTES - 1) != 0
                            : memcmp(v.bytes, due, ACTION_BYTES) != 0)
        return false;
    if (left == 0)
        return v.fault == MISSING;
    if (left < size && p[0] == due[0])
        return v.fault == SHORT;
    return v.fault == WRONG && (p[0] != due[0] || memcmp(p, due, size) != 0);
}

static unsigned long faults[4];

static Verdict held(uint8_t lo, uint8_t hi, uint8_t n, const uint8_t *s, size_t length)
{
    const Verdict v = judged(lo, hi, n, s, length);
    CHECK(holds(lo, hi, n, s, length, v));
    faults[v.fault & 3]++;
    return v;
}

/* A random log with its sheet. */
static Made random_sheet(Rng *g, uint8_t lo, uint8_t hi, uint8_t n, size_t records, Bytes *sheet)
{
    uint8_t log[2 * BYTES_MOST], actions[ACTION_BUFFER];
    State s;
    cold_start(&s, lo, hi, n);
    size_t length = 0;
    for (size_t i = 0; i < records; i++) {
        const size_t size = gen_record_last(g, &s, true, log + length);
        step_trusted(&s, log + length, actions);
        length += size;
    }
    const Made m = produce(lo, hi, n, log, length, sheet->b, sizeof sheet->b);
    sheet->n = m.written;
    CHECK(m.code == 0 && m.stop == 0 && m.records == records);
    return m;
}

static void test_damage(void)
{
    Rng g = {9};
    for (int round = 0; round < 60; round++) {
        uint8_t lo, hi;
        gen_x(&g, &lo, &hi);
        const uint8_t n = gen_n(&g);
        Bytes s, t;
        const Made m = random_sheet(&g, lo, hi, n, 1 + rng_below(&g, 30), &s);
        verdict_is(__LINE__, verdict(RIGHT, (uint32_t)s.n, m.records, DUE_EVENT, ""), held(lo, hi, n, s.b, s.n));

        uint32_t whole = 0;
        for (size_t at = 0, size; at < s.n; at += size) {
            size = record_at(s.b + at);
            const bool event = s.b[at] <= KIND_LAST;
            /* cut before and inside this record */
            for (size_t cut = 0; cut < size; cut++) {
                const Verdict v = held(lo, hi, n, s.b, at + cut);
                CHECK(same(v, judge(lo, hi, n, s.b, at + cut)));       /* the right bytes behind the end */
                CHECK(v.offset == at);
                CHECK(v.fault == (cut > 0 ? SHORT : event ? RIGHT : MISSING));
                CHECK(v.records == whole + (event && at > 0));
                /* the byte before the cut damaged: the kind, or a later byte */
                if (cut > 0) {
                    t = s;
                    t.b[at + cut - 1] ^= 0x40;
                    const Verdict w = held(lo, hi, n, t.b, at + cut);
                    CHECK(w.offset == at && w.fault == (cut == 1 ? WRONG : SHORT));
                }
            }
            /* any byte of an answer or an action damaged is wrong at the record */
            for (size_t i = 0; i < size; i++)
                for (int k = 0; k < 4; k++) {
                    t = s;
                    t.b[at + i] ^= (uint8_t)(k == 3 ? 1 + rng_below(&g, 255) : 1u << rng_below(&g, 8));
                    const Verdict v = held(lo, hi, n, t.b, t.n);
                    if (!event)
                        CHECK(v.fault == WRONG && v.offset == at && v.records == whole);
                    else
                        CHECK(v.offset >= at);
                }
            whole += event && at > 0;
        }
    }
}

static uint8_t some_byte(Rng *g) { return (uint8_t)(rng_below(g, 2) ? rng_below(g, 32) : rng_below(g, 256)); }

/* Random changes anywhere, and the sheet of another cold start. */
static void test_random(void)
{
    Rng g = {10};
    for (int round = 0; round < 40000; round++) {
        uint8_t lo, hi, other_lo, other_hi;
        gen_x(&g, &lo, &hi);
        gen_x(&g, &other_lo, &other_hi);
        uint8_t n = gen_n(&g);
        const uint8_t other_n = gen_n(&g);
        Bytes s;
        random_sheet(&g, lo, hi, n, 1 + rng_below(&g, 40), &s);
        switch (rng_below(&g, 6)) {
        case 0:                            /* other X numbers */
            lo = other_lo;
            hi = other_hi;
            break;
        case 1:                            /* another number of tries */
        case 2:
            n = other_n;
            break;
        case 3: {
            const size_t at = rng_below(&g, (uint32_t)s.n), many = 1 + rng_below(&g, 7);
            const size_t gone = many < s.n - at ? many : s.n - at;
            memmove(s.b + at, s.b + at + gone, s.n - at - gone);
            s.n -= gone;
            break;
        }
        case 4: {
            const size_t at = rng_below(&g, (uint32_t)s.n), many = 1 + rng_below(&g, 7);
            if (s.n + many <= sizeof s.b) {
                memmove(s.b + at + many, s.b + at, s.n - at);
                for (size_t i = 0; i < many; i++)
                    s.b[at + i] = some_byte(&g);
                s.n += many;
            }
            break;
        }
        default: {                         /* one draw a statement: the same in every compiler */
            const size_t at = rng_below(&g, (uint32_t)s.n);
            s.b[at] = some_byte(&g);
            if (rng_below(&g, 2))
                s.n -= rng_below(&g, (uint32_t)(s.n < 12 ? s.n : 12));
        }
        }
        const Verdict v = held(lo, hi, n, s.b, s.n);
        /* mended at the offset, the sheet goes further */
        if (v.fault != RIGHT && v.due != DUE_EVENT) {
            Bytes t;
            const size_t size = v.due == DUE_ANSWER ? ANSWER_BYTES : ACTION_BYTES;
            memcpy(t.b, s.b, v.offset);
            if (v.due == DUE_ANSWER)
                t.b[v.offset] = ANSWER_KIND;
            memcpy(t.b + v.offset + (v.due == DUE_ANSWER), v.bytes, size - (v.due == DUE_ANSWER));
            t.n = v.offset + size;
            const Verdict w = held(lo, hi, n, t.b, t.n);
            CHECK(w.offset == t.n && (w.fault == MISSING ? w.due == DUE_ACTION : w.fault == RIGHT && w.records == v.records + 1));
        }
    }
}

/* Sheets near the limit. */
static void test_long(void)
{
    Rng g = {11};
    State s;
    uint8_t actions[ACTION_BUFFER];
    cold_start(&s, 1, 2, 3);
    size_t length = 0, due = 0, last = 0;
    for (;;) {
        const size_t size = gen_record_last(&g, &s, true, big_log + length);
        last = due;
        due += size + ANSWER_BYTES + ACTION_BYTES * step_trusted(&s, big_log + length, actions).count;
        length += size;
        if (due > SHEET_LIMIT)
            break;
    }
    CHECK(made(produce(1, 2, 3, big_log, length, big_sheet, sizeof big_sheet), 12, 0, 0, 0));
    Made m = {0};
    for (size_t back = 1; back <= 7 && m.code == 0 && m.written != last; back++)
        m = produce(1, 2, 3, big_log, length - back, big_sheet, sizeof big_sheet);
    CHECK(m.code == 0 && m.written == last);
    const Verdict v = judge(1, 2, 3, big_sheet, m.written);
    verdict_is(__LINE__, verdict(RIGHT, m.written, m.records, DUE_EVENT, ""), v);
    big_sheet[m.written - 1] ^= 1;
    const Verdict w = judge(1, 2, 3, big_sheet, m.written);
    CHECK(w.fault == WRONG && w.offset >= m.written - 5 && w.records == m.records - 1);
}

int main(void)
{
    test_accepted();
    test_wrong();
    test_short();
    test_missing();
    test_refused();
    test_made();
    test_made_limits();
    test_damage();
    test_random();
    test_long();
    printf("judge: %lu checks, %lu failures; of the damaged sheets %lu accepted, %lu wrong, %lu short, %lu missing\n", checks, failures,
           faults[RIGHT], faults[WRONG], faults[SHORT], faults[MISSING]);
    return failures != 0;
}
