/* Test of the marks against request Q-12. The marks and answers of the first parts are written out by hand; afterwards marks and
 * lookups are held to runs of n records from the cold start, and extended marks to marks built afresh. */
#include "gen.h"
#include "marks_model.h"

#include <stdio.h>
#include <stdlib.h>
#include <string.h>

static unsigned long checks, failures, lookups, splits;

static void check_at(bool ok, int line, const char *text)
{
    checks++;
    if (!ok && failures++ < 20)
        printf("line %d: %s\n", line, text);
}
#define CHECK(c) check_at((c), __LINE__, #c)

/* ---- help ---- */

enum { BYTES_MOST = 32768 };

typedef struct { uint8_t b[BYTES_MOST]; size_t n; } Bytes;
typedef struct { uint8_t lo, hi, n; } Limits;

static const Limits usual = {1, 2, 3};

static void append(Bytes *to, const uint8_t *b, size_t n)
{
    if (n > sizeof to->b - to->n)
        exit(1);
    memcpy(to->b + to->n, b, n);
    to->n += n;
}

/* Hexadecimal digits in pairs with blanks and bars between them; '(k ... )' is the bytes between, k times. */
static void hex_to(Bytes *to, const char **text)
{
    while (**text && **text != ')') {
        if (**text == ' ' || **text == '|') {
            ++*text;
        } else if (**text == '(') {
            char *behind;
            const unsigned long times = strtoul(*text + 1, &behind, 10);
            const size_t from = to->n;
            *text = behind;
            hex_to(to, text);
            ++*text;
            const size_t size = to->n - from;
            for (unsigned long k = 1; k < times; k++)
                append(to, to->b + from, size);
        } else {
            const char two[3] = {(*text)[0], (*text)[1], 0};
            const uint8_t byte = (uint8_t)strtoul(two, NULL, 16);
            append(to, &byte, 1);
            *text += 2;
        }
    }
}

static Bytes hex(const char *text)
{
    Bytes out;
    out.n = 0;
    hex_to(&out, &text);
    return out;
}

static size_t mark_offset(const uint8_t *mark) { return (size_t)mark[1] << 24 | (size_t)mark[2] << 16 | (size_t)mark[3] << 8 | mark[4]; }

/* The byte that stood in a room before. */
static uint8_t before(size_t i) { return (uint8_t)(0xC1 + 29 * i); }

/* Bytes at the end of their own allocation, so that a reader past them would be found. */
static uint8_t *lent(const uint8_t *b, size_t n)
{
    uint8_t *const copy = malloc(n + 1);
    if (!copy)
        exit(1);
    memcpy(copy + 1, b, n);
    return copy + 1;
}

static void given_back(uint8_t *copy, const uint8_t *b, size_t n)
{
    CHECK(memcmp(copy, b, n) == 0);
    free(copy - 1);
}

/* Extending in a room of this length, the held marks in front; to 'out' go the marks there are then. Held to what every call
 * promises: the log stays, a refusal writes nothing and answers 0 marks, the held marks and the later bytes stay. */
static Marked extended(Limits l, const uint8_t *log, size_t length, const uint8_t *marks, size_t held, size_t room_length, Bytes *out)
{
    uint8_t *const room = malloc(room_length + 1), *const lent_log = lent(log, length);
    if (!room)
        exit(1);
    const size_t front = MARK_BYTES * held < room_length ? MARK_BYTES * held : room_length;
    for (size_t i = 0; i < room_length; i++)
        room[1 + i] = i < front ? marks[i] : before(i);
    const Marked m = marks_extend(l.lo, l.hi, l.n, lent_log, length, held, room + 1, room_length);
    given_back(lent_log, log, length);
    CHECK(m.code == 0 ? m.marks >= held : m.marks == 0);
    const size_t written = m.code == 0 ? MARK_BYTES * m.marks : front;
    CHECK(written <= room_length && (m.code == 0 || m.code == 10 || m.code == 11 || m.code == 12 || m.code == 13));
    CHECK(memcmp(room + 1, marks, front) == 0);
    for (size_t i = written; i < room_length; i++)
        if (room[1 + i] != before(i)) {
            CHECK(!"a later byte");
            break;
        }
    if (out) {
        out->n = 0;
        append(out, room + 1, m.code == 0 ? written : 0);
    }
    free(room);
    return m;
}

/* Building, held to the same. */
static Marked built(Limits l, const uint8_t *log, size_t length, size_t room_length, Bytes *out)
{
    uint8_t *const room = malloc(room_length + 1), *const lent_log = lent(log, length);
    if (!room)
        exit(1);
    for (size_t i = 0; i < room_length; i++)
        room[1 + i] = before(i);
    const Marked m = marks_build(l.lo, l.hi, l.n, lent_log, length, room + 1, room_length);
    given_back(lent_log, log, length);
    CHECK(m.code == 0 || m.marks == 0);
    CHECK(m.code == 0 || m.code == 10 || m.code == 12 || m.code == 13);
    const size_t written = MARK_BYTES * m.marks;
    CHECK(written <= room_length);
    for (size_t i = written; i < room_length; i++)
        if (room[1 + i] != before(i)) {
            CHECK(!"a later byte");
            break;
        }
    if (out) {
        out->n = 0;
        append(out, room + 1, written);
    }
    free(room);
    return m;
}

static bool marked(Marked m, uint8_t code, size_t marks) { return m.code == code && m.marks == marks; }

static bool refused_state(const State *s)
{
    const Bytes image = hex("A2 00 00 00 00 | 00 00 00 00 | (28 00) | 03 | 00 000000");
    uint8_t b[IMAGE_BYTES];
    return image_write(s, b, sizeof b) == 0 && memcmp(b, image.b, IMAGE_BYTES) == 0;
}

/* Held to what every lookup promises: log and marks stay; a refused one answers the refused cold start's state and 0 steps. */
static Looked looked(Limits l, const uint8_t *log, size_t length, const uint8_t *marks, size_t marks_length, uint64_t n)
{
    uint8_t *const lent_log = lent(log, length), *const lent_marks = lent(marks, marks_length);
    const Looked a = marks_lookup(l.lo, l.hi, l.n, lent_log, length, lent_marks, marks_length, n);
    given_back(lent_log, log, length);
    given_back(lent_marks, marks, marks_length);
    lookups++;
    if (a.code != 0)
        CHECK(refused_state(&a.state) && a.steps == 0 && a.offset == 0);
    else
        CHECK(sound(&a.state) && a.steps == n % 256 && a.steps <= 255 && a.offset <= length);
    return a;
}

static bool same_answer(const Looked *a, const Looked *b)
{
    return a->code == b->code && a->steps == b->steps && a->offset == b->offset && memcmp(&a->state, &b->state, sizeof a->state) == 0;
}

static bool image_is(const State *s, const char *text)
{
    const Bytes want = hex(text);
    uint8_t b[IMAGE_BYTES];
    return want.n == IMAGE_BYTES && image_write(s, b, sizeof b) == 0 && memcmp(b, want.b, IMAGE_BYTES) == 0;
}

/* ---- the request, straight ---- */

/* The run of n records from the cold start; false where the stop comes before. */
static bool run_of(Limits l, const uint8_t *log, size_t length, size_t n, State *s, uint32_t *offset)
{
    RunResult out;
    if (cold_start(s, l.lo, l.hi, l.n) != 0)
        exit(1);
    run_checked(s, log, length, n, &out);
    *offset = out.offset;
    return out.code == 0 && out.read == n;
}

/* A mark for each 256th record that a run of so many records reaches. */
static Bytes straight_marks(Limits l, const uint8_t *log, size_t length)
{
    Bytes out;
    State s;
    uint32_t offset;
    out.n = 0;
    for (size_t n = 256; run_of(l, log, length, n, &s, &offset); n += 256) {
        uint8_t mark[47] = {0xA3, (uint8_t)(offset >> 24), (uint8_t)(offset >> 16), (uint8_t)(offset >> 8), (uint8_t)offset};
        CHECK(image_write(&s, mark + 5, 42) == 0);
        append(&out, mark, sizeof mark);
    }
    return out;
}

static bool equal(const Bytes *a, const Bytes *b) { return a->n == b->n && memcmp(a->b, b->b, a->n) == 0; }

/* ---- marks written out ---- */

#define EMPTY(k) "(" k " 00000000000000)"
#define M256 "A3 00000100 A2 01 02 00 00 | 00 01 00 00 | " EMPTY("4") "| 03 | 00 000000"
#define M512 "A3 00000200 A2 01 02 00 00 | 00 01 00 00 | " EMPTY("4") "| 03 | 00 000000"

static void marks_at(int line, Limits l, const char *log_text, const char *marks_text)
{
    const Bytes log = hex(log_text), want = hex(marks_text);
    Bytes got;
    check_at(want.n % 47 == 0, line, "the marks as written");
    const Marked m = built(l, log.b, log.n, 4096, &got);
    check_at(marked(m, 0, want.n / 47) && equal(&want, &got), line, "the marks");
    const Bytes straight = straight_marks(l, log.b, log.n);
    check_at(equal(&want, &straight), line, "the marks, straight");
}
#define MARKS(...) marks_at(__LINE__, usual, __VA_ARGS__)
#define MARKS_WITH(lo, hi, n, ...) marks_at(__LINE__, (Limits){lo, hi, n}, __VA_ARGS__)

static void test_written(void)
{
    CHECK(MARK_BYTES == 47);
    MARKS("", "");
    CHECK(marked(marks_build(1, 2, 3, NULL, 0, NULL, 0), 0, 0));
    CHECK(marked(marks_extend(1, 2, 3, NULL, 0, 0, NULL, 0), 0, 0));
    MARKS("03", "");
    MARKS("(255 03)", "");
    MARKS("(256 03)", M256);
    MARKS("(257 03)", M256);
    MARKS("(511 03)", M256);
    MARKS("(512 03)", M256 M512);
    MARKS("(513 03)", M256 M512);
    MARKS("(767 03)", M256 M512);
    MARKS("(768 03)", M256 M512 "A3 00000300 A2 01 02 00 00 | 00 01 00 00 |" EMPTY("4") "| 03 | 00 000000");
    /* limits and tries stand in the image */
    MARKS_WITH(0, 7, 9, "(256 03)", "A3 00000100 A2 00 07 00 00 | 00 01 00 00 |" EMPTY("4") "| 09 | 00 000000");
    MARKS_WITH(0, 0, 1, "(256 03)", "A3 00000100 A2 00 00 00 00 | 00 01 00 00 |" EMPTY("4") "| 01 | 00 000000");
    /* a place, its tries, the 256th record itself is in the mark */
    MARKS("05 00000005 01 01 (255 03)", "A3 00000106 A2 01 02 00 00 | 00 01 00 00 | 01 00 01 00000005 |" EMPTY("3") "| 03 | 00 000000");
    MARKS("(255 03) 05 00000005 01 01", "A3 00000106 A2 01 02 00 00 | 00 01 00 00 | 01 00 01 00000005 |" EMPTY("3") "| 03 | 00 000000");
    MARKS("(254 03) 05 00000005 01 01 0A 00000005", "A3 0000010A A2 01 02 00 00 | 00 01 00 00 | 01 00 02 00000005 |" EMPTY("3") "| 03 | 00 000000");
    /* and the 257th is not */
    MARKS("(255 03) 05 00000005 01 01 0A 00000005", "A3 00000106 A2 01 02 00 00 | 00 01 00 00 | 01 00 01 00000005 |" EMPTY("3") "| 03 | 00 000000");
    /* two marks with states of their own, the last known RBC in the second */
    MARKS("(255 03) 05 01000009 00 01 (254 03) 0B 00000005 26 00 0B 01000005 26 00",
          "A3 00000106 A2 01 02 00 00 | 00 01 00 00 | 01 00 01 01000009 |" EMPTY("3") "| 03 | 00 000000"
          "A3 00000212 A2 01 02 00 00 | 00 01 00 00 | 01 00 01 01000009 | 03 01 00 00000005 |" EMPTY("2") "| 03 | 01 000005");
    /* level, mission, marks of the state; all four places */
    MARKS("01 03 01 02 02 04 01 (249 03) 0B 00000001 26 00 0B 00000002 26 00 0B 00000003 26 00 0B 00ABCDEF 26 00",
          "A3 0000011C A2 01 02 03 02 | 01 01 01 00 | 03 01 00 00000001 | 03 01 00 00000002 | 03 01 00 00000003 | 03 01 00 00ABCDEF | 03 | 01 ABCDEF");
    /* refused records count, and change nothing */
    MARKS("(256 06 00000001)", "A3 00000500 A2 01 02 00 00 | 00 00 00 00 |" EMPTY("4") "| 03 | 00 000000");
    MARKS("(256 01 05 00)", "A3 00000300 A2 01 02 00 00 | 00 00 00 00 |" EMPTY("4") "| 03 | 00 000000");
    MARKS("(256 05 00003FFF 01 01)", "A3 00000700 A2 01 02 00 00 | 00 00 00 00 |" EMPTY("4") "| 03 | 00 000000");
    /* each kind's length */
    MARKS("01 02 00 | 02 01 | 03 | 04 01 | 05 00000005 00 01 | 06 00000005 | 07 00 | 08 00000005 | 09 00000005 | 0A 00000005 | 0B 00000005 26 00 (245 03)",
          "A3 00000121 A2 01 02 02 01 | 01 01 00 00 | 03 01 00 00000005 |" EMPTY("3") "| 03 | 01 000005");
}

/* Marks cover the records before the stop. */
static void test_stops(void)
{
    MARKS("(255 03) 00", "");
    MARKS("(255 03) 0C (300 03)", "");
    MARKS("(256 03) 00", M256);
    MARKS("(256 03) FF (512 03)", M256);
    MARKS("00 (300 03)", "");
    MARKS("(511 03) A3 03", M256);
    MARKS("(512 03) A2 (300 03)", M256 M512);
    /* a record cut off is not one */
    MARKS("(255 03) 05 00000005 01", "");
    MARKS("(255 03) 0B", "");
    MARKS("(256 03) 05 00000005 01", M256);
    static const uint8_t own[] = {0, 3, 2, 1, 2, 7, 5, 2, 5, 5, 5, 7};
    for (uint8_t kind = 1; kind <= 11; kind++)
        for (size_t size = 0; size <= 8; size++) {
            Bytes log = hex("(255 03)");
            const uint8_t record[9] = {kind};
            append(&log, record, size);
            const Bytes straight = straight_marks(usual, log.b, log.n);
            Bytes got;
            CHECK(marked(built(usual, log.b, log.n, 4096, &got), 0, size >= own[kind]) && equal(&got, &straight));
        }
    for (unsigned kind = 0; kind < 256; kind++) {
        Bytes log = hex("(255 03)"), got;
        const uint8_t record[7] = {(uint8_t)kind};
        append(&log, record, sizeof record);
        CHECK(marked(built(usual, log.b, log.n, 100, &got), 0, kind >= 1 && kind <= 11));
    }
}

/* ---- lookups written out ---- */

#define COLD "A2 01 02 00 00 | 00 00 00 00 |" EMPTY("4") "| 03 | 00 000000"
#define MODE "A2 01 02 00 00 | 00 01 00 00 |" EMPTY("4") "| 03 | 00 000000"

static void lookup_at(int line, const char *log_text, const char *marks_text, uint64_t n, uint8_t code, uint32_t steps, uint32_t offset,
                      const char *image)
{
    const Bytes log = hex(log_text), marks = hex(marks_text);
    const Looked a = looked(usual, log.b, log.n, marks.b, marks.n, n);
    check_at(a.code == code && a.steps == steps && a.offset == offset, line, "the lookup");
    if (code == 0)
        check_at(image_is(&a.state, image), line, "the state");
}
#define LOOKUP(...) lookup_at(__LINE__, __VA_ARGS__)
#define NOT_FOUND(log, marks, n, code) lookup_at(__LINE__, log, marks, n, code, 0, 0, "")

static void test_lookup(void)
{
    /* 0: the cold start, whatever the log and the marks are */
    LOOKUP("", "", 0, 0, 0, 0, COLD);
    LOOKUP("(300 03)", M256, 0, 0, 0, 0, COLD);
    LOOKUP("00", "", 0, 0, 0, 0, COLD);
    LOOKUP("05", "FF", 0, 0, 0, 0, COLD);
    const Looked none = marks_lookup(1, 2, 3, NULL, 0, NULL, 0, 0);
    CHECK(none.code == 0 && none.steps == 0 && none.offset == 0 && image_is(&none.state, COLD));
    /* under 256 no mark is needed, nor looked at */
    LOOKUP("03", "", 1, 0, 1, 1, MODE);
    LOOKUP("(300 03)", "", 255, 0, 255, 255, MODE);
    LOOKUP("(300 03)", "(47 FF)", 255, 0, 255, 255, MODE);
    LOOKUP("05 00000005 01 01 0A 00000005 03", "", 2, 0, 2, 12, "A2 01 02 00 00 | 00 00 00 00 | 01 00 02 00000005 |" EMPTY("3") "| 03 | 00 000000");
    LOOKUP("05 00000005 01 01 0A 00000005 03", "", 1, 0, 1, 7, "A2 01 02 00 00 | 00 00 00 00 | 01 00 01 00000005 |" EMPTY("3") "| 03 | 00 000000");
    /* the mark stands at it, nothing is stepped; the state and the offset are the mark's */
    LOOKUP("(256 03)", M256, 256, 0, 0, 256, MODE);
    LOOKUP("(300 03)", M256, 256, 0, 0, 256, MODE);
    LOOKUP("(512 03)", M256 M512, 512, 0, 0, 512, MODE);
    LOOKUP("(512 03)", M256 M512, 511, 0, 255, 511, MODE);
    LOOKUP("(512 03)", M256, 511, 0, 255, 511, MODE);
    LOOKUP("(257 03)", M256, 257, 0, 1, 257, MODE);
    LOOKUP("(513 03)", M256 M512, 513, 0, 1, 513, MODE);
    LOOKUP("(513 03)", M256 M512, 257, 0, 1, 257, MODE);
    LOOKUP("(256 03) 0B 00000005 26 00", M256, 257, 0, 1, 263, "A2 01 02 00 00 | 00 01 00 00 | 03 01 00 00000005 |" EMPTY("3") "| 03 | 01 000005");
    /* from the mark on: neither the log before it nor another mark is read */
    LOOKUP("(256 00) 03", M256, 257, 0, 1, 257, MODE);
    LOOKUP("(256 00) 03", M256, 256, 0, 0, 256, MODE);
    LOOKUP("(512 FF) 03", "(47 FF)" M512 "(47 FF)", 513, 0, 1, 513, MODE);
    LOOKUP("(600 03)", M256 "(47 FF)", 511, 0, 255, 511, MODE);
    /* the state comes from the mark's image */
    LOOKUP("(300 03)", "A3 00000100 A2 00 07 04 02 | 00 00 00 01 |" EMPTY("4") "| 09 | 01 000007", 256, 0, 0, 256,
           "A2 00 07 04 02 | 00 00 00 01 |" EMPTY("4") "| 09 | 01 000007");
    LOOKUP("(300 03)", "A3 00000100 A2 00 07 04 02 | 00 00 00 01 |" EMPTY("4") "| 09 | 01 000007", 258, 0, 2, 258,
           "A2 00 07 04 02 | 00 01 00 01 |" EMPTY("4") "| 09 | 01 000007");
    /* and the offset from the mark */
    LOOKUP("(2 03) 04 01 03", "A3 00000002 A2 01 02 00 00 | 00 00 00 00 |" EMPTY("4") "| 03 | 00 000000", 257, 0, 1, 4,
           "A2 01 02 00 00 | 01 00 00 00 |" EMPTY("4") "| 03 | 00 000000");
    LOOKUP("", "A3 00000000 A2 01 02 00 00 | 00 01 00 00 |" EMPTY("4") "| 03 | 00 000000", 256, 0, 0, 0, MODE);
    /* 19: the mark is not there, or not whole */
    NOT_FOUND("(300 03)", "", 256, 19);
    NOT_FOUND("(300 03)", "", 257, 19);
    NOT_FOUND("(600 03)", M256, 512, 19);
    NOT_FOUND("(600 03)", M256, 513, 19);
    NOT_FOUND("(600 03)", M256 "(46 FF)", 512, 19);
    NOT_FOUND("(600 03)", M256 M512, 768, 19);
    /* 19: the stop comes before the record */
    NOT_FOUND("", "", 1, 19);
    NOT_FOUND("(254 03)", "", 255, 19);
    NOT_FOUND("(10 03) 00 (300 03)", "", 11, 19);
    NOT_FOUND("(10 03) 05 00000005 01", "", 11, 19);
    LOOKUP("(10 03) 05 00000005 01", "", 10, 0, 10, 10, MODE);
    NOT_FOUND("(256 03)", M256, 257, 19);
    NOT_FOUND("(260 03) 00 (300 03)", M256, 261, 19);
    LOOKUP("(260 03) 00 (300 03)", M256, 260, 0, 4, 260, MODE);
    NOT_FOUND("(256 03) 0B 00000005 26", M256, 257, 19);
    LOOKUP("(256 03) 0B 00000005 26", M256, 256, 0, 0, 256, MODE);
    /* far beyond */
    static const uint64_t far[] = {1000, 30000, 0x7FFFFFFF, 0xFFFFFFFF, (uint64_t)1 << 32, ((uint64_t)1 << 32) + 256, (uint64_t)1 << 63,
                                   ((uint64_t)1 << 40) + 1, UINT64_MAX};
    for (size_t i = 0; i < sizeof far / sizeof far[0]; i++)
        NOT_FOUND("(600 03)", M256 M512, far[i], 19);
    /* 11: kind, offset past the log, image */
    NOT_FOUND("(300 03)", "A2" "00000100" MODE, 256, 11);
    NOT_FOUND("(300 03)", "00" "00000100" MODE, 256, 11);
    LOOKUP("(300 03)", "A3 0000012C" MODE, 256, 0, 0, 300, MODE);
    NOT_FOUND("(300 03)", "A3 0000012D" MODE, 256, 11);
    NOT_FOUND("(300 03)", "A3 01000100" MODE, 256, 11);
    NOT_FOUND("(300 03)", "A3 FFFFFFFF" MODE, 256, 11);
    NOT_FOUND("", "A3 00000001" MODE, 256, 11);
    NOT_FOUND("(300 03)", "A3 00000100 A1 01 02 00 00 | 00 01 00 00 |" EMPTY("4") "| 03 | 00 000000", 256, 11);
    NOT_FOUND("(300 03)", "A3 00000100 A3 01 02 00 00 | 00 01 00 00 |" EMPTY("4") "| 03 | 00 000000", 256, 11);
    NOT_FOUND("(300 03)", "A3 00000100 A2 03 02 00 00 | 00 01 00 00 |" EMPTY("4") "| 03 | 00 000000", 256, 11);
    NOT_FOUND("(300 03)", "A3 00000100 A2 01 02 00 00 | 01 01 00 01 |" EMPTY("4") "| 03 | 00 000000", 256, 11);
    NOT_FOUND("(300 03)", "A3 00000100 A2 01 02 00 00 | 00 01 00 00 | 01 00 04 00000005 " EMPTY("3") "| 03 | 00 000000", 256, 11);
    NOT_FOUND("(300 03)", "A3 00000100 A2 01 02 00 00 | 00 01 00 00 |" EMPTY("4") "| 03 | 01 003FFF", 256, 11);
    /* a spoilt mark matters to its own records alone */
    LOOKUP("(600 03)", "00" "00000100" MODE M512, 255, 0, 255, 255, MODE);
    NOT_FOUND("(600 03)", "00" "00000100" MODE M512, 511, 11);
    LOOKUP("(600 03)", "00" "00000100" MODE M512, 512, 0, 0, 512, MODE);
}

/* ---- refusals in their order ---- */

static uint8_t over[LOG_MOST + 1];

static void test_refused(void)
{
    static const Limits bad[] = {{0, 8, 3}, {8, 8, 3}, {2, 1, 3}, {255, 255, 3}, {7, 0, 3}, {1, 2, 0}, {1, 2, 10}, {1, 2, 255}, {3, 2, 0}};
    const Bytes log = hex("(600 03)"), marks = hex(M256 M512), spoilt = hex(M256 "00" "00000200" MODE);
    memset(over, EV_MODE, sizeof over);
    for (size_t i = 0; i < sizeof bad / sizeof bad[0]; i++) {
        /* 13 before all else */
        static const size_t rooms[] = {0, 46, 94, 4096};
        for (size_t k = 0; k < 4; k++) {
            CHECK(marked(built(bad[i], log.b, log.n, rooms[k], NULL), 13, 0));
            CHECK(marked(built(bad[i], over, sizeof over, rooms[k], NULL), 13, 0));
            CHECK(marked(built(bad[i], log.b, 0, rooms[k], NULL), 13, 0));
            for (size_t held = 0; held <= 3; held++) {
                const Bytes more = hex(M256 M512 "(47 00)");
                CHECK(marked(extended(bad[i], log.b, log.n, more.b, held, rooms[k], NULL), 13, 0));
                CHECK(marked(extended(bad[i], over, sizeof over, more.b, held, rooms[k], NULL), 13, 0));
            }
        }
        for (uint64_t n = 0; n < 1000; n += 51) {
            CHECK(looked(bad[i], log.b, log.n, marks.b, marks.n, n).code == 13);
            CHECK(looked(bad[i], log.b, log.n, marks.b, 0, n).code == 13);
            CHECK(looked(bad[i], over, sizeof over, spoilt.b, spoilt.n, n).code == 13);
        }
    }
    /* 12 before 10, 11 and 19 */
    CHECK(marked(built(usual, over, sizeof over, 0, NULL), 12, 0));
    CHECK(marked(built(usual, over, sizeof over, 47 * 5000, NULL), 12, 0));
    CHECK(marked(extended(usual, over, sizeof over, marks.b, 0, 0, NULL), 12, 0));
    CHECK(marked(extended(usual, over, sizeof over, marks.b, 2, 94, NULL), 12, 0));
    CHECK(marked(extended(usual, over, sizeof over, marks.b, 3, 94, NULL), 12, 0));
    CHECK(marked(extended(usual, over, sizeof over, spoilt.b, 2, 47 * 5000, NULL), 12, 0));
    CHECK(looked(usual, over, sizeof over, marks.b, marks.n, 0).code == 12);
    CHECK(looked(usual, over, sizeof over, marks.b, marks.n, 256).code == 12);
    CHECK(looked(usual, over, sizeof over, marks.b, 0, 256).code == 12);
    CHECK(looked(usual, over, sizeof over, spoilt.b, spoilt.n, 512).code == 12);
    CHECK(looked(usual, over, sizeof over, marks.b, marks.n, UINT64_MAX).code == 12);
    over[0] = 0;                                           /* nothing to be read in it, and still 12 */
    CHECK(marked(built(usual, over, sizeof over, 0, NULL), 12, 0));
    CHECK(marked(built(usual, over, sizeof over - 1, 0, NULL), 0, 0));
    over[0] = EV_MODE;
    /* building: 10 exactly where the room is under 47 times the number of marks */
    static const size_t records[] = {0, 1, 255, 256, 511, 512, 600, 768};
    const Bytes more = hex("(800 03)");
    for (size_t i = 0; i < sizeof records / sizeof records[0]; i++)
        for (size_t room = 0; room <= 200; room++) {
            const size_t many = records[i] / 256;
            CHECK(marked(built(usual, more.b, records[i], room, NULL), room < 47 * many ? 10 : 0, room < 47 * many ? 0 : many));
            CHECK(marked(extended(usual, more.b, records[i], marks.b, 0, room, NULL), room < 47 * many ? 10 : 0, room < 47 * many ? 0 : many));
        }
    /* extending: 10 where the held marks are more than the room, before the last one is read; then 11, before 10; then 10 */
    for (size_t room = 0; room <= 200; room++) {
        CHECK(marked(extended(usual, log.b, log.n, marks.b, 1, room, NULL), room < 94 ? 10 : 0, room < 94 ? 0 : 2));
        CHECK(marked(extended(usual, log.b, log.n, marks.b, 2, room, NULL), room < 94 ? 10 : 0, room < 94 ? 0 : 2));
        CHECK(marked(extended(usual, log.b, log.n, spoilt.b, 2, room, NULL), room < 94 ? 10 : 11, 0));
        CHECK(marked(extended(usual, log.b, log.n, spoilt.b + 47, 1, room, NULL), room < 47 ? 10 : 11, 0));
        CHECK(marked(extended(usual, log.b, log.n, spoilt.b, 1, room, NULL), room < 94 ? 10 : 0, room < 94 ? 0 : 2));
        const Bytes longer = hex("(1100 03)");
        CHECK(marked(extended(usual, longer.b, longer.n, marks.b, 2, room, NULL), room < 188 ? 10 : 0, room < 188 ? 0 : 4));
        CHECK(marked(extended(usual, longer.b, longer.n, spoilt.b, 2, room, NULL), room < 94 ? 10 : 11, 0));
    }
    static const size_t huge[] = {100, 1000000, SIZE_MAX / 47, SIZE_MAX / 47 + 1, SIZE_MAX / 2, SIZE_MAX / 2 + 1, SIZE_MAX - 1, SIZE_MAX};
    for (size_t i = 0; i < sizeof huge / sizeof huge[0]; i++) {
        uint8_t room[200], was[200];
        memset(room, 0x5A, sizeof room);
        memcpy(room, marks.b, marks.n);
        memcpy(was, room, sizeof room);
        CHECK(marked(marks_extend(1, 2, 3, log.b, log.n, huge[i], room, sizeof room), 10, 0));
        CHECK(memcmp(room, was, sizeof room) == 0);
    }
    /* lookup: 19 before 11 where the mark is not there; 11 before 19 for the stop */
    CHECK(looked(usual, log.b, log.n, spoilt.b, 93, 512).code == 19);
    CHECK(looked(usual, log.b, log.n, spoilt.b, 94, 512).code == 11);
    CHECK(looked(usual, log.b, log.n, spoilt.b, 94, 700).code == 11);
    CHECK(looked(usual, log.b, log.n, marks.b, 94, 700).code == 19);
    CHECK(looked(usual, log.b, 511, marks.b, 94, 512).code == 11);
    CHECK(looked(usual, log.b, 511, marks.b, 94, 700).code == 11);
    CHECK(looked(usual, log.b, 512, marks.b, 94, 512).code == 0);
    CHECK(looked(usual, log.b, 512, marks.b, 94, 513).code == 19);
}

/* Every byte of the last mark with every value: extending refuses with 11 exactly what lookup refuses with 11, and that is what the
 * kind, the offset and the image's reading say. */
static void damaged_by(const Bytes *log, const Bytes *marks, size_t held)
{
    const size_t from = 47 * (held - 1);
    for (size_t at = 0; at < 47; at++)
        for (unsigned value = 0; value < 256; value++) {
            Bytes t = *marks;
            t.b[from + at] = (uint8_t)value;
            State s;
            const size_t offset = mark_offset(t.b + from);
            const bool good = t.b[from] == 0xA3 && offset <= log->n && image_read(&s, t.b + from + 5, 42) == 0;
            const Looked a = looked(usual, log->b, log->n, t.b, t.n, 256 * held);
            CHECK(a.code == (good ? 0 : 11));
            if (good)
                CHECK(a.offset == offset && memcmp(&a.state, &s, sizeof s) == 0);
            CHECK(extended(usual, log->b, log->n, t.b, held, 4096, NULL).code == (good ? 0 : 11));
        }
}

static void test_damaged(void)
{
    Bytes log = hex("(57 05 00000005 01 01 08 00000005 0B 00000005 20 11 0B 00000009 26 00 03 09 00000009 08 00000009 06 00000005 0B 00000005 27 00)"), marks;
    built(usual, log.b, log.n, 4096, &marks);
    CHECK(marks.n == 94);
    damaged_by(&log, &marks, 2);
    damaged_by(&log, &marks, 1);
}

/* ---- self-consistency ---- */

static const char *const logs[] = {
    "(1300 03)",
    "(130 05 00000005 01 01 08 00000005 0B 00000005 20 11 06 00000005 0B 00000005 27 00)",                             /* 5 records */
    "(71 05 00000005 01 01 0A 00000005 0A 00000005 08 00000005 0A 00000005 0A 00000005 0B 00000005 20 11"
    "06 00000005 0A 00000005 0A 00000005 0B 00000005 27 00)",                                                          /* 11 */
    "(45 0B 00000001 26 00 0B 00000002 26 00 0B 00000003 26 00 0B 00000004 26 00 0B 00000005 26 00 0B 01000001 26 00 09 00000002"
    "05 00003FFF 01 01 07 01 0B 00000001 27 00 0B 00000003 27 00 0B 00000004 27 00 02 01)",                            /* 13 */
    "(90 02 01 01 02 01 03 04 01 04 00 05 00000007 00 04 06 00000007)",                                                /* 7 */
    "(260 05 00000005 01 01 0A 00000005 0A 00000005) 00 (300 03)",                                                     /* 3, then a stop */
};
enum { LOGS = sizeof logs / sizeof logs[0] };

static Bytes random_log(Rng *g, Limits l, size_t records)
{
    Bytes out;
    uint8_t record[GEN_MOST], actions[ACTION_BUFFER];
    State s;
    out.n = 0;
    cold_start(&s, l.lo, l.hi, l.n);
    while (records-- > 0) {
        append(&out, record, gen_record_last(g, &s, true, record));
        step_trusted(&s, record, actions);
    }
    return out;
}

/* Lookup is the run of n records, for every n; with marks of a longer log, of this one, with bytes behind them. */
static void every_record(Limits l, const Bytes *log)
{
    const Bytes straight = straight_marks(l, log->b, log->n);
    Bytes marks, behind;
    CHECK(marked(built(l, log->b, log->n, straight.n, &marks), 0, straight.n / 47) && equal(&marks, &straight));
    CHECK(marked(built(l, log->b, log->n, straight.n + 100, &marks), 0, straight.n / 47) && equal(&marks, &straight));
    if (straight.n > 0)
        CHECK(marked(built(l, log->b, log->n, straight.n - 1, NULL), 10, 0));
    behind = marks;
    append(&behind, over, 46);
    State s;
    uint32_t offset;
    uint64_t n = 0;
    for (; run_of(l, log->b, log->n, n, &s, &offset); n++) {
        const Looked a = looked(l, log->b, log->n, marks.b, marks.n, n);
        CHECK(a.code == 0 && a.steps == n % 256 && a.offset == offset && memcmp(&a.state, &s, sizeof s) == 0);
        const Looked b = looked(l, log->b, log->n, behind.b, behind.n, n);
        CHECK(same_answer(&a, &b));
        const Looked c = looked(l, log->b, log->n, marks.b, 47 * (n / 256), n);    /* the needed marks and no more */
        CHECK(same_answer(&a, &c));
        if (n >= 256)
            CHECK(looked(l, log->b, log->n, marks.b, 47 * (n / 256) - 1, n).code == 19);
        /* the log up to the record alone, the log before the mark and all other marks put to nought */
        Bytes blank = *log, one = marks;
        memset(blank.b, 0, n < 256 ? 0 : mark_offset(marks.b + 47 * (n / 256 - 1)));
        for (size_t i = 0; i < one.n; i++)
            if (i / 47 + 1 != n / 256)
                one.b[i] = 0;
        const Looked d = looked(l, blank.b, offset, one.b, one.n, n);
        CHECK(same_answer(&a, &d));
    }
    CHECK(marks.n == 47 * ((n - 1) / 256));
    for (unsigned k = 0; k < 600; k++)
        CHECK(looked(l, log->b, log->n, marks.b, marks.n, n + k).code == 19);
}

/* Marks of each shorter version, extended to the whole log, are the marks built afresh; in a room that is exact, one less, more.
 * 'stride' 1: every split point. */
static void every_split(Limits l, const Bytes *log, size_t stride)
{
    Bytes whole, part, got;
    const Marked all = built(l, log->b, log->n, BYTES_MOST, &whole);
    CHECK(all.code == 0);
    for (size_t at = 0; at <= log->n; at += stride) {
        splits++;
        const Marked m = built(l, log->b, at, 4096, &part);
        CHECK(m.code == 0 && m.marks <= all.marks && memcmp(part.b, whole.b, part.n) == 0);
        CHECK(marked(extended(l, log->b, log->n, part.b, m.marks, 4096, &got), 0, all.marks) && equal(&got, &whole));
        if (at % 7 == 0) {
            CHECK(marked(extended(l, log->b, log->n, part.b, m.marks, whole.n, &got), 0, all.marks) && equal(&got, &whole));
            if (whole.n > 0)
                CHECK(marked(extended(l, log->b, log->n, part.b, m.marks, whole.n - 1, NULL), 10, 0));
            /* extended by nothing: nothing changes, and no room more is needed */
            CHECK(marked(extended(l, log->b, at, part.b, m.marks, 4096, &got), 0, m.marks) && equal(&got, &part));
            CHECK(marked(extended(l, log->b, at, part.b, m.marks, part.n, &got), 0, m.marks) && equal(&got, &part));
            /* neither the log before the last mark nor another mark is looked at */
            if (m.marks > 0) {
                Bytes blank = *log, last = part;
                memset(blank.b, 0, mark_offset(part.b + part.n - 47));
                memset(last.b, 0, last.n - 47);
                CHECK(marked(extended(l, blank.b, blank.n, last.b, m.marks, 4096, &got), 0, all.marks));
                CHECK(got.n == whole.n && memcmp(got.b + part.n, whole.b + part.n, whole.n - part.n) == 0);
            }
        }
        /* held marks that are fewer than the shorter version's */
        if (at % 13 == 0)
            for (size_t held = 0; held < m.marks; held++)
                CHECK(marked(extended(l, log->b, log->n, part.b, held, 4096, &got), 0, all.marks) && equal(&got, &whole));
    }
}

/* Twice is once: from each first split to each second one, of some. */
static void twice(Limits l, const Bytes *log, size_t stride)
{
    Bytes whole, first, second, third;
    const Marked all = built(l, log->b, log->n, BYTES_MOST, &whole);
    for (size_t i = 0; i <= log->n; i += stride)
        for (size_t j = i; j <= log->n; j += stride) {
            const Marked a = built(l, log->b, i, 4096, &first);
            const Marked b = extended(l, log->b, j, first.b, a.marks, 4096, &second);
            const Marked c = extended(l, log->b, log->n, second.b, b.marks, 4096, &third);
            CHECK(a.code == 0 && b.code == 0 && marked(c, 0, all.marks) && equal(&third, &whole));
            const Marked afresh = built(l, log->b, j, 4096, &third);
            CHECK(afresh.marks == b.marks && equal(&third, &second));
            const Marked again = extended(l, log->b, j, second.b, b.marks, 4096, &third);
            CHECK(again.code == 0 && again.marks == b.marks && equal(&third, &second));
        }
}

static void test_consistent(void)
{
    for (size_t i = 0; i < LOGS; i++) {
        const Bytes log = hex(logs[i]);
        const Limits l = i == 2 ? (Limits){0, 7, 9} : usual;
        every_record(l, &log);
        every_split(l, &log, 1);
        twice(l, &log, log.n / 40 + 1);
    }
    Rng g = {1201};
    for (int i = 0; i < 12; i++) {
        Limits l;
        gen_x(&g, &l.lo, &l.hi);
        l.n = gen_n(&g);
        const size_t records = 200 + rng_below(&g, 900);
        Bytes log = random_log(&g, l, records);
        if (i % 3 == 1)                                    /* a record cut off at the end */
            log.n -= 1 + rng_below(&g, 4);
        if (i % 3 == 2) {                                  /* noise somewhere */
            const size_t at = log.n / 2 + rng_below(&g, (uint32_t)log.n / 2);
            log.b[at] = (uint8_t)rng_below(&g, 256);
        }
        every_record(l, &log);
        every_split(l, &log, i < 4 ? 1 : 3);
        twice(l, &log, log.n / 25 + 1);
    }
}

/* Marks and limits that are not of this log: an answer all the same, from what the last mark says. */
static void test_foreign(void)
{
    Rng g = {1202};
    for (int i = 0; i < 400; i++) {
        Limits l, other;
        gen_x(&g, &l.lo, &l.hi);
        l.n = gen_n(&g);
        gen_x(&g, &other.lo, &other.hi);
        other.n = gen_n(&g);
        const size_t one = 256 + rng_below(&g, 700), two = rng_below(&g, 1500);
        const Bytes log = random_log(&g, l, one), foreign = random_log(&g, other, two);
        Bytes marks;
        const Marked m = built(other, foreign.b, foreign.n, 4096, &marks);
        for (int k = 0; k < 12; k++) {
            const uint64_t n = rng_below(&g, 1600);
            const Looked a = looked(l, log.b, log.n, marks.b, marks.n, n);
            CHECK(a.code == 0 || a.code == 19 || a.code == 11);
        }
        const Marked x = extended(l, log.b, log.n, marks.b, m.marks, 8192, NULL);
        CHECK(x.code == 0 || (x.code == 11 && m.marks > 0));
    }
    /* noise as marks */
    const Bytes log = hex("(700 03)");
    for (int i = 0; i < 2000; i++) {
        uint8_t marks[141];
        for (size_t k = 0; k < sizeof marks; k++)
            marks[k] = (uint8_t)(k % 47 == 0 && rng_below(&g, 2) ? 0xA3 : k % 47 == 5 && rng_below(&g, 2) ? 0xA2 : rng_below(&g, i % 2 ? 256 : 3));
        looked(usual, log.b, log.n, marks, sizeof marks, 256 + rng_below(&g, 512));
        extended(usual, log.b, log.n, marks, 1 + (size_t)rng_below(&g, 3), 4096, NULL);
    }
}

/* The longest log. */
static void test_long(void)
{
    enum { MOST = LOG_MOST / MARK_EVERY };
    static uint8_t marks[MARK_BYTES * MOST + 1], again[MARK_BYTES * MOST];
    memset(over, EV_MODE, sizeof over);
    CHECK(marked(marks_build(1, 2, 3, over, LOG_MOST, marks, sizeof marks - 2), 10, 0));
    CHECK(marks[0] == 0);
    CHECK(marked(marks_build(1, 2, 3, over, LOG_MOST, marks, sizeof marks - 1), 0, MOST) && marks[sizeof marks - 1] == 0);
    const Bytes last = hex("A3 00100000" MODE);
    CHECK(memcmp(marks + MARK_BYTES * (MOST - 1), last.b, MARK_BYTES) == 0);
    static const uint64_t some[] = {0, 255, 256, 30000, 30208, 65535, 65536, 65537, 170032, LOG_MOST - 256, LOG_MOST - 1, LOG_MOST};
    for (size_t i = 0; i < sizeof some / sizeof some[0]; i++) {
        const Looked a = looked(usual, over, LOG_MOST, marks, MARK_BYTES * MOST, some[i]);
        CHECK(a.code == 0 && a.steps == some[i] % 256 && a.offset == some[i] && image_is(&a.state, some[i] == 0 ? COLD : MODE));
    }
    CHECK(looked(usual, over, LOG_MOST, marks, MARK_BYTES * MOST, LOG_MOST + 1).code == 19);
    /* grown to the longest, from a mark on the last byte but 255, and by one byte too many */
    CHECK(marked(marks_build(1, 2, 3, over, LOG_MOST - 1, again, sizeof again), 0, MOST - 1));
    CHECK(marked(marks_extend(1, 2, 3, over, LOG_MOST, MOST - 1, again, sizeof again - 1), 10, 0));
    CHECK(marked(marks_extend(1, 2, 3, over, LOG_MOST, MOST - 1, again, sizeof again), 0, MOST));
    CHECK(memcmp(marks, again, sizeof again) == 0);
    CHECK(marked(marks_extend(1, 2, 3, over, LOG_MOST, MOST, again, sizeof again), 0, MOST));
    CHECK(marked(marks_extend(1, 2, 3, over, LOG_MOST + 1, MOST, again, sizeof again), 12, 0));
    /* a long random log against the runs */
    Rng g = {1203};
    State s;
    uint8_t actions[ACTION_BUFFER];
    size_t length = 0;
    cold_start(&s, 1, 2, 3);
    while (length + GEN_MOST <= LOG_MOST) {
        const size_t size = gen_record_last(&g, &s, true, over + length);
        step_trusted(&s, over + length, actions);
        length += size;
    }
    const Marked m = marks_build(1, 2, 3, over, length, marks, sizeof marks);
    CHECK(m.code == 0 && m.marks > 600);
    RunResult out;
    cold_start(&s, 1, 2, 3);
    run_once(&s, over, length, SIZE_MAX, &out);
    CHECK(out.read / 256 == m.marks);
    for (int i = 0; i < 300; i++) {
        const uint32_t n = rng_below(&g, out.read + 1);
        uint32_t offset;
        const Looked a = looked(usual, over, length, marks, MARK_BYTES * m.marks, n);
        CHECK(run_of(usual, over, length, n, &s, &offset));
        CHECK(a.code == 0 && a.offset == offset && memcmp(&a.state, &s, sizeof s) == 0);
    }
}

int main(void)
{
    test_written();
    test_stops();
    test_lookup();
    test_refused();
    test_damaged();
    test_consistent();
    test_foreign();
    test_long();
    printf("marks: %lu checks, %lu failures; %lu lookups, %lu split points\n", checks, failures, lookups, splits);
    return failures != 0;
}
