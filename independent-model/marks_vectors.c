/* marks_vectors write FILE: the vectors of request Q-12; prints how many each group has.
 * marks_vectors spoil FILE: some of them, each followed by copies with one field wrong that has to be compared; prints the number,
 * from 0, of each wrong one.
 * marks_vectors check FILE: the vectors of the file against the model; prints the number of each wrong one.
 *
 * A vector is the length of its body (two bytes, as all numbers the highest first) and the body:
 * operation (1 build, 2 extend, 3 lookup); lowest X, highest X, tries; the log: repeats (2), block length (2), block, tail length
 * (2), tail; it is the block so many times, then the tail. Then
 * build: room (2); expected code, marks (2), the marks' bytes.
 * extend: held (2), room (2), front length (2), front: the room is the front and EE behind it; expected code, marks (2), the new
 * marks' bytes: the room is then the front, the new marks and EE behind them.
 * lookup: n (4), length of the marks (2), marks; expected code, steps (2), offset (4), A2 image of the answered state (42). */
#include "gen.h"
#include "marks_model.h"

#include <stdio.h>
#include <stdlib.h>
#include <string.h>

enum { BUILD = 1, EXTEND = 2, LOOKUP = 3, BODY_MOST = 65535, ROOM_MOST = 4096, LOG_LONGEST = 65536, UNTOUCHED = 0xEE };
enum { LOOKUP_ANSWER = 1 + 2 + 4 + IMAGE_BYTES };
enum { FILE_MOST = 4 << 20, VECTORS_MOST = 60000, BYTES_MOST = 8192, FAR_MARKS = 256 };

enum { B_HAND, B_STOPS, B_LIMITS, B_BAD, MANY, B_RANDOM, E_HAND, E_GROWN, E_STOPS, E_LIMITS, E_BAD, E_ORDER, E_DAMAGED, E_FOREIGN, E_RANDOM,
       L_EVERY, L_EDGES, L_MISSING, L_STOPS, L_LIMITS, L_BAD, L_ORDER, L_DAMAGED, L_OFFSETS, L_FOREIGN, L_FAR, L_RANDOM, GROUPS };

static const char *const group_name[GROUPS] = {
    "build, hand-written blocks, records around the marks, rooms", "build, stops", "build, limits", "build, bad limits", "build and extend, many marks",
    "build, random blocks", "extend, hand-written blocks, each number held, rooms", "extend, grown a record at a time", "extend, stops",
    "extend, limits", "extend, bad limits", "extend, refusals in their order", "extend, every byte of the last mark damaged",
    "extend, marks not of this log", "extend, random blocks", "lookup, every record", "lookup, records around the marks",
    "lookup, marks cut at every length", "lookup, stops", "lookup, limits", "lookup, bad limits", "lookup, refusals in their order",
    "lookup, every byte of the mark damaged", "lookup, offsets", "lookup, marks not of this log", "lookup, far records", "lookup, random blocks",
};

typedef struct { uint8_t b[BYTES_MOST]; size_t n; } Bytes;
typedef struct { uint8_t lo, hi, n; } Limits;
typedef struct { size_t repeats; Bytes block, tail; } Log;

/* ---- the file ---- */

static uint8_t file[FILE_MOST];
static size_t file_length, vectors;
static struct { size_t at; uint8_t group; } index_of[VECTORS_MOST];

static void put16(uint8_t *b, size_t v)
{
    b[0] = (uint8_t)(v >> 8);
    b[1] = (uint8_t)v;
}

static void put32(uint8_t *b, uint32_t v)
{
    put16(b, v >> 16);
    put16(b + 2, v & 0xFFFF);
}

static size_t get16(const uint8_t *b) { return (size_t)b[0] << 8 | b[1]; }
static uint32_t get32(const uint8_t *b) { return (uint32_t)get16(b) << 16 | (uint32_t)get16(b + 2); }

/* Room for a body of this length at the end of the file. */
static uint8_t *body(unsigned group, size_t length)
{
    if (length > BODY_MOST || length + 2 > sizeof file - file_length || vectors == VECTORS_MOST)
        exit(1);
    uint8_t *const at = file + file_length;
    index_of[vectors].at = file_length;
    index_of[vectors++].group = (uint8_t)group;
    put16(at, length);
    file_length += 2 + length;
    return at + 2;
}

static uint8_t *put_bytes(uint8_t *to, const uint8_t *b, size_t n)
{
    memcpy(to, b, n);
    return to + n;
}

enum { HEAD = 4 + 6 };                     /* operation, limits, the log's three numbers */

static uint8_t *put_log(uint8_t *to, uint8_t operation, Limits l, const Log *log)
{
    const uint8_t head[4] = {operation, l.lo, l.hi, l.n};
    to = put_bytes(to, head, sizeof head);
    put16(to, log->repeats);
    put16(to + 2, log->block.n);
    to = put_bytes(to + 4, log->block.b, log->block.n);
    put16(to, log->tail.n);
    return put_bytes(to + 2, log->tail.b, log->tail.n);
}

static uint8_t whole[LOG_LONGEST];         /* the log of the vector in hand */

static size_t expand(const Log *log)
{
    if (log->repeats > 65535 || log->repeats * log->block.n + log->tail.n > sizeof whole)
        exit(1);
    uint8_t *to = whole;
    for (size_t i = 0; i < log->repeats; i++)
        to = put_bytes(to, log->block.b, log->block.n);
    to = put_bytes(to, log->tail.b, log->tail.n);
    return (size_t)(to - whole);
}

static void build_vector(unsigned group, Limits l, const Log *log, size_t room_length)
{
    if (room_length > ROOM_MOST)
        return;
    uint8_t room[ROOM_MOST];
    const Marked m = marks_build(l.lo, l.hi, l.n, whole, expand(log), room, room_length);
    uint8_t *b = body(group, HEAD + log->block.n + log->tail.n + 5 + MARK_BYTES * m.marks);
    b = put_log(b, BUILD, l, log);
    put16(b, room_length);
    b[2] = m.code;
    put16(b + 3, m.marks);
    put_bytes(b + 5, room, MARK_BYTES * m.marks);
}

static void extend_vector(unsigned group, Limits l, const Log *log, size_t held, size_t room_length, const uint8_t *front, size_t front_length)
{
    if (room_length > ROOM_MOST)
        return;
    if (front_length > room_length)
        front_length = room_length;
    uint8_t room[ROOM_MOST];
    memset(room, UNTOUCHED, sizeof room);
    memcpy(room, front, front_length);
    const Marked m = marks_extend(l.lo, l.hi, l.n, whole, expand(log), held, room, room_length);
    if (m.code == 0 && front_length != MARK_BYTES * held)
        exit(1);
    const size_t more = m.code == 0 ? MARK_BYTES * m.marks - front_length : 0;
    uint8_t *b = body(group, HEAD + log->block.n + log->tail.n + 6 + front_length + 3 + more);
    b = put_log(b, EXTEND, l, log);
    put16(b, held);
    put16(b + 2, room_length);
    put16(b + 4, front_length);
    b = put_bytes(b + 6, front, front_length);
    b[0] = m.code;
    put16(b + 1, m.marks);
    put_bytes(b + 3, room + front_length, more);
}

static void lookup_vector(unsigned group, Limits l, const Log *log, uint32_t n, const uint8_t *marks, size_t marks_length)
{
    const Looked a = marks_lookup(l.lo, l.hi, l.n, whole, expand(log), marks, marks_length, n);
    uint8_t *b = body(group, HEAD + log->block.n + log->tail.n + 6 + marks_length + LOOKUP_ANSWER);
    b = put_log(b, LOOKUP, l, log);
    put32(b, n);
    put16(b + 4, marks_length);
    b = put_bytes(b + 6, marks, marks_length);
    b[0] = a.code;
    put16(b + 1, a.steps);
    put32(b + 3, a.offset);
    image_store(&a.state, b + 7);
}

/* ---- help ---- */

static void append(Bytes *to, const uint8_t *b, size_t n)
{
    if (n > sizeof to->b - to->n)
        exit(1);
    memcpy(to->b + to->n, b, n);
    to->n += n;
}

static Bytes hex(const char *text)
{
    Bytes out;
    out.n = 0;
    for (; *text; text++) {
        if (*text == ' ')
            continue;
        const char two[3] = {text[0], text[1], 0};
        out.b[out.n++] = (uint8_t)strtoul(two, NULL, 16);
        text++;
    }
    return out;
}

/* The first bytes of the block without end. */
static Log first_bytes(const Bytes *block, size_t bytes)
{
    Log log;
    log.repeats = bytes / block->n;
    log.tail.n = 0;
    append(&log.tail, block->b, bytes % block->n);
    log.block = *block;
    if (log.repeats == 0)
        log.block.n = 0;
    return log;
}

/* The bytes of that many records of the block without end; the block is whole records. */
static size_t bytes_of(const Bytes *block, size_t records)
{
    size_t in_block = 0, bytes = 0;
    for (size_t at = 0; at < block->n; at += record_length[block->b[at]])
        in_block++;
    bytes = records / in_block * block->n;
    size_t at = 0;
    for (records %= in_block; records > 0; records--)
        at += record_length[block->b[at]];
    return bytes + at;
}

static Log first_records(const Bytes *block, size_t records) { return first_bytes(block, bytes_of(block, records)); }

static Log behind(Log log, const char *text)
{
    const Bytes more = hex(text);
    append(&log.tail, more.b, more.n);
    return log;
}

/* The log's marks, however many. */
static uint8_t marks[MARK_BYTES * FAR_MARKS];

static size_t marks_of(Limits l, const Log *log)
{
    const Marked m = marks_build(l.lo, l.hi, l.n, whole, expand(log), marks, sizeof marks);
    if (m.code != 0)
        exit(1);
    return m.marks;
}

static size_t records_in(Limits l, const Log *log)
{
    State s;
    RunResult out;
    cold_start(&s, l.lo, l.hi, l.n);
    run_once(&s, whole, expand(log), SIZE_MAX, &out);
    return out.read;
}

static Limits some_limits(Rng *g)
{
    Limits l;
    gen_x(g, &l.lo, &l.hi);
    l.n = gen_n(g);
    return l;
}

static Bytes random_block(Rng *g, Limits l, size_t records)
{
    Bytes out;
    uint8_t record[GEN_MOST], actions[ACTION_BUFFER];
    State s;
    out.n = 0;
    cold_start(&s, l.lo, l.hi, l.n);
    while (records-- > 0) {
        append(&out, record, gen_record_last(g, &s, true, record));
        step_trusted(&s, record, actions);
    }
    return out;
}

/* A byte that stood as it was, and six others; gives how many differ from it and from each other. */
static size_t others(uint8_t was, uint8_t to[6])
{
    const uint8_t values[6] = {was ^ 1, was ^ 0x80, (uint8_t)(was + 1), 0, 0xFF, was ^ 4};
    size_t n = 0;
    for (size_t k = 0; k < sizeof values; k++) {
        bool again = values[k] == was;
        for (size_t j = 0; j < n; j++)
            again = again || to[j] == values[k];
        if (!again)
            to[n++] = values[k];
    }
    return n;
}

/* ---- hand-written blocks, most with a number of records that does not divide 256 ---- */

#define CALL(k) "0B 000000" k " 26 00 "
#define DONE(k) "0B 000000" k " 27 00 "

typedef struct { Limits l; const char *block; } Hand;

static const Hand hands[] = {
    {{1, 2, 3}, "03"},
    {{1, 2, 3}, "05 00000005 01 01 08 00000005 0B 00000005 20 11 06 00000005 0B 00000005 27 00"},                    /* 5 records */
    {{0, 7, 9}, "05 00000005 01 01 0A 00000005 0A 00000005 08 00000005 0A 00000005 0A 00000005 0B 00000005 20 11"
                "06 00000005 0A 00000005 0A 00000005 0B 00000005 27 00"},                                            /* 11 */
    {{1, 2, 3}, CALL("01") CALL("02") CALL("03") CALL("04") CALL("05") "0B 01000001 26 00 09 00000002"
                "05 00FFFFFF 01 01 07 01" DONE("01") DONE("03") DONE("04") "02 01"},                                 /* 13 */
    {{1, 2, 3}, "02 01 01 02 01 03 04 01 04 00 05 00000007 00 04 06 00000007"},                                     /* 7 */
    {{1, 2, 5}, "05 00000005 01 01 0A 00000005 0A 00000005"},                                                       /* 3 */
    {{1, 2, 3}, "01 05 00 05 00000001 00 04 04 00" CALL("01") CALL("01") "06 00000009 0B 01000001 26 00 05 00003FFF 01 01 03"}, /* 9 */
    {{2, 5, 1}, "05 00123456 00 01 08 00123456 0B 00123456 20 1F 0A 00123456 05 01123456 00 01 08 01123456 0B 01123456 20 2F"}, /* 7 */
    {{3, 3, 9}, CALL("07") "09 00000007 0A 00000007 08 00000007 09 00000007 05 01000007 01 01 05 00000008 00 01"},  /* 7 */
    {{0, 0, 1}, "02 02 01 03 01 03 05 00ABCDEF 01 02 05 00000002 00 03 08 00ABCDEF 08 00000002 0B 00ABCDEF 20 0F 0B 00000002 20 10"
                "0A 00000002 06 00ABCDEF 09 00ABCDEF 04 01 02 00 04 00"},                                            /* 15 */
};
enum { HANDS = sizeof hands / sizeof hands[0] };

static const uint16_t around[] = {0, 1, 254, 255, 256, 257, 511, 512, 513, 767, 768, 1100};
enum { AROUND = sizeof around / sizeof around[0] };

static void hand_vectors(void)
{
    for (size_t i = 0; i < HANDS; i++) {
        const Limits l = hands[i].l;
        const Bytes block = hex(hands[i].block);
        for (size_t k = 0; k < AROUND; k++) {
            const Log log = first_records(&block, around[k]);
            const size_t many = marks_of(l, &log), exact = MARK_BYTES * many;
            if (many != around[k] / 256u)
                exit(1);
            const size_t rooms[] = {exact, exact - 1, exact + 1, exact + 46, exact + 47, 0, ROOM_MOST, exact / 2};
            for (size_t r = 0; r < sizeof rooms / sizeof rooms[0]; r++)
                if (many > 0 || r % 2 == 0)
                    build_vector(B_HAND, l, &log, rooms[r]);
            for (size_t held = 0; held <= many; held++) {
                const size_t front = MARK_BYTES * held;
                const size_t more[] = {exact, exact - 1, exact + 1, exact + 60, front, front - 1, front + 46, 0};
                for (size_t r = 0; r < sizeof more / sizeof more[0]; r++)
                    if (held < many || (r != 4 && r != 5))
                        extend_vector(E_HAND, l, &log, held, more[r], marks, front);
            }
            /* more held than there are, or than the room has place for: 10 before the last one is looked at; 11 for EE */
            extend_vector(E_ORDER, l, &log, many + 1, exact + 46, marks, exact);
            extend_vector(E_ORDER, l, &log, many + 1, exact + 47, marks, exact);
            extend_vector(E_ORDER, l, &log, 65535, ROOM_MOST, marks, exact);
            extend_vector(E_ORDER, l, &log, 88, ROOM_MOST, marks, exact);
            extend_vector(E_ORDER, l, &log, 87, ROOM_MOST, marks, exact);
            const uint32_t all = around[k];
            const uint32_t ns[] = {0, 1, 37, 254, 255, 256, 257, 300, 510, 511, 512, 513, 767, 768, 769, 1000, all, all + 1, all + 256};
            for (size_t r = 0; r < sizeof ns / sizeof ns[0]; r++)
                if (ns[r] <= all + 3 || ns[r] == all + 256)
                    lookup_vector(L_EDGES, l, &log, ns[r], marks, exact);
        }
        /* grown a record at a time, and a byte at a time about the second mark, with one held */
        for (size_t records = 252; records <= 516; records += records == 260 ? 246 : 1) {
            const Log log = first_records(&block, records);
            const size_t many = marks_of(l, &log);
            if (many > 0)
                extend_vector(E_GROWN, l, &log, many - (records % 2 && many > 1), ROOM_MOST, marks, MARK_BYTES * (many - (records % 2 && many > 1)));
            else
                extend_vector(E_GROWN, l, &log, 0, 100, marks, 0);
            const size_t from = bytes_of(&block, records), to = bytes_of(&block, records + 1);
            for (size_t bytes = from + 1; bytes < to && (records == 255 || records == 511); bytes++) {
                const Log part = first_bytes(&block, bytes);
                build_vector(B_STOPS, l, &part, 100);
                if (marks_of(l, &part) > 0)
                    extend_vector(E_GROWN, l, &part, 1, 100, marks, MARK_BYTES);
                lookup_vector(L_STOPS, l, &part, (uint32_t)records, marks, MARK_BYTES);
                lookup_vector(L_STOPS, l, &part, (uint32_t)records + 1, marks, MARK_BYTES);
            }
        }
    }
    /* every record of two logs */
    for (size_t i = 2; i <= 3; i++) {
        const Bytes block = hex(hands[i].block);
        const Log log = first_records(&block, 530);
        marks_of(hands[i].l, &log);
        for (uint32_t n = 0; n <= 540; n++)
            lookup_vector(L_EVERY, hands[i].l, &log, n, marks, n < 256 && n % 2 ? 0 : 2 * MARK_BYTES);
    }
}

/* The stop as the 256th and the 257th record and behind a mark: every kind, every record cut. */
static void stop_vectors(void)
{
    const Limits l = {1, 2, 3};
    const Bytes block = hex("03");
    for (size_t records = 255; records <= 256; records++)
        for (unsigned kind = 0; kind < 256; kind++) {
            Log log = first_records(&block, records);
            const uint8_t record[7] = {(uint8_t)kind};
            append(&log.tail, record, sizeof record);
            const size_t many = marks_of(l, &log);
            if (records == 255)
                build_vector(B_STOPS, l, &log, 47);
            lookup_vector(L_STOPS, l, &log, (uint32_t)records + 1, marks, MARK_BYTES * many);
            log.repeats += 256;
            marks_of(l, &log);
            if (records == 255)
                extend_vector(E_STOPS, l, &log, 1, 94, marks, MARK_BYTES);
        }
    for (uint8_t kind = 1; kind <= KIND_LAST; kind++)
        for (size_t size = 1; size <= 8; size++)
            for (size_t records = 255; records <= 511; records += 128) {
                Log log = first_records(&block, records);
                const uint8_t record[8] = {kind};
                append(&log.tail, record, size);
                const size_t many = marks_of(l, &log);
                build_vector(B_STOPS, l, &log, MARK_BYTES * ((records + 1) / 256));
                if (many > 0 && records > 255)
                    extend_vector(E_STOPS, l, &log, 1, MARK_BYTES * ((records + 1) / 256), marks, MARK_BYTES);
                lookup_vector(L_STOPS, l, &log, (uint32_t)records + 1, marks, MARK_BYTES * many);
            }
    /* records behind a stop are none */
    static const char *const stops[] = {"00", "0C", "1E", "A3", "FF"};
    for (size_t k = 0; k < sizeof stops / sizeof stops[0]; k++)
        for (size_t records = 254; records <= 258; records++) {
            Log log = behind(first_records(&block, records), stops[k]);
            for (int i = 0; i < 300; i++)
                append(&log.tail, block.b, 1);
            const size_t many = marks_of(l, &log);
            build_vector(B_STOPS, l, &log, 94);
            extend_vector(E_STOPS, l, &log, many, 94, marks, MARK_BYTES * many);
            for (uint32_t n = (uint32_t)records - 1; n <= records + 2; n++)
                lookup_vector(L_STOPS, l, &log, n, marks, MARK_BYTES * many);
            lookup_vector(L_STOPS, l, &log, 300, marks, MARK_BYTES * many);
        }
}

static void limit_vectors(void)
{
    const Bytes block = hex("05 00000005 01 01 08 00000005 0B 00000005 20 3F 0A 00000005 0A 00000005 0A 00000005 09 00000005");
    const Log log = first_records(&block, 300), grown = first_records(&block, 520);
    size_t turn = 0;
    for (uint8_t lo = 0; lo < 8; lo++)
        for (uint8_t hi = lo; hi < 8; hi++, turn++) {
            const Limits l = {lo, hi, (uint8_t)(1 + turn % 9)};
            build_vector(B_LIMITS, l, &log, 47 + turn % 3);
            marks_of(l, &grown);
            extend_vector(E_LIMITS, l, &grown, 1, 94 + turn % 3, marks, MARK_BYTES);
            lookup_vector(L_LIMITS, l, &log, 256 + (uint32_t)turn, marks, MARK_BYTES);
            lookup_vector(L_LIMITS, l, &log, (uint32_t)turn, marks, 0);
        }
    for (uint8_t n = 1; n <= TRIES_MOST; n++)
        for (uint32_t k = 0; k < 4; k++) {
            const Limits l = {(uint8_t)k, (uint8_t)(2 * k), n};
            const Log some = first_records(&block, 512 + k);
            build_vector(B_LIMITS, l, &some, 94);
            marks_of(l, &some);
            extend_vector(E_LIMITS, l, &some, 1, 94, marks, MARK_BYTES);
            lookup_vector(L_LIMITS, l, &some, 260 + k, marks, MARK_BYTES);
            lookup_vector(L_LIMITS, l, &some, 511 + k, marks, 2 * MARK_BYTES);
        }
    /* bad ones, whatever else there is */
    static const uint8_t some[] = {0, 1, 2, 7, 8, 9, 128, 255}, tries[] = {0, 1, 3, 9, 10, 255};
    static const Bytes empty = {.n = 0};
    const Log none = {.repeats = 0, .block = empty, .tail = empty};
    marks_of((Limits){1, 2, 3}, &grown);
    turn = 0;
    for (size_t i = 0; i < sizeof some; i++)
        for (size_t j = 0; j < sizeof some; j++)
            for (size_t k = 0; k < sizeof tries; k++, turn++) {
                const Limits l = {some[i], some[j], tries[k]};
                State s;
                if (cold_start(&s, l.lo, l.hi, l.n) == 0)
                    continue;
                const Log *const on = turn % 4 == 0 ? &none : turn % 4 == 1 ? &grown : &log;
                static const uint16_t rooms[] = {0, 47, 93, 94, 200};
                static const uint16_t ns[] = {0, 1, 256, 300, 512, 60000};
                const size_t held = turn % 3;
                build_vector(B_BAD, l, on, rooms[turn % 5]);
                extend_vector(E_BAD, l, on, held, rooms[turn % 5], marks, MARK_BYTES * held);
                lookup_vector(L_BAD, l, on, ns[turn % 6], marks, MARK_BYTES * held);
            }
    /* bad limits before a bad last mark, a small room and more held than it has place for */
    const uint8_t bad_mark[MARK_BYTES] = {MARK_KIND};
    const Limits bad = {2, 1, 3};
    for (size_t held = 0; held <= 2; held++)
        for (size_t room = 0; room <= 94; room += 47) {
            extend_vector(E_BAD, bad, &grown, held, room, bad_mark, MARK_BYTES);
            lookup_vector(L_BAD, bad, &grown, (uint32_t)(256 * held), bad_mark, room > 0 ? MARK_BYTES : 0);
        }
}

/* The order of the refusals, the room's edges. */
static void order_vectors(void)
{
    const Limits l = {1, 2, 3};
    const Bytes block = hex(hands[1].block);
    const Log log = first_records(&block, 800);
    marks_of(l, &log);
    uint8_t spoilt[3][2 * MARK_BYTES];
    for (int k = 0; k < 3; k++)
        memcpy(spoilt[k], marks, 2 * MARK_BYTES);
    spoilt[0][MARK_BYTES] = 0xA2;                          /* kind */
    spoilt[1][MARK_BYTES + 1] = 1;                         /* offset past the log */
    spoilt[2][MARK_BYTES + 8] = 5;                         /* level */
    for (size_t room = 0; room <= 190; room++) {
        if (room % 47 > 2 && room % 47 < 45)
            continue;
        for (size_t held = 0; held <= 3; held++)
            extend_vector(E_ORDER, l, &log, held, room, marks, MARK_BYTES * held);
        for (int k = 0; k < 3; k++) {
            extend_vector(E_ORDER, l, &log, 2, room, spoilt[k], 2 * MARK_BYTES);
            extend_vector(E_ORDER, l, &log, 1, room, spoilt[k] + MARK_BYTES, MARK_BYTES);
            extend_vector(E_ORDER, l, &log, 1, room, spoilt[k], MARK_BYTES);
        }
    }
    /* a mark that is not there; one that is there and bad; the stop */
    const Log short_log = first_records(&block, 520);
    for (int k = 0; k < 3; k++)
        for (size_t length = 2 * MARK_BYTES - 2; length <= 2 * MARK_BYTES; length++) {
            static const uint16_t ns[] = {255, 256, 511, 512, 520, 521, 700, 767, 768};
            for (size_t i = 0; i < sizeof ns / sizeof ns[0]; i++)
                lookup_vector(L_ORDER, l, &short_log, ns[i], spoilt[k], length);
        }
    /* every length of the marks */
    for (size_t length = 0; length <= 3 * MARK_BYTES; length++) {
        static const uint16_t ns[] = {255, 256, 257, 511, 512, 767, 768};
        for (size_t i = length % 2; i < sizeof ns / sizeof ns[0]; i += 2)
            lookup_vector(L_MISSING, l, &log, ns[i], marks, length);
    }
}

/* ---- damaged marks ---- */

static void damaged_mark(size_t hand, size_t held)
{
    const Limits l = hands[hand].l;
    const Bytes block = hex(hands[hand].block);
    const Log log = first_records(&block, 256 * held + 266);
    marks_of(l, &log);
    uint8_t *const mark = marks + MARK_BYTES * (held - 1);
    for (size_t at = 0; at < MARK_BYTES; at++) {
        const uint8_t was = mark[at];
        uint8_t values[6];
        const size_t many = others(was, values);
        for (size_t k = 0; k < many; k++) {
            mark[at] = values[k];
            lookup_vector(L_DAMAGED, l, &log, (uint32_t)(256 * held + (k % 2 ? 0 : at % 16)), marks, MARK_BYTES * held);
            extend_vector(E_DAMAGED, l, &log, held, MARK_BYTES * (held + 2), marks, MARK_BYTES * held);
        }
        mark[at] = was;
    }
}

static void damage_vectors(void)
{
    damaged_mark(0, 1);
    damaged_mark(2, 1);
    damaged_mark(3, 1);
    damaged_mark(8, 2);
    /* two and three bytes at once */
    Rng g = {1210};
    for (int i = 0; i < 200; i++) {
        const size_t hand = rng_below(&g, HANDS);
        const Bytes block = hex(hands[hand].block);
        const Log log = first_records(&block, 530);
        marks_of(hands[hand].l, &log);
        const size_t many = 2 + rng_below(&g, 2);
        for (size_t k = 0; k < many; k++) {
            const size_t at = 5 + rng_below(&g, IMAGE_BYTES);
            marks[at] = (uint8_t)rng_below(&g, k == 0 ? 3 : 10);
        }
        const uint32_t n = 256 + rng_below(&g, 256);
        lookup_vector(L_DAMAGED, hands[hand].l, &log, n, marks, MARK_BYTES);
        extend_vector(E_DAMAGED, hands[hand].l, &log, 1, 94, marks, MARK_BYTES);
    }
    /* offsets: at the end, past it, amid a record, at nought */
    for (size_t hand = 0; hand < HANDS; hand++) {
        const Limits l = hands[hand].l;
        const Bytes block = hex(hands[hand].block);
        const Log log = first_records(&block, 530);
        const uint32_t length = (uint32_t)expand(&log);
        marks_of(l, &log);
        const uint32_t right = get32(marks + 1);
        const uint32_t offsets[] = {0, 1, right - 1, right, right + 1, right + 3, length - 1, length, length + 1, length + 256, 0x00100000, 0x00FFFFFF,
                                    0x01000000 | right, 0x80000000, 0xFFFFFFFF};
        for (size_t k = 0; k < sizeof offsets / sizeof offsets[0]; k++) {
            put32(marks + 1, offsets[k]);
            static const uint16_t ns[] = {255, 256, 257, 300, 511};
            for (size_t i = 0; i < sizeof ns / sizeof ns[0]; i++)
                lookup_vector(L_OFFSETS, l, &log, ns[i], marks, MARK_BYTES);
            extend_vector(offsets[k] == right || offsets[k] > length ? E_DAMAGED : E_FOREIGN, l, &log, 1, 200, marks, MARK_BYTES);
        }
        /* the log cut before the mark */
        put32(marks + 1, right);
        for (uint32_t bytes = right - 2; bytes <= right + 2; bytes++) {
            const Log cut = first_bytes(&block, bytes);
            lookup_vector(L_OFFSETS, l, &cut, 256, marks, MARK_BYTES);
            lookup_vector(L_OFFSETS, l, &cut, 257, marks, MARK_BYTES);
            extend_vector(E_DAMAGED, l, &cut, 1, 47, marks, MARK_BYTES);
        }
    }
}

/* ---- marks that are not of this log or this cold start ---- */

static void foreign_vectors(void)
{
    for (size_t i = 0; i < HANDS; i++)
        for (size_t j = 0; j < HANDS; j++) {
            const Bytes one = hex(hands[i].block), two = hex(hands[j].block);
            const Log log = first_records(&one, 800), other = first_records(&two, 600);
            marks_of(hands[j].l, &other);
            extend_vector(E_FOREIGN, hands[i].l, &log, 2, 400, marks, 2 * MARK_BYTES);
            lookup_vector(L_FOREIGN, hands[i].l, &log, 300 + (uint32_t)(7 * i + j), marks, 2 * MARK_BYTES);
            lookup_vector(L_FOREIGN, hands[i].l, &log, 512 + (uint32_t)(23 * j), marks, 2 * MARK_BYTES);
        }
    /* the first mark is nought, and so is the log before the second: neither is looked at */
    for (size_t i = 0; i < HANDS; i++) {
        const Limits l = hands[i].l;
        const Bytes block = hex(hands[i].block);
        const Log log = first_records(&block, 800);
        marks_of(l, &log);
        memset(marks, 0, MARK_BYTES);
        for (size_t room = 140; room <= 142; room++)
            extend_vector(E_FOREIGN, l, &log, 2, room, marks, 2 * MARK_BYTES);
        for (uint32_t n = 511; n < 530; n += 6)
            lookup_vector(L_FOREIGN, l, &log, n, marks, 2 * MARK_BYTES);
        /* zeros up to the second mark, then 16 and 256 records: the block is one zero, the tail the records */
        const size_t from = get32(marks + MARK_BYTES + 1);
        for (int many = 16; many <= 256; many += 240) {
            Log blank = {.repeats = from};
            blank.block = hex("00");
            blank.tail.n = 0;
            append(&blank.tail, whole + from, bytes_of(&block, 512 + (size_t)many) - from);
            lookup_vector(L_FOREIGN, l, &blank, 512 + (uint32_t)many % 256, marks, 2 * MARK_BYTES);
            extend_vector(E_FOREIGN, l, &blank, 2, 141, marks, 2 * MARK_BYTES);
            expand(&log);
        }
    }
    /* noise as marks */
    Rng g = {1211};
    const Bytes block = hex(hands[4].block);
    const Log log = first_records(&block, 700);
    for (int i = 0; i < 150; i++) {
        uint8_t noise[2 * MARK_BYTES];
        for (size_t k = 0; k < sizeof noise; k++) {
            const bool right = rng_below(&g, 3) > 0;
            const uint8_t any = (uint8_t)rng_below(&g, i % 2 ? 256 : 2);
            noise[k] = right && k % MARK_BYTES == 0 ? MARK_KIND : right && k % MARK_BYTES == 5 ? IMAGE_KIND : any;
        }
        const uint32_t n = 256 + rng_below(&g, 500);
        const size_t held = 1 + rng_below(&g, 2);
        lookup_vector(L_FOREIGN, (Limits){1, 2, 3}, &log, n, noise, sizeof noise);
        extend_vector(E_FOREIGN, (Limits){1, 2, 3}, &log, held, 200, noise, MARK_BYTES * held);
    }
}

/* ---- long logs ---- */

static void many_vectors(void)
{
    const Limits l = {1, 2, 3};
    const Bytes modes = hex("03"), pair = hex("03 03"), mixed = hex("03 02 01 03 01 02 00 03 04 01 03 04 00 05 00000005 01 04 03 02 00 03 03"), five = hex(hands[1].block);
    const Log longest = first_bytes(&pair, LOG_LONGEST), most = first_records(&modes, 87 * 256 + 255), over = first_records(&modes, 88 * 256);
    build_vector(MANY, l, &longest, ROOM_MOST);                      /* 256 marks: 10 */
    build_vector(MANY, l, &over, ROOM_MOST);
    build_vector(MANY, l, &most, 87 * MARK_BYTES - 1);
    build_vector(MANY, l, &most, 87 * MARK_BYTES);
    build_vector(MANY, l, &most, ROOM_MOST);
    for (size_t i = 1; i < HANDS; i++) {
        const Bytes block = hex(hands[i].block);
        const Log log = first_records(&block, 256 * (10 + 3 * i) + 100);
        build_vector(MANY, hands[i].l, &log, MARK_BYTES * (10 + 3 * i));
        marks_of(hands[i].l, &log);
        extend_vector(MANY, hands[i].l, &log, 10, ROOM_MOST, marks, 10 * MARK_BYTES);
        extend_vector(MANY, hands[i].l, &log, 9 + 3 * i, ROOM_MOST, marks, MARK_BYTES * (9 + 3 * i));
    }
    const Log ten = first_records(&five, 10570);                       /* near 65,536 bytes */
    build_vector(MANY, l, &ten, 41 * MARK_BYTES);
    build_vector(MANY, l, &ten, 41 * MARK_BYTES - 1);

    marks_of(l, &longest);
    static const uint32_t far[] = {30000, 29952, 29951, 30207};
    for (size_t i = 0; i < sizeof far / sizeof far[0]; i++) {
        marks_of(l, &longest);
        lookup_vector(L_FAR, l, &longest, far[i], marks, MARK_BYTES * (far[i] / 256));
        const Log log = first_records(&mixed, 30300);
        marks_of(l, &log);
        lookup_vector(L_FAR, l, &log, far[i], marks, MARK_BYTES * (far[i] / 256));
    }
    marks_of(l, &longest);
    lookup_vector(L_FAR, l, &longest, 65536, marks, MARK_BYTES * 256);
    lookup_vector(L_FAR, l, &longest, 65535, marks, MARK_BYTES * 255);
    lookup_vector(L_FAR, l, &longest, 65537, marks, MARK_BYTES * 256);
    static const uint32_t beyond[] = {1000, 65536, 65537, 170032, 0x00FFFFFF, 0x01000000, 0x10000000, 0x7FFFFFFF, 0x80000000, 0x80000100,
                                      0xAF286BCA, 0xFFFFFF00, 0xFFFFFFFF};
    for (size_t i = 0; i < sizeof beyond / sizeof beyond[0]; i++) {
        const Log log = first_records(&modes, 600);
        marks_of(l, &log);
        lookup_vector(L_FAR, l, &log, beyond[i], marks, 2 * MARK_BYTES);
        lookup_vector(L_FAR, l, &log, beyond[i], marks, 0);
    }
}

/* ---- random ---- */

static void random_vectors(void)
{
    Rng g = {1212};
    for (int i = 0; i < 100; i++) {
        const Limits l = some_limits(&g);
        const bool once = i % 8 == 0;                      /* all records drawn, or a block of some without end */
        const size_t in_block = once ? 260 + rng_below(&g, 500) : 10 + rng_below(&g, 40);
        const Bytes block = random_block(&g, l, in_block);
        const size_t bytes = once ? block.n : bytes_of(&block, 256 + rng_below(&g, 900));
        Log log = once ? first_bytes(&block, block.n) : first_bytes(&block, bytes);
        if (i % 4 == 1) {                                  /* cut anywhere */
            const size_t less = rng_below(&g, 30);
            log = first_bytes(&block, bytes - less);
        }
        if (i % 4 == 2) {                                  /* a record of noise behind */
            uint8_t noise[9];
            for (size_t k = 0; k < sizeof noise; k++)
                noise[k] = (uint8_t)rng_below(&g, k == 0 ? 14 : 40);
            append(&log.tail, noise, sizeof noise);
        }
        const size_t many = marks_of(l, &log), all = records_in(l, &log);
        const size_t more = rng_below(&g, 60);
        build_vector(B_RANDOM, l, &log, MARK_BYTES * many + more);
        if (many > 0 && !once)
            build_vector(B_RANDOM, l, &log, MARK_BYTES * many - 1 - more % 47);
        for (size_t held = once ? many : 0; held <= many; held++) {
            const size_t room = MARK_BYTES * many + rng_below(&g, 100) - (i % 5 == 0 && many > 0 ? 47 : 0);
            extend_vector(E_RANDOM, l, &log, held, room, marks, MARK_BYTES * held);
        }
        for (int k = 0; k < (once ? 3 : 5); k++) {
            const uint32_t n = rng_below(&g, (uint32_t)all + (k == 0 ? 300 : 1));
            lookup_vector(L_RANDOM, l, &log, n, marks, MARK_BYTES * many);
        }
        lookup_vector(L_RANDOM, l, &log, (uint32_t)all, marks, MARK_BYTES * many);
        if (!once)
            lookup_vector(L_RANDOM, l, &log, (uint32_t)all + 1, marks, MARK_BYTES * many);
    }
}

/* ---- a body taken apart ---- */

typedef struct {
    uint8_t operation;
    Limits l;
    size_t log;                            /* its length, in 'whole' */
    size_t n, room, front;                 /* held or record; the room, or the marks' length; their bytes' length */
    const uint8_t *bytes;                  /* the front, or the marks */
    size_t answer;                         /* where the answer begins in the body */
} Parts;

/* False for a body that is none. */
static bool take_apart(const uint8_t *b, size_t n, Parts *p)
{
    if (n < HEAD || b[0] < BUILD || b[0] > LOOKUP)
        return false;
    p->operation = b[0];
    p->l = (Limits){b[1], b[2], b[3]};
    const size_t repeats = get16(b + 4), block = get16(b + 6);
    if (block > n - HEAD)
        return false;
    const size_t tail = get16(b + 8 + block);
    size_t at = HEAD + block + tail;
    if (at > n || repeats * block + tail > sizeof whole)
        return false;
    uint8_t *to = whole;
    for (size_t i = 0; i < repeats; i++)
        to = put_bytes(to, b + 8, block);
    to = put_bytes(to, b + 10 + block, tail);
    p->log = (size_t)(to - whole);
    p->front = 0;
    p->n = 0;
    if (p->operation == BUILD) {
        if (n - at < 5)
            return false;
        p->room = get16(b + at);
        at += 2;
    } else {
        if (n - at < 6)
            return false;
        p->n = p->operation == EXTEND ? get16(b + at) : get32(b + at);
        p->room = p->operation == EXTEND ? get16(b + at + 2) : 0;
        p->front = get16(b + at + 4);
        at += 6;
        if (n - at < p->front + 3)
            return false;
    }
    p->bytes = b + at;
    p->answer = at + p->front;
    return p->room <= ROOM_MOST && (p->operation == LOOKUP ? n - p->answer == LOOKUP_ANSWER : p->front <= p->room);
}

/* A body that the model does not give. */
static bool differs(const uint8_t *b, size_t n)
{
    Parts p;
    if (!take_apart(b, n, &p))
        return true;
    const uint8_t *const a = b + p.answer;
    if (p.operation == LOOKUP) {
        const Looked got = marks_lookup(p.l.lo, p.l.hi, p.l.n, whole, p.log, p.bytes, p.front, p.n);
        uint8_t image[IMAGE_BYTES];
        image_store(&got.state, image);
        return a[0] != got.code || get16(a + 1) != got.steps || get32(a + 3) != got.offset || memcmp(a + 7, image, IMAGE_BYTES) != 0;
    }
    uint8_t room[ROOM_MOST + 1];
    memset(room, UNTOUCHED, sizeof room);
    memcpy(room, p.bytes, p.front);
    const Marked got = p.operation == BUILD ? marks_build(p.l.lo, p.l.hi, p.l.n, whole, p.log, room, p.room)
                                            : marks_extend(p.l.lo, p.l.hi, p.l.n, whole, p.log, p.n, room, p.room);
    const size_t more = n - p.answer - 3;
    if (a[0] != got.code || get16(a + 1) != got.marks || (got.code == 0 ? MARK_BYTES * got.marks != p.front + more : more != 0))
        return true;
    for (size_t i = p.front + more; i < sizeof room; i++)
        if (room[i] != UNTOUCHED)
            return true;
    return memcmp(room, p.bytes, p.front) != 0 || memcmp(room + p.front, a + 3, more) != 0;
}

/* ---- spoilt ones ---- */

static FILE *out;
static size_t written;

static void put(const uint8_t *b, size_t n)
{
    uint8_t head[2];
    put16(head, n);
    if (fwrite(head, 1, 2, out) != 2 || fwrite(b, 1, n, out) != n)
        exit(1);
    written++;
}

static void put_spoilt(const uint8_t *b, size_t n)
{
    printf("%zu\n", written);
    put(b, n);
}

/* A copy with this byte another. */
static void spoil_byte(const uint8_t *b, size_t n, size_t at, uint8_t by)
{
    static uint8_t copy[BODY_MOST];
    memcpy(copy, b, n);
    copy[at] ^= by;
    put_spoilt(copy, n);
}

static void spoil_vector(const uint8_t *b, size_t n, bool every)
{
    static uint8_t copy[BODY_MOST + MARK_BYTES];
    Parts p;
    if (!take_apart(b, n, &p))
        exit(1);
    put(b, n);
    const size_t at = p.answer;
    spoil_byte(b, n, at, 1);                               /* the code by one bit, and refused or not */
    spoil_byte(b, n, at, b[at] == 0 ? 11 : b[at]);
    if (p.operation == LOOKUP) {
        for (size_t i = 1; i < LOOKUP_ANSWER; i++)         /* steps, offset, image: every byte */
            if (every || i < 8 || i % 5 == 0)
                spoil_byte(b, n, at + i, 1);
        return;
    }
    spoil_byte(b, n, at + 1, 1);                           /* the number of marks, high and low byte */
    spoil_byte(b, n, at + 2, 1);
    const size_t more = n - at - 3;
    if (more > 0) {                                        /* the last mark byte by byte, or some of its bytes; the first mark's last byte */
        for (size_t i = n - MARK_BYTES; i < n; i++)
            if (every || (i - n) % 7 == 0)
                spoil_byte(b, n, i, 1);
        if (more > MARK_BYTES)
            spoil_byte(b, n, at + 3 + MARK_BYTES - 1, 0x80);
        memcpy(copy, b, n);                                /* a mark less */
        put16(copy + at + 1, get16(b + at + 1) - 1);
        put_spoilt(copy, n - MARK_BYTES);
    }
    if (b[at] == 0) {                                      /* a mark more, as the last one or nought */
        memcpy(copy, b, n);
        put16(copy + at + 1, get16(b + at + 1) + 1);
        memset(copy + n, 0, MARK_BYTES);
        if (more > 0)
            memcpy(copy + n, b + n - MARK_BYTES, MARK_BYTES);
        put_spoilt(copy, n + MARK_BYTES);
    }
}

/* Of each sort of answer three, of different groups: short ones, with something in them. */
static void spoil_some(void)
{
    enum { LEAST = 60, MOST = 500, EACH = 3 };
    static struct { uint8_t many, group[EACH]; } taken[4][32][4];
    for (size_t i = 0; i < vectors; i++) {
        const uint8_t *const b = file + index_of[i].at + 2, group = index_of[i].group;
        const size_t n = get16(b - 2);
        Parts p;
        if (n < LEAST || n > MOST || !take_apart(b, n, &p))
            continue;
        /* a sort: operation, code, and whether something stood before and something was done */
        const size_t a = p.answer;
        const bool done = p.operation == LOOKUP ? get16(b + a + 1) > 0 : n - a > 3;
        const unsigned sort = (p.front > 0) << 1 | done;
        bool again = taken[b[0]][b[a]][sort].many == EACH;
        for (size_t k = 0; k < taken[b[0]][b[a]][sort].many; k++)
            again = again || taken[b[0]][b[a]][sort].group[k] == group;
        if (again)
            continue;
        taken[b[0]][b[a]][sort].group[taken[b[0]][b[a]][sort].many++] = group;
        spoil_vector(b, n, taken[b[0]][b[a]][sort].many == 1);
    }
}

/* ---- the check ---- */

static int check(FILE *in)
{
    file_length = fread(file, 1, sizeof file, in);
    size_t at = 0, n;
    for (size_t i = 0; at < file_length; i++, at += 2 + n) {
        n = file_length - at < 2 ? BODY_MOST : get16(file + at);
        if (file_length - at < 2 + n) {
            puts("the file is cut");
            return 1;
        }
        if (differs(file + at + 2, n))
            printf("%zu\n", i);
    }
    return 0;
}

int main(int argc, char **argv)
{
    const char *const what = argc == 3 ? argv[1] : "";
    const bool spoil = strcmp(what, "spoil") == 0;
    if (!spoil && strcmp(what, "write") != 0 && strcmp(what, "check") != 0) {
        fputs("usage: marks_vectors write|spoil|check FILE\n", stderr);
        return 2;
    }
    if (strcmp(what, "check") == 0) {
        FILE *const in = fopen(argv[2], "rb");
        return in ? check(in) : 1;
    }
    hand_vectors();
    stop_vectors();
    limit_vectors();
    order_vectors();
    damage_vectors();
    foreign_vectors();
    many_vectors();
    random_vectors();
    out = fopen(argv[2], "wb");
    if (!out)
        return 1;
    if (spoil) {
        spoil_some();
    } else {
        if (fwrite(file, 1, file_length, out) != file_length)
            return 1;
        for (unsigned group = 0; group < GROUPS; group++) {
            size_t many = 0, bytes = 0;
            for (size_t i = 0; i < vectors; i++)
                if (index_of[i].group == group) {
                    many++;
                    bytes += (i + 1 < vectors ? index_of[i + 1].at : file_length) - index_of[i].at;
                }
            printf("%6zu vectors %8zu bytes  %s\n", many, bytes, group_name[group]);
        }
        printf("%6zu vectors %8zu bytes in all\n", vectors, file_length);
    }
    return fclose(out) == 0 ? 0 : 1;
}
