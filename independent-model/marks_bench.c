/* marks_bench build | extend HELD | lookup N | run N: over a log of just under 1 MiB that has the same 256 records again and again, with
 * X 1 to 2 and three tries, for callgrind (--toggle-collect with the name of the function). Building; extending, with so many marks
 * held; the state after record N; the model's run of N records.
 * marks_bench log: the log itself. */
#include "marks_model.h"

#include <stdio.h>
#include <stdlib.h>
#include <string.h>

enum { MARKS_MOST = LOG_MOST / MARK_EVERY };

static uint8_t log_bytes[LOG_MOST], room[MARK_BYTES * (MARKS_MOST + 1)];

/* The sessions of a block and how many times each stands in it: 256 records, each session with all places free before and after. */
static const struct { unsigned times; const char *text; } sessions[] = {
    /* ordered, connected, opened, ended by us */
    {8, "05 00000005 01 01 08 00000005 0B 00000005 20 11 06 00000005 0B 00000005 27 00"},
    /* called, lost and found again, lost to the end */
    {2, "0B 00000006 26 00 09 00000006 0A 00000006 08 00000006 09 00000006 0A 00000006 0A 00000006 0A 00000006"},
    /* a version that is not taken */
    {3, "05 00000007 01 01 0A 00000007 08 00000007 0B 00000007 20 30 0A 00000007 09 00000007"},
    /* four places, a further call and a further order refused, an order that closes three, one of them Lost */
    {6, "0B 00000001 26 00 0B 00000002 26 00 0B 00000003 26 00 09 00000002 05 01000009 00 01 0B 00000004 26 00 05 00000004 01 01"
        "06 01000009 05 00000004 00 01 0B 00000001 27 00 0B 00000003 27 00 08 00000004 0B 00000004 20 1F 06 00000004 0B 00000004 27 00"},
    /* an RIU, and the last known RBC called again */
    {6, "05 01000002 01 01 08 01000002 0B 01000002 20 20 05 00003FFF 01 01 08 00000004 0B 00000004 20 12 0B 00000004 26 00 06 00000004"
        "0B 00000004 27 00 06 01000002 0B 01000002 27 00"},
    /* mission, level, mode and hole, with their orders, and the end of all */
    {1, "02 01 01 02 01 03 05 0012D687 01 00 05 00000008 01 02 05 00000009 01 03 04 01 04 00 05 0000000A 01 04 08 0012D687"
        "0B 0012D687 20 10 0A 00000008 06 00000009 08 0000000A 02 00 0B 0012D687 27 00"},
    /* partners without a place, fields out of range */
    {2, "0B 00000005 27 00 0A 00000005 0B 00000005 20 80 05 02000005 01 01 0B 01000005 26 00"},
};
enum { SESSIONS = sizeof sessions / sizeof sessions[0] };

static uint8_t *put_hex(uint8_t *to, const char *text)
{
    for (; *text; text++)
        if (*text != ' ') {
            const char two[3] = {text[0], text[1], 0};
            *to++ = (uint8_t)strtoul(two, NULL, 16);
            text++;
        }
    return to;
}

/* The block to this place, the sessions by turns; gives its bytes. */
static size_t put_block(uint8_t *const to)
{
    uint8_t *end = to;
    bool more = true;
    for (unsigned turn = 0; more; turn++) {
        more = false;
        for (size_t i = 0; i < SESSIONS; i++)
            if (turn < sessions[i].times) {
                end = put_hex(end, sessions[i].text);
                more = true;
            }
    }
    size_t records = 0;
    for (const uint8_t *p = to; p < end; p += record_length[*p])
        records++;
    if (records != MARK_EVERY)
        exit(1);
    return (size_t)(end - to);
}

/* Called through pointers that may change, so that they stay functions of their own. */
static Marked (*volatile build)(uint8_t, uint8_t, uint8_t, const uint8_t *, size_t, uint8_t *, size_t) = marks_build;
static Marked (*volatile extend)(uint8_t, uint8_t, uint8_t, const uint8_t *, size_t, size_t, uint8_t *, size_t) = marks_extend;
static Looked (*volatile lookup)(uint8_t, uint8_t, uint8_t, const uint8_t *, size_t, const uint8_t *, size_t, uint64_t) = marks_lookup;
static void (*volatile run)(State *, const uint8_t *, size_t, size_t, RunResult *) = run_once;

static void print_state(const State *s)
{
    uint8_t image[IMAGE_BYTES];
    image_store(s, image);
    for (size_t i = 0; i < sizeof image; i++)
        printf("%02x", image[i]);
    printf("\n");
}

int main(int argc, char **argv)
{
    const char *const what = argc > 1 ? argv[1] : "";
    const uint64_t n = argc > 2 ? strtoull(argv[2], NULL, 0) : 0;
    const size_t size = put_block(log_bytes);
    size_t length = 0;
    while (length + record_length[log_bytes[length % size]] <= LOG_MOST) {      /* whole records, as many as there is place for */
        const uint8_t *const record = log_bytes + length % size;
        memmove(log_bytes + length, record, record_length[*record]);
        length += record_length[*record];
    }

    if (strcmp(what, "log") == 0)
        return fwrite(log_bytes, 1, length, stdout) == length ? 0 : 1;
    if (strcmp(what, "run") == 0) {
        RunResult out;
        State s;
        cold_start(&s, 1, 2, 3);
        run(&s, log_bytes, length, n, &out);
        printf("length %zu read %u offset %u refused %u state ", length, out.read, out.offset, out.refused);
        print_state(&s);
        return 0;
    }
    Marked m = build(1, 2, 3, log_bytes, length, room, sizeof room);
    if (strcmp(what, "build") == 0) {
        printf("length %zu marks %zu\n", length, m.marks);
        return 0;
    }
    if (strcmp(what, "extend") == 0) {
        m = extend(1, 2, 3, log_bytes, length, n, room, sizeof room);
        printf("length %zu held %zu marks %zu\n", length, (size_t)n, m.marks);
        return 0;
    }
    if (strcmp(what, "lookup") == 0) {
        const Looked a = lookup(1, 2, 3, log_bytes, length, room, MARK_BYTES * m.marks, n);
        printf("length %zu code %u steps %u offset %u state ", length, a.code, a.steps, a.offset);
        print_state(&a.state);
        return 0;
    }
    fputs("usage: marks_bench build | extend HELD | lookup N | run N | log\n", stderr);
    return 2;
}
