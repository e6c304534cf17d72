/* shunter_bench run | core | steps | coresteps: over a log of just under 1 MiB that has the same sessions of three and four partners
 * again and again, with X 1 to 2 and three tries, for callgrind (--toggle-collect with the name of the function). The shunter's run; the
 * core's run_once; the shunter's step record by record, with 20 bytes of room; the core's step likewise.
 * shunter_bench log: the log itself. */
#include "shunter_model.h"

#include <stdio.h>
#include <stdlib.h>
#include <string.h>

enum { BLOCK_MOST = 16384 };

static uint8_t log_bytes[LOG_MOST];

#define ORDER(k) "05 000000" k " 01 01 "
#define CLOSING(k) "05 000000" k " 00 01 "
#define CALL(k) "0B 000000" k " 26 00 "
#define DONE(k) "0B 000000" k " 27 00 "
#define GOOD(k) "0B 000000" k " 20 11 "
#define DROP(k) "06 000000" k " "
#define UP(k) "08 000000" k " "
#define LOSS(k) "09 000000" k " "
#define TIME(k) "0A 000000" k " "

/* The sessions of a block and how many times each stands in it: each with all places free before and after, in the core too. */
static const struct { unsigned times; const char *text; } sessions[] = {
    /* three ordered, the third waits until the first has ended */
    {8, ORDER("01") ORDER("02") ORDER("03") UP("01") GOOD("01") TIME("03") UP("02") GOOD("02") DROP("01") DONE("01") UP("03") GOOD("03") DROP("02") DONE("02")
        DROP("03") DONE("03")},
    /* four ordered; timeouts to the end of the first two; one that waits is served, the other is dropped before */
    {5, ORDER("01") ORDER("02") ORDER("03") ORDER("04") TIME("01") TIME("02") UP("03") TIME("01") TIME("02") DROP("04") TIME("01") UP("03") TIME("02")
        "0B 00000003 20 30" TIME("03") LOSS("03")},
    /* two calls, a third one refused, an order that waits; lost and found again */
    {5, CALL("05") CALL("06") CALL("07") ORDER("08") LOSS("05") TIME("05") UP("05") CALL("07") DROP("05") DONE("05") UP("08") GOOD("08") DROP("06") DONE("06")
        DROP("08") DONE("08") DROP("07") DONE("07")},
    /* two Lost, one waiting, an order that is not accepting: four actions */
    {2, CALL("01") CALL("02") LOSS("01") LOSS("02") ORDER("03") CLOSING("04") TIME("03") UP("03") UP("04") GOOD("04") GOOD("03") DROP("03") DONE("03") DROP("04")
        DONE("04")},
    /* two Open, closed by an order that waits for the first of them */
    {3, ORDER("01") UP("01") GOOD("01") CALL("02") CLOSING("03") TIME("01") TIME("02") DONE("02") UP("03") DONE("01") GOOD("03") DROP("03") LOSS("03")},
    /* RIUs with the modems, an RBC and the last known one wait; their events refused */
    {3, "05 01000002 01 01 08 01000002 0B 01000002 20 20 05 01000003 01 01" ORDER("09") "05 00003FFF 01 01" GOOD("09") CALL("0A") ORDER("09") "09 01000002 0A 01000002"
        DROP("09") "06 01000003 0A 01000002 0A 01000002 06 01000003 07 00"},
    /* mission, level, mode and hole, with their orders, and the end of all while two wait */
    {1, "02 01 01 02 01 03 05 0012D687 01 00 05 00000008 01 02 05 00000009 01 03 04 01 04 00 05 0000000A 01 04 08 0012D687 0B 0012D687 20 10 0A 00000008 02 00"
        "0B 0012D687 27 00"},
    /* partners without a place, fields out of range */
    {1, DONE("05") TIME("05") "0B 00000005 20 80 05 02000005 01 01 0B 01000005 26 00"},
};
enum { SESSIONS = sizeof sessions / sizeof sessions[0] };

static uint8_t *put_hex(uint8_t *to, const char *text)
{
    for (; *text; text++)
        if (*text != ' ') {
            const char two[3] = {text[0], text[1], 0};
            *to++ = (uint8_t)strtoul(two, NULL, 16);
            text++;
        }
    return to;
}

static bool all_free(const State *s) { return s->phase[0] == FREE && s->phase[1] == FREE && s->phase[2] == FREE && s->phase[3] == FREE; }

/* The block to this place, the sessions by turns; gives its bytes. */
static size_t put_block(uint8_t *const to)
{
    uint8_t *end = to;
    bool more = true;
    Shunter s;
    State core;
    shunter_cold_start(&s, 1, 2, 3);
    cold_start(&core, 1, 2, 3);
    for (unsigned turn = 0; more; turn++) {
        more = false;
        for (size_t i = 0; i < SESSIONS; i++)
            if (turn < sessions[i].times) {
                uint8_t *const from = end;
                RunResult out;
                end = put_hex(end, sessions[i].text);
                shunter_run(&s, from, (size_t)(end - from), SIZE_MAX, &out);
                run_once(&core, from, (size_t)(end - from), SIZE_MAX, &out);
                if (out.stop != 0 || !all_free(&s.box) || !all_free(&core)) {
                    fprintf(stderr, "session %zu does not end\n", i);
                    exit(1);
                }
                more = true;
            }
    }
    return (size_t)(end - to);
}

/* Called through pointers that may change, so that they stay functions of their own. */
static void (*volatile run)(Shunter *, const uint8_t *, size_t, size_t, RunResult *) = shunter_run;
static void (*volatile core_run)(State *, const uint8_t *, size_t, size_t, RunResult *) = run_once;
static StepResult (*volatile one_step)(Shunter *, const uint8_t *, size_t, uint8_t *, size_t) = shunter_step;
static StepResult (*volatile core_step)(State *, const uint8_t *, size_t, uint8_t *, size_t) = step;

static void print_run(size_t length, const RunResult *out)
{
    printf("length %zu records %u stop %u refused %u totals", length, out->read, out->stop, out->refused);
    for (int i = 0; i < 6; i++)
        printf(" %u", out->total[i]);
    printf("\n");
}

int main(int argc, char **argv)
{
    const char *const what = argc > 1 ? argv[1] : "";
    const size_t size = put_block(log_bytes);
    size_t length = 0;
    while (length + record_length[log_bytes[length % size]] <= LOG_MOST) {      /* whole records, as many as there is place for */
        const uint8_t *const record = log_bytes + length % size;
        memmove(log_bytes + length, record, record_length[*record]);
        length += record_length[*record];
    }

    Shunter s;
    RunResult out;
    shunter_cold_start(&s, 1, 2, 3);
    if (strcmp(what, "log") == 0)
        return fwrite(log_bytes, 1, length, stdout) == length ? 0 : 1;
    if (strcmp(what, "run") == 0) {
        run(&s, log_bytes, length, SIZE_MAX, &out);
        print_run(length, &out);
        return 0;
    }
    if (strcmp(what, "core") == 0) {
        core_run(&s.box, log_bytes, length, SIZE_MAX, &out);
        print_run(length, &out);
        return 0;
    }
    const bool own = strcmp(what, "steps") == 0;
    if (own || strcmp(what, "coresteps") == 0) {
        uint32_t records = 0, refused = 0, actions = 0, waiting = 0, sum = 0;
        for (size_t at = 0; at < length; records++) {
            uint8_t room[ACTION_BUFFER];
            const uint8_t *const record = log_bytes + at;
            const size_t n = record_length[*record];
            const StepResult r = own ? one_step(&s, record, n, room, sizeof room) : core_step(&s.box, record, n, room, sizeof room);
            refused += r.code != 0;
            actions += r.count;
            waiting += s.queue[0] != NOBODY;
            for (size_t i = 0; i < ACTION_BYTES * (size_t)r.count; i++)
                sum = 31 * sum + room[i];
            at += n;
        }
        printf("length %zu records %u refused %u actions %u waiting after %u sum %u\n", length, records, refused, actions, waiting, sum);
        return 0;
    }
    fputs("usage: shunter_bench run | core | steps | coresteps | log\n", stderr);
    return 2;
}
