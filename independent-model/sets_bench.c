/* sets_bench run | core | steps | coresteps [LOG]: over the log in this file, or without one over a log of just under 1 MiB that has the same
 * sessions of one to four partners again and again, with X 1 to 2 and three tries, for callgrind (--toggle-collect with the name of the
 * function). The set engine's run; the place engine's run_once; the set engine's step record by record, with 20 bytes of room; the place
 * engine's step likewise.
 * sets_bench log: the log itself. */
#include "sets_model.h"

#include <stdio.h>
#include <stdlib.h>
#include <string.h>

static uint8_t log_bytes[LOG_MOST];

#define ORDER(k) "05 000000" k " 01 01 "
#define CLOSING(k) "05 000000" k " 00 01 "
#define CALL(k) "0B 000000" k " 26 00 "
#define DONE(k) "0B 000000" k " 27 00 "
#define GOOD(k) "0B 000000" k " 20 11 "
#define DROP(k) "06 000000" k " "
#define UP(k) "08 000000" k " "
#define LOSS(k) "09 000000" k " "
#define TIME(k) "0A 000000" k " "

/* The sessions of a block and how many times each stands in it: each with all sets empty before and after. */
static const struct { unsigned times; const char *text; } sessions[] = {
    /* one partner, straight through */
    {6, ORDER("01") UP("01") GOOD("01") DROP("01") DONE("01")},
    /* three ordered, one after the other through all its sets */
    {5, ORDER("01") ORDER("02") ORDER("03") UP("01") GOOD("01") TIME("03") UP("02") GOOD("02") DROP("01") DONE("01") UP("03") GOOD("03") DROP("02") DONE("02") DROP("03") DONE("03")},
    /* four ordered, timeouts to the end of the first two */
    {4, ORDER("01") ORDER("02") ORDER("03") ORDER("04") TIME("01") TIME("02") UP("03") TIME("01") TIME("02") DROP("04") TIME("01") TIME("03") TIME("02") "0B 00000003 20 30" TIME("03") LOSS("03")},
    /* calls, lost and found again; one refused for want of room */
    {4, CALL("05") CALL("06") CALL("07") ORDER("08") CALL("09") LOSS("05") TIME("05") UP("05") LOSS("06") UP("08") GOOD("08") UP("06") DROP("05") DONE("05") DROP("06") DONE("06") DROP("08")
        DONE("08") DROP("07") DONE("07")},
    /* an order that is not accepting: four actions */
    {3, CALL("01") ORDER("02") UP("02") GOOD("02") CALL("03") LOSS("03") CLOSING("04") TIME("01") DONE("02") DONE("01") UP("04") GOOD("04") DROP("04") LOSS("04")},
    /* RIUs beside RBCs, the last known one, events refused */
    {2, "05 01000002 01 01 08 01000002 0B 01000002 20 20 05 01000003 01 01" CALL("09") DROP("09") "05 00003FFF 01 01" DONE("09") "05 00003FFF 01 01" UP("02") CALL("09") CLOSING("0A")
        "09 01000002 0A 01000002" GOOD("09") DROP("09") "07 00"},
    /* mission, level, mode and hole, with their orders, and the end of all */
    {1, "02 01 01 02 01 03 05 0012D687 01 00 05 00000008 01 02 05 00000009 01 03 04 01 04 00 05 0000000A 01 04 08 0012D687 0B 0012D687 20 10 0A 00000008 02 00 0B 0012D687 27 00"},
    /* partners in no set, fields out of range */
    {1, DONE("05") TIME("05") "0B 00000005 20 80 05 02000005 01 01 0B 01000005 26 00"},
};
enum { SESSIONS = sizeof sessions / sizeof sessions[0] };

static uint8_t *put_hex(uint8_t *to, const char *text)
{
    for (; *text; text++)
        if (*text != ' ') {
            const char two[3] = {text[0], text[1], 0};
            *to++ = (uint8_t)strtoul(two, NULL, 16);
            text++;
        }
    return to;
}

static unsigned members(const Sets *s)
{
    unsigned many = 0;
    for (unsigned set = 0; set < SETS; set++)
        many += s->set[set].count;
    return many;
}

/* The block to this place, the sessions by turns; gives its bytes. */
static size_t put_block(uint8_t *const to)
{
    uint8_t *end = to;
    bool more = true;
    Sets s;
    sets_cold_start(&s, 1, 2, 3);
    for (unsigned turn = 0; more; turn++) {
        more = false;
        for (size_t i = 0; i < SESSIONS; i++)
            if (turn < sessions[i].times) {
                uint8_t *const from = end;
                RunResult out;
                end = put_hex(end, sessions[i].text);
                sets_run(&s, from, (size_t)(end - from), SIZE_MAX, &out);
                if (out.stop != 0 || members(&s) != 0) {
                    fprintf(stderr, "session %zu does not end\n", i);
                    exit(1);
                }
                more = true;
            }
    }
    return (size_t)(end - to);
}

/* Whole records of the block again and again, as many as there is place for; gives their bytes. */
static size_t put_log(void)
{
    const size_t size = put_block(log_bytes);
    size_t length = 0;
    while (length + record_length[log_bytes[length % size]] <= LOG_MOST) {
        const uint8_t *const record = log_bytes + length % size;
        memmove(log_bytes + length, record, record_length[*record]);
        length += record_length[*record];
    }
    return length;
}

static size_t read_log(const char *name)
{
    FILE *const in = fopen(name, "rb");
    if (!in) {
        perror(name);
        exit(1);
    }
    const size_t length = fread(log_bytes, 1, sizeof log_bytes, in);
    fclose(in);
    return length;
}

/* Called through pointers that may change, so that they stay functions of their own. */
static void (*volatile run)(Sets *, const uint8_t *, size_t, size_t, RunResult *) = sets_run;
static void (*volatile core_run)(State *, const uint8_t *, size_t, size_t, RunResult *) = run_once;
static SetsResult (*volatile one_step)(Sets *, const uint8_t *, size_t, uint8_t *, size_t) = sets_step;
static StepResult (*volatile core_step)(State *, const uint8_t *, size_t, uint8_t *, size_t) = step;

static void print_run(size_t length, const RunResult *out)
{
    printf("length %zu records %u stop %u refused %u totals", length, out->read, out->stop, out->refused);
    for (int i = 0; i < 6; i++)
        printf(" %u", out->total[i]);
    printf("\n");
}

/* The sum does not depend on the order among a step's actions: both engines have the same. */
static void print_steps(size_t length, Sets *s, State *core)
{
    uint32_t records = 0, refused = 0, actions = 0, sum = 0;
    for (size_t at = 0; at < length; records++) {
        uint8_t room[ACTION_BUFFER];
        const uint8_t *const record = log_bytes + at;
        if (*record < 1 || *record > KIND_LAST || length - at < record_length[*record])
            break;
        const size_t n = record_length[*record];
        uint8_t code, count, phase;
        if (core) {
            const StepResult r = core_step(core, record, n, room, sizeof room);
            code = r.code, count = r.count, phase = r.phase;
        } else {
            const SetsResult r = one_step(s, record, n, room, sizeof room);
            code = r.code, count = r.count, phase = r.phase;
        }
        refused += code != 0;
        actions += count;
        uint32_t of_step = 8u * code + phase;
        for (unsigned i = 0; i < count; i++) {
            uint32_t of_action = 0;
            for (unsigned k = 0; k < ACTION_BYTES; k++)
                of_action = 31 * of_action + room[ACTION_BYTES * i + k];
            of_step += of_action;
        }
        sum = 31 * sum + of_step;
        at += n;
    }
    printf("length %zu records %u refused %u actions %u sum %u\n", length, records, refused, actions, sum);
}

int main(int argc, char **argv)
{
    const char *const what = argc == 2 || argc == 3 ? argv[1] : "";
    const size_t length = argc == 3 ? read_log(argv[2]) : put_log();
    Sets s;
    State core;
    RunResult out;
    sets_cold_start(&s, 1, 2, 3);
    cold_start(&core, 1, 2, 3);
    if (strcmp(what, "log") == 0)
        return fwrite(log_bytes, 1, length, stdout) == length ? 0 : 1;
    if (strcmp(what, "run") == 0) {
        run(&s, log_bytes, length, SIZE_MAX, &out);
        print_run(length, &out);
        return 0;
    }
    if (strcmp(what, "core") == 0) {
        core_run(&core, log_bytes, length, SIZE_MAX, &out);
        print_run(length, &out);
        return 0;
    }
    if (strcmp(what, "steps") == 0) {
        print_steps(length, &s, NULL);
        return 0;
    }
    if (strcmp(what, "coresteps") == 0) {
        print_steps(length, &s, &core);
        return 0;
    }
    fputs("usage: sets_bench run | core | steps | coresteps [LOG], or sets_bench log\n", stderr);
    return 2;
}
