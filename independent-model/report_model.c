/* report_model once|checked|steps: the log on standard input through the model, printed as the programs
 * `report` (a run that tests soundness once or at each record) and `steps` (the step on bytes) print it. */
#include "model.h"

#include <stdio.h>
#include <string.h>

static uint8_t input[LOG_MOST + 1];

static void print_steps(size_t length)
{
    State s;
    cold_start(&s, 1, 2, 3);
    uint8_t actions[ACTION_BUFFER] = {0};      /* one buffer for all records */
    unsigned read = 0, refused = 0, sent = 0;
    size_t at = 0;
    while (at < length && input[at] != 0 && input[at] <= KIND_LAST) {
        const size_t n = record_length[input[at]];
        if (length - at < n)
            break;
        const StepResult r = step(&s, input + at, n, actions, sizeof actions);
        read++;
        refused += r.code != 0;
        sent += r.count;
        at += n;
    }
    printf("read %08x refused %08x actions %08x\n", read, refused, sent);
    fwrite(actions, 1, sizeof actions, stdout);
}

static void print_run(size_t length, bool once)
{
    State s;
    RunResult out;
    cold_start(&s, 1, 2, 3);
    (once ? run_once : run_checked)(&s, input, length, SIZE_MAX, &out);
    printf("code %u stop %u offset %u read %u refused %u totals", out.code, out.stop, out.offset,
           out.read, out.refused);
    for (int i = 0; i < 6; i++)
        printf(" %u", out.total[i]);
    printf("\n");
}

int main(int argc, char **argv)
{
    if (argc != 2) {
        fputs("usage: report_model once|checked|steps\n", stderr);
        return 2;
    }
    const size_t length = fread(input, 1, sizeof input, stdin);
    if (strcmp(argv[1], "steps") == 0)
        print_steps(length);
    else
        print_run(length, strcmp(argv[1], "once") == 0);
    return 0;
}
