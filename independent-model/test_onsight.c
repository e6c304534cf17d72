/* No argument: prints the three tables. "histories": checks the laws of the
   procedure on random histories, each from a fresh Idle. */
#include <stdint.h>
#include <stdio.h>
#include <string.h>
#include "onsight_model.h"

enum { STATES = 6, EVENTS = 12, MOST = 40, HISTORIES = 1000000 };

static const char *const state_name[STATES] = {
    "Idle", "Waiting", "Asked", "Late", "Braking", "Done"
};

struct event {
    const char *name;
    int kind, area, mode;
};

static const struct event events[EVENTS] = {
    { "ahead/OS", OS_PROFILE, OS_AHEAD, OS_MODE_OS },
    { "ahead/SB", OS_PROFILE, OS_AHEAD, OS_MODE_SB },
    { "ahead/PT", OS_PROFILE, OS_AHEAD, OS_MODE_PT },
    { "ahead/another", OS_PROFILE, OS_AHEAD, OS_MODE_ANOTHER },
    { "entered/OS", OS_PROFILE, OS_ENTERED, OS_MODE_OS },
    { "entered/SB", OS_PROFILE, OS_ENTERED, OS_MODE_SB },
    { "entered/PT", OS_PROFILE, OS_ENTERED, OS_MODE_PT },
    { "entered/another", OS_PROFILE, OS_ENTERED, OS_MODE_ANOTHER },
    { "window", OS_WINDOW, 0, 0 },
    { "start", OS_START, 0, 0 },
    { "acknowledgement", OS_ACKNOWLEDGEMENT, 0, 0 },
    { "expiry", OS_EXPIRY, 0, 0 },
};

static int step(int *state, const struct event *e)
{
    return onsight_step(state, e->kind, e->area, e->mode);
}

static const char *name(int state)
{
    return state >= 0 && state < STATES ? state_name[state] : "?";
}

static const char *yes(int b)
{
    return b ? "yes" : "no";
}

static void tables(void)
{
    puts("state number in-force brake");
    for (int s = 0; s < STATES; s++)
        printf("%s %d %s %s\n", state_name[s], s, yes(onsight_in_force(s)),
               yes(onsight_brake(s)));

    puts("event number area mode");
    for (int i = 0; i < EVENTS; i++) {
        const struct event *e = &events[i];
        printf("%s %d", e->name, e->kind);
        if (e->kind == OS_PROFILE)
            printf(" %d %d", e->area, e->mode);
        putchar('\n');
    }

    puts("state event code next in-force brake");
    for (int s = 0; s < STATES; s++)
        for (int i = 0; i < EVENTS; i++) {
            int next = s;
            int code = step(&next, &events[i]);
            printf("%s %s %d %s %s %s\n", state_name[s], events[i].name, code,
                   name(next), yes(onsight_in_force(next)),
                   yes(onsight_brake(next)));
        }
}

static uint64_t seed = UINT64_C(0x9E3779B97F4A7C15);

static uint32_t draw(uint32_t below)
{
    seed ^= seed << 13;
    seed ^= seed >> 7;
    seed ^= seed << 17;
    return (uint32_t)((seed >> 32) % below);
}

/* Runs one history; returns NULL or the law that failed, and in *at how many
   events had been given by then. Counts accepted expiries in *braked. */
static const char *run(const int *history, int length, int *at,
                       uint64_t *braked)
{
    int state = OS_IDLE;
    int accepted = 0;
    int last_was_expiry_in_late = 0; /* the last accepted event */
    int expired = 0; /* an expiry was accepted, no acknowledgement since */

    *at = 0;
    if (onsight_in_force(state) || onsight_brake(state))
        return "Idle has neither OS in force nor the brake on";
    for (int i = 0; i < length; i++) {
        const struct event *e = &events[history[i]];
        const int before = state;
        const int code = step(&state, e);

        *at = i + 1;
        if (code != 0 && code != 14)
            return "the code is 0 or 14";
        if (code == 14 && state != before)
            return "a refused event leaves the state";
        if (code == 0) {
            accepted++;
            last_was_expiry_in_late =
                before == OS_LATE && e->kind == OS_EXPIRY;
        }
        if (accepted > 5)
            return "at most five events are accepted";
        if (onsight_in_force(before) && !onsight_in_force(state))
            return "once OS is in force it stays";
        if (before == OS_DONE && code != 14)
            return "Done accepts nothing";
        if (!onsight_brake(state) != !last_was_expiry_in_late)
            return "the brake is on exactly when the last accepted event was "
                   "an expiry in Late";
        if (expired) {
            if (e->kind != OS_ACKNOWLEDGEMENT) {
                if (code != 14 || state != OS_BRAKING)
                    return "after expiry only the acknowledgement leads on";
            } else {
                if (code != 0 || state != OS_DONE || onsight_brake(state))
                    return "after expiry the acknowledgement gives Done with "
                           "the brake off";
                expired = 0;
            }
        } else if (code == 0 && e->kind == OS_EXPIRY) {
            if (state != OS_BRAKING)
                return "an accepted expiry gives Braking";
            expired = 1;
            ++*braked;
        }
    }
    return NULL;
}

static int histories(void)
{
    uint64_t braked = 0;

    for (int n = 0; n < HISTORIES; n++) {
        int history[MOST];
        int at;
        const int length = (int)draw(MOST + 1);

        for (int i = 0; i < length; i++)
            history[i] = (int)draw(EVENTS);
        const char *law = run(history, length, &at, &braked);
        if (law) {
            printf("history %d, event %d: %s\n", n, at, law);
            int state = OS_IDLE;
            for (int i = 0; i < at; i++) {
                const int before = state;
                const int code = step(&state, &events[history[i]]);
                printf("%s %s %d %s\n", name(before),
                       events[history[i]].name, code, name(state));
            }
            return 1;
        }
    }
    if (braked == 0) {
        puts("no history had an accepted expiry");
        return 1;
    }
    puts("ok");
    return 0;
}

int main(int argc, char **argv)
{
    if (argc == 1) {
        tables();
        return 0;
    }
    if (argc == 2 && strcmp(argv[1], "histories") == 0)
        return histories();
    fprintf(stderr, "usage: %s [histories]\n", argv[0]);
    return 2;
}
