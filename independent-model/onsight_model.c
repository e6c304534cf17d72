#include "onsight_model.h"

static int take(int *state, int next)
{
    *state = next;
    return OS_TAKEN;
}

/* "Idle takes only this: ..." */
static int step_profile(int *state, int area, int mode)
{
    if (*state != OS_IDLE)
        return OS_NOT_TAKEN;
    if (mode < OS_MODE_OS || mode > OS_MODE_ANOTHER)
        return OS_NOT_TAKEN; /* no profile of the paragraph */
    /* "ahead gives Waiting;" */
    if (area == OS_AHEAD)
        return take(state, OS_WAITING);
    if (area != OS_ENTERED)
        return OS_NOT_TAKEN; /* no profile of the paragraph */
    switch (mode) {
    /* "entered gives Done for OS," */
    case OS_MODE_OS:
        return take(state, OS_DONE);
    /* "Asked for SB or PT," */
    case OS_MODE_SB:
    case OS_MODE_PT:
        return take(state, OS_ASKED);
    /* "Late for another." */
    default:
        return take(state, OS_LATE);
    }
}

int onsight_step(int *state, int kind, int area, int mode)
{
    const int s = *state;

    switch (kind) {
    case OS_PROFILE:
        return step_profile(state, area, mode);
    /* "Waiting: front and speed in the window gives Asked." */
    case OS_WINDOW:
        if (s == OS_WAITING)
            return take(state, OS_ASKED);
        break;
    /* "Waiting and Asked: the safe front passing the start gives Late." */
    case OS_START:
        if (s == OS_WAITING || s == OS_ASKED)
            return take(state, OS_LATE);
        break;
    /* "Asked, Late and Braking: driver acknowledgement gives Done." */
    case OS_ACKNOWLEDGEMENT:
        if (s == OS_ASKED || s == OS_LATE || s == OS_BRAKING)
            return take(state, OS_DONE);
        break;
    /* "Late: timer expiry gives Braking." */
    case OS_EXPIRY:
        if (s == OS_LATE)
            return take(state, OS_BRAKING);
        break;
    }
    /* "Prove that after expiry in Late only the acknowledgement leads on.":
       OS_BRAKING stands in the rule of the acknowledgement and in no other. */
    /* "The next procedure starts from a fresh Idle.": nothing leads back to
       Idle, and Done takes nothing; the caller begins again with OS_IDLE. */
    /* "Refusals: 14, event not taken here; the state stays." */
    return OS_NOT_TAKEN;
}

/* "OS is in force in Late, Braking and Done;" */
int onsight_in_force(int state)
{
    return state == OS_LATE || state == OS_BRAKING || state == OS_DONE;
}

/* "the service brake is on in Braking only." */
int onsight_brake(int state)
{
    return state == OS_BRAKING;
}
