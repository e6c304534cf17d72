/* classes OTHERS PHASE [EVENT]: the log that brings a partner into a phase (0 holds no place, then document 01's
 * numbers) while OTHERS other RBCs are Open, and after it one event of the list below. */
#include "model.h"

#include <stdio.h>
#include <stdlib.h>

enum { PARTNER = 5, SUPPORTED = 0x11, TRACKSIDE = 1 };

static void put(const uint8_t *bytes, size_t n) { fwrite(bytes, 1, n, stdout); }
static void named(uint8_t kind, uint8_t low) { put((uint8_t[]){kind, RBC, 0, 0, low}, 5); }
static void message(uint8_t low, uint8_t number, uint8_t version)
{
    put((uint8_t[]){EV_MESSAGE, RBC, 0, 0, low, number, version}, 7);
}
static void order(uint8_t accepting)
{
    put((uint8_t[]){EV_ORDER, RBC, 0, 0, PARTNER, accepting, TRACKSIDE}, 7);
}

static void bring(int phase)
{
    if (phase == FREE) return;
    order(1);
    if (phase == CONNECTING) return;
    named(EV_UP, PARTNER);
    if (phase == CONTACTING) return;
    message(PARTNER, 32, SUPPORTED);
    if (phase == LOST) named(EV_LOST, PARTNER);
    if (phase == ENDING) named(EV_DROP, PARTNER);
}

static void event(int e)
{
    switch (e) {
    case 0: put((uint8_t[]){EV_LEVEL, 2, 1}, 3); break;
    case 1: put((uint8_t[]){EV_MISSION, 1}, 2); break;
    case 2: put((uint8_t[]){EV_MISSION, 0}, 2); break;
    case 3: put((uint8_t[]){EV_MODE}, 1); break;
    case 4: put((uint8_t[]){EV_HOLE, 1}, 2); break;
    case 5: put((uint8_t[]){EV_END_ALL, 0}, 2); break;
    case 6: order(0); break;
    case 7: order(1); break;
    case 8: named(EV_DROP, PARTNER); break;
    case 9: named(EV_UP, PARTNER); break;
    case 10: named(EV_LOST, PARTNER); break;
    case 11: named(EV_TIMEOUT, PARTNER); break;
    case 12: message(PARTNER, 32, SUPPORTED); break;
    case 13: message(PARTNER, 32, 0); break;
    case 14: message(PARTNER, 38, 0); break;
    case 15: message(PARTNER, 39, 0); break;
    }
}

int main(int argc, char **argv)
{
    if (argc < 3) {
        fputs("usage: classes OTHERS PHASE [EVENT]\n", stderr);
        return 2;
    }
    put((uint8_t[]){EV_LEVEL, 2, 0}, 3);    /* so that no log is empty: a program reads that one in another way */
    for (int i = 1; i <= atoi(argv[1]); i++)
        message((uint8_t)(PARTNER + i), 38, 0);
    bring(atoi(argv[2]));
    if (argc > 3)
        event(atoi(argv[3]));
    return 0;
}
