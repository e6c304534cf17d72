/* Independent model of document 01 (on-board side of session management) with the requests Q-2,
 * of document 02. Plain C11, state changed in place, no allocation. */
#ifndef MODEL_H
#define MODEL_H

#include <stdbool.h>
#include <stddef.h>
#include <stdint.h>

enum {
    PLACES = 4,
    ACTION_BYTES = 5,
    ACTION_BUFFER = 20,      /* least action buffer a step takes */
    OLD_IMAGE_BYTES = 37,    /* kind A1 */
    OLD_IMAGE_KIND = 0xA1,
    IMAGE_BYTES = 42,        /* kind A2 */
    IMAGE_KIND = 0xA2,
    TRIES_LEAST = 1,         /* the numbers of tries that a cold start takes */
    TRIES_MOST = 9,
    TRIES_DEFAULT = 5,       /* where no number is given */
    TRIES_OLD = 3,           /* what an A1 image means, and what a refused cold start or read holds */
    LOG_MOST = 1048576,      /* longest log a run takes */
    KIND_LAST = 11,
    RESCUE_MOST = 11         /* fields of an A2 image that a rescue may change */
};

enum { FREE = 0, CONNECTING = 1, CONTACTING = 2, OPEN = 3, LOST = 4, ENDING = 5 };
enum { OUTGOING = 0, INCOMING = 1 };
enum { RBC = 0, RIU = 1 };

enum {
    EV_LEVEL = 1, EV_MISSION = 2, EV_MODE = 3, EV_HOLE = 4, EV_ORDER = 5, EV_DROP = 6,
    EV_END_ALL = 7, EV_UP = 8, EV_LOST = 9, EV_TIMEOUT = 10, EV_MESSAGE = 11
};

enum {
    ACT_REQUEST = 21, ACT_RELEASE = 22, ACT_NO_VERSION = 154, ACT_INITIATE = 155,
    ACT_TERMINATE = 156, ACT_ESTABLISHED = 159
};

/* The low 14 bits of an RBC's number that mean "the last known RBC" in an order. */
#define LAST_KNOWN 0x3FFFu
#define KNOWN 0x01000000u    /* the flag of a last known RBC, in the top byte */

/* 44 bytes, no padding: states may be compared with memcmp. Every field of the image may hold any
 * value, so unsound states can be held; 'zero' is always 0. A partner is its four bytes as one
 * number: type in the top byte, the 24-bit number below. A free place has 0 in all of its fields.
 * The last known RBC is its four bytes of the A2 image as one number: KNOWN and the number, or 0. */
typedef struct {
    uint8_t lowest, highest, level, mission;
    uint8_t inside, mode, manual, hole_end;      /* the marks, in the image's order */
    uint32_t partner[PLACES];
    uint8_t phase[PLACES], direction[PLACES], tries[PLACES];
    uint32_t last;
    uint8_t n, zero[3];                          /* tries run from 1 to n */
} State;

typedef struct {
    uint8_t code;            /* 0 or the refusal */
    uint8_t count;           /* actions written, 0 if refused */
    uint8_t place;           /* refusal 5, and 7 of an event that names a partner: the partner's */
    uint8_t phase;           /* place and its phase before the step; any other answer: 4 and 0 */
} StepResult;

typedef struct {
    uint8_t code;            /* 0, 12 or 11 */
    uint8_t stop;            /* 0 nothing left, 1 budget, 2 short record, 3 unknown kind */
    uint32_t offset, read, refused;
    uint32_t total[6];       /* of 21, 22, 154, 155, 156, 159 */
} RunResult;

extern const uint8_t record_length[KIND_LAST + 1];    /* by kind; 0 for kind 0 */

uint8_t cold_start(State *s, uint8_t lowest, uint8_t highest, uint8_t n);
uint8_t cold_start_default(State *s, uint8_t lowest, uint8_t highest);
bool sound(const State *s);

/* One step, all tests. */
StepResult step(State *s, const uint8_t *record, size_t length,
                uint8_t *actions, size_t actions_length);

/* One step, for a sound state, a record of a known kind and its kind's length, and at least
 * 20 bytes for the actions; none of the three is tested. */
StepResult step_trusted(State *s, const uint8_t *record, uint8_t *actions);

uint8_t image_write(const State *s, uint8_t *image, size_t length);          /* A2 */
uint8_t image_write_old(const State *s, uint8_t *image, size_t length);      /* A1 */
uint8_t image_read(State *s, const uint8_t *image, size_t length);           /* A2 or A1 */
uint8_t image_read_new(State *s, const uint8_t *image, size_t length);       /* A2 alone */

/* The bytes of an A2 image to a state and back, with no test at all (for tests); of an A1 image
 * too, which leaves out n and the last known RBC and is loaded with 3 and none. */
void image_load(State *s, const uint8_t image[IMAGE_BYTES]);
void image_store(const State *s, uint8_t image[IMAGE_BYTES]);
void image_load_old(State *s, const uint8_t image[OLD_IMAGE_BYTES]);
void image_store_old(const State *s, uint8_t image[OLD_IMAGE_BYTES]);

/* Mends a lent A2 image (request Q-13); gives 0, or the refusal, which changes no byte and lists
 * nothing. Lists each changed field by its first offset, ascending; the bytes of the list behind
 * the count stay. */
uint8_t image_rescue(uint8_t *image, size_t length, uint8_t fields[RESCUE_MOST], uint8_t *count);

/* Soundness tested at each record / once at the start. */
void run_checked(State *s, const uint8_t *log, size_t length, size_t budget, RunResult *out);
void run_once(State *s, const uint8_t *log, size_t length, size_t budget, RunResult *out);

#endif
