/* Request Q-7 of document 02: an engine built from sets of partners, with the requests. Of the model it has the numbers
 * of events and actions, the lengths of the records and the form of a run's answer, and nothing of its places. */
#ifndef SETS_MODEL_H
#define SETS_MODEL_H

#include "model.h"

enum { MEMBERS = 4 };        /* most in all sets together, and so in one */

/* The sets: Connecting, Contacting, Open by direction (two), Lost, Ending. */
enum { SET_CALLING, SET_CONTACTED, SET_INCOMING, SET_OUTGOING, SET_LOST, SET_TERMINATING, SETS };

enum { MEMBER_BYTES = 6, SET_BYTES = 1 + MEMBERS * MEMBER_BYTES, SETS_HEAD = 13, SETS_BYTES = SETS_HEAD + SETS * SET_BYTES };

/* A partner is its four bytes as one number, as in the model. 'zero' is always 0. */
typedef struct {
    uint32_t who;
    uint8_t tries, direction, zero[2];
} Member;

/* The members in the order in which they came; behind the count all is 0. */
typedef struct {
    Member member[MEMBERS];
    uint8_t count, zero[3];
} Set;

/* No padding: states may be compared with memcmp. Every byte of a stored state but the zeros may hold any value, so unsound states can be
 * held. The last known RBC is its four bytes as one number: KNOWN and the number, or 0. */
typedef struct {
    uint8_t lowest, highest, level, mission;
    uint8_t inside, mode, manual, hole_end;
    uint8_t n, zero[3];
    uint32_t last;
    Set set[SETS];
} Sets;

typedef struct {
    uint8_t code;            /* 0 or the refusal */
    uint8_t count;           /* actions written, 0 if refused */
    uint8_t phase;           /* refusal 5, and 7 of an event that names a partner: the partner's phase, by its set; any other answer: 0 */
} SetsResult;

/* Gives 0 or 13; a refused one holds X 0 to 0, n = 3 and empty sets. */
uint8_t sets_cold_start(Sets *s, uint8_t lowest, uint8_t highest, uint8_t n);

/* The ranges hold; no set counts over four, and behind its count stand zeros; at most four members in all, none of them twice; each has
 * the tries and the direction of its set, none is an RIU that is incoming or an RBC with the reserved number. */
bool sets_sound(const Sets *s);

/* One step, all tests. A refusal changes nothing and writes nothing; an accepted one writes its actions, later bytes stay. */
SetsResult sets_step(Sets *s, const uint8_t *record, size_t length, uint8_t *actions, size_t actions_length);

/* Soundness tested once at the start. */
void sets_run(Sets *s, const uint8_t *log, size_t length, size_t budget, RunResult *out);

/* The bytes of a state to a state and back, with no test at all (for tests and vectors): lowest X, highest X, level, mission, the marks, n,
 * the last known RBC (1 and its number, or four zeros), then the sets, each its count and four members of type, number, tries, direction. */
void sets_load(Sets *s, const uint8_t b[SETS_BYTES]);
void sets_store(const Sets *s, uint8_t b[SETS_BYTES]);

#endif
