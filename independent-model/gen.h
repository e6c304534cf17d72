/* Random event records, chosen with the state in view so that deep states are reached often. */
#ifndef GEN_H
#define GEN_H

#include "model.h"

enum { GEN_MOST = 16 };                    /* longest record the generator makes */

typedef struct { uint64_t s; } Rng;

uint64_t rng_next(Rng *g);                 /* splitmix64 */
uint32_t rng_below(Rng *g, uint32_t n);    /* 0..n-1 */

/* A record into r (GEN_MOST bytes), gives its length. With 'framed' it always has a known kind
 * and its kind's length (so that it may stand in a log); fields may still be out of range. */
size_t gen_record(Rng *g, const State *s, bool framed, uint8_t *r);

/* The same, and with it orders, and at times other events, that name an RBC whose number means
 * "the last known RBC", whatever its upper bits, or an RIU with such a number. */
size_t gen_record_last(Rng *g, const State *s, bool framed, uint8_t *r);

/* The records of gen_record as they are where RBC FFFFFF is a partner like any other: a state of
 * its own stands for the one in view, which has RBC FFFFFE, a number that gen_record never makes,
 * in its stead. */
typedef struct { State s; } Plain;

void plain_start(Plain *p, uint8_t lowest, uint8_t highest, uint8_t n);
size_t gen_plain(Rng *g, const Plain *p, bool framed, uint8_t *r);
void plain_step(Plain *p, const uint8_t *r, size_t length);

/* A well-framed record of an evenly drawn kind, fields in range but for one in 32, no look at
 * a state. */
size_t gen_even(Rng *g, uint8_t *r);

/* The two X numbers of a cold start; its number of tries, 1 to 9. */
void gen_x(Rng *g, uint8_t *lowest, uint8_t *highest);
uint8_t gen_n(Rng *g);

#endif
