/* Request Q-10 of document 02 over the model: the shunter, two modems for four places. */
#ifndef SHUNTER_MODEL_H
#define SHUNTER_MODEL_H

#include "model.h"

enum {
    MODEMS = 2,
    QUEUE = PLACES - MODEMS, /* most that can wait */
    NOBODY = PLACES          /* in the queue, behind those that wait */
};

/* The queue has the places that wait, longest first. A held place that does not wait has a modem. */
typedef struct {
    State box;
    uint8_t queue[QUEUE];
} Shunter;

/* Gives 0 or 13; a refused one is the refused cold start's box with an empty queue. */
uint8_t shunter_cold_start(Shunter *s, uint8_t lowest, uint8_t highest, uint8_t n);

/* The box is sound; those that wait stand in front in the queue, none twice, each Connecting, outgoing, with one try; no more than
 * two modems are held, and both of them while a place waits. */
bool shunter_sound(const Shunter *s);

/* One step, all tests. The core's answers, and 18 (up, lost or timeout for a place that waits) and 17 (a 38 that the core would
 * accept, no modem free), both with place 4 and phase 0; the actions are those that go out. A refusal changes neither box nor queue
 * and writes nothing; later bytes stay. */
StepResult shunter_step(Shunter *s, const uint8_t *record, size_t length, uint8_t *actions, size_t actions_length);

/* Soundness tested once at the start. The totals are of what went out. */
void shunter_run(Shunter *s, const uint8_t *log, size_t length, size_t budget, RunResult *out);

#endif
