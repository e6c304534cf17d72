#include "by_model.h"

#include "../independent-model/model.h"

/* A number over 255 is refused for what it is, as 255 is. */
static uint8_t small(uint32_t n) { return (uint8_t)(n < 255 ? n : 255); }

int32_t model_cold_start(uint32_t lowest, uint32_t highest, uint32_t tries, uint8_t *image, uint64_t image_length)
{
    State s;
    const uint8_t refused = cold_start(&s, small(lowest), small(highest), small(tries));
    return refused ? -refused : -image_write(&s, image, image_length);
}

/* Request Q-14: "It equals reading the image, one step and writing it"; "10 for the action buffer, then ..". */
int32_t model_step(uint8_t *image, uint64_t image_length, const uint8_t *record, uint64_t record_length,
                   uint8_t *actions, uint64_t actions_length)
{
    State s;
    if (actions_length < ACTION_BUFFER)
        return -10;
    const uint8_t refused = image_read_new(&s, image, image_length);
    if (refused)
        return -refused;
    const StepResult r = step(&s, record, record_length, actions, actions_length);
    if (r.code)
        return -r.code;
    image_write(&s, image, image_length);
    return r.count;
}

uint32_t model_interface(void) { return 1; }

/* "Image read: 1 (empty), 2, 1 (length), 11", of A2 alone. */
int32_t model_reads(const uint8_t *image, uint64_t image_length)
{
    State s;
    return -image_read_new(&s, image, image_length);
}

/* Request Q-6: "Refusals 5 and 7 then carry place and phase in the step's answer; 7 for a hole, and every other answer, carries place 4
 * and phase 0". The step is made on a state of its own. */
int32_t model_standing(const uint8_t *image, uint64_t image_length, const uint8_t *record, uint64_t record_length)
{
    State s;
    uint8_t actions[ACTION_BUFFER];
    const uint8_t refused = image_read_new(&s, image, image_length);
    if (refused)
        return -refused;
    const StepResult r = step(&s, record, record_length, actions, sizeof actions);
    return r.place < PLACES ? 16 * r.place + r.phase : 0;
}
