/* The functions of resheftal.h over the independent model, with the same arguments and answers: what test_boundary.c holds the libraries
 * to, and what measure.sh counts beside them. */
#ifndef BY_MODEL_H
#define BY_MODEL_H

#include <stdint.h>

int32_t model_cold_start(uint32_t lowest, uint32_t highest, uint32_t tries, uint8_t *image, uint64_t image_length);
int32_t model_step(uint8_t *image, uint64_t image_length, const uint8_t *record, uint64_t record_length,
                   uint8_t *actions, uint64_t actions_length);
uint32_t model_interface(void);
int32_t model_reads(const uint8_t *image, uint64_t image_length);
int32_t model_standing(const uint8_t *image, uint64_t image_length, const uint8_t *record, uint64_t record_length);

#endif
