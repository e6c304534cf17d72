/* Request Q-12 of document 02 over the model: marks beside a log, and the state after a record found from them. */
#ifndef MARKS_MODEL_H
#define MARKS_MODEL_H

#include "model.h"

enum {
    MARK_KIND = 0xA3,
    MARK_EVERY = 256,                      /* records from mark to mark */
    MARK_IMAGE_AT = 5,                     /* kind, offset in four bytes, A2 image */
    MARK_BYTES = MARK_IMAGE_AT + IMAGE_BYTES
};

typedef struct {
    uint8_t code;            /* 0, 13, 12, 11 or 10 */
    size_t marks;            /* how many there are in all; 0 if refused */
} Marked;

typedef struct {
    uint8_t code;            /* 0, 13, 12, 19 or 11; a refusal has the refused cold start's state and zeros */
    State state;             /* after the record */
    uint32_t steps;          /* records stepped, at most 255 */
    uint32_t offset;         /* reached in the log */
} Looked;

/* The marks of the log's records before the stop. A refusal writes nothing; later bytes stay. */
Marked marks_build(uint8_t lowest, uint8_t highest, uint8_t n, const uint8_t *log, size_t length,
                   uint8_t *room, size_t room_length);

/* The same where the room holds that many marks already, of a shorter version of the log: writes the new ones alone. */
Marked marks_extend(uint8_t lowest, uint8_t highest, uint8_t n, const uint8_t *log, size_t length, size_t held,
                    uint8_t *room, size_t room_length);

/* The state after this many records. */
Looked marks_lookup(uint8_t lowest, uint8_t highest, uint8_t n, const uint8_t *log, size_t length,
                    const uint8_t *marks, size_t marks_length, uint64_t record);

#endif
