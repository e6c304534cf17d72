/* Request Q-9 of document 02 over the model: a sheet judged, and our own sheet of a log. */
#ifndef JUDGE_MODEL_H
#define JUDGE_MODEL_H

#include "model.h"

enum {
    ANSWER_KIND = 30,
    ANSWER_BYTES = 2,        /* kind, code */
    SHEET_LIMIT = 1048576    /* longest sheet, judged or made */
};

enum { RIGHT = 0, WRONG = 1, SHORT = 2, MISSING = 3 };
enum { DUE_EVENT = 0, DUE_ANSWER = 1, DUE_ACTION = 2 };

typedef struct {
    uint8_t code;            /* 0, 13 or 12; a refusal has 0 in every other field */
    uint8_t fault;           /* RIGHT: accepted */
    uint8_t due;             /* what is due at the offset; DUE_EVENT if accepted */
    uint8_t bytes[ACTION_BYTES];   /* the code of a due answer and zeros, a due action, or zeros */
    uint32_t offset;         /* of the fault, or the end of the sheet */
    uint32_t records;        /* event records whose whole entry stands right before the offset */
} Verdict;

typedef struct {
    uint8_t code;            /* 0, 13, 12 or 10; a refusal has 0 in every other field */
    uint8_t stop;            /* 0 nothing left, 2 short record, 3 unknown kind */
    uint32_t written, records;
} Made;

Verdict judge(uint8_t lowest, uint8_t highest, uint8_t n, const uint8_t *sheet, size_t length);

/* The sheet of the log's records before the stop. A refusal writes nothing; later bytes stay. */
Made produce(uint8_t lowest, uint8_t highest, uint8_t n, const uint8_t *log, size_t length,
             uint8_t *room, size_t room_length);

#endif
