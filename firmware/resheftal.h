/* The Resheftal core for firmware in C: the on-board side of an ETCS radio session, one step at a time.
 *
 * All that the box knows is an image of RESHEFTAL_IMAGE_SIZE bytes that the board keeps. A cold start writes the first one. From then
 * on the board hands over one event record at a time, stores the image, and sends the actions that it gets back.
 *
 * Every length and every byte gets its number: no image, record or length has to be checked before a call, none of them makes a call
 * read or write outside of the buffers, and no call runs on without end. What stays the caller's:
 *   - each pointer has as many bytes as the length beside it says (with length 0 it is not used, and may be NULL);
 *   - no two buffers of one call overlap;
 *   - lend to a step a copy of the image in RAM, never the stored one (what takes a const image writes nothing, and may have the stored
 *     one). A step rewrites the image in place, byte by byte: a power loss in the middle leaves a mixture of two images, and a mixture
 *     can be sound, so that it is read with 0. The image has no checksum. Store it after the call, so that it cannot be torn: example.c
 *     has two slots, a counter and a checksum.
 * A call keeps nothing of its own and allocates nothing: calls on different buffers may run at the same time.
 *
 * Lengths are uint64_t, never size_t: the core counts bytes in 64 bits on every board, and where size_t has 32, a declaration with
 * size_t would hand over half a length. An argument of type size_t is converted by the compiler, so sizeof may stand in a call.
 *
 * Link with libfirmware.a and, for resheftal_interface, resheftal_reads and resheftal_standing, with libasks.a. They are for x86-64 and
 * follow the calling convention of Linux there: they use the SSE2 registers, and up to 128 bytes below the stack pointer, which an
 * interrupt handler on the same stack must leave alone. They ask for memcpy, memmove, memset and memcmp at most, and for no other
 * symbol.
 *
 * The numbers that are named below are held to the definitions that the core is proved against (constants.sh). */
#ifndef RESHEFTAL_H
#define RESHEFTAL_H

#include <stddef.h>
#include <stdint.h>

#ifdef __cplusplus
extern "C" {
#endif

/* ---- the interface ---- */

/* The number of this interface. It grows when a program that was right with the header before could be wrong with this one: another
 * declaration of a function, another meaning of an argument, a number or a byte, another image. It stays when functions or names are
 * added, and when the library answers the same in another way. Compare it at the start with what the library says. */
#define RESHEFTAL_INTERFACE 1

/* ---- sizes, in bytes ---- */

#define RESHEFTAL_IMAGE_SIZE 42     /* an image, kind A2: exactly as many */
#define RESHEFTAL_LONGEST_RECORD 7  /* an event record: 1 to 7, by its kind */
#define RESHEFTAL_ACTION_SIZE 5     /* an action: its number, then the partner: type, three number bytes */
#define RESHEFTAL_MOST_ACTIONS 4    /* actions of one step */
#define RESHEFTAL_ACTION_ROOM 20    /* an action buffer: at least as many, whatever the record */

/* ---- event records, by their first byte: the kind ---- */

#define RESHEFTAL_KIND_LEVEL 1
#define RESHEFTAL_KIND_MISSION 2
#define RESHEFTAL_KIND_MODE 3
#define RESHEFTAL_KIND_HOLE 4
#define RESHEFTAL_KIND_ORDER 5
#define RESHEFTAL_KIND_DROP 6
#define RESHEFTAL_KIND_END_ALL 7
#define RESHEFTAL_KIND_UP 8
#define RESHEFTAL_KIND_LOSS 9
#define RESHEFTAL_KIND_TIMEOUT 10
#define RESHEFTAL_KIND_MESSAGE 11

/* ---- fields of records ---- */

#define RESHEFTAL_HIGHEST_LEVEL 4           /* NTC */
#define RESHEFTAL_MISSION_ENDED 0
#define RESHEFTAL_MISSION_STARTING 1
#define RESHEFTAL_MISSION_UNDER_WAY 2
#define RESHEFTAL_PARTNER_RBC 0             /* a partner's type */
#define RESHEFTAL_PARTNER_RIU 1
#define RESHEFTAL_RESERVED_NUMBER 16383     /* the low 14 bits of an RBC's number: in an order, the last known RBC */
#define RESHEFTAL_CAUSE_START_OF_MISSION 0
#define RESHEFTAL_CAUSE_TRACKSIDE 1
#define RESHEFTAL_CAUSE_MODE_CHANGE 2
#define RESHEFTAL_CAUSE_MANUAL_LEVEL 3
#define RESHEFTAL_CAUSE_HOLE_END 4
#define RESHEFTAL_MESSAGE_VERSION 32        /* brings the partner's version, 16 times X, plus Y */
#define RESHEFTAL_MESSAGE_CALL 38           /* the call of an RBC */
#define RESHEFTAL_MESSAGE_ENDED 39          /* acknowledges a termination */
#define RESHEFTAL_HIGHEST_VERSION 127

/* ---- the image, by offsets: read it by them, and write it only through the core ---- */

#define RESHEFTAL_IMAGE_KIND 0xA2           /* the byte at offset 0 */
#define RESHEFTAL_AT_LOWEST 1               /* lowest X */
#define RESHEFTAL_AT_HIGHEST 2              /* highest X */
#define RESHEFTAL_AT_LEVEL 3
#define RESHEFTAL_AT_MISSION 4
#define RESHEFTAL_AT_INSIDE 5               /* the marks, each 0 or 1: inside a radio hole */
#define RESHEFTAL_AT_MODE 6                 /* mode change to report */
#define RESHEFTAL_AT_MANUAL 7               /* manual level change */
#define RESHEFTAL_AT_END 8                  /* hole end */
#define RESHEFTAL_AT_PLACES 9               /* the first place; place i is at 9 + 7 * i */
#define RESHEFTAL_PLACE_COUNT 4
#define RESHEFTAL_PLACE_SIZE 7              /* within a place: */
#define RESHEFTAL_PLACE_PHASE 0
#define RESHEFTAL_PLACE_DIRECTION 1
#define RESHEFTAL_PLACE_TRIES 2
#define RESHEFTAL_PLACE_PARTNER 3           /* type, three number bytes */
#define RESHEFTAL_AT_TRIES 37               /* the number of tries */
#define RESHEFTAL_AT_LAST 38                /* 1 and the last known RBC's number, or four zeros */

/* ---- phases and directions of a place ---- */

#define RESHEFTAL_PHASE_FREE 0
#define RESHEFTAL_PHASE_CONNECTING 1
#define RESHEFTAL_PHASE_CONTACTING 2
#define RESHEFTAL_PHASE_OPEN 3
#define RESHEFTAL_PHASE_LOST 4
#define RESHEFTAL_PHASE_ENDING 5
#define RESHEFTAL_DIRECTION_OUTGOING 0
#define RESHEFTAL_DIRECTION_INCOMING 1

/* ---- numbers of a cold start ---- */

#define RESHEFTAL_HIGHEST_X 7
#define RESHEFTAL_FLEET_TRIES 3             /* what fitted fleets pass */
#define RESHEFTAL_DEFAULT_TRIES 5           /* where no number is given, as on the branch lines */
#define RESHEFTAL_MOST_TRIES 9

/* ---- actions, by the first of their five bytes ---- */

#define RESHEFTAL_ACTION_REQUEST 21         /* request a connection */
#define RESHEFTAL_ACTION_RELEASE 22         /* release it, or withdraw the request */
#define RESHEFTAL_ACTION_INCOMPATIBLE 154   /* send: no compatible version */
#define RESHEFTAL_ACTION_INITIATE 155       /* send: initiate a session */
#define RESHEFTAL_ACTION_TERMINATE 156      /* send: terminate the session */
#define RESHEFTAL_ACTION_ESTABLISHED 159    /* send: session established */

/* ---- refusals: a refused call answers minus one of these ---- */

#define RESHEFTAL_ACCEPTED 0
#define RESHEFTAL_REFUSED_WRONG_LENGTH 1    /* image or record empty, or not of its kind's length */
#define RESHEFTAL_REFUSED_UNKNOWN_KIND 2    /* image not of kind A2, or no such kind of record */
#define RESHEFTAL_REFUSED_OUT_OF_RANGE 3    /* a field of the record is out of its range */
#define RESHEFTAL_REFUSED_NOT_IN_FORCE 4    /* the order's cause is not in force */
#define RESHEFTAL_REFUSED_HAS_PLACE 5       /* order or message 38: the partner has a place */
#define RESHEFTAL_REFUSED_HAS_NONE 6        /* another event: the partner has none */
#define RESHEFTAL_REFUSED_NOT_TAKEN 7       /* the partner's phase, or the hole mark, does not take the event */
#define RESHEFTAL_REFUSED_ALL_TAKEN 8       /* order or message 38: all four places are taken */
#define RESHEFTAL_REFUSED_CALL_FROM_RIU 9   /* message 38 from an RIU */
#define RESHEFTAL_REFUSED_NO_ROOM 10        /* action buffer under 20 bytes; cold start: image buffer under 42 */
#define RESHEFTAL_REFUSED_NOT_SOUND 11      /* the image's content is not that of a sound state */
#define RESHEFTAL_REFUSED_BAD_LIMITS 13     /* cold start: an X over 7, lowest over highest, or tries not 1 to 9 */
#define RESHEFTAL_REFUSED_NONE_KNOWN 15     /* order to the last known RBC: none is known */

/* The number of the interface that libasks.a has: RESHEFTAL_INTERFACE, if this header is its own. Of libfirmware.a it says nothing: take
 * the header and both libraries from one build. */
uint32_t resheftal_interface(void);

/* Writes the image of a cold start to the first RESHEFTAL_IMAGE_SIZE bytes of `image`.
 *
 *   lowest, highest   the supported versions X, 0 to 7, lowest not over highest
 *   tries             the number of tries, 1 to 9: a silent partner is released with as many timeouts. Fitted fleets pass 3. An image
 *                     with any other number never goes back to A1, the image of the old boxes: A1 means 3 and has no room for another
 *   image             written; image_length is 42 or more, and bytes from the 43rd on stay as they are
 *
 * Answers 0, or minus the first refusal of: BAD_LIMITS, NO_ROOM. A refused call writes nothing. */
int32_t resheftal_cold_start(uint32_t lowest, uint32_t highest, uint32_t tries,
                             uint8_t *image, uint64_t image_length);

/* One step: takes one event record, writes the actions that it asks for, and the image then holds the next state.
 *
 *     uint8_t image[RESHEFTAL_IMAGE_SIZE], actions[RESHEFTAL_ACTION_ROOM];
 *     static const uint8_t order[7] = {RESHEFTAL_KIND_ORDER, RESHEFTAL_PARTNER_RBC, 0, 0, 5, 1, RESHEFTAL_CAUSE_TRACKSIDE};
 *     int32_t n, i;
 *
 *     resheftal_cold_start(1, 2, RESHEFTAL_FLEET_TRIES, image, sizeof image);
 *     n = resheftal_step(image, sizeof image, order, sizeof order, actions, sizeof actions);
 *     for (i = 0; i < n; i++)                                     n is 1: request a connection to RBC 5
 *         send(actions + RESHEFTAL_ACTION_SIZE * i);
 *     if (n < 0)
 *         refused(-n);
 *
 *   image    an image as a cold start or an accepted step wrote it, or as it was stored; written if the step is accepted. Its length
 *            must be 42 exactly: any other is refused as reading refuses it, with UNKNOWN_KIND where its first byte is not A2 hex
 *            and else with WRONG_LENGTH (a longer buffer too: hand over 42)
 *   record   one event record, read only; record_length is its kind's, below
 *   actions  written if the step is accepted, five bytes for each action, in the order in which they are to be sent; 20 bytes or
 *            more are needed whatever the record, and the bytes behind the last action stay as they are
 *
 * Answers the number of actions, 0 to RESHEFTAL_MOST_ACTIONS, or minus the first refusal of:
 *   - NO_ROOM for the action buffer;
 *   - reading the image: WRONG_LENGTH (empty), UNKNOWN_KIND (an old image, A1, too), WRONG_LENGTH (not 42), NOT_SOUND;
 *   - reading the record: WRONG_LENGTH (empty), UNKNOWN_KIND, WRONG_LENGTH (not its kind's), OUT_OF_RANGE;
 *   - the event: order NOT_IN_FORCE, NONE_KNOWN, HAS_PLACE, ALL_TAKEN; message 38 CALL_FROM_RIU, HAS_PLACE, ALL_TAKEN; another event
 *     of a partner HAS_NONE, NOT_TAKEN; hole NOT_TAKEN.
 * A refused call writes neither image nor actions.
 *
 * WRONG_LENGTH and UNKNOWN_KIND may be the image's or the record's: resheftal_reads tells. What a cold start or an accepted step wrote is
 * always read, so on such an image they are the record's.
 *
 * Records, their first byte the kind; a partner is four bytes, type (0 RBC, 1 RIU) and number, the highest byte first:
 *
 *   kind  event             then                                                           length
 *      1  level             level 0 to 4, manual 0 or 1                                         3
 *      2  mission           0 ended, 1 starting, 2 under way                                    2
 *      3  mode change                                                                           1
 *      4  hole              1 entered, 0 left                                                   2
 *      5  order             partner, accepting 0 or 1, cause 0 to 4                             7
 *      6  drop              partner                                                             5
 *      7  end all           0 desk closed, 1 error                                              2
 *      8  connection up     partner                                                             5
 *      9  connection lost   partner                                                             5
 *     10  timeout           partner                                                             5
 *     11  message           partner, number 32, 38 or 39, version (0 to 127; 0 for 38, 39)      7
 *
 * Causes of an order: 0 start of mission, 1 trackside, 2 mode change, 3 manual level, 4 hole end. An order to an RBC with accepting 0
 * first closes every session, open or lost, with an RBC. A version is 16 times X, plus Y. An RBC whose number has 16,383 in its low 14
 * bits means, in an order, the last known RBC; in any other event it is OUT_OF_RANGE. */
int32_t resheftal_step(uint8_t *image, uint64_t image_length,
                       const uint8_t *record, uint64_t record_length,
                       uint8_t *actions, uint64_t actions_length);

/* Whether an image can be read: 0, or minus the first refusal of WRONG_LENGTH (empty), UNKNOWN_KIND (not A2 hex), WRONG_LENGTH (not 42),
 * NOT_SOUND. Writes nothing. A step on an image that cannot be read answers the same number, if its action buffer has 20 bytes. */
int32_t resheftal_reads(const uint8_t *image, uint64_t image_length);

/* Where the partner of a record stands that a step on this image, with 20 bytes for its actions, would refuse with HAS_PLACE, or with
 * NOT_TAKEN for its phase:
 * RESHEFTAL_PER_PLACE times its place, 0 to 3, plus its phase, 1 to 5. Of an order to the last known RBC it is that one's place.
 *
 *     if (n == -RESHEFTAL_REFUSED_HAS_PLACE || n == -RESHEFTAL_REFUSED_NOT_TAKEN) {
 *         int32_t where = resheftal_standing(image, sizeof image, record, length);
 *         if (where > 0)
 *             tell(where / RESHEFTAL_PER_PLACE, where % RESHEFTAL_PER_PLACE);
 *     }
 *
 * Answers 0 where the step would be accepted, or refused with another number, or with NOT_TAKEN for the hole mark; minus the refusal, as
 * resheftal_reads does, where the image cannot be read. Writes nothing: a refused step left the image as it was, so it can be asked
 * after the step with what the step was given. */
#define RESHEFTAL_PER_PLACE 16
int32_t resheftal_standing(const uint8_t *image, uint64_t image_length,
                           const uint8_t *record, uint64_t record_length);

#ifdef __cplusplus
}
#endif

#endif
