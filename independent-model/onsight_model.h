/* The On Sight procedure, written from the paragraph of request Q-1 alone.
   "Drivers want the procedure of Subset-026 section 5.9, as document 002
   models it." */
#ifndef ONSIGHT_MODEL_H
#define ONSIGHT_MODEL_H

/* "Its own state is Idle, Waiting, Asked, Late, Braking or Done." */
enum onsight_state {
    OS_IDLE, OS_WAITING, OS_ASKED, OS_LATE, OS_BRAKING, OS_DONE
};

/* "A profile event says whether the area is ahead or already entered, and
   whether the mode is OS, SB or PT, or another." */
enum onsight_area { OS_AHEAD, OS_ENTERED };
enum onsight_mode { OS_MODE_OS, OS_MODE_SB, OS_MODE_PT, OS_MODE_ANOTHER };

/* "Its events are values, not log records; session demands stay.": an event is
   its kind, with area and mode for a profile; nothing is logged here, and no
   session is known here. Kinds in the order in which the paragraph names
   them. */
enum onsight_kind {
    OS_PROFILE, OS_WINDOW, OS_START, OS_ACKNOWLEDGEMENT, OS_EXPIRY
};

/* "Refusals: 14, event not taken here; the state stays." */
enum { OS_TAKEN = 0, OS_NOT_TAKEN = 14 };

/* Returns OS_TAKEN and changes *state, or returns OS_NOT_TAKEN and leaves
   it. Only a profile uses area and mode. */
int onsight_step(int *state, int kind, int area, int mode);

int onsight_in_force(int state); /* 1 when OS is in force, else 0 */
int onsight_brake(int state);    /* 1 when the service brake is on, else 0 */

#endif
