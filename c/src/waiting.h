/* The lock round all steps, and the waiting of calls that are blocked. */
#ifndef XTI_WAITING_H
#define XTI_WAITING_H

#include "watching.h"

/* What ends a wait: at once any change, or, of a send on a connection, one that may have made room. */
enum waits_for { WAITS_FOR_CHANGE, WAITS_FOR_ROOM };

/* Takes the lock; the thread isn't cancelled while it has it, but in xti_wait. */
void xti_enter(void);
/* The same at less cost, for steps: who then does what may be a cancellation point holds off cancellation before, until xti_leave. */
void xti_enter_to_step(void);
void xti_hold_off_cancellation(void);
void xti_leave(void);
/* Waits for a wake at one of two places, with the lock held; whether a signal came first. */
int xti_wait(int place, int other_place, enum waits_for what);
/* Wakes those that wait at a place; for room too, or only for other changes. */
void xti_wake(int place, int for_change, int for_room);
/* How many calls wait. */
extern unsigned int xti_waiters;

/* Whether there is anybody to tell of a step: a call that waits, or something that can wait for descriptors. */
static inline int xti_is_anybody_there(void)
{
    return xti_waiters > 0 || xti_is_watched;
}

/* Whether a call waits. */
int xti_has_waiters(void);
/* Nobody waits any more: after a fork in the child. */
void xti_forget_waiters(void);

#endif
