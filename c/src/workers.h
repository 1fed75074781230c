/* Who makes a step, as a journal has it: a number for each thread that makes calls. With the lock held. */
#ifndef XTI_WORKERS_H
#define XTI_WORKERS_H

#include "xti_c.h"

/* A new journal: no thread has a number. */
void xti_renew_workers(void);
/* The number of the thread that makes a step of this call; -1 where all are taken. Of a change of mode, which comes by fcntl and may
   come while a call is part way, the number that is no thread's. */
int xti_worker_of(const struct xti_asked *asked);
/* Notes that a step ended so, since a call may be left part way. */
void xti_note_part(const struct xti_asked *asked, enum xti_end end);

#endif
