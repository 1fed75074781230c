/* The journal of the steps that the process makes. All of it is called with the lock held. */
#ifndef XTI_RECORDING_H
#define XTI_RECORDING_H

#include <stddef.h>
#include <stdint.h>
#include "xti_c.h"

/* Where the line of a step goes, and what the step is told to write there. */
struct place {
    uint32_t worker;
    uint64_t number;
    uint8_t *room;
    size_t room_len, line_len;
};

/* Whether lines are wanted. */
extern int xti_is_recording;
/* Begins, once, to record to the file that the environment names, before the first step. */
void xti_record_by_environment(void);
/* The place of the next step, which is one of this call. */
void xti_place_step(const struct xti_asked *asked, struct place *place);
/* Takes over the line of a step that ended so. */
void xti_take_line(const struct place *place, const struct xti_asked *asked, enum xti_end end);
/* Writes what is kept of the journal, before a wait. */
void xti_write_journal(void);
/* In the child of a fork nothing is recorded, and the parent's journal is left alone. */
void xti_forget_journal(void);

#endif
