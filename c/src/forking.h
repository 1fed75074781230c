/* What a fork does. */
#ifndef XTI_FORKING_H
#define XTI_FORKING_H

/* From the first call on, forks are prepared for. */
void xti_watch_forks(void);

#endif
