/* How a call fails. */
#ifndef XTI_ERRORS_H
#define XTI_ERRORS_H

/* Sets t_errno, and answers -1. */
int xti_fail(int error);
/* Sets t_errno to TSYSERR, and errno, and answers -1. */
int xti_system_fail(int error);

#endif
