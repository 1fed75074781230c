/* The Transport Layer Interface of System V: the names of <xti.h>, and those that XTI lacks. */
#ifndef TIUSER_H
#define TIUSER_H

#include <xti.h>

/* Events of TLI that never come here, and all of its events. */
#define T_ERROR 0x0020
#define T_EVENTS 0x00ff

#ifdef __cplusplus
extern "C" {
#endif

/* The texts of errors by their numbers, and how many there are. */
extern char *t_errlist[];
extern int t_nerr;

#ifdef __cplusplus
}
#endif

#endif
