/* Lists of options, whose words are in the host's order for a program, and have the high byte first in the library. */
#ifndef XTI_OPTIONS_H
#define XTI_OPTIONS_H

#include "calling.h"
#include <xti.h>

/* Room for the options that the library is given: one byte more than the most, since more are refused. */
enum { OPTIONS_ROOM = MOST_OPTIONS + 1 };

/* A program's options for the library; how many bytes they are. */
size_t xti_take_options(uint8_t *to, const struct netbuf *n);
/* Puts the options of an answer into a netbuf, which may be NULL. */
void xti_give_options(struct netbuf *n, struct answer *a);

#endif
