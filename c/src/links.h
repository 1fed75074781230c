/* Which endpoints a step touches: the library tells C none of it, so who is linked with whom is kept beside it. */
#ifndef XTI_LINKS_H
#define XTI_LINKS_H

#include "calling.h"
#include "endpoints.h"
#include "waiting.h"

/* Those that a step of this call may touch by the links that there are: the endpoint itself, its peer, the listener of its
   request, those whose requests it has, those that wait to send a datagram to it. Of all where links aren't known. */
places xti_linked(const struct xti_asked *asked);
/* Takes over what a step has changed. `touched` gets the destination that the call addresses, too. */
void xti_note_step(const struct xti_asked *asked, const struct input *input, const struct answer *answer, places *touched);
/* Whether a datagram ever found no room, so that a later one may change what is noted. */
extern int xti_has_flow_destinations;
/* The place of the endpoint that datagrams to an address go to, or -1. */
int xti_destination(const struct input *input);

#endif
