/* The links between endpoints, as the steps that were made tell them. */
#include "links.h"
#include <string.h>
#include <xti.h>

enum { CONNECTIONLESS = 2, MOST_QUEUE = 8 };

int xti_has_flow_destinations;

/* An accept was done whose caller wasn't found. */
static int are_links_unknown;

static int are_linked(const struct endpoint *e, const struct endpoint *other)
{
    return other == e || other->peer == e->number || e->peer == other->number || other->listener == e->number ||
        e->listener == other->number ||
        (e->provider == CONNECTIONLESS && other->provider == CONNECTIONLESS &&
            xti_is_address(&e->address, other->flow_destination.bytes, other->flow_destination.len));
}

static void add_linked_with(places *found, const struct endpoint *e)
{
    places left = xti_open_places;
    const struct endpoint *other;

    while ((other = xti_take_first(&left)))
        if (are_linked(e, other))
            xti_add_place(found, xti_place_of(other));
}

places xti_linked(const struct xti_asked *asked)
{
    const struct endpoint *e = asked->call == XTI_OPEN ? NULL : xti_of_number(asked->fd);
    const struct endpoint *accepting = asked->call == XTI_ACCEPT ? xti_of_number(asked->resfd) : NULL;
    places found = NO_PLACES;

    if (e && are_links_unknown)
        return xti_open_places;
    if (e)
        add_linked_with(&found, e);
    if (e && accepting)
        add_linked_with(&found, accepting);
    return found;
}

int xti_destination(const struct input *input)
{
    places left = xti_open_places;
    const struct endpoint *e;

    while ((e = xti_take_first(&left)))
        if (e->provider == CONNECTIONLESS && xti_is_address(&e->address, input->addr, input->addr_len))
            return xti_place_of(e);
    return -1;
}

static struct endpoint *listener_at(const struct endpoint *caller, const struct input *input)
{
    places left = xti_open_places;
    struct endpoint *e;

    xti_remove_place(&left, xti_place_of(caller));
    while ((e = xti_take_first(&left)))
        if (e->provider == caller->provider && e->queue_length > 0 && xti_is_address(&e->address, input->addr, input->addr_len))
            break;
    return e;
}

/* A request was made: it waits at a listener, or a disconnect waits here. */
static void note_request(struct endpoint *e, const struct input *input)
{
    struct endpoint *listener = listener_at(e, input);

    e->peer = e->listener = NO_ENDPOINT;
    if (!listener || xti_first_event(e) == T_DISCONNECT)
        return;
    e->listener = listener->number;
    e->sequence = ++listener->last_sequence;
}

static void note_accept(struct endpoint *e, const struct xti_asked *asked)
{
    struct endpoint *accepting = xti_of_number(asked->resfd), *caller;
    places left = xti_open_places;

    while ((caller = xti_take_first(&left)))
        if (caller->listener == e->number && caller->sequence == asked->seq)
            break;
    if (!caller || !accepting) {
        are_links_unknown = 1;
        return;
    }
    caller->listener = NO_ENDPOINT;
    caller->peer = accepting->number;
    accepting->peer = caller->number;
    if (accepting->address.len == 0)
        accepting->address = e->address;
}

/* An endpoint has the address that it asked for, or one that was chosen, which is short, so that asking for it takes no memory. */
static void note_bind(struct endpoint *e, const struct xti_asked *asked, const struct input *input)
{
    struct xti_asked which = { .call = XTI_GETPROTADDR, .fd = asked->fd, .amax = MOST_ADDRESS, .umax = MOST_ADDRESS };
    struct answer answer;

    if (input->addr_len)
        xti_set_address(&e->address, input->addr, input->addr_len);
    else if (xti_step(&which, &xti_no_input, &answer) == XTI_DONE && answer.told.reply == XTI_ADDRESSES)
        xti_set_address(&e->address, answer.addr, answer.told.addr);
    else
        are_links_unknown = 1;
    e->queue_length = e->provider == CONNECTIONLESS ? 0 : asked->number < MOST_QUEUE ? asked->number : MOST_QUEUE;
}

static void note_datagram(struct endpoint *e, const struct input *input, const struct answer *answer, places *touched)
{
    int to = xti_is_anybody_there() ? xti_destination(input) : -1;

    if (answer->told.reply == XTI_REFUSED) {
        xti_set_address(&e->flow_destination, input->addr, input->addr_len);
        xti_has_flow_destinations = 1;
    }
    else
        e->flow_destination.len = 0;
    if (to >= 0)
        xti_add_place(touched, to);
}

static void note_end(struct endpoint *e)
{
    e->peer = e->listener = NO_ENDPOINT;
}

void xti_note_step(const struct xti_asked *asked, const struct input *input, const struct answer *answer, places *touched)
{
    struct endpoint *e = xti_of_number(asked->fd);

    if (!e)
        return;
    switch (asked->call) {
    case XTI_BIND:
        note_bind(e, asked, input);
        break;
    case XTI_UNBIND:
        e->address.len = e->flow_destination.len = 0;
        e->queue_length = 0;
        break;
    case XTI_CONNECT:
        if (!asked->more)
            note_request(e, input);
        break;
    case XTI_ACCEPT:
        note_accept(e, asked);
        break;
    case XTI_SNDDIS:
    case XTI_RCVDIS:
        note_end(e);
        break;
    case XTI_SNDREL:
    case XTI_RCVREL:
    case XTI_SNDRELDATA:
    case XTI_RCVRELDATA:
        if (answer->told.state == T_IDLE)
            note_end(e);
        break;
    case XTI_SNDUDATA:
    case XTI_SNDVUDATA:
        note_datagram(e, input, answer, touched);
        break;
    default:
        break;
    }
}
