/* The one world of the process, and the calls that are made in it. Each step is made under the lock, so the order of the steps
   under the lock is the history. */
#include "calling.h"
#include "errors.h"
#include "links.h"
#include "recording.h"
#include "waiting.h"
#include <errno.h>
#include <fcntl.h>
#include <xti.h>

const struct input xti_no_input;

static struct xti_world world;

/* A place of no bytes is still a place. */
static const uint8_t *bytes_at(const void *at, size_t len)
{
    static const uint8_t nothing[1];

    return len ? (const uint8_t *)at : nothing;
}

enum xti_end xti_step(const struct xti_asked *asked, const struct input *in, struct answer *a)
{
    static const uint32_t no_sizes[1];
    struct xti_world kept = { NULL };
    static uint8_t no_line[1];
    struct place place = { 0, 0, no_line, 0, 0 };
    int has_room = in->data_room != NULL;
    uint32_t end;

    if (xti_is_recording) {
        xti_hold_off_cancellation();
        xti_place_step(asked, &place);
    }
    end = xti_c_step(world, &kept, asked, bytes_at(in->addr, in->addr_len), in->addr_len, bytes_at(in->opt, in->opt_len),
        in->opt_len, bytes_at(in->data, in->data_len), in->data_len, in->sizes_len ? in->sizes : no_sizes, in->sizes_len, &a->told,
        a->addr, sizeof a->addr, a->opt, sizeof a->opt, has_room ? (uint8_t *)in->data_room : a->data,
        has_room ? in->data_room_len : sizeof a->data, place.worker, place.number, place.room,
        place.room_len, &place.line_len);
    world = kept;
    if (xti_is_recording)
        xti_take_line(&place, asked, (enum xti_end)end);
    return (enum xti_end)end;
}

int xti_first_event(const struct endpoint *e)
{
    struct xti_world kept = { NULL };
    struct xti_seen seen = { 0, 0 };
    int is_open = xti_c_look(world, &kept, e->number, &seen);

    world = kept;
    return is_open ? (int)seen.event : 0;
}

/* What is told apart of calls here: those that move data of a connection, and datagrams; those whose next step has to know the mode,
   since without waiting a request is made and not waited for, and a send that finds no room leaves a mark (of other calls the mode is
   looked at once they can't go on); others that may wait; and those that change nothing. */
enum { IS_DATA = 1, IS_DATAGRAM = 2, KNOWS_MODE = 4, MAY_WAIT = 8, ASKS = 16 };

static const uint8_t kinds[] = {
    [XTI_SND] = IS_DATA | KNOWS_MODE,
    [XTI_SNDV] = IS_DATA | KNOWS_MODE,
    [XTI_RCV] = IS_DATA,
    [XTI_RCVV] = IS_DATA,
    [XTI_SNDUDATA] = IS_DATAGRAM | KNOWS_MODE,
    [XTI_SNDVUDATA] = IS_DATAGRAM | KNOWS_MODE,
    [XTI_RCVUDATA] = IS_DATAGRAM,
    [XTI_RCVVUDATA] = IS_DATAGRAM,
    [XTI_CONNECT] = MAY_WAIT | KNOWS_MODE,
    [XTI_RCVCONNECT] = MAY_WAIT,
    [XTI_LISTEN] = MAY_WAIT,
    [XTI_OPEN] = ASKS,
    [XTI_GETSTATE] = ASKS,
    [XTI_SYNC] = ASKS,
    [XTI_GETINFO] = ASKS,
    [XTI_GETPROTADDR] = ASKS,
    [XTI_RCVRELDATA] = 0,
};

static int is(const struct xti_asked *asked, int kind)
{
    return (kinds[asked->call] & kind) != 0;
}

/* Data that were moved on a connection, or were received, change nothing that is noted here; nor do datagrams that were sent, as long
   as none found no room. */
static int is_to_be_noted(const struct xti_asked *asked, const struct xti_told *told)
{
    if (is(asked, IS_DATAGRAM))
        return is(asked, KNOWS_MODE) && (told->reply == XTI_REFUSED || xti_has_flow_destinations);
    return !is(asked, IS_DATA);
}

/* Whether a step has changed anything that others, or poll, can see. */
static int has_changed(const struct xti_asked *asked, const struct xti_told *told)
{
    if (is(asked, ASKS))
        return 0;
    if (told->reply == XTI_LOOKED)
        return 0;
    return told->reply != XTI_REFUSED || told->error == TFLOW || (told->error == TNODATA && asked->call == XTI_CONNECT && !asked->more);
}

/* Wakes those who wait at an endpoint that a step of `own` has touched, and has poll see its events. Data that were sent make no
   room, and data that were received make it at the other end; but a send looks at the end of a connection. */
static void tell(struct endpoint *e, const struct xti_asked *asked)
{
    int event = xti_first_event(e), is_own = e->number == asked->fd, for_room = 1;

    xti_show_events(e, event != 0);
    if (asked->call == XTI_LOOK)
        return;
    if (asked->call == XTI_SND || asked->call == XTI_SNDV)
        for_room = 0;
    else if (is(asked, IS_DATA) && is_own)
        for_room = event == T_ORDREL || event == T_DISCONNECT;
    xti_wake(xti_place_of(e), 1, for_room);
}

/* After a step; `before` are those that were linked before it, of one that may end links. */
static void note(const struct xti_asked *asked, const struct input *input, const struct answer *answer, const places *before)
{
    struct endpoint *e;
    places touched = *before, linked;

    if (asked->call == XTI_CLOSE) {
        xti_wake((int)(asked->fd % XTI_PLACES), 1, 1);
        xti_set_open(xti_of_number(asked->fd), 0);
    }
    xti_note_step(asked, input, answer, &touched);
    if (!xti_is_anybody_there())
        return;
    linked = xti_linked(asked);
    xti_add_places(&touched, &linked);
    xti_keep_places(&touched, &xti_open_places);
    while ((e = xti_take_first(&touched)))
        tell(e, asked);
}

static void stepped(const struct xti_asked *asked, const struct input *input, const struct answer *answer, const places *before)
{
    if ((is_to_be_noted(asked, &answer->told) || xti_is_anybody_there()) && has_changed(asked, &answer->told))
        note(asked, input, answer, before);
}

/* Takes over O_NONBLOCK where fcntl has changed it; whether it has. */
static int take_mode(const struct xti_asked *asked)
{
    struct endpoint *e = is(asked, IS_DATA | IS_DATAGRAM | MAY_WAIT) ? xti_of_number(asked->fd) : NULL;
    int flags = e ? fcntl(e->signal, F_GETFL) : -1;
    struct xti_asked mode = { .call = XTI_MODE, .fd = asked->fd, .number = (flags & O_NONBLOCK) != 0 };
    struct answer a;

    if (flags < 0 || e->is_nonblocking == (int)mode.number || xti_step(&mode, &xti_no_input, &a) != XTI_DONE)
        return 0;
    e->is_nonblocking = (int)mode.number;
    stepped(&mode, &xti_no_input, &a, &NO_PLACES);
    return 1;
}

static int must_know_mode(const struct xti_asked *asked)
{
    const struct endpoint *e = is(asked, KNOWS_MODE) ? xti_of_number(asked->fd) : NULL;

    return e && e->is_nonblocking;
}

static int found_nothing(const struct xti_told *told)
{
    return told->reply == XTI_REFUSED && told->error == TNODATA;
}

static int result_of(const struct xti_told *told)
{
    switch (told->reply) {
    case XTI_REFUSED:
        return told->error == TSYSERR ? xti_system_fail(EMFILE) : xti_fail((int)told->error);
    case XTI_LOOKED:
        return xti_fail(TLOOK);
    case XTI_OVERFLOW:
        return xti_fail(TBUFOVFLW);
    default:
        return 0;
    }
}

/* A call that can't go on: a send that has taken bytes tells how many. */
static int give_up(const struct xti_asked *asked, struct answer *a, int error)
{
    if (!asked->more || asked->taken == 0)
        return xti_system_fail(error);
    a->told.number = asked->taken;
    return 0;
}

/* Waits for a step that may let the call go on; whether a signal came first. */
static int wait_for_step(const struct xti_asked *asked, const struct input *input)
{
    int place = (int)(asked->fd % XTI_PLACES), other = place;
    enum waits_for what = asked->call == XTI_SND || asked->call == XTI_SNDV ? WAITS_FOR_ROOM : WAITS_FOR_CHANGE;

    if (asked->call == XTI_SNDUDATA || asked->call == XTI_SNDVUDATA)
        other = xti_destination(input);
    if (xti_is_recording) {
        xti_hold_off_cancellation();
        xti_write_journal();
    }
    return xti_wait(place, other < 0 ? place : other, what);
}

static int make_world(void)
{
    xti_hold_off_cancellation();
    if (!xti_c_make(&world))
        return xti_system_fail(ENOMEM);
    xti_record_by_environment();
    return 0;
}

void xti_forget_world(void)
{
    if (world.at)
        xti_c_free(world);
    world.at = NULL;
}

int xti_make_call_locked(struct xti_asked *asked, const struct input *input, struct answer *a)
{
    if (!world.at && asked->call != XTI_OPEN)
        return xti_fail(TBADF);
    if (!world.at && make_world() < 0)
        return -1;
    for (;;) {
        places before = NO_PLACES;
        if (must_know_mode(asked))
            take_mode(asked);
        /* One that moves data ends no links. */
        if (!is(asked, IS_DATA | IS_DATAGRAM) && xti_is_anybody_there())
            before = xti_linked(asked);
        switch (xti_step(asked, input, a)) {
        case XTI_DONE:
            if (asked->call != XTI_CONNECT && found_nothing(&a->told) && take_mode(asked))
                break;
            stepped(asked, input, a, &before);
            return result_of(&a->told);
        case XTI_PART:
            stepped(asked, input, a, &before);
            asked->more = 1;
            asked->taken = a->told.number;
            break;
        case XTI_BLOCKED:
            if (!take_mode(asked) && wait_for_step(asked, input))
                return give_up(asked, a, EINTR);
            break;
        default:
            return give_up(asked, a, ENOMEM);
        }
    }
}

int xti_make_call(int fd, struct xti_asked *asked, const struct input *input, struct answer *a)
{
    int result;

    xti_enter_to_step();
    asked->fd = xti_number_of(fd);
    result = xti_make_call_locked(asked, input, a);
    xti_leave();
    return result;
}

int xti_make_plain_call(int fd, enum xti_call number, struct answer *a)
{
    struct xti_asked asked = { .call = number };

    return xti_make_call(fd, &asked, &xti_no_input, a);
}
