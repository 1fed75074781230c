/* Connections, from the request to their end. */
#include "buffers.h"
#include "errors.h"
#include "options.h"
#include "waiting.h"

static void set_rooms(struct xti_asked *asked, const struct t_call *call)
{
    if (call) {
        asked->amax = call->addr.maxlen;
        asked->omax = call->opt.maxlen;
        asked->umax = call->udata.maxlen;
    }
}

static void give_call(struct t_call *call, struct answer *a)
{
    if (call) {
        xti_give(&call->addr, a->addr, a->told.addr);
        xti_give_options(&call->opt, a);
        xti_give(&call->udata, a->data, a->told.udata);
    }
}

static void take_data(struct input *input, const struct netbuf *n)
{
    input->data = n->buf;
    input->data_len = xti_bounded(n->len, MOST_CONNECT_DATA);
}

int t_connect(int fd, const struct t_call *sndcall, struct t_call *rcvcall)
{
    struct xti_asked asked = { .call = XTI_CONNECT };
    uint8_t options[OPTIONS_ROOM];
    struct input input = xti_no_input;
    struct answer a;

    set_rooms(&asked, rcvcall);
    if (sndcall) {
        input.addr = sndcall->addr.buf;
        input.addr_len = xti_bounded(sndcall->addr.len, MOST_ADDRESS);
        input.opt = options;
        input.opt_len = xti_take_options(options, &sndcall->opt);
        take_data(&input, &sndcall->udata);
    }
    if (xti_make_call(fd, &asked, &input, &a) < 0)
        return -1;
    give_call(rcvcall, &a);
    return 0;
}

int t_rcvconnect(int fd, struct t_call *call)
{
    struct xti_asked asked = { .call = XTI_RCVCONNECT };
    struct answer a;

    set_rooms(&asked, call);
    if (xti_make_call(fd, &asked, &xti_no_input, &a) < 0)
        return -1;
    give_call(call, &a);
    return 0;
}

int t_listen(int fd, struct t_call *call)
{
    struct xti_asked asked = { .call = XTI_LISTEN };
    struct answer a;

    set_rooms(&asked, call);
    if (xti_make_call(fd, &asked, &xti_no_input, &a) < 0) {
        /* The request is taken all the same, and is answered by its number. */
        if (t_errno == TBUFOVFLW)
            call->sequence = (int)a.told.seq;
        return -1;
    }
    call->sequence = (int)a.told.seq;
    give_call(call, &a);
    return 0;
}

int t_accept(int fd, int resfd, const struct t_call *call)
{
    struct xti_asked asked = { .call = XTI_ACCEPT, .seq = (uint32_t)call->sequence };
    uint8_t options[OPTIONS_ROOM];
    struct input input = xti_no_input;
    struct answer a;
    int result;

    input.opt = options;
    input.opt_len = xti_take_options(options, &call->opt);
    take_data(&input, &call->udata);
    xti_enter();
    asked.fd = xti_number_of(fd);
    asked.resfd = xti_number_of(resfd);
    result = xti_make_call_locked(&asked, &input, &a);
    xti_leave();
    return result;
}

int t_snddis(int fd, const struct t_call *call)
{
    struct xti_asked asked = { .call = XTI_SNDDIS, .seq = call ? (uint32_t)call->sequence : 0 };
    struct input input = xti_no_input;
    struct answer a;

    if (call)
        take_data(&input, &call->udata);
    return xti_make_call(fd, &asked, &input, &a);
}

int t_rcvdis(int fd, struct t_discon *discon)
{
    struct xti_asked asked = { .call = XTI_RCVDIS, .umax = xti_room(discon ? &discon->udata : NULL) };
    struct answer a;

    if (xti_make_call(fd, &asked, &xti_no_input, &a) < 0)
        return -1;
    if (discon) {
        discon->reason = (int)a.told.number;
        discon->sequence = (int)a.told.seq;
        xti_give(&discon->udata, a.data, a.told.udata);
    }
    return 0;
}

int t_sndrel(int fd)
{
    struct answer a;

    return xti_make_plain_call(fd, XTI_SNDREL, &a);
}

int t_rcvrel(int fd)
{
    struct answer a;

    return xti_make_plain_call(fd, XTI_RCVREL, &a);
}

int t_sndreldata(int fd, struct t_discon *discon)
{
    struct xti_asked asked = { .call = XTI_SNDRELDATA };
    struct input input = xti_no_input;
    struct answer a;

    if (discon)
        take_data(&input, &discon->udata);
    return xti_make_call(fd, &asked, &input, &a);
}

/* A release has no reason and no sequence number. */
int t_rcvreldata(int fd, struct t_discon *discon)
{
    struct xti_asked asked = { .call = XTI_RCVRELDATA, .umax = xti_room(discon ? &discon->udata : NULL) };
    struct answer a;

    if (xti_make_call(fd, &asked, &xti_no_input, &a) < 0)
        return -1;
    if (discon) {
        discon->reason = 0;
        discon->sequence = 0;
        xti_give(&discon->udata, a.data, a.told.udata);
    }
    return 0;
}
