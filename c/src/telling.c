/* What is told of an endpoint: t_look, t_getstate, t_sync, t_getprotaddr; and its options: t_optmgmt. */
#include "buffers.h"
#include "options.h"

int t_look(int fd)
{
    struct answer a;

    return xti_make_plain_call(fd, XTI_LOOK, &a) < 0 ? -1 : (int)a.told.event;
}

int t_getstate(int fd)
{
    struct answer a;

    return xti_make_plain_call(fd, XTI_GETSTATE, &a) < 0 ? -1 : (int)a.told.number;
}

int t_sync(int fd)
{
    struct answer a;

    return xti_make_plain_call(fd, XTI_SYNC, &a) < 0 ? -1 : (int)a.told.number;
}

int t_getprotaddr(int fd, struct t_bind *boundaddr, struct t_bind *peeraddr)
{
    struct xti_asked asked = { .call = XTI_GETPROTADDR, .amax = xti_room(boundaddr ? &boundaddr->addr : NULL),
        .umax = xti_room(peeraddr ? &peeraddr->addr : NULL) };
    struct answer a;

    if (xti_make_call(fd, &asked, &xti_no_input, &a) < 0)
        return -1;
    if (boundaddr)
        xti_give(&boundaddr->addr, a.addr, a.told.addr);
    if (peeraddr)
        xti_give(&peeraddr->addr, a.data, a.told.udata);
    return 0;
}

int t_optmgmt(int fd, const struct t_optmgmt *req, struct t_optmgmt *ret)
{
    struct xti_asked asked = { .call = XTI_OPTMGMT, .number = (uint32_t)req->flags, .omax = xti_room(ret ? &ret->opt : NULL) };
    uint8_t options[OPTIONS_ROOM];
    struct input input = xti_no_input;
    struct answer a;

    input.opt = options;
    input.opt_len = xti_take_options(options, &req->opt);
    if (xti_make_call(fd, &asked, &input, &a) < 0)
        return -1;
    if (ret) {
        xti_give_options(&ret->opt, &a);
        ret->flags = (t_scalar_t)a.told.number;
    }
    return 0;
}
