/* Endpoints: t_open, t_close, t_bind, t_unbind, and what is told of them. */
#include "buffers.h"
#include "errors.h"
#include "forking.h"
#include "options.h"
#include "waiting.h"
#include "watching.h"
#include <errno.h>
#include <fcntl.h>
#include <string.h>
#include <unistd.h>

/* The number of a provider, by its name or by that of its device; 3 where no provider has the name. */
static uint32_t provider_of(const char *name)
{
    static const char *const names[] = { "ticots", "ticotsord", "ticlts" };
    uint32_t i;

    if (name && strncmp(name, "/dev/", 5) == 0)
        name += 5;
    for (i = 0; i < 3; i++)
        if (name && strcmp(name, names[i]) == 0)
            break;
    return i;
}

static int info_of(uint32_t number, struct t_info *info)
{
    struct xti_asked asked = { .call = XTI_GETINFO, .fd = number };
    const struct xti_info *told;
    struct answer a;

    if (xti_make_call_locked(&asked, &xti_no_input, &a) < 0)
        return -1;
    told = &a.told.info;
    info->addr = (t_scalar_t)told->addr;
    info->options = (t_scalar_t)told->options;
    info->tsdu = (t_scalar_t)told->tsdu;
    info->etsdu = (t_scalar_t)told->etsdu;
    info->connect = (t_scalar_t)told->connect;
    info->discon = (t_scalar_t)told->discon;
    info->servtype = (t_scalar_t)told->servtype;
    info->flags = (t_scalar_t)told->flags;
    return 0;
}

static int close_locked(struct endpoint *e)
{
    struct xti_asked asked = { .call = XTI_CLOSE, .fd = e->number };
    struct answer a;
    int result = xti_make_call_locked(&asked, &xti_no_input, &a);

    if (result == 0)
        xti_close_descriptors(e);
    return result;
}

/* Opens an endpoint whose descriptors are made; they are closed where it can't be. */
static int open_locked(const struct endpoint *made, struct t_info *info)
{
    struct xti_asked asked = { .call = XTI_OPEN, .fd = made->provider, .number = (uint32_t)made->is_nonblocking };
    /* An endpoint that the program has closed by close(2), so that its descriptor is given again. */
    struct endpoint *before = xti_of_descriptor(made->fd), *e;
    struct answer a;

    if (before) {
        before->fd = -1;
        close_locked(before);
    }
    if (xti_make_call_locked(&asked, &xti_no_input, &a) < 0) {
        int error = errno;
        close(made->fd);
        close(made->signal);
        errno = error;
        return -1;
    }
    e = &xti_endpoints[a.told.fd % XTI_PLACES];
    *e = *made;
    e->number = a.told.fd;
    e->peer = e->listener = NO_ENDPOINT;
    xti_set_open(e, 1);
    if (info)
        info_of(e->number, info);
    return e->fd;
}

int t_open(const char *name, int oflag, struct t_info *info)
{
    struct endpoint made = { .provider = provider_of(name), .is_nonblocking = (oflag & O_NONBLOCK) != 0 };
    int result;

    if ((oflag & ~O_NONBLOCK) != O_RDWR)
        return xti_fail(TBADFLAG);
    xti_watch_forks();
    xti_find_watchers();
    if (xti_make_descriptors(&made, made.is_nonblocking) < 0)
        return xti_fail(TSYSERR);
    xti_enter();
    result = open_locked(&made, info);
    xti_leave();
    return result;
}

int t_close(int fd)
{
    struct endpoint *e;
    int result;

    xti_enter();
    e = xti_of_descriptor(fd);
    result = e ? close_locked(e) : xti_fail(TBADF);
    xti_leave();
    return result;
}

int t_bind(int fd, const struct t_bind *req, struct t_bind *ret)
{
    struct xti_asked asked = { .call = XTI_BIND, .number = req ? req->qlen : 0, .amax = xti_room(ret ? &ret->addr : NULL) };
    struct input input = xti_no_input;
    struct answer a;

    if (req) {
        input.addr = req->addr.buf;
        input.addr_len = xti_bounded(req->addr.len, MOST_ADDRESS);
    }
    if (xti_make_call(fd, &asked, &input, &a) < 0)
        return -1;
    if (ret) {
        xti_give(&ret->addr, a.addr, a.told.addr);
        ret->qlen = a.told.number;
    }
    return 0;
}

int t_unbind(int fd)
{
    struct answer a;

    return xti_make_plain_call(fd, XTI_UNBIND, &a);
}

int t_getinfo(int fd, struct t_info *info)
{
    struct t_info unused;
    int result;

    xti_enter();
    result = info_of(xti_number_of(fd), info ? info : &unused);
    xti_leave();
    return result;
}
