/* Datagrams and their errors. */
#include "buffers.h"
#include "options.h"
#include <pthread.h>
#include <stdlib.h>

/* More bytes than a datagram has. */
enum { MOST_RECEIVED = 65536 };

static int send_datagram(int fd, struct xti_asked *asked, const struct t_unitdata *unitdata, struct input *input)
{
    uint8_t options[OPTIONS_ROOM];
    struct answer a;

    input->addr = unitdata->addr.buf;
    input->addr_len = xti_bounded(unitdata->addr.len, MOST_ADDRESS);
    input->opt = options;
    input->opt_len = xti_take_options(options, &unitdata->opt);
    return xti_make_call(fd, asked, input, &a);
}

int t_sndudata(int fd, const struct t_unitdata *unitdata)
{
    struct xti_asked asked = { .call = XTI_SNDUDATA };
    struct input input = xti_no_input;

    input.data = unitdata->udata.buf;
    input.data_len = xti_bounded(unitdata->udata.len, MOST_DATA);
    return send_datagram(fd, &asked, unitdata, &input);
}

int t_sndvudata(int fd, const struct t_unitdata *unitdata, const struct t_iovec *iov, unsigned int iovcount)
{
    struct xti_asked asked = { .call = XTI_SNDVUDATA };
    struct input input = xti_no_input;
    struct vector v;
    int result;

    if (xti_make_vector(&v, iov, iovcount, MOST_DATA + 1) < 0)
        return -1;
    pthread_cleanup_push(free, v.bytes);
    xti_gather(&v, iov);
    input.data = v.bytes;
    input.data_len = v.len;
    input.sizes = v.sizes;
    input.sizes_len = v.count;
    result = send_datagram(fd, &asked, unitdata, &input);
    pthread_cleanup_pop(1);
    return result;
}

static int receive_datagram(int fd, struct xti_asked *asked, struct t_unitdata *unitdata, const struct input *input, int *flags,
    struct answer *a)
{
    asked->amax = unitdata->addr.maxlen;
    asked->omax = unitdata->opt.maxlen;
    if (xti_make_call(fd, asked, input, a) < 0)
        return -1;
    xti_give(&unitdata->addr, a->addr, a->told.addr);
    xti_give_options(&unitdata->opt, a);
    *flags = (int)a->told.flags;
    return 0;
}

int t_rcvudata(int fd, struct t_unitdata *unitdata, int *flags)
{
    struct xti_asked asked = { .call = XTI_RCVUDATA, .number = unitdata->udata.maxlen };
    struct input input = xti_no_input;
    struct answer a;

    if (unitdata->udata.maxlen) {
        input.data_room = unitdata->udata.buf;
        input.data_room_len = unitdata->udata.maxlen;
    }
    if (receive_datagram(fd, &asked, unitdata, &input, flags, &a) < 0)
        return -1;
    unitdata->udata.len = (unsigned int)a.told.udata;
    return 0;
}

int t_rcvvudata(int fd, struct t_unitdata *unitdata, struct t_iovec *iov, unsigned int iovcount, int *flags)
{
    struct xti_asked asked = { .call = XTI_RCVVUDATA };
    struct input input = xti_no_input;
    struct vector v;
    struct answer a;
    int result;

    if (xti_make_vector(&v, iov, iovcount, MOST_RECEIVED) < 0)
        return -1;
    pthread_cleanup_push(free, v.bytes);
    input.sizes = v.sizes;
    input.sizes_len = v.count;
    input.data_room = v.bytes;
    input.data_room_len = v.len;
    result = receive_datagram(fd, &asked, unitdata, &input, flags, &a);
    if (result == 0)
        xti_scatter(&v, iov, a.told.udata);
    pthread_cleanup_pop(1);
    return result < 0 ? -1 : (int)a.told.udata;
}

int t_rcvuderr(int fd, struct t_uderr *uderr)
{
    struct xti_asked asked = { .call = XTI_RCVUDERR, .amax = xti_room(uderr ? &uderr->addr : NULL),
        .omax = xti_room(uderr ? &uderr->opt : NULL) };
    struct answer a;

    if (xti_make_call(fd, &asked, &xti_no_input, &a) < 0)
        return -1;
    if (uderr) {
        xti_give(&uderr->addr, a.addr, a.told.addr);
        xti_give_options(&uderr->opt, &a);
        uderr->error = (t_scalar_t)a.told.number;
    }
    return 0;
}
