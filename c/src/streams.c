/* Data of connections. */
#include "buffers.h"
#include <pthread.h>
#include <stdlib.h>

/* The most bytes that a receive gives. */
enum { MOST_RECEIVED = 131072 };

/* T_PUSH asks for nothing here: what is sent is never kept back. */
static uint32_t flags_of(int flags)
{
    return (uint32_t)(flags & ~T_PUSH);
}

int t_snd(int fd, const void *buf, unsigned int nbytes, int flags)
{
    struct xti_asked asked = { .call = XTI_SND, .number = flags_of(flags) };
    struct input input = xti_no_input;
    struct answer a;

    input.data = buf;
    input.data_len = xti_bounded(nbytes, MOST_DATA);
    return xti_make_call(fd, &asked, &input, &a) < 0 ? -1 : (int)a.told.number;
}

int t_sndv(int fd, const struct t_iovec *iov, unsigned int iovcount, int flags)
{
    struct xti_asked asked = { .call = XTI_SNDV, .number = flags_of(flags) };
    struct input input = xti_no_input;
    struct vector v;
    struct answer a;
    int result;

    if (xti_make_vector(&v, iov, iovcount, MOST_DATA + 1) < 0)
        return -1;
    pthread_cleanup_push(free, v.bytes);
    xti_gather(&v, iov);
    input.data = v.bytes;
    input.data_len = v.len;
    input.sizes = v.sizes;
    input.sizes_len = v.count;
    result = xti_make_call(fd, &asked, &input, &a);
    pthread_cleanup_pop(1);
    return result < 0 ? -1 : (int)a.told.number;
}

int t_rcv(int fd, void *buf, unsigned int nbytes, int *flags)
{
    struct xti_asked asked = { .call = XTI_RCV, .number = nbytes };
    struct input input = xti_no_input;
    struct answer a;

    if (nbytes) {
        input.data_room = buf;
        input.data_room_len = nbytes;
    }
    if (xti_make_call(fd, &asked, &input, &a) < 0)
        return -1;
    *flags = (int)a.told.flags;
    return (int)a.told.udata;
}

int t_rcvv(int fd, struct t_iovec *iov, unsigned int iovcount, int *flags)
{
    struct xti_asked asked = { .call = XTI_RCVV };
    struct input input = xti_no_input;
    struct vector v;
    struct answer a;
    int result;

    if (xti_make_vector(&v, iov, iovcount, MOST_RECEIVED) < 0)
        return -1;
    pthread_cleanup_push(free, v.bytes);
    input.sizes = v.sizes;
    input.sizes_len = v.count;
    input.data_room = v.bytes;
    input.data_room_len = v.len;
    result = xti_make_call(fd, &asked, &input, &a);
    if (result == 0) {
        xti_scatter(&v, iov, a.told.udata);
        *flags = (int)a.told.flags;
    }
    pthread_cleanup_pop(1);
    return result < 0 ? -1 : (int)a.told.udata;
}
