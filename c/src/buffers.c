/* Netbufs and vectors. */
#include "buffers.h"
#include "errors.h"
#include <errno.h>
#include <stdlib.h>
#include <string.h>

size_t xti_bounded(size_t len, size_t most)
{
    return len > most ? most + 1 : len;
}

uint32_t xti_room(const struct netbuf *n)
{
    return n ? n->maxlen : 0;
}

void xti_give(struct netbuf *n, const void *bytes, size_t len)
{
    if (!n)
        return;
    if (len > n->maxlen)
        len = n->maxlen;
    if (len)
        memcpy(n->buf, bytes, len);
    n->len = (unsigned int)len;
}

int xti_make_vector(struct vector *v, const struct t_iovec *iov, unsigned int count, size_t most)
{
    size_t i;

    /* Too many parts are refused, whatever their sizes. */
    v->len = 0;
    v->count = xti_bounded(count, T_IOV_MAX);
    for (i = 0; i < v->count; i++) {
        size_t left = v->count > T_IOV_MAX ? 0 : most - v->len;
        v->sizes[i] = (uint32_t)(iov[i].iov_len < left ? iov[i].iov_len : left);
        v->len += v->sizes[i];
    }
    v->bytes = malloc(v->len + 1);
    return v->bytes ? 0 : xti_system_fail(ENOMEM);
}

void xti_gather(struct vector *v, const struct t_iovec *iov)
{
    uint8_t *at = v->bytes;
    size_t i;

    for (i = 0; i < v->count; i++) {
        if (v->sizes[i])
            memcpy(at, iov[i].iov_base, v->sizes[i]);
        at += v->sizes[i];
    }
}

void xti_scatter(const struct vector *v, const struct t_iovec *iov, size_t len)
{
    const uint8_t *at = v->bytes;
    size_t i;

    for (i = 0; i < v->count && len > 0; i++) {
        size_t size = v->sizes[i] < len ? v->sizes[i] : len;
        if (size)
            memcpy(iov[i].iov_base, at, size);
        at += size;
        len -= size;
    }
}
