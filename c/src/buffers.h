/* The buffers of a program: netbufs and vectors. */
#ifndef XTI_BUFFERS_H
#define XTI_BUFFERS_H

#include "calling.h"
#include <xti.h>

/* How many bytes the library is given of so many, where more than `most` are refused. */
size_t xti_bounded(size_t len, size_t most);
/* How many bytes a program takes at a netbuf, which may be NULL. */
uint32_t xti_room(const struct netbuf *n);
/* Puts bytes into a netbuf, which may be NULL, where the program takes any. */
void xti_give(struct netbuf *n, const void *bytes, size_t len);

/* A vector as the library has it: one buffer, to be freed, and the sizes of its parts. */
struct vector {
    uint8_t *bytes;
    size_t len;
    uint32_t sizes[T_IOV_MAX + 1];
    size_t count;
};

/* The sizes of a vector, of which at most `most` bytes count, and a buffer for them: 0, or -1 with t_errno set. */
int xti_make_vector(struct vector *v, const struct t_iovec *iov, unsigned int count, size_t most);
/* Joins what is sent, and parts what was received. */
void xti_gather(struct vector *v, const struct t_iovec *iov);
void xti_scatter(const struct vector *v, const struct t_iovec *iov, size_t len);

#endif
