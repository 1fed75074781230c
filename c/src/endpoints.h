/* The endpoints of the process, by descriptor and by number. All of it is read and written under the lock alone. */
#ifndef XTI_ENDPOINTS_H
#define XTI_ENDPOINTS_H

#include "places.h"
#include <stddef.h>
#include <stdint.h>

enum {
    MOST_ADDRESS = 64,
    MOST_OPTIONS = 256,
    MOST_CONNECT_DATA = 64,
    MOST_DATA = 65536
};

#define NO_ENDPOINT 0xffffffffU

/* An address; of no bytes for none. */
struct address {
    size_t len;
    uint8_t bytes[MOST_ADDRESS];
};

struct endpoint {
    /* The library's number of it, which is no other endpoint's, before or after. */
    uint32_t number;
    uint32_t provider;
    /* What the program has, and a second descriptor of the same eventfd, which close(2) of the first leaves open. */
    int fd, signal;
    int is_nonblocking;
    /* Whether the eventfd is readable. */
    int is_readable;
    /* Who is at the other end of its connection; the listener that has its request, and the request's number there. A number
       may be kept for longer than that holds. */
    uint32_t peer, listener, sequence;
    /* Its address and queue, and the number of the last request that it got. */
    struct address address;
    uint32_t queue_length, last_sequence;
    /* The destination of a datagram that there was no room for. */
    struct address flow_destination;
};

extern struct endpoint xti_endpoints[XTI_PLACES];
/* The places of those that are open. */
extern places xti_open_places;

/* The first endpoint of some places, which is taken from them; NULL where there is none left. */
static inline struct endpoint *xti_take_first(places *from)
{
    int place = xti_take_place(from);

    return place < 0 ? NULL : &xti_endpoints[place];
}

void xti_set_open(const struct endpoint *e, int is_open);
/* The open endpoint with this descriptor, and that with this number; NULL for none. */
struct endpoint *xti_of_descriptor(int fd);
struct endpoint *xti_of_number(uint32_t number);
/* The number of the endpoint with this descriptor, or NO_ENDPOINT. */
uint32_t xti_number_of(int fd);
int xti_place_of(const struct endpoint *e);
void xti_set_address(struct address *a, const void *bytes, size_t len);
int xti_is_address(const struct address *a, const void *bytes, size_t len);
/* A second descriptor of the same file, for the library alone: -1 with errno set. */
int xti_own_descriptor(int fd);
/* Makes the descriptors of an endpoint: 0, or -1 with errno set. */
int xti_make_descriptors(struct endpoint *e, int is_nonblocking);
void xti_close_descriptors(const struct endpoint *e);
/* Gives the endpoint descriptors of its own after a fork. */
void xti_renew_descriptors(struct endpoint *e);
/* Has poll see whether an event is pending. */
void xti_show_events(struct endpoint *e, int is_pending);

#endif
