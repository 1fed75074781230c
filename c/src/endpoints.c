/* The table of endpoints. An endpoint's descriptor is that of an eventfd: its number is no file's, fcntl sets its O_NONBLOCK, and
   poll, select and epoll wait for it, since it is readable while an event is pending. */
#include "endpoints.h"
#include "waiting.h"
#include "watching.h"
#include <errno.h>
#include <fcntl.h>
#include <string.h>
#include <sys/eventfd.h>
#include <sys/stat.h>
#include <sys/uio.h>
#include <unistd.h>

/* Descriptors of the library's own begin here, where the process may have that many, so that those of a program stay low. */
enum { FIRST_OWN = 512 };

struct endpoint xti_endpoints[XTI_PLACES];
places xti_open_places;

void xti_set_open(const struct endpoint *e, int is_open)
{
    if (is_open)
        xti_add_place(&xti_open_places, xti_place_of(e));
    else
        xti_remove_place(&xti_open_places, xti_place_of(e));
}

/* The endpoint that was last found by a descriptor with this remainder is looked at first. */
struct endpoint *xti_of_descriptor(int fd)
{
    static uint8_t last_found[XTI_PLACES];
    uint8_t *last = &last_found[(unsigned int)fd % XTI_PLACES];
    places left = xti_open_places;
    struct endpoint *e = &xti_endpoints[*last];

    if (e->fd == fd && xti_has_place(&xti_open_places, *last))
        return e;
    while ((e = xti_take_first(&left)))
        if (e->fd == fd) {
            *last = (uint8_t)xti_place_of(e);
            break;
        }
    return e;
}

struct endpoint *xti_of_number(uint32_t number)
{
    struct endpoint *e = &xti_endpoints[number % XTI_PLACES];

    return xti_has_place(&xti_open_places, xti_place_of(e)) && e->number == number ? e : NULL;
}

uint32_t xti_number_of(int fd)
{
    const struct endpoint *e = xti_of_descriptor(fd);

    return e ? e->number : NO_ENDPOINT;
}

int xti_place_of(const struct endpoint *e)
{
    return (int)(e - xti_endpoints);
}

void xti_set_address(struct address *a, const void *bytes, size_t len)
{
    a->len = len <= MOST_ADDRESS ? len : 0;
    if (a->len)
        memcpy(a->bytes, bytes, a->len);
}

int xti_is_address(const struct address *a, const void *bytes, size_t len)
{
    return len > 0 && a->len == len && memcmp(a->bytes, bytes, len) == 0;
}

int xti_own_descriptor(int fd)
{
    int own = fcntl(fd, F_DUPFD_CLOEXEC, FIRST_OWN);

    return own < 0 ? fcntl(fd, F_DUPFD_CLOEXEC, 0) : own;
}

int xti_make_descriptors(struct endpoint *e, int is_nonblocking)
{
    e->fd = eventfd(0, EFD_CLOEXEC | (is_nonblocking ? EFD_NONBLOCK : 0));
    if (e->fd < 0)
        return -1;
    e->signal = xti_own_descriptor(e->fd);
    if (e->signal < 0) {
        close(e->fd);
        return -1;
    }
    return 0;
}

/* Whether the program has closed the descriptor by close(2), and perhaps has another file there. */
static int is_given_up(const struct endpoint *e)
{
    struct stat own, there;

    return fstat(e->signal, &own) < 0 || fstat(e->fd, &there) < 0 || own.st_dev != there.st_dev || own.st_ino != there.st_ino;
}

void xti_close_descriptors(const struct endpoint *e)
{
    if (!is_given_up(e))
        close(e->fd);
    close(e->signal);
}

void xti_renew_descriptors(struct endpoint *e)
{
    int flags = fcntl(e->signal, F_GETFL), given_up = is_given_up(e);
    int fd = eventfd((unsigned int)e->is_readable, EFD_CLOEXEC | (flags & O_NONBLOCK ? EFD_NONBLOCK : 0));

    if (fd < 0)
        return;
    if (!given_up)
        dup3(fd, e->fd, O_CLOEXEC);
    dup3(fd, e->signal, O_CLOEXEC);
    close(fd);
}

/* Reads an eventfd, without waiting where the program has read it itself; whether it isn't readable then. */
static int clear(int fd)
{
    uint64_t count;
    struct iovec to = { &count, sizeof count };
    ssize_t n = preadv2(fd, &to, 1, -1, RWF_NOWAIT);

    if (n < 0 && errno == EOPNOTSUPP)
        n = read(fd, &count, sizeof count);
    return n >= 0 || errno == EAGAIN;
}

void xti_show_events(struct endpoint *e, int is_pending)
{
    uint64_t count = 1;

    if (is_pending == e->is_readable || !xti_is_watched)
        return;
    xti_hold_off_cancellation();
    if (is_pending ? write(e->signal, &count, sizeof count) == sizeof count : clear(e->signal))
        e->is_readable = is_pending;
}
