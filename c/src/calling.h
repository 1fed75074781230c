/* A call is a loop of steps of the library. */
#ifndef XTI_CALLING_H
#define XTI_CALLING_H

#include "endpoints.h"
#include "xti_c.h"

/* The bytes that a call takes, and where it puts data that it receives, if anywhere but into its answer. */
struct input {
    const void *addr, *opt, *data;
    size_t addr_len, opt_len, data_len;
    const uint32_t *sizes;
    size_t sizes_len;
    void *data_room;
    size_t data_room_len;
};

/* What a call was told. Its bytes don't go to the program's buffers at once, since one buffer may be given to be read and
   written. */
struct answer {
    struct xti_told told;
    uint8_t addr[MOST_ADDRESS], opt[MOST_OPTIONS], data[MOST_CONNECT_DATA];
};

extern const struct input xti_no_input;

/* Makes a call of the endpoint with this descriptor, and waits where it has to: 0, or -1 with t_errno set. */
int xti_make_call(int fd, struct xti_asked *asked, const struct input *input, struct answer *answer);
/* A call of its number alone. */
int xti_make_plain_call(int fd, enum xti_call number, struct answer *answer);
/* With the lock held and asked->fd an endpoint's number. */
int xti_make_call_locked(struct xti_asked *asked, const struct input *input, struct answer *answer);
/* One step, with the lock held and a world. */
enum xti_end xti_step(const struct xti_asked *asked, const struct input *input, struct answer *answer);
/* With no endpoint open: the next call begins with a new world. */
void xti_forget_world(void);
/* The event that t_look would tell at the endpoint, which stays as it is; 0 for none. */
int xti_first_event(const struct endpoint *e);

#endif
