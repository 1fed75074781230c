/* What the static library libxti_c.a exports: a world of endpoints, and its steps. */
#ifndef XTI_C_H
#define XTI_C_H

#include <stddef.h>
#include <stdint.h>

/* A world, or none. */
struct xti_world {
    void *at;
};

enum xti_call {
    XTI_OPEN,
    XTI_CLOSE,
    XTI_BIND,
    XTI_UNBIND,
    XTI_CONNECT,
    XTI_RCVCONNECT,
    XTI_LISTEN,
    XTI_ACCEPT,
    XTI_SND,
    XTI_SNDV,
    XTI_RCV,
    XTI_RCVV,
    XTI_SNDDIS,
    XTI_RCVDIS,
    XTI_SNDREL,
    XTI_RCVREL,
    XTI_SNDUDATA,
    XTI_SNDVUDATA,
    XTI_RCVUDATA,
    XTI_RCVVUDATA,
    XTI_RCVUDERR,
    XTI_LOOK,
    XTI_GETSTATE,
    XTI_SYNC,
    XTI_GETINFO,
    XTI_GETPROTADDR,
    XTI_OPTMGMT,
    XTI_MODE,
    XTI_SNDRELDATA,
    XTI_RCVRELDATA
};

enum xti_reply {
    XTI_PLAIN,
    XTI_OPENED,
    XTI_BOUND,
    XTI_CONNECTED,
    XTI_LISTENED,
    XTI_SENT,
    XTI_GOT,
    XTI_DISCON,
    XTI_UDATA,
    XTI_UDERR,
    XTI_SEEN,
    XTI_STANDS,
    XTI_LIMITS,
    XTI_ADDRESSES,
    XTI_OPTIONS,
    XTI_REFUSED,
    XTI_LOOKED,
    XTI_OVERFLOW,
    XTI_A_PART,
    XTI_RELDATA
};

/* How a step ended. */
enum xti_end { XTI_DONE, XTI_PART, XTI_BLOCKED, XTI_NO_MEMORY, XTI_NO_CALL };

/* The numbers of a call: `fd` is the provider where one opens, `number` a queue length, flags, an action, the most bytes of a
   receive or 1 for O_NONBLOCK, `more` whether the call goes on after `taken` bytes. */
struct xti_asked {
    uint32_t call, fd, resfd, seq, number, amax, omax, umax, more, taken;
};

struct xti_info {
    int64_t addr, options, tsdu, etsdu, connect, discon;
    uint32_t servtype, flags;
};

/* The numbers of an answer: `number` is a queue length, a number of bytes, a reason, a code, a result or a state; `addr`, `opt`
   and `udata` are numbers of bytes. */
struct xti_told {
    uint32_t reply, state, fd, error, event, seq, number, flags;
    size_t addr, opt, udata;
    struct xti_info info;
};

/* What an endpoint shows: its state, and the first event that is pending, or 0. */
struct xti_seen {
    uint32_t state, event;
};

/* Makes a world; whether there was memory for it. Where there was none, `kept` stays. */
_Bool xti_c_make(struct xti_world *kept);
/* Frees a world. */
void xti_c_free(struct xti_world given);
/* Makes one step of a call. It takes the world, and gives it back through `kept`. Where room for a line is given and a step is made,
   as much as fits of the step's line in a journal is put there, of that worker and with that number; `line_len` gets the whole
   line's length, and 0 where no step was made, or where there was no memory for the line after the step was made. */
uint32_t xti_c_step(struct xti_world given, struct xti_world *kept, const struct xti_asked *asked, const uint8_t *addr,
    size_t addr_len, const uint8_t *opt, size_t opt_len, const uint8_t *udata, size_t udata_len, const uint32_t *sizes,
    size_t sizes_len, struct xti_told *told, uint8_t *addr_room, size_t addr_room_len, uint8_t *opt_room,
    size_t opt_room_len, uint8_t *udata_room, size_t udata_room_len, uint32_t worker, uint64_t number, uint8_t *line_room,
    size_t line_room_len, size_t *line_len);
/* Puts as much as fits of the journal of a run without steps into the room: its head, and its end. The whole text's length, or 0
   where there was no memory for it. */
size_t xti_c_no_steps(uint8_t *room, size_t room_len);
/* What the endpoint with this number shows, which changes nothing; whether one is open. */
_Bool xti_c_look(struct xti_world given, struct xti_world *kept, uint32_t fd, struct xti_seen *seen);

#endif
