/* The X/Open Transport Interface, as in XNS Issue 5.2, over the loopback providers ticots, ticotsord and ticlts of one process. */
#ifndef XTI_H
#define XTI_H

#include <stddef.h>
#include <stdint.h>
#include <unistd.h>

#ifdef __cplusplus
extern "C" {
#endif

typedef int32_t t_scalar_t;
typedef uint32_t t_uscalar_t;

/* Errors, which t_errno has. */
#define TBADADDR 1       /* the address is empty or too long */
#define TBADOPT 2        /* the options are too long, or no list of options */
#define TACCES 3         /* never here */
#define TBADF 4          /* no endpoint is open with the descriptor */
#define TNOADDR 5        /* never here */
#define TOUTSTATE 6      /* the call can't be made in the endpoint's state */
#define TBADSEQ 7        /* no request with the sequence number is to be answered */
#define TSYSERR 8        /* the system refused something; errno says what */
#define TLOOK 9          /* an event is to be taken first; t_look tells which */
#define TBADDATA 10      /* too many data, or none where there must be some */
#define TBUFOVFLW 11     /* a buffer is too small for what is returned */
#define TFLOW 12         /* there is no room for what is sent */
#define TNODATA 13       /* nothing to be received has come */
#define TNODIS 14        /* no disconnect waits */
#define TNOUDERR 15      /* no error of a datagram waits */
#define TBADFLAG 16      /* the flags are none that the call has */
#define TNOREL 17        /* no orderly release waits */
#define TNOTSUPPORT 18   /* the provider doesn't have the call */
#define TSTATECHNG 19    /* never here */
#define TNOSTRUCTYPE 20  /* the structure is none that the provider has */
#define TBADNAME 21      /* no provider has the name */
#define TBADQLEN 22      /* the endpoint has no queue of requests */
#define TADDRBUSY 23     /* the address is in use */
#define TINDOUT 24       /* further requests are to be answered */
#define TPROVMISMATCH 25 /* the endpoints are of different providers */
#define TRESQLEN 26      /* the accepting endpoint has a queue of requests */
#define TRESADDR 27      /* the accepting endpoint has another address */
#define TQFULL 28        /* as many requests as the queue's length are to be answered */
#define TPROTO 29        /* never here */

/* Events, which t_look tells. */
#define T_LISTEN 0x0001     /* a request to connect waits */
#define T_CONNECT 0x0002    /* the endpoint's own request was accepted */
#define T_DATA 0x0004       /* normal data, or a datagram */
#define T_EXDATA 0x0008     /* expedited data */
#define T_DISCONNECT 0x0010 /* a disconnect */
#define T_UDERR 0x0040      /* the error of a datagram */
#define T_ORDREL 0x0080     /* an orderly release */
#define T_GODATA 0x0100     /* there is room again for normal data, or for a datagram */
#define T_GOEXDATA 0x0200   /* there is room again for expedited data */

/* Flags of what is sent and received. */
#define T_MORE 0x001      /* the message, or the datagram, goes on */
#define T_EXPEDITED 0x002 /* expedited data */
#define T_PUSH 0x004      /* send at once: done in any case */

/* What t_optmgmt is asked for, and its results. */
#define T_NEGOTIATE 0x004
#define T_CHECK 0x008
#define T_DEFAULT 0x010
#define T_SUCCESS 0x020
#define T_FAILURE 0x040
#define T_CURRENT 0x080
#define T_PARTSUCCESS 0x100
#define T_READONLY 0x200
#define T_NOTSUPPORT 0x400

/* Structures that t_alloc makes, by both kinds of names, and the fields that get a buffer. */
#define T_BIND_STR 1
#define T_OPTMGMT_STR 2
#define T_CALL_STR 3
#define T_DIS_STR 4
#define T_UNITDATA_STR 5
#define T_UDERROR_STR 6
#define T_INFO_STR 7
#define T_BIND T_BIND_STR
#define T_OPTMGMT T_OPTMGMT_STR
#define T_CALL T_CALL_STR
#define T_DIS T_DIS_STR
#define T_UNITDATA T_UNITDATA_STR
#define T_UDERROR T_UDERROR_STR
#define T_INFO T_INFO_STR
#define T_ADDR 0x01
#define T_OPT 0x02
#define T_UDATA 0x04
#define T_ALL 0xffff

/* States. */
#define T_UNINIT 0   /* not open */
#define T_UNBND 1    /* without an address */
#define T_IDLE 2     /* without a connection */
#define T_OUTCON 3   /* its own request is not answered */
#define T_INCON 4    /* requests that were taken are not answered */
#define T_DATAXFER 5 /* connected */
#define T_OUTREL 6   /* released by this end */
#define T_INREL 7    /* released by the other end */

/* What t_info has: services, flags, and limits that are no number of bytes. */
#define T_COTS 1
#define T_COTS_ORD 2
#define T_CLTS 3
#define T_SENDZERO 0x001
#define T_ORDRELDATA 0x002
#define T_INFINITE (-1)
#define T_INVALID (-2)

/* Values in general. */
#define T_YES 1
#define T_NO 0
#define T_UNUSED (-1)
#define T_NULL 0
#define T_ABSREQ 0x8000
#define T_UNSPEC (~0 - 2)
#define T_ALLOPT 0

/* Options of the level XTI_GENERIC. */
#define XTI_GENERIC 0xffff
#define XTI_DEBUG 0x0001
#define XTI_LINGER 0x0080
#define XTI_SNDBUF 0x1001
#define XTI_RCVBUF 0x1002
#define XTI_SNDLOWAT 0x1003
#define XTI_RCVLOWAT 0x1004

/* The most parts of a vector, and its name for t_sysconf. Some <unistd.h> have the name already. */
#define T_IOV_MAX 16
#ifndef _SC_T_IOV_MAX
#define _SC_T_IOV_MAX 0
#endif

struct netbuf {
    unsigned int maxlen; /* how many bytes there is room for; 0 to be told none */
    unsigned int len;    /* how many bytes there are */
    void *buf;
};

struct t_info {
    t_scalar_t addr;     /* most bytes of an address */
    t_scalar_t options;  /* most bytes of options */
    t_scalar_t tsdu;     /* most bytes of a message; 0 for a stream without ends of messages */
    t_scalar_t etsdu;    /* most bytes of an expedited message */
    t_scalar_t connect;  /* most bytes of data with a request and its answer */
    t_scalar_t discon;   /* most bytes of data with a disconnect */
    t_scalar_t servtype; /* T_COTS, T_COTS_ORD or T_CLTS */
    t_scalar_t flags;    /* T_SENDZERO: messages may be empty */
};

struct t_bind {
    struct netbuf addr;
    unsigned int qlen; /* how many requests may wait for an answer */
};

struct t_optmgmt {
    struct netbuf opt;
    t_scalar_t flags;
};

struct t_discon {
    struct netbuf udata;
    int reason;
    int sequence;
};

struct t_call {
    struct netbuf addr;
    struct netbuf opt;
    struct netbuf udata;
    int sequence;
};

struct t_unitdata {
    struct netbuf addr;
    struct netbuf opt;
    struct netbuf udata;
};

struct t_uderr {
    struct netbuf addr;
    struct netbuf opt;
    t_scalar_t error;
};

struct t_opthdr {
    t_uscalar_t len; /* of the header and the value, without the bytes that fill up to the next option */
    t_uscalar_t level;
    t_uscalar_t name;
    t_uscalar_t status;
};

struct t_linger {
    t_scalar_t l_onoff;
    t_scalar_t l_linger;
};

struct t_iovec {
    void *iov_base;
    size_t iov_len;
};

/* A number or an address, raised to a multiple of the size of t_scalar_t. */
#define T_ALIGN(p) (((uintptr_t)(p) + sizeof(t_scalar_t) - 1) & ~(uintptr_t)(sizeof(t_scalar_t) - 1))
/* The first option of a netbuf, the value of an option, the option after another; NULL for none. */
#define T_OPT_FIRSTHDR(nbp) \
    ((nbp)->len >= sizeof(struct t_opthdr) ? (struct t_opthdr *)(nbp)->buf : (struct t_opthdr *)0)
#define T_OPT_DATA(tohp) ((unsigned char *)(tohp) + sizeof(struct t_opthdr))
#define T_OPT_NEXTHDR(nbp, tohp) \
    ((size_t)((char *)(tohp) - (char *)(nbp)->buf) + T_ALIGN((tohp)->len) + sizeof(struct t_opthdr) <= (nbp)->len \
         ? (struct t_opthdr *)(void *)((char *)(tohp) + T_ALIGN((tohp)->len)) \
         : (struct t_opthdr *)0)
/* The option after another in a buffer, as older programs write it. */
#define OPT_NEXTHDR(pbuf, buflen, popt) \
    ((size_t)((char *)(popt) - (char *)(pbuf)) + T_ALIGN((popt)->len) < (size_t)(buflen) \
         ? (struct t_opthdr *)(void *)((char *)(popt) + T_ALIGN((popt)->len)) \
         : (struct t_opthdr *)0)

/* The error of the thread's last call that answered -1, or NULL. */
extern int *_t_errno(void);
#define t_errno (*_t_errno())

/* Accepts the request call->sequence of the listener fd; resfd gets the connection. */
int t_accept(int fd, int resfd, const struct t_call *call);
/* Makes a structure, with buffers for its fields as large as the endpoint's provider needs; t_free frees it. */
void *t_alloc(int fd, int struct_type, int fields);
/* Gives an endpoint an address and a queue of requests, and tells those that it has then. */
int t_bind(int fd, const struct t_bind *req, struct t_bind *ret);
/* Closes an endpoint. */
int t_close(int fd);
/* Asks the listener at an address for a connection, and waits for its answer. */
int t_connect(int fd, const struct t_call *sndcall, struct t_call *rcvcall);
/* Writes to standard error what t_errno says. */
int t_error(const char *errmsg);
/* Frees a structure that t_alloc made. */
int t_free(void *ptr, int struct_type);
/* Tells what an endpoint's provider offers. */
int t_getinfo(int fd, struct t_info *info);
/* Tells the addresses of an endpoint and of the other end of its connection. */
int t_getprotaddr(int fd, struct t_bind *boundaddr, struct t_bind *peeraddr);
/* Tells the state of an endpoint. */
int t_getstate(int fd);
/* Takes the oldest request to connect, and waits for one. */
int t_listen(int fd, struct t_call *call);
/* Tells the first event that is pending, or 0. */
int t_look(int fd);
/* Opens an endpoint of the provider with this name, for which there is no file. */
int t_open(const char *name, int oflag, struct t_info *info);
/* Negotiates options, or tells them. */
int t_optmgmt(int fd, const struct t_optmgmt *req, struct t_optmgmt *ret);
/* Receives data of a connection, and waits for them. */
int t_rcv(int fd, void *buf, unsigned int nbytes, int *flags);
/* Takes the answer to a request to connect, and waits for it. */
int t_rcvconnect(int fd, struct t_call *call);
/* Takes a disconnect, and tells its reason. */
int t_rcvdis(int fd, struct t_discon *discon);
/* Takes the other end's orderly release. */
int t_rcvrel(int fd);
/* Takes the other end's orderly release, with data: no provider has it. */
int t_rcvreldata(int fd, struct t_discon *discon);
/* Receives a datagram or a part of it, and waits for one. */
int t_rcvudata(int fd, struct t_unitdata *unitdata, int *flags);
/* Takes the error of a datagram. */
int t_rcvuderr(int fd, struct t_uderr *uderr);
/* Receives data of a connection into several buffers, and waits for them. */
int t_rcvv(int fd, struct t_iovec *iov, unsigned int iovcount, int *flags);
/* Receives a datagram or a part of it into several buffers, and waits for one. */
int t_rcvvudata(int fd, struct t_unitdata *unitdata, struct t_iovec *iov, unsigned int iovcount, int *flags);
/* Sends data on a connection, and waits for room. */
int t_snd(int fd, const void *buf, unsigned int nbytes, int flags);
/* Rejects a request, gives up one of its own, or ends a connection at once. */
int t_snddis(int fd, const struct t_call *call);
/* Releases a connection in one direction. */
int t_sndrel(int fd);
/* Releases a connection in one direction, with data: no provider has it. */
int t_sndreldata(int fd, struct t_discon *discon);
/* Sends a datagram, and waits for room. */
int t_sndudata(int fd, const struct t_unitdata *unitdata);
/* Sends several buffers, joined, on a connection, and waits for room. */
int t_sndv(int fd, const struct t_iovec *iov, unsigned int iovcount, int flags);
/* Sends several buffers, joined, as one datagram, and waits for room. */
int t_sndvudata(int fd, const struct t_unitdata *unitdata, const struct t_iovec *iov, unsigned int iovcount);
/* The text of an error. */
const char *t_strerror(int errnum);
/* Tells the state of an endpoint, as t_getstate does. */
int t_sync(int fd);
/* Tells T_IOV_MAX. */
int t_sysconf(int name);
/* Takes the address from an endpoint. */
int t_unbind(int fd);

/* Not of XNS: records the steps that calls make as a journal, in the file of a descriptor; with -1 the journal ends. */
int xti_journal_to(int fd);

#ifdef __cplusplus
}
#endif

#endif
