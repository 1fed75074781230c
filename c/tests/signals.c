/* What ends a wait: a signal, the closing of the endpoint, a change of its mode, cancellation. */
#include "harness.h"
#include <signal.h>
#include <time.h>

static void caught(int number)
{
    (void)number;
}

static void nap(void)
{
    struct timespec time = { 0, 30000000 };

    nanosleep(&time, NULL);
}

struct call {
    int (*make)(int fd);
    int fd, result, error, system;
    int is_done;
    pthread_mutex_t done;
};

static char bytes[65536];

static int receive(int fd)
{
    int flags;

    return t_rcv(fd, bytes, 100, &flags);
}

static int receive_parts(int fd)
{
    struct t_iovec parts[2] = { { bytes, 10 }, { bytes + 10, 10 } };
    int flags;

    return t_rcvv(fd, parts, 2, &flags);
}

static int send_much(int fd)
{
    return t_snd(fd, bytes, sizeof bytes, 0);
}

static int send_few(int fd)
{
    return t_snd(fd, bytes, 20, 0);
}

static int send_parts(int fd)
{
    struct t_iovec parts[2] = { { bytes, 10 }, { bytes + 10, 10 } };

    return t_sndv(fd, parts, 2, 0);
}

static int take_request(int fd)
{
    struct t_call call;

    memset(&call, 0, sizeof call);
    return t_listen(fd, &call);
}

static int connect_to(int fd)
{
    struct t_call call;

    memset(&call, 0, sizeof call);
    call.addr = text("signals");
    return t_connect(fd, &call, NULL);
}

static int take_answer(int fd)
{
    return t_rcvconnect(fd, NULL);
}

static int receive_datagram(int fd)
{
    struct t_unitdata unit;
    int flags;

    memset(&unit, 0, sizeof unit);
    return t_rcvudata(fd, &unit, &flags);
}

static int receive_datagram_parts(int fd)
{
    struct t_iovec part = { bytes, 10 };
    struct t_unitdata unit;
    int flags;

    memset(&unit, 0, sizeof unit);
    return t_rcvvudata(fd, &unit, &part, 1, &flags);
}

static int send_datagram(int fd)
{
    struct t_unitdata unit;

    memset(&unit, 0, sizeof unit);
    unit.addr = text("full");
    return t_sndudata(fd, &unit);
}

static int send_datagram_parts(int fd)
{
    struct t_iovec part = { bytes, 10 };
    struct t_unitdata unit;

    memset(&unit, 0, sizeof unit);
    unit.addr = text("full");
    return t_sndvudata(fd, &unit, &part, 1);
}

static int is_done(struct call *c)
{
    int done;

    pthread_mutex_lock(&c->done);
    done = c->is_done;
    pthread_mutex_unlock(&c->done);
    return done;
}

static void *make(void *at)
{
    struct call *c = at;
    int result = c->make(c->fd), error = t_errno, system = errno;

    pthread_mutex_lock(&c->done);
    c->result = result;
    c->error = error;
    c->system = system;
    c->is_done = 1;
    pthread_mutex_unlock(&c->done);
    return NULL;
}

static pthread_t begin(struct call *c, int (*call)(int), int fd)
{
    pthread_t thread;

    memset(c, 0, sizeof *c);
    pthread_mutex_init(&c->done, NULL);
    c->make = call;
    c->fd = fd;
    CHECK(pthread_create(&thread, NULL, make, c) == 0);
    nap();
    CHECK(!is_done(c));
    return thread;
}

/* The call waits, and signals end it: with EINTR, or with a number of bytes. The endpoint is in this state then. */
static void interrupted(int (*call)(int), int fd, int result, int state)
{
    struct call c;
    pthread_t thread = begin(&c, call, fd);

    while (!is_done(&c)) {
        pthread_kill(thread, SIGUSR1);
        nap();
    }
    pthread_join(thread, NULL);
    CHECK(c.result == result);
    CHECK(result >= 0 || (c.error == TSYSERR && c.system == EINTR));
    ANSWERS(t_getstate(fd), state);
}

static void cancelled(int (*call)(int), int fd)
{
    struct call c;
    pthread_t thread = begin(&c, call, fd);
    void *how;

    CHECK(pthread_cancel(thread) == 0 && pthread_join(thread, &how) == 0 && how == PTHREAD_CANCELED);
}

static void of_connections(void)
{
    int listener = endpoint("ticots", 0, "signals", 2), caller = endpoint("ticots", 0, "", 0), a, c;

    interrupted(take_request, listener, -1, T_IDLE);
    cancelled(take_request, listener);
    interrupted(connect_to, caller, -1, T_OUTCON);
    interrupted(take_answer, caller, -1, T_OUTCON);
    ANSWERS(t_close(listener), 0);
    ANSWERS(t_close(caller), 0);
    connected("ticots", &a, &c);
    set_nonblocking(a, 0);
    set_nonblocking(c, 0);
    interrupted(receive, a, -1, T_DATAXFER);
    interrupted(receive_parts, a, -1, T_DATAXFER);
    cancelled(receive_parts, a);
    interrupted(send_much, c, 32768, T_DATAXFER);
    interrupted(send_few, c, -1, T_DATAXFER);
    interrupted(send_parts, c, -1, T_DATAXFER);
    cancelled(send_parts, c);
    ANSWERS(t_close(a), 0);
    ANSWERS(t_close(c), 0);
}

static void of_datagrams(void)
{
    int d = endpoint("ticlts", 0, "waiting", 0), full = endpoint("ticlts", 0, "full", 0), i;
    struct call c;
    pthread_t thread;

    interrupted(receive_datagram, d, -1, T_IDLE);
    interrupted(receive_datagram_parts, d, -1, T_IDLE);
    for (i = 0; i < 16; i++)
        ANSWERS(send_datagram(d), 0);
    interrupted(send_datagram, d, -1, T_IDLE);
    interrupted(send_datagram_parts, d, -1, T_IDLE);
    cancelled(send_datagram_parts, d);
    /* A receive at the destination makes room, and so does its end. */
    thread = begin(&c, send_datagram, d);
    ANSWERS(receive_datagram(full), 0);
    pthread_join(thread, NULL);
    CHECK(c.result == 0);
    thread = begin(&c, send_datagram_parts, d);
    ANSWERS(t_close(full), 0);
    pthread_join(thread, NULL);
    CHECK(c.result == 0);
    ANSWERS(t_look(d), T_UDERR);
    ANSWERS(t_close(d), 0);
}

/* What others do ends a wait, too. */
static void by_others(void)
{
    int a, c, flags;
    struct call call;
    pthread_t thread;
    struct t_optmgmt request = { { 0, 0, NULL }, T_NEGOTIATE };
    uint32_t more_room[5] = { 20, XTI_GENERIC, XTI_RCVBUF, 0, 65536 };

    connected("ticots", &a, &c);
    set_nonblocking(a, 0);
    set_nonblocking(c, 0);
    thread = begin(&call, send_much, c);
    request.opt.buf = more_room;
    request.opt.len = sizeof more_room;
    ANSWERS(t_optmgmt(a, &request, NULL), 0);
    pthread_join(thread, NULL);
    CHECK(call.result == 65536);
    while (t_rcv(a, bytes, sizeof bytes, &flags) > 0 && flags)
        ;
    thread = begin(&call, receive, a);
    ANSWERS(t_close(a), 0);
    pthread_join(thread, NULL);
    CHECK(call.result == -1 && call.error == TBADF);
    set_nonblocking(c, 1);
    ANSWERS(t_look(c), T_DISCONNECT);
    ANSWERS(t_close(c), 0);
    /* A release ends a receive, and a receive of the last data a send, by TLOOK. */
    connected("ticotsord", &a, &c);
    set_nonblocking(a, 0);
    set_nonblocking(c, 0);
    ANSWERS(t_snd(c, bytes, 32768, 0), 32768);
    ANSWERS(t_snd(a, "x", 1, 0), 1);
    ANSWERS(t_sndrel(a), 0);
    thread = begin(&call, send_parts, c);
    ANSWERS(t_rcv(c, bytes, 9, &flags), 1);
    pthread_join(thread, NULL);
    CHECK(call.result == -1 && call.error == TLOOK);
    ANSWERS(t_rcvrel(c), 0);
    ANSWERS(t_close(a), 0);
    ANSWERS(t_close(c), 0);
}

int main(void)
{
    struct sigaction action;

    memset(&action, 0, sizeof action);
    action.sa_handler = caught;
    sigaction(SIGUSR1, &action, NULL);
    of_connections();
    of_datagrams();
    by_others();
    return finish("signals");
}
