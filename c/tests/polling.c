/* poll, select and epoll: an endpoint is readable while t_look would tell an event. */
#include "harness.h"
#include <poll.h>
#include <sys/epoll.h>
#include <sys/select.h>

enum { ENDPOINTS = 60 };

static char bytes[65536];

static int is_readable(int fd)
{
    struct pollfd one = { fd, POLLIN, 0 };

    return poll(&one, 1, 0) == 1 && one.revents & POLLIN;
}

static void send_to(int fd, const char *address)
{
    struct t_unitdata unit;

    memset(&unit, 0, sizeof unit);
    unit.addr = text(address);
    unit.udata = text("x");
    ANSWERS(t_sndudata(fd, &unit), 0);
}

static int receive(int fd)
{
    struct t_unitdata unit;
    int flags;

    memset(&unit, 0, sizeof unit);
    unit.udata = room(bytes, 100);
    return t_rcvudata(fd, &unit, &flags);
}

static void many(void)
{
    struct pollfd all[ENDPOINTS];
    char name[8];
    int i, round;

    for (i = 0; i < ENDPOINTS; i++) {
        snprintf(name, sizeof name, "p%d", i);
        all[i].fd = endpoint("ticlts", O_NONBLOCK, name, 0);
        all[i].events = POLLIN;
    }
    ANSWERS(poll(all, ENDPOINTS, 0), 0);
    for (round = 0; round < 3; round++) {
        for (i = 0; i < ENDPOINTS; i += 7)
            send_to(all[round].fd, (snprintf(name, sizeof name, "p%d", i), name));
        ANSWERS(poll(all, ENDPOINTS, 1000), (ENDPOINTS + 6) / 7);
        for (i = 0; i < ENDPOINTS; i++) {
            CHECK((all[i].revents == POLLIN) == (i % 7 == 0));
            if (all[i].revents) {
                ANSWERS(receive(all[i].fd), 0);
                CHECK(!is_readable(all[i].fd));
            }
        }
    }
    send_to(all[0].fd, "nobody");
    CHECK(is_readable(all[0].fd));
    ANSWERS(t_look(all[0].fd), T_UDERR);
    ANSWERS(t_rcvuderr(all[0].fd, NULL), 0);
    CHECK(!is_readable(all[0].fd));
    for (i = 0; i < ENDPOINTS; i++)
        ANSWERS(t_close(all[i].fd), 0);
}

static void of_connections(void)
{
    int listener = endpoint("ticotsord", O_NONBLOCK, "l", 1), accepting = endpoint("ticotsord", O_NONBLOCK, NULL, 0), caller, flags;
    struct t_call call;

    memset(&call, 0, sizeof call);
    CHECK(!is_readable(listener));
    caller = calling("ticotsord", "l");
    CHECK(is_readable(listener) && !is_readable(caller));
    call.sequence = listened(listener);
    CHECK(!is_readable(listener));
    ANSWERS(t_accept(listener, accepting, &call), 0);
    CHECK(is_readable(caller));
    ANSWERS(t_look(caller), T_CONNECT);
    ANSWERS(t_rcvconnect(caller, NULL), 0);
    CHECK(!is_readable(caller) && !is_readable(accepting));
    ANSWERS(t_snd(caller, "hello", 5, 0), 5);
    CHECK(is_readable(accepting));
    ANSWERS(t_rcv(accepting, bytes, 2, &flags), 2);
    CHECK(is_readable(accepting));
    ANSWERS(t_rcv(accepting, bytes, 9, &flags), 3);
    CHECK(!is_readable(accepting));
    ANSWERS(t_snd(caller, bytes, 65536, 0), 32768);
    REFUSED(t_snd(caller, bytes, 1, 0), TFLOW, caller, T_DATAXFER);
    CHECK(!is_readable(caller));
    ANSWERS(t_rcv(accepting, bytes, 65536, &flags), 32768);
    CHECK(is_readable(caller));
    ANSWERS(t_look(caller), T_GODATA);
    CHECK(!is_readable(caller));
    ANSWERS(t_sndrel(caller), 0);
    CHECK(is_readable(accepting));
    ANSWERS(t_look(accepting), T_ORDREL);
    ANSWERS(t_rcvrel(accepting), 0);
    CHECK(!is_readable(accepting));
    ANSWERS(t_snddis(accepting, NULL), 0);
    CHECK(is_readable(caller));
    ANSWERS(t_rcvdis(caller, NULL), 0);
    CHECK(!is_readable(caller));
    ANSWERS(t_close(accepting), 0);
    ANSWERS(t_close(caller), 0);
    caller = calling("ticotsord", "l");
    ANSWERS(t_close(listener), 0);
    CHECK(is_readable(caller));
    ANSWERS(t_close(caller), 0);
}

static void *send_later(void *at)
{
    usleep(20000);
    send_to(*(int *)at, "waited-for");
    return NULL;
}

static void by_select_and_epoll(void)
{
    int fd = endpoint("ticlts", 0, "waited-for", 0), sender = endpoint("ticlts", 0, "", 0), set = epoll_create1(0);
    struct epoll_event event = { .events = EPOLLIN };
    struct timeval long_time = { 5, 0 };
    pthread_t thread;
    fd_set readable;

    CHECK(set >= 0 && epoll_ctl(set, EPOLL_CTL_ADD, fd, &event) == 0);
    ANSWERS(epoll_wait(set, &event, 1, 0), 0);
    CHECK(pthread_create(&thread, NULL, send_later, &sender) == 0);
    FD_ZERO(&readable);
    FD_SET(fd, &readable);
    ANSWERS(select(fd + 1, &readable, NULL, NULL, &long_time), 1);
    pthread_join(thread, NULL);
    ANSWERS(epoll_wait(set, &event, 1, 0), 1);
    ANSWERS(receive(fd), 0);
    ANSWERS(epoll_wait(set, &event, 1, 0), 0);
    close(set);
    ANSWERS(t_close(fd), 0);
    ANSWERS(t_close(sender), 0);
}

/* The mark of a datagram that had no room is told when its destination receives, or is gone. */
static void of_flow(void)
{
    int a = endpoint("ticlts", O_NONBLOCK, "a", 0), b = endpoint("ticlts", O_NONBLOCK, "b", 0), i;
    struct t_unitdata unit;

    memset(&unit, 0, sizeof unit);
    unit.addr = text("b");
    unit.udata = text("x");
    for (i = 0; i < 16; i++)
        send_to(a, "b");
    REFUSED(t_sndudata(a, &unit), TFLOW, a, T_IDLE);
    CHECK(!is_readable(a));
    ANSWERS(receive(b), 0);
    CHECK(is_readable(a));
    ANSWERS(t_sndudata(a, &unit), 0);
    CHECK(!is_readable(a));
    REFUSED(t_sndudata(a, &unit), TFLOW, a, T_IDLE);
    ANSWERS(t_close(b), 0);
    CHECK(is_readable(a));
    ANSWERS(t_look(a), T_GODATA);
    CHECK(!is_readable(a));
    ANSWERS(t_close(a), 0);
}

int main(void)
{
    many();
    of_connections();
    by_select_and_epoll();
    of_flow();
    return finish("polling");
}
