/* A server of one thread over poll: a listener and its connections, each with O_NONBLOCK. It turns letters to capitals. */
#include <ctype.h>
#include <fcntl.h>
#include <poll.h>
#include <pthread.h>
#include <stdio.h>
#include <stdlib.h>
#include <string.h>
#include <xti.h>

enum { CLIENTS = 3 };

static void stop(const char *call)
{
    t_error(call);
    exit(1);
}

static int opened(int flags, const char *address, unsigned int queue_length)
{
    struct t_bind asked = { { 0, 0, NULL }, 0 };
    int fd = t_open("/dev/ticotsord", O_RDWR | flags, NULL);

    if (fd < 0)
        stop("t_open");
    asked.addr.buf = (void *)(uintptr_t)address;
    asked.addr.len = (unsigned int)strlen(address);
    asked.qlen = queue_length;
    if (t_bind(fd, &asked, NULL) < 0)
        stop("t_bind");
    return fd;
}

static void *talk(void *at)
{
    char *line = at;
    int fd = opened(0, "", 0), n, flags;
    struct t_call call = { { 0, 6, "server" }, { 0, 0, NULL }, { 0, 0, NULL }, 0 };

    if (t_connect(fd, &call, NULL) < 0)
        stop("t_connect");
    if (t_snd(fd, line, (unsigned int)strlen(line), 0) < 0)
        stop("t_snd");
    if ((n = t_rcv(fd, line, 40, &flags)) < 0)
        stop("t_rcv");
    line[n] = 0;
    if (t_sndrel(fd) < 0 || t_rcv(fd, line + n, 1, &flags) >= 0 || t_look(fd) != T_ORDREL || t_rcvrel(fd) < 0)
        stop("t_sndrel");
    t_close(fd);
    return NULL;
}

/* The listener, and the connections that it has accepted; requests that were taken and not answered. */
static struct pollfd all[1 + CLIENTS];
static int count = 1, ended, requests[CLIENTS], waiting;

/* Takes all requests that wait, and then accepts them; a further one that comes meanwhile is an event of its own. */
static void take_requests(int listener)
{
    struct t_call call;

    memset(&call, 0, sizeof call);
    while (waiting < CLIENTS && t_listen(listener, &call) == 0)
        requests[waiting++] = call.sequence;
    while (waiting > 0) {
        int accepting = opened(O_NONBLOCK, "", 0);
        call.sequence = requests[waiting - 1];
        if (t_accept(listener, accepting, &call) < 0) {
            if (t_errno != TLOOK)
                stop("t_accept");
            t_close(accepting);
            return;
        }
        waiting--;
        all[count].fd = accepting;
        all[count++].events = POLLIN;
    }
}

static void answer(int fd)
{
    char bytes[40];
    int n, i, flags;

    if ((n = t_rcv(fd, bytes, sizeof bytes, &flags)) < 0)
        stop("t_rcv");
    for (i = 0; i < n; i++)
        bytes[i] = (char)toupper((unsigned char)bytes[i]);
    if (t_snd(fd, bytes, (unsigned int)n, 0) != n)
        stop("t_snd");
}

static void take_event(struct pollfd *one)
{
    switch (t_look(one->fd)) {
    case T_LISTEN:
        take_requests(one->fd);
        break;
    case T_DATA:
        answer(one->fd);
        break;
    case T_ORDREL:
        if (t_rcvrel(one->fd) < 0 || t_sndrel(one->fd) < 0)
            stop("t_rcvrel");
        t_close(one->fd);
        one->fd = -1;
        ended++;
        break;
    default:
        break;
    }
}

static void serve(int listener)
{
    int i;

    all[0].fd = listener;
    all[0].events = POLLIN;
    while (ended < CLIENTS && poll(all, (nfds_t)count, -1) > 0)
        for (i = count - 1; i >= 0; i--)
            if (all[i].revents)
                take_event(&all[i]);
}

int main(void)
{
    char lines[CLIENTS][41] = { "one", "two words", "and three words" };
    int listener = opened(O_NONBLOCK, "server", CLIENTS), i;
    pthread_t clients[CLIENTS];

    for (i = 0; i < CLIENTS; i++)
        pthread_create(&clients[i], NULL, talk, lines[i]);
    serve(listener);
    for (i = 0; i < CLIENTS; i++) {
        pthread_join(clients[i], NULL);
        printf("client %d: %s\n", i + 1, lines[i]);
    }
    t_close(listener);
    return 0;
}
