/* A connection that both ends release in order: the caller sends and releases, and the listener answers afterwards. */
#include <fcntl.h>
#include <pthread.h>
#include <stdio.h>
#include <stdlib.h>
#include <string.h>
#include <xti.h>

static void stop(const char *call)
{
    t_error(call);
    exit(1);
}

static int opened(const char *address, unsigned int queue_length)
{
    struct t_bind asked = { { 0, 0, NULL }, 0 };
    int fd = t_open("/dev/ticotsord", O_RDWR, NULL);

    if (fd < 0)
        stop("t_open");
    asked.addr.buf = (void *)(uintptr_t)address;
    asked.addr.len = (unsigned int)strlen(address);
    asked.qlen = queue_length;
    if (t_bind(fd, &asked, NULL) < 0)
        stop("t_bind");
    return fd;
}

/* Receives up to the other end's release, and takes that. */
static int receive_all(int fd, char *bytes, int most)
{
    int got = 0, n, flags;

    while ((n = t_rcv(fd, bytes + got, (unsigned int)(most - got), &flags)) >= 0)
        got += n;
    if (t_errno != TLOOK || t_look(fd) != T_ORDREL || t_rcvrel(fd) < 0)
        stop("t_rcv");
    return got;
}

static void *call_up(void *at)
{
    int fd = opened("", 0), n;
    struct t_call call = { { 0, 7, "release" }, { 0, 0, NULL }, { 0, 0, NULL }, 0 };
    char *received = at;

    if (t_connect(fd, &call, NULL) < 0)
        stop("t_connect");
    if (t_snd(fd, "hello ", 6, 0) < 0 || t_snd(fd, "there", 5, 0) < 0)
        stop("t_snd");
    if (t_sndrel(fd) < 0)
        stop("t_sndrel");
    n = receive_all(fd, received, 99);
    sprintf(received + n, ", state %d", t_getstate(fd));
    t_close(fd);
    return NULL;
}

int main(void)
{
    int fd = opened("release", 1), n;
    char bytes[100], received[120];
    struct t_call request;
    pthread_t caller;

    memset(&request, 0, sizeof request);
    pthread_create(&caller, NULL, call_up, received);
    if (t_listen(fd, &request) < 0 || t_accept(fd, fd, &request) < 0)
        stop("t_listen");
    n = receive_all(fd, bytes, sizeof bytes);
    printf("listener received: %.*s, state %d\n", n, bytes, t_getstate(fd));
    if (t_snd(fd, "welcome", 7, 0) < 0 || t_sndrel(fd) < 0)
        stop("t_snd");
    pthread_join(caller, NULL);
    printf("caller received: %s\n", received);
    printf("listener, state %d\n", t_getstate(fd));
    t_close(fd);
    return 0;
}
