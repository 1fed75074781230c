/* A listener whose queue takes two requests: it takes both, accepts one onto another endpoint, and rejects the other. */
#include <fcntl.h>
#include <pthread.h>
#include <stdio.h>
#include <stdlib.h>
#include <string.h>
#include <xti.h>

static void stop(const char *call)
{
    t_error(call);
    exit(1);
}

static int opened(const char *address, unsigned int queue_length)
{
    struct t_bind asked = { { 0, 0, NULL }, 0 };
    int fd = t_open("/dev/ticots", O_RDWR, NULL);

    if (fd < 0)
        stop("t_open");
    asked.addr.buf = (void *)(uintptr_t)address;
    asked.addr.len = (unsigned int)strlen(address);
    asked.qlen = queue_length;
    if (t_bind(fd, &asked, NULL) < 0)
        stop("t_bind");
    return fd;
}

/* A client that calls, and tells how it was answered. */
static void *call_up(void *at)
{
    int fd = opened("", 0), flags;
    struct t_call call = { { 0, 8, "listener" }, { 0, 0, NULL }, { 0, 0, NULL }, 0 };
    struct t_discon discon = { { 64, 0, NULL }, 0, 0 };
    char *said = at, bytes[64];
    int n;

    discon.udata.buf = bytes;
    if (t_connect(fd, &call, NULL) == 0) {
        if ((n = t_rcv(fd, bytes, sizeof bytes, &flags)) < 0)
            stop("t_rcv");
        sprintf(said, "accepted: %.*s", n, bytes);
        t_snddis(fd, NULL);
    } else {
        if (t_errno != TLOOK || t_look(fd) != T_DISCONNECT || t_rcvdis(fd, &discon) < 0)
            stop("t_connect");
        sprintf(said, "rejected with reason %d: %.*s", discon.reason, (int)discon.udata.len, bytes);
    }
    t_close(fd);
    return NULL;
}

int main(void)
{
    int listener = opened("listener", 2), accepting = opened("", 0), i;
    char said[2][100];
    pthread_t clients[2];
    struct t_call requests[2];

    for (i = 0; i < 2; i++) {
        memset(&requests[i], 0, sizeof requests[i]);
        pthread_create(&clients[i], NULL, call_up, said[i]);
        if (t_listen(listener, &requests[i]) < 0)
            stop("t_listen");
        printf("listener: request %d, state %d\n", requests[i].sequence, t_getstate(listener));
    }
    if (t_accept(listener, accepting, &requests[0]) < 0)
        stop("t_accept");
    if (t_snd(accepting, "welcome", 7, 0) < 0)
        stop("t_snd");
    requests[1].udata.buf = "busy";
    requests[1].udata.len = 4;
    if (t_snddis(listener, &requests[1]) < 0)
        stop("t_snddis");
    for (i = 0; i < 2; i++) {
        pthread_join(clients[i], NULL);
        printf("client %d: %s\n", i + 1, said[i]);
    }
    t_close(accepting);
    t_close(listener);
    return 0;
}
