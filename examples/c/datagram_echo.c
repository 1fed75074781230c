/* A server that sends each datagram back to where it came from, and a client that asks it. */
#include <fcntl.h>
#include <pthread.h>
#include <stdio.h>
#include <stdlib.h>
#include <string.h>
#include <xti.h>

static void stop(const char *call)
{
    t_error(call);
    exit(1);
}

static int opened(const char *address)
{
    struct t_bind asked = { { 0, 0, NULL }, 0 };
    int fd = t_open("/dev/ticlts", O_RDWR, NULL);

    if (fd < 0)
        stop("t_open");
    asked.addr.buf = (void *)(uintptr_t)address;
    asked.addr.len = (unsigned int)strlen(address);
    if (t_bind(fd, &asked, NULL) < 0)
        stop("t_bind");
    return fd;
}

/* An empty datagram ends the server. */
static void *serve(void *at)
{
    int fd = *(int *)at, flags;
    struct t_unitdata *unit = t_alloc(fd, T_UNITDATA, T_ALL);

    if (!unit)
        stop("t_alloc");
    do {
        if (t_rcvudata(fd, unit, &flags) < 0)
            stop("t_rcvudata");
        printf("server: %u bytes from %.*s\n", unit->udata.len, (int)unit->addr.len, (char *)unit->addr.buf);
        if (t_sndudata(fd, unit) < 0)
            stop("t_sndudata");
    } while (unit->udata.len > 0);
    t_free(unit, T_UNITDATA);
    t_close(fd);
    return NULL;
}

int main(void)
{
    static const char *const words[] = { "hello", "world", "" };
    int server = opened("echo"), client = opened("client"), flags, i;
    char answer[64];
    pthread_t thread;

    pthread_create(&thread, NULL, serve, &server);
    for (i = 0; i < 3; i++) {
        struct t_unitdata unit = { { 0, 4, "echo" }, { 0, 0, NULL }, { 0, 0, NULL } };
        unit.udata.buf = (void *)(uintptr_t)words[i];
        unit.udata.len = (unsigned int)strlen(words[i]);
        if (t_sndudata(client, &unit) < 0)
            stop("t_sndudata");
        unit.addr.maxlen = 0;
        unit.udata.buf = answer;
        unit.udata.maxlen = sizeof answer;
        if (t_rcvudata(client, &unit, &flags) < 0)
            stop("t_rcvudata");
        printf("client: \"%.*s\" came back\n", (int)unit.udata.len, answer);
    }
    pthread_join(thread, NULL);
    t_close(client);
    return 0;
}
