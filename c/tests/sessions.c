/* Blocking calls over threads: twelve sessions of 300 kB each way with an orderly release, and 20,000 datagrams. */
#include "harness.h"

enum { SESSIONS = 12, BYTES = 300000, PIECE = 20000, DATAGRAMS = 5000, SENDERS = 4 };

static unsigned char byte_at(int session, int i)
{
    return (unsigned char)((i * 7 + session * 31 + i / 251) & 255);
}

static void send_all(int fd, int session)
{
    unsigned char bytes[PIECE];
    int sent, i;

    for (sent = 0; sent < BYTES; sent += PIECE) {
        for (i = 0; i < PIECE; i++)
            bytes[i] = byte_at(session, sent + i);
        ANSWERS(t_snd(fd, bytes, PIECE, 0), PIECE);
    }
}

/* Receives until the other end releases; how many bytes were right. */
static int receive_all(int fd, int session)
{
    unsigned char bytes[3000];
    int got = 0, wrong = 0, n, i, flags;

    while ((n = t_rcv(fd, bytes, sizeof bytes, &flags)) >= 0) {
        for (i = 0; i < n; i++)
            wrong += bytes[i] != byte_at(session, got + i);
        got += n;
    }
    CHECK(t_errno == TLOOK && t_look(fd) == T_ORDREL);
    ANSWERS(t_rcvrel(fd), 0);
    CHECK(wrong == 0);
    return got;
}

/* The accepting end receives all and then answers as much. */
static void *serve(void *at)
{
    int fd = *(int *)at, session;
    unsigned char first;
    int flags;

    free(at);
    ANSWERS(t_rcv(fd, &first, 1, &flags), 1);
    session = first;
    ANSWERS(receive_all(fd, session), BYTES);
    send_all(fd, session + 1);
    ANSWERS(t_sndrel(fd), 0);
    CHECK(t_getstate(fd) == T_IDLE);
    ANSWERS(t_close(fd), 0);
    return NULL;
}

static void *listen_to_all(void *at)
{
    int listener = *(int *)at, i;
    pthread_t threads[SESSIONS];

    for (i = 0; i < SESSIONS; i++) {
        int *accepting = malloc(sizeof *accepting);
        struct t_call call;
        memset(&call, 0, sizeof call);
        *accepting = endpoint("/dev/ticotsord", 0, NULL, 0);
        ANSWERS(t_listen(listener, &call), 0);
        while (t_accept(listener, *accepting, &call) < 0) {
            struct t_call further;
            memset(&further, 0, sizeof further);
            /* A further request waits: it is rejected, and its caller tries again, as one does for which the queue is full. */
            if (!CHECK(t_errno == TLOOK))
                break;
            ANSWERS(t_listen(listener, &further), 0);
            ANSWERS(t_snddis(listener, &further), 0);
        }
        CHECK(pthread_create(&threads[i], NULL, serve, accepting) == 0);
    }
    for (i = 0; i < SESSIONS; i++)
        pthread_join(threads[i], NULL);
    return NULL;
}

static void *call_and_talk(void *at)
{
    unsigned char session = *(unsigned char *)at;
    int fd = endpoint("ticotsord", 0, "", 0);
    struct t_call call;

    memset(&call, 0, sizeof call);
    call.addr = text("sessions");
    while (t_connect(fd, &call, NULL) < 0) {
        struct t_discon discon = { { 0, 0, NULL }, 0, 0 };
        if (!CHECK(t_errno == TLOOK && t_rcvdis(fd, &discon) == 0 && (discon.reason == 2 || discon.reason == 3)))
            return NULL;
        /* The listener needs its turn: without a pause a caller may ask a million times. */
        usleep(1000);
    }
    ANSWERS(t_snd(fd, &session, 1, 0), 1);
    send_all(fd, session);
    ANSWERS(t_sndrel(fd), 0);
    ANSWERS(receive_all(fd, session + 1), BYTES);
    CHECK(t_getstate(fd) == T_IDLE);
    ANSWERS(t_close(fd), 0);
    return NULL;
}

static void sessions(void)
{
    int listener = endpoint("ticotsord", 0, "sessions", 8), i;
    pthread_t listening, callers[SESSIONS];
    unsigned char numbers[SESSIONS];

    CHECK(pthread_create(&listening, NULL, listen_to_all, &listener) == 0);
    for (i = 0; i < SESSIONS; i++) {
        numbers[i] = (unsigned char)(i * 2);
        CHECK(pthread_create(&callers[i], NULL, call_and_talk, &numbers[i]) == 0);
    }
    for (i = 0; i < SESSIONS; i++)
        pthread_join(callers[i], NULL);
    pthread_join(listening, NULL);
    ANSWERS(t_close(listener), 0);
}

static void *send_datagrams(void *at)
{
    int sender = *(int *)at, fd = endpoint("ticlts", 0, "", 0), i;
    struct t_unitdata unit;
    int numbers[2];

    memset(&unit, 0, sizeof unit);
    unit.addr = text("datagrams");
    unit.udata.buf = numbers;
    unit.udata.len = sizeof numbers;
    numbers[0] = sender;
    for (i = 0; i < DATAGRAMS; i++) {
        numbers[1] = i;
        ANSWERS(t_sndudata(fd, &unit), 0);
    }
    ANSWERS(t_close(fd), 0);
    return NULL;
}

static void datagrams(void)
{
    int fd = endpoint("ticlts", 0, "datagrams", 0), i, flags, numbers[2], senders[SENDERS], next[SENDERS] = { 0 };
    pthread_t threads[SENDERS];
    struct t_unitdata unit;

    memset(&unit, 0, sizeof unit);
    unit.udata = room(numbers, sizeof numbers);
    for (i = 0; i < SENDERS; i++) {
        senders[i] = i;
        CHECK(pthread_create(&threads[i], NULL, send_datagrams, &senders[i]) == 0);
    }
    for (i = 0; i < SENDERS * DATAGRAMS; i++) {
        ANSWERS(t_rcvudata(fd, &unit, &flags), 0);
        CHECK(unit.udata.len == sizeof numbers && numbers[1] == next[numbers[0]]++);
    }
    for (i = 0; i < SENDERS; i++)
        pthread_join(threads[i], NULL);
    ANSWERS(t_look(fd), 0);
    ANSWERS(t_close(fd), 0);
}

int main(void)
{
    sessions();
    datagrams();
    return finish("sessions");
}
