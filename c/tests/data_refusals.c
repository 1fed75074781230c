/* Each error of each call that sends, receives or releases, with the state afterwards. */
#include "harness.h"

static char bytes[70000];

static void sending(void)
{
    struct t_iovec parts[17];
    int a, c, i, flags, idle = endpoint("ticots", O_NONBLOCK, "idle", 0);

    for (i = 0; i < 17; i++)
        parts[i] = (struct t_iovec){ bytes, 1 };
    connected("ticots", &a, &c);
    REFUSED(t_snd(idle, bytes, 1, 0), TOUTSTATE, idle, T_IDLE);
    REFUSED(t_sndv(idle, parts, 1, 0), TOUTSTATE, idle, T_IDLE);
    REFUSED(t_rcv(idle, bytes, 1, &flags), TOUTSTATE, idle, T_IDLE);
    REFUSED(t_rcvv(idle, parts, 1, &flags), TOUTSTATE, idle, T_IDLE);
    REFUSED(t_snd(c, bytes, 1, 8), TBADFLAG, c, T_DATAXFER);
    REFUSED(t_sndv(c, parts, 1, -1), TBADFLAG, c, T_DATAXFER);
    REFUSED(t_snd(c, bytes, 65537, 0), TBADDATA, c, T_DATAXFER);
    REFUSED(t_snd(c, bytes, 129, T_EXPEDITED), TBADDATA, c, T_DATAXFER);
    REFUSED(t_sndv(c, parts, 17, 0), TBADDATA, c, T_DATAXFER);
    parts[1].iov_len = (size_t)1 << 32 | 1;
    REFUSED(t_sndv(c, parts, 2, 0), TBADDATA, c, T_DATAXFER);
    parts[1].iov_len = 1;
    REFUSED(t_rcv(a, bytes, 1, &flags), TNODATA, a, T_DATAXFER);
    REFUSED(t_rcvv(a, parts, 16, &flags), TNODATA, a, T_DATAXFER);
    REFUSED(t_rcvv(a, parts, 17, &flags), TBADDATA, a, T_DATAXFER);
    ANSWERS(t_snd(c, bytes, 0, T_PUSH), 0);
    ANSWERS(t_rcv(a, bytes, 9, &flags), 0);
    CHECK(flags == 0);
    ANSWERS(t_snd(c, bytes, 65536, 0), 32768);
    REFUSED(t_snd(c, bytes, 1, 0), TFLOW, c, T_DATAXFER);
    REFUSED(t_sndv(c, parts, 1, 0), TFLOW, c, T_DATAXFER);
    ANSWERS(t_look(c), 0);
    ANSWERS(t_rcv(a, bytes, 1000, &flags), 1000);
    CHECK(flags == T_MORE);
    ANSWERS(t_look(c), T_GODATA);
    ANSWERS(t_look(c), 0);
    for (i = 0; i < 16; i++)
        ANSWERS(t_snd(c, bytes, 1, T_EXPEDITED), 1);
    REFUSED(t_snd(c, bytes, 1, T_EXPEDITED), TFLOW, c, T_DATAXFER);
    ANSWERS(t_look(a), T_EXDATA);
    ANSWERS(t_rcv(a, bytes, 9, &flags), 1);
    CHECK(flags == T_EXPEDITED);
    ANSWERS(t_look(c), T_GOEXDATA);
    ANSWERS(t_snddis(a, NULL), 0);
    REFUSED(t_snd(c, bytes, 1, 0), TLOOK, c, T_DATAXFER);
    REFUSED(t_sndv(c, parts, 1, 0), TLOOK, c, T_DATAXFER);
    REFUSED(t_rcv(c, bytes, 1, &flags), TLOOK, c, T_DATAXFER);
    REFUSED(t_rcvv(c, parts, 1, &flags), TLOOK, c, T_DATAXFER);
    ANSWERS(t_look(c), T_DISCONNECT);
    ANSWERS(t_close(a), 0);
    ANSWERS(t_close(c), 0);
    ANSWERS(t_close(idle), 0);
}

/* A message that is sent in pieces has no more bytes than one that is sent at once. */
static void sending_in_pieces(void)
{
    struct t_iovec parts[2] = { { bytes, 20 }, { bytes, 9 } };
    struct t_iovec much[2] = { { bytes, 32768 }, { bytes, 32769 } };
    int a, c, flags;

    connected("ticots", &a, &c);
    ANSWERS(t_snd(c, bytes, 100, T_EXPEDITED | T_MORE), 100);
    REFUSED(t_snd(c, bytes, 29, T_EXPEDITED), TBADDATA, c, T_DATAXFER);
    REFUSED(t_sndv(c, parts, 2, T_EXPEDITED), TBADDATA, c, T_DATAXFER);
    REFUSED(t_sndv(c, much, 2, 0), TBADDATA, c, T_DATAXFER);
    ANSWERS(t_snd(c, bytes, 1, T_MORE), 1);
    REFUSED(t_snd(c, bytes, 65536, 0), TBADDATA, c, T_DATAXFER);
    REFUSED(t_sndv(c, much, 2, 0), TBADDATA, c, T_DATAXFER);
    ANSWERS(t_rcv(a, bytes, 200, &flags), 100);
    CHECK(flags == (T_EXPEDITED | T_MORE));
    ANSWERS(t_close(a), 0);
    ANSWERS(t_close(c), 0);
}

static void releasing(void)
{
    int a, c, flags, idle = endpoint("ticotsord", O_NONBLOCK, "idle", 0);
    struct t_iovec part = { bytes, 9 };
    char told[64];
    struct t_discon release = { .udata = { .maxlen = 0, .len = 65, .buf = bytes } };
    struct t_discon taken = { .udata = { .maxlen = sizeof told, .buf = told } };

    connected("ticotsord", &a, &c);
    REFUSED(t_sndrel(idle), TOUTSTATE, idle, T_IDLE);
    REFUSED(t_rcvrel(idle), TOUTSTATE, idle, T_IDLE);
    REFUSED(t_rcvrel(c), TNOREL, c, T_DATAXFER);
    REFUSED(t_rcvreldata(c, &taken), TNOREL, c, T_DATAXFER);
    REFUSED(t_snd(c, bytes, 0, 0), TBADDATA, c, T_DATAXFER);
    REFUSED(t_sndv(c, &part, 0, 0), TBADDATA, c, T_DATAXFER);
    ANSWERS(t_snd(a, "last", 4, 0), 4);
    ANSWERS(t_sndrel(a), 0);
    REFUSED(t_snd(a, bytes, 1, 0), TOUTSTATE, a, T_OUTREL);
    REFUSED(t_rcvrel(c), TNOREL, c, T_DATAXFER);
    ANSWERS(t_rcv(c, bytes, 9, &flags), 4);
    CHECK(flags == 0);
    REFUSED(t_rcv(c, bytes, 9, &flags), TLOOK, c, T_DATAXFER);
    REFUSED(t_rcvv(c, &part, 1, &flags), TLOOK, c, T_DATAXFER);
    REFUSED(t_snd(c, bytes, 9, 0), TLOOK, c, T_DATAXFER);
    REFUSED(t_sndv(c, &part, 1, 0), TLOOK, c, T_DATAXFER);
    ANSWERS(t_look(c), T_ORDREL);
    ANSWERS(t_rcvrel(c), 0);
    REFUSED(t_rcv(c, bytes, 9, &flags), TOUTSTATE, c, T_INREL);
    REFUSED(t_rcvreldata(c, &taken), TOUTSTATE, c, T_INREL);
    REFUSED(t_sndreldata(c, &release), TBADDATA, c, T_INREL);
    memcpy(bytes, "bye", 3);
    release.udata.len = 3;
    ANSWERS(t_sndreldata(c, &release), 0);
    CHECK(t_getstate(c) == T_IDLE);
    REFUSED(t_sndreldata(a, &release), TOUTSTATE, a, T_OUTREL);
    ANSWERS(t_rcvreldata(a, &taken), 0);
    CHECK(taken.udata.len == 3 && memcmp(told, "bye", 3) == 0);
    CHECK(t_getstate(a) == T_IDLE);
    ANSWERS(t_close(a), 0);
    ANSWERS(t_close(c), 0);
    connected("ticotsord", &a, &c);
    ANSWERS(t_close(a), 0);
    REFUSED(t_sndrel(c), TLOOK, c, T_DATAXFER);
    REFUSED(t_sndreldata(c, &release), TLOOK, c, T_DATAXFER);
    REFUSED(t_rcvrel(c), TLOOK, c, T_DATAXFER);
    REFUSED(t_rcvreldata(c, &taken), TLOOK, c, T_DATAXFER);
    REFUSED(t_snddis(c, NULL), TLOOK, c, T_DATAXFER);
    ANSWERS(t_close(c), 0);
    connected("ticotsord", &a, &c);
    ANSWERS(t_sndreldata(c, &release), 0);
    taken.udata.maxlen = 2;
    REFUSED(t_rcvreldata(a, &taken), TBUFOVFLW, a, T_INREL);
    ANSWERS(t_sndreldata(a, NULL), 0);
    ANSWERS(t_rcvrel(c), 0);
    ANSWERS(t_close(a), 0);
    ANSWERS(t_close(c), 0);
    ANSWERS(t_close(idle), 0);
}

static void datagram_sending(int a, int unbound)
{
    struct t_unitdata unit;
    struct t_iovec parts[17];
    int i;

    memset(&unit, 0, sizeof unit);
    for (i = 0; i < 17; i++)
        parts[i] = (struct t_iovec){ bytes, 1 };
    REFUSED(t_sndudata(unbound, &unit), TOUTSTATE, unbound, T_UNBND);
    REFUSED(t_sndvudata(unbound, &unit, parts, 1), TOUTSTATE, unbound, T_UNBND);
    REFUSED(t_sndudata(a, &unit), TBADADDR, a, T_IDLE);
    REFUSED(t_sndvudata(a, &unit, parts, 1), TBADADDR, a, T_IDLE);
    unit.addr.buf = bytes;
    unit.addr.len = 65;
    REFUSED(t_sndudata(a, &unit), TBADADDR, a, T_IDLE);
    unit.addr = text("b");
    unit.opt = text("?");
    REFUSED(t_sndudata(a, &unit), TBADOPT, a, T_IDLE);
    REFUSED(t_sndvudata(a, &unit, parts, 1), TBADOPT, a, T_IDLE);
    unit.opt.buf = bytes;
    unit.opt.len = 257;
    REFUSED(t_sndudata(a, &unit), TBADOPT, a, T_IDLE);
    REFUSED(t_sndvudata(a, &unit, parts, 1), TBADOPT, a, T_IDLE);
    unit.opt.len = 0;
    unit.udata.buf = bytes;
    unit.udata.len = 8193;
    REFUSED(t_sndudata(a, &unit), TBADDATA, a, T_IDLE);
    REFUSED(t_sndvudata(a, &unit, parts, 17), TBADDATA, a, T_IDLE);
    parts[1].iov_len = 8192;
    REFUSED(t_sndvudata(a, &unit, parts, 2), TBADDATA, a, T_IDLE);
    parts[1].iov_len = 1;
    unit.udata.len = 8192;
    for (i = 0; i < 16; i++)
        ANSWERS(t_sndudata(a, &unit), 0);
    REFUSED(t_sndudata(a, &unit), TFLOW, a, T_IDLE);
    REFUSED(t_sndvudata(a, &unit, parts, 16), TFLOW, a, T_IDLE);
    unit.addr = text("nobody");
    unit.opt.len = 0;
    ANSWERS(t_sndvudata(a, &unit, parts, 16), 0);
    REFUSED(t_sndudata(a, &unit), TLOOK, a, T_IDLE);
    REFUSED(t_sndvudata(a, &unit, parts, 1), TLOOK, a, T_IDLE);
    ANSWERS(t_look(a), T_UDERR);
}

static void datagram_receiving(int a, int b, int unbound)
{
    char address[8], small[1];
    struct t_unitdata unit;
    struct t_uderr error;
    struct t_iovec parts[17];
    int i, flags;

    memset(&unit, 0, sizeof unit);
    memset(&error, 0, sizeof error);
    for (i = 0; i < 17; i++)
        parts[i] = (struct t_iovec){ bytes, 1 };
    REFUSED(t_rcvudata(unbound, &unit, &flags), TOUTSTATE, unbound, T_UNBND);
    REFUSED(t_rcvvudata(unbound, &unit, parts, 1, &flags), TOUTSTATE, unbound, T_UNBND);
    REFUSED(t_rcvuderr(unbound, &error), TOUTSTATE, unbound, T_UNBND);
    REFUSED(t_rcvudata(a, &unit, &flags), TLOOK, a, T_IDLE);
    REFUSED(t_rcvvudata(a, &unit, parts, 1, &flags), TLOOK, a, T_IDLE);
    error.addr = room(small, 1);
    REFUSED(t_rcvuderr(a, &error), TBUFOVFLW, a, T_IDLE);
    REFUSED(t_rcvuderr(a, &error), TNOUDERR, a, T_IDLE);
    REFUSED(t_rcvudata(a, &unit, &flags), TNODATA, a, T_IDLE);
    REFUSED(t_rcvvudata(a, &unit, parts, 16, &flags), TNODATA, a, T_IDLE);
    REFUSED(t_rcvvudata(b, &unit, parts, 17, &flags), TBADDATA, b, T_IDLE);
    unit.addr = text("b");
    REFUSED(t_sndudata(a, &unit), TFLOW, a, T_IDLE);
    unit.addr = room(address, sizeof address);
    unit.udata = room(bytes, 8000);
    ANSWERS(t_rcvudata(b, &unit, &flags), 0);
    CHECK(flags == T_MORE && unit.udata.len == 8000 && unit.addr.len == 3 && memcmp(address, "alf", 3) == 0);
    ANSWERS(t_rcvvudata(b, &unit, parts, 2, &flags), 2);
    CHECK(flags == T_MORE && unit.addr.len == 0);
    ANSWERS(t_rcvudata(b, &unit, &flags), 0);
    CHECK(flags == 0 && unit.udata.len == 190);
    ANSWERS(t_look(a), T_GODATA);
    unit.addr = room(small, 1);
    REFUSED(t_rcvudata(b, &unit, &flags), TBUFOVFLW, b, T_IDLE);
    REFUSED(t_rcvvudata(b, &unit, parts, 16, &flags), TBUFOVFLW, b, T_IDLE);
    unit.addr = text("nobody");
    unit.udata.len = 1;
    ANSWERS(t_sndudata(a, &unit), 0);
    error.addr = room(address, sizeof address);
    ANSWERS(t_rcvuderr(a, &error), 0);
    CHECK(error.error == 1 && error.addr.len == 6 && memcmp(address, "nobody", 6) == 0);
    ANSWERS(t_sndudata(a, &unit), 0);
    ANSWERS(t_rcvuderr(a, NULL), 0);
}

/* O_NONBLOCK that is set by fcntl at an endpoint that was opened without it. */
static void without_waiting_by_fcntl(void)
{
    int listener = endpoint("ticotsord", 0, "l", 1), caller = endpoint("ticotsord", 0, "", 0), flags, i;
    int d = endpoint("ticlts", 0, "d", 0);
    struct t_unitdata unit;
    struct t_call call;

    memset(&call, 0, sizeof call);
    memset(&unit, 0, sizeof unit);
    set_nonblocking(listener, 1);
    set_nonblocking(caller, 1);
    set_nonblocking(d, 1);
    REFUSED(t_listen(listener, &call), TNODATA, listener, T_IDLE);
    call.addr = text("l");
    REFUSED(t_connect(caller, &call, NULL), TNODATA, caller, T_OUTCON);
    REFUSED(t_rcvconnect(caller, NULL), TNODATA, caller, T_OUTCON);
    memset(&call, 0, sizeof call);
    call.sequence = listened(listener);
    ANSWERS(t_accept(listener, listener, &call), 0);
    ANSWERS(t_rcvconnect(caller, NULL), 0);
    REFUSED(t_rcv(listener, bytes, 1, &flags), TNODATA, listener, T_DATAXFER);
    ANSWERS(t_snd(caller, bytes, 65536, 0), 32768);
    REFUSED(t_snd(caller, bytes, 1, 0), TFLOW, caller, T_DATAXFER);
    ANSWERS(t_rcv(listener, bytes, 65536, &flags), 32768);
    ANSWERS(t_look(caller), T_GODATA);
    REFUSED(t_rcvudata(d, &unit, &flags), TNODATA, d, T_IDLE);
    unit.addr = text("d");
    for (i = 0; i < 16; i++)
        ANSWERS(t_sndudata(d, &unit), 0);
    REFUSED(t_sndudata(d, &unit), TFLOW, d, T_IDLE);
    ANSWERS(t_close(listener), 0);
    ANSWERS(t_close(caller), 0);
    ANSWERS(t_close(d), 0);
}

static void *receive_all(void *at)
{
    int fd = *(int *)at, flags, n, got = 0;
    static char room[70000];

    while (got < 65536 && (n = t_rcv(fd, room, sizeof room, &flags)) > 0)
        got += n;
    ANSWERS(got, 65536);
    return NULL;
}

/* O_NONBLOCK is cleared by fcntl at both ends: a receive and a long send wait. */
static void waiting_by_fcntl(void)
{
    pthread_t thread;
    int a, c;

    connected("ticotsord", &a, &c);
    set_nonblocking(a, 0);
    set_nonblocking(c, 0);
    CHECK(pthread_create(&thread, NULL, receive_all, &a) == 0);
    ANSWERS(t_snd(c, bytes, 65536, 0), 65536);
    pthread_join(thread, NULL);
    ANSWERS(t_close(a), 0);
    ANSWERS(t_close(c), 0);
}

int main(void)
{
    int a = endpoint("ticlts", O_NONBLOCK, "alf", 0), b = endpoint("ticlts", O_NONBLOCK, "b", 0);
    int unbound = endpoint("ticlts", O_NONBLOCK, NULL, 0);

    sending();
    sending_in_pieces();
    releasing();
    without_waiting_by_fcntl();
    waiting_by_fcntl();
    datagram_sending(a, unbound);
    datagram_receiving(a, b, unbound);
    ANSWERS(t_close(a), 0);
    ANSWERS(t_close(b), 0);
    ANSWERS(t_close(unbound), 0);
    return finish("data_refusals");
}
