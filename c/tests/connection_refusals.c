/* Each error of each call that makes a connection or breaks it, with the state afterwards. */
#include "harness.h"

static char bytes[300];

static struct netbuf long_by_one(unsigned int most)
{
    struct netbuf n = { 0, 0, bytes };

    n.len = most + 1;
    return n;
}

static void requesting(void)
{
    int listener = endpoint("ticots", O_NONBLOCK, "l", 1), caller = endpoint("ticots", O_NONBLOCK, NULL, 0), second, third;
    char small[1];
    struct t_call call, answer;
    struct t_discon discon = { { 0, 0, NULL }, 0, 0 };

    memset(&call, 0, sizeof call);
    memset(&answer, 0, sizeof answer);
    REFUSED(t_connect(caller, &call, NULL), TOUTSTATE, caller, T_UNBND);
    REFUSED(t_rcvconnect(caller, NULL), TOUTSTATE, caller, T_UNBND);
    REFUSED(t_listen(caller, &answer), TOUTSTATE, caller, T_UNBND);
    ANSWERS(t_bind(caller, NULL, NULL), 0);
    REFUSED(t_connect(caller, NULL, NULL), TBADADDR, caller, T_IDLE);
    call.addr = long_by_one(64);
    REFUSED(t_connect(caller, &call, NULL), TBADADDR, caller, T_IDLE);
    call.addr = text("l");
    call.opt = text("no options");
    REFUSED(t_connect(caller, &call, NULL), TBADOPT, caller, T_IDLE);
    call.opt = long_by_one(256);
    REFUSED(t_connect(caller, &call, NULL), TBADOPT, caller, T_IDLE);
    call.opt.len = 0;
    call.udata = long_by_one(64);
    REFUSED(t_connect(caller, &call, NULL), TBADDATA, caller, T_IDLE);
    call.udata = text("data");
    REFUSED(t_listen(caller, &answer), TBADQLEN, caller, T_IDLE);
    REFUSED(t_listen(listener, &answer), TNODATA, listener, T_IDLE);
    REFUSED(t_connect(caller, &call, NULL), TNODATA, caller, T_OUTCON);
    REFUSED(t_connect(caller, &call, NULL), TOUTSTATE, caller, T_OUTCON);
    REFUSED(t_rcvconnect(caller, NULL), TNODATA, caller, T_OUTCON);
    REFUSED(t_rcvdis(caller, NULL), TNODIS, caller, T_OUTCON);
    second = calling("ticots", "l");
    REFUSED(t_rcvconnect(second, NULL), TLOOK, second, T_OUTCON);
    ANSWERS(t_rcvdis(second, &discon), 0);
    CHECK(discon.reason == 2 && discon.sequence == 0 && t_getstate(second) == T_IDLE);
    third = calling("ticots", "nobody");
    ANSWERS(t_rcvdis(third, &discon), 0);
    CHECK(discon.reason == 1);
    answer.udata = room(small, 1);
    REFUSED(t_listen(listener, &answer), TBUFOVFLW, listener, T_INCON);
    CHECK(answer.sequence == 1);
    REFUSED(t_listen(listener, &answer), TQFULL, listener, T_INCON);
    ANSWERS(t_snddis(caller, NULL), 0);
    REFUSED(t_listen(listener, &answer), TQFULL, listener, T_INCON);
    REFUSED(t_accept(listener, listener, &answer), TLOOK, listener, T_INCON);
    REFUSED(t_snddis(listener, &answer), TLOOK, listener, T_INCON);
    ANSWERS(t_rcvdis(listener, &discon), 0);
    CHECK(discon.reason == 4 && discon.sequence == 1 && t_getstate(listener) == T_IDLE);
    ANSWERS(t_close(listener), 0);
    ANSWERS(t_close(caller), 0);
    ANSWERS(t_close(second), 0);
    ANSWERS(t_close(third), 0);
}

static void accepting(void)
{
    int listener = endpoint("ticots", O_NONBLOCK, "l", 3), callers[3], i, other = endpoint("ticotsord", 0, "o", 0);
    int with_queue = endpoint("ticots", 0, "q", 1), unbound = endpoint("ticots", 0, NULL, 0);
    struct t_call call, answer;
    char small[1];

    memset(&call, 0, sizeof call);
    memset(&answer, 0, sizeof answer);
    REFUSED(t_accept(listener, unbound, &call), TOUTSTATE, listener, T_IDLE);
    for (i = 0; i < 2; i++)
        callers[i] = calling("ticots", "l");
    REFUSED(t_accept(listener, -1, &call), TBADF, listener, T_IDLE);
    call.sequence = listened(listener);
    REFUSED(t_accept(listener, other, &call), TPROVMISMATCH, listener, T_INCON);
    REFUSED(t_accept(listener, callers[0], &call), TOUTSTATE, listener, T_INCON);
    answer.sequence = 99;
    REFUSED(t_accept(listener, unbound, &answer), TBADSEQ, listener, T_INCON);
    REFUSED(t_snddis(listener, &answer), TBADSEQ, listener, T_INCON);
    REFUSED(t_accept(listener, with_queue, &call), TRESQLEN, listener, T_INCON);
    call.opt = text("x");
    REFUSED(t_accept(listener, unbound, &call), TBADOPT, listener, T_INCON);
    call.opt = long_by_one(256);
    REFUSED(t_accept(listener, unbound, &call), TBADOPT, listener, T_INCON);
    call.opt.len = 0;
    call.udata = long_by_one(64);
    REFUSED(t_accept(listener, unbound, &call), TBADDATA, listener, T_INCON);
    REFUSED(t_snddis(listener, &call), TBADDATA, listener, T_INCON);
    call.udata.len = 0;
    REFUSED(t_accept(listener, unbound, &call), TLOOK, listener, T_INCON);
    ANSWERS(t_look(listener), T_LISTEN);
    answer.sequence = listened(listener);
    REFUSED(t_accept(listener, listener, &call), TINDOUT, listener, T_INCON);
    call.udata = text("welcome");
    ANSWERS(t_accept(listener, unbound, &call), 0);
    CHECK(t_getstate(listener) == T_INCON && t_getstate(unbound) == T_DATAXFER);
    answer.udata = text("no");
    ANSWERS(t_snddis(listener, &answer), 0);
    CHECK(t_getstate(listener) == T_IDLE);
    memset(&answer, 0, sizeof answer);
    answer.udata = room(small, 1);
    REFUSED(t_rcvconnect(callers[0], &answer), TBUFOVFLW, callers[0], T_DATAXFER);
    {
        struct t_discon discon = { { 0, 0, NULL }, 0, 0 };
        discon.udata = room(small, 1);
        REFUSED(t_rcvdis(callers[1], &discon), TBUFOVFLW, callers[1], T_IDLE);
    }
    REFUSED(t_rcvdis(callers[1], NULL), TOUTSTATE, callers[1], T_IDLE);
    REFUSED(t_snddis(callers[1], NULL), TOUTSTATE, callers[1], T_IDLE);
    ANSWERS(t_close(listener), 0);
    ANSWERS(t_close(other), 0);
    ANSWERS(t_close(with_queue), 0);
    ANSWERS(t_close(unbound), 0);
    ANSWERS(t_close(callers[0]), 0);
    ANSWERS(t_close(callers[1]), 0);
}

static void *accept_with_data(void *at)
{
    int listener = *(int *)at;
    struct t_call call;

    memset(&call, 0, sizeof call);
    call.sequence = listened(listener);
    call.udata = text("welcome");
    ANSWERS(t_accept(listener, listener, &call), 0);
    return NULL;
}

/* What a t_connect that waits is told. */
static void requesting_and_waiting(void)
{
    int listener = endpoint("ticots", 0, "l", 1), caller = endpoint("ticots", 0, "", 0);
    struct t_call call, answer;
    pthread_t accepting;
    char small[1];

    memset(&call, 0, sizeof call);
    memset(&answer, 0, sizeof answer);
    call.addr = text("nobody");
    REFUSED(t_connect(caller, &call, NULL), TLOOK, caller, T_OUTCON);
    ANSWERS(t_look(caller), T_DISCONNECT);
    ANSWERS(t_rcvdis(caller, NULL), 0);
    CHECK(pthread_create(&accepting, NULL, accept_with_data, &listener) == 0);
    call.addr = text("l");
    answer.udata = room(small, sizeof small);
    REFUSED(t_connect(caller, &call, &answer), TBUFOVFLW, caller, T_DATAXFER);
    pthread_join(accepting, NULL);
    ANSWERS(t_close(listener), 0);
    ANSWERS(t_close(caller), 0);
}

/* A caller gives up its request, which was taken: its listener is to take the disconnect first. */
static void giving_up(void)
{
    int listener = endpoint("ticots", O_NONBLOCK, "l", 2), caller = calling("ticots", "l");
    struct t_discon discon = { { 0, 0, NULL }, 0, 0 };
    struct t_call call;

    memset(&call, 0, sizeof call);
    call.sequence = listened(listener);
    ANSWERS(t_snddis(caller, NULL), 0);
    REFUSED(t_listen(listener, &call), TLOOK, listener, T_INCON);
    REFUSED(t_accept(listener, listener, &call), TLOOK, listener, T_INCON);
    REFUSED(t_snddis(listener, &call), TLOOK, listener, T_INCON);
    ANSWERS(t_look(listener), T_DISCONNECT);
    ANSWERS(t_rcvdis(listener, &discon), 0);
    CHECK(discon.sequence == call.sequence && t_getstate(listener) == T_IDLE);
    ANSWERS(t_close(listener), 0);
    ANSWERS(t_close(caller), 0);
}

/* The second address of a connection, and each field of a request, where there is too little room for one alone. */
static void answering_without_room(void)
{
    int listener = endpoint("ticots", O_NONBLOCK, "listener", 2), caller = endpoint("ticots", O_NONBLOCK, "caller", 0);
    struct t_bind bound = { { 0, 0, NULL }, 0 };
    struct t_call call;
    char small[1];

    memset(&call, 0, sizeof call);
    call.addr = text("listener");
    REFUSED(t_connect(caller, &call, NULL), TNODATA, caller, T_OUTCON);
    memset(&call, 0, sizeof call);
    call.addr = room(small, sizeof small);
    REFUSED(t_listen(listener, &call), TBUFOVFLW, listener, T_INCON);
    ANSWERS(t_accept(listener, listener, &call), 0);
    REFUSED(t_rcvconnect(caller, &call), TBUFOVFLW, caller, T_DATAXFER);
    bound.addr = room(small, sizeof small);
    REFUSED(t_getprotaddr(caller, NULL, &bound), TBUFOVFLW, caller, T_DATAXFER);
    ANSWERS(t_close(listener), 0);
    ANSWERS(t_close(caller), 0);
}

int main(void)
{
    requesting();
    requesting_and_waiting();
    giving_up();
    answering_without_room();
    accepting();
    return finish("connection_refusals");
}
