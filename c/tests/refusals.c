/* Each error of each call of endpoints, and what calls of every kind are refused for alike, with the state afterwards. */
#include "harness.h"
#include <sys/resource.h>

static char bytes[70000];

static struct netbuf long_by_one(unsigned int most)
{
    struct netbuf n = { 0, 0, bytes };

    n.len = most + 1;
    return n;
}

static void opening(void)
{
    int fds[256], i;

    REFUSED(t_open("ticots", O_RDONLY, NULL), TBADFLAG, -1, -1);
    REFUSED(t_open("ticots", O_RDWR | O_APPEND, NULL), TBADFLAG, -1, -1);
    REFUSED(t_open("/dev/tcp", O_RDWR, NULL), TBADNAME, -1, -1);
    REFUSED(t_open("dev/ticots", O_RDWR, NULL), TBADNAME, -1, -1);
    REFUSED(t_open(NULL, O_RDWR, NULL), TBADNAME, -1, -1);
    for (i = 0; i < 256; i++)
        CHECK((fds[i] = t_open(i % 2 ? "/dev/ticlts" : "ticots", O_RDWR, NULL)) >= 0);
    errno = 0;
    REFUSED(t_open("ticots", O_RDWR, NULL), TSYSERR, fds[0], T_UNBND);
    CHECK(errno == EMFILE);
    for (i = 0; i < 256; i++)
        ANSWERS(t_close(fds[i]), 0);
}

/* The process has no descriptor left, or one where two are needed. */
static void opening_without_descriptors(void)
{
    struct rlimit before, few;
    rlim_t left;
    int fd = t_open("ticots", O_RDWR, NULL);

    CHECK(fd >= 0 && getrlimit(RLIMIT_NOFILE, &before) == 0);
    for (left = 1; left <= 2; left++) {
        few = before;
        few.rlim_cur = (rlim_t)fd + left;
        CHECK(setrlimit(RLIMIT_NOFILE, &few) == 0);
        errno = 0;
        REFUSED(t_open("ticots", O_RDWR, NULL), TSYSERR, fd, T_UNBND);
        CHECK(errno == EMFILE && setrlimit(RLIMIT_NOFILE, &before) == 0);
    }
    ANSWERS(t_close(fd), 0);
}

static void bad_descriptors(int fd)
{
    struct t_bind bound = { { 0, 0, NULL }, 0 };
    struct t_call call;
    struct t_unitdata unit;
    struct t_optmgmt options = { { 0, 0, NULL }, T_CURRENT };
    struct t_iovec iov = { bytes, 1 };
    struct t_info info;
    int flags;

    memset(&call, 0, sizeof call);
    memset(&unit, 0, sizeof unit);
    REFUSED(t_close(fd), TBADF, fd, -1);
    REFUSED(t_bind(fd, NULL, NULL), TBADF, fd, -1);
    REFUSED(t_unbind(fd), TBADF, fd, -1);
    REFUSED(t_getinfo(fd, &info), TBADF, fd, -1);
    REFUSED(t_getstate(fd), TBADF, fd, -1);
    REFUSED(t_sync(fd), TBADF, fd, -1);
    REFUSED(t_look(fd), TBADF, fd, -1);
    REFUSED(t_getprotaddr(fd, &bound, NULL), TBADF, fd, -1);
    REFUSED(t_optmgmt(fd, &options, NULL), TBADF, fd, -1);
    REFUSED(t_connect(fd, &call, NULL), TBADF, fd, -1);
    REFUSED(t_rcvconnect(fd, &call), TBADF, fd, -1);
    REFUSED(t_listen(fd, &call), TBADF, fd, -1);
    REFUSED(t_accept(fd, fd, &call), TBADF, fd, -1);
    REFUSED(t_snd(fd, bytes, 1, 0), TBADF, fd, -1);
    REFUSED(t_sndv(fd, &iov, 1, 0), TBADF, fd, -1);
    REFUSED(t_rcv(fd, bytes, 1, &flags), TBADF, fd, -1);
    REFUSED(t_rcvv(fd, &iov, 1, &flags), TBADF, fd, -1);
    REFUSED(t_snddis(fd, NULL), TBADF, fd, -1);
    REFUSED(t_rcvdis(fd, NULL), TBADF, fd, -1);
    REFUSED(t_sndrel(fd), TBADF, fd, -1);
    REFUSED(t_rcvrel(fd), TBADF, fd, -1);
    REFUSED(t_sndreldata(fd, NULL), TBADF, fd, -1);
    REFUSED(t_rcvreldata(fd, NULL), TBADF, fd, -1);
    REFUSED(t_sndudata(fd, &unit), TBADF, fd, -1);
    REFUSED(t_sndvudata(fd, &unit, &iov, 1), TBADF, fd, -1);
    REFUSED(t_rcvudata(fd, &unit, &flags), TBADF, fd, -1);
    REFUSED(t_rcvvudata(fd, &unit, &iov, 1, &flags), TBADF, fd, -1);
    REFUSED(t_rcvuderr(fd, NULL), TBADF, fd, -1);
    CHECK(t_alloc(fd, T_CALL, T_ALL) == NULL && t_errno == TBADF);
}

static void not_supported(void)
{
    int c = endpoint("ticlts", O_NONBLOCK, "clts", 0), s = endpoint("ticots", O_NONBLOCK, "cots", 1), flags;
    struct t_call call;
    struct t_unitdata unit;
    struct t_iovec iov = { bytes, 1 };

    memset(&call, 0, sizeof call);
    memset(&unit, 0, sizeof unit);
    REFUSED(t_connect(c, &call, NULL), TNOTSUPPORT, c, T_IDLE);
    REFUSED(t_rcvconnect(c, &call), TNOTSUPPORT, c, T_IDLE);
    REFUSED(t_listen(c, &call), TNOTSUPPORT, c, T_IDLE);
    REFUSED(t_accept(c, c, &call), TNOTSUPPORT, c, T_IDLE);
    REFUSED(t_snd(c, bytes, 1, 0), TNOTSUPPORT, c, T_IDLE);
    REFUSED(t_sndv(c, &iov, 1, 0), TNOTSUPPORT, c, T_IDLE);
    REFUSED(t_rcv(c, bytes, 1, &flags), TNOTSUPPORT, c, T_IDLE);
    REFUSED(t_rcvv(c, &iov, 1, &flags), TNOTSUPPORT, c, T_IDLE);
    REFUSED(t_snddis(c, NULL), TNOTSUPPORT, c, T_IDLE);
    REFUSED(t_rcvdis(c, NULL), TNOTSUPPORT, c, T_IDLE);
    REFUSED(t_sndrel(s), TNOTSUPPORT, s, T_IDLE);
    REFUSED(t_rcvrel(s), TNOTSUPPORT, s, T_IDLE);
    REFUSED(t_sndreldata(s, NULL), TNOTSUPPORT, s, T_IDLE);
    REFUSED(t_rcvreldata(s, NULL), TNOTSUPPORT, s, T_IDLE);
    REFUSED(t_sndudata(s, &unit), TNOTSUPPORT, s, T_IDLE);
    REFUSED(t_sndvudata(s, &unit, &iov, 1), TNOTSUPPORT, s, T_IDLE);
    REFUSED(t_rcvudata(s, &unit, &flags), TNOTSUPPORT, s, T_IDLE);
    REFUSED(t_rcvvudata(s, &unit, &iov, 1, &flags), TNOTSUPPORT, s, T_IDLE);
    REFUSED(t_rcvuderr(s, NULL), TNOTSUPPORT, s, T_IDLE);
    ANSWERS(t_close(c), 0);
    ANSWERS(t_close(s), 0);
}

static void binding(void)
{
    int a = endpoint("ticots", 0, NULL, 0), b = endpoint("ticots", 0, NULL, 0), d = endpoint("ticlts", 0, "d", 0), e;
    char small[1], address[64];
    struct t_bind request = { { 0, 0, NULL }, 9 }, answer = { { 0, 0, NULL }, 0 };

    REFUSED(t_unbind(a), TOUTSTATE, a, T_UNBND);
    request.addr = long_by_one(64);
    REFUSED(t_bind(a, &request, NULL), TBADADDR, a, T_UNBND);
    request.addr = text("listener");
    answer.addr = room(small, 1);
    REFUSED(t_bind(a, &request, &answer), TBUFOVFLW, a, T_IDLE);
    REFUSED(t_bind(a, &request, NULL), TOUTSTATE, a, T_IDLE);
    REFUSED(t_bind(b, &request, NULL), TADDRBUSY, b, T_UNBND);
    answer.addr = room(address, 64);
    ANSWERS(t_bind(b, NULL, &answer), 0);
    CHECK(answer.addr.len == 2 && memcmp(address, "#0", 2) == 0 && answer.qlen == 0);
    ANSWERS(t_unbind(a), 0);
    ANSWERS(t_bind(a, &request, &answer), 0);
    CHECK(answer.addr.len == 8 && memcmp(address, "listener", 8) == 0 && answer.qlen == 8);
    e = endpoint("ticlts", 0, NULL, 0);
    request.addr = text("d");
    REFUSED(t_bind(e, &request, NULL), TADDRBUSY, e, T_UNBND);
    answer.addr = room(small, 1);
    REFUSED(t_getprotaddr(a, &answer, NULL), TBUFOVFLW, a, T_IDLE);
    ANSWERS(t_close(a), 0);
    ANSWERS(t_close(b), 0);
    ANSWERS(t_close(d), 0);
    ANSWERS(t_close(e), 0);
}

static void looks_of_unbind(void)
{
    int listener = endpoint("ticots", O_NONBLOCK, "l", 2), caller = calling("ticots", "l"), d = endpoint("ticlts", 0, "d", 0);
    struct t_unitdata unit;
    struct t_call call;

    memset(&unit, 0, sizeof unit);
    memset(&call, 0, sizeof call);
    REFUSED(t_unbind(listener), TLOOK, listener, T_IDLE);
    ANSWERS(t_look(listener), T_LISTEN);
    call.addr = text("x");
    REFUSED(t_connect(listener, &call, NULL), TLOOK, listener, T_IDLE);
    unit.addr = text("d");
    unit.udata = text("datagram");
    ANSWERS(t_sndudata(d, &unit), 0);
    REFUSED(t_unbind(d), TLOOK, d, T_IDLE);
    ANSWERS(t_look(d), T_DATA);
    ANSWERS(t_close(listener), 0);
    ANSWERS(t_look(caller), T_DISCONNECT);
    ANSWERS(t_close(caller), 0);
    ANSWERS(t_close(d), 0);
}

static void negotiating(void)
{
    int fd = endpoint("ticots", 0, NULL, 0);
    uint32_t list[10] = { 20, XTI_GENERIC, XTI_RCVBUF, 0, 70000, 20, XTI_GENERIC, XTI_SNDLOWAT, 0, 5 }, told[10];
    struct t_optmgmt request = { { 0, 0, NULL }, T_NEGOTIATE }, answer = { { 0, 0, NULL }, 0 };
    struct t_opthdr *first;

    answer.opt = room(told, sizeof told);
    request.flags = 5;
    REFUSED(t_optmgmt(fd, &request, NULL), TBADFLAG, fd, T_UNBND);
    request.flags = T_NEGOTIATE;
    request.opt = text("no list");
    REFUSED(t_optmgmt(fd, &request, NULL), TBADOPT, fd, T_UNBND);
    request.opt = long_by_one(256);
    REFUSED(t_optmgmt(fd, &request, NULL), TBADOPT, fd, T_UNBND);
    request.opt = room(list, 0);
    request.opt.len = sizeof list;
    list[6] = 6;
    REFUSED(t_optmgmt(fd, &request, NULL), TBADOPT, fd, T_UNBND);
    list[6] = XTI_GENERIC;
    ANSWERS(t_optmgmt(fd, &request, &answer), 0);
    CHECK(answer.flags == T_READONLY && answer.opt.len == 40);
    first = T_OPT_FIRSTHDR(&answer.opt);
    CHECK(first && first->status == T_PARTSUCCESS && memcmp(T_OPT_DATA(first), "\0\0\1\0", 4) == 0);
    CHECK(T_OPT_NEXTHDR(&answer.opt, first)->status == T_READONLY);
    CHECK(T_OPT_NEXTHDR(&answer.opt, T_OPT_NEXTHDR(&answer.opt, first)) == NULL);
    CHECK(OPT_NEXTHDR(answer.opt.buf, answer.opt.len, first) == T_OPT_NEXTHDR(&answer.opt, first));
    answer.opt = room(told, 8);
    REFUSED(t_optmgmt(fd, &request, &answer), TBUFOVFLW, fd, T_UNBND);
    ANSWERS(t_close(fd), 0);
}

int main(void)
{
    int fd = t_open("ticots", O_RDWR, NULL);

    bad_descriptors(-1);
    bad_descriptors(4095);
    ANSWERS(t_close(fd), 0);
    bad_descriptors(fd);
    bad_descriptors(1);
    opening();
    opening_without_descriptors();
    not_supported();
    binding();
    looks_of_unbind();
    negotiating();
    return finish("refusals");
}
