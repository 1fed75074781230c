/* t_alloc and t_free, the texts of errors, TLI's names, t_errno of each thread. */
#include "harness.h"

static void of_connections(int fd)
{
    struct t_call *call = (struct t_call *)t_alloc(fd, T_CALL, T_ALL);
    struct t_bind *bound = (struct t_bind *)t_alloc(fd, T_BIND, T_ADDR);
    struct t_optmgmt *options = (struct t_optmgmt *)t_alloc(fd, T_OPTMGMT, T_ALL);
    struct t_discon *discon = (struct t_discon *)t_alloc(fd, T_DIS, T_ALL);
    struct t_info *info = (struct t_info *)t_alloc(fd, T_INFO, 0);

    CHECK(call && call->addr.maxlen == 64 && call->opt.maxlen == 256 && call->udata.maxlen == 64 && call->udata.buf);
    CHECK(bound && bound->addr.maxlen == 64 && bound->addr.len == 0 && bound->qlen == 0);
    CHECK(options && options->opt.maxlen == 256);
    CHECK(discon && discon->udata.maxlen == 64);
    CHECK(info && t_getinfo(fd, info) == 0 && info->tsdu == 0 && info->servtype == T_COTS_ORD && info->flags == T_ORDRELDATA);
    CHECK(t_alloc(fd, T_UNITDATA, T_ALL) == NULL && t_errno == TNOSTRUCTYPE);
    CHECK(t_alloc(fd, T_UDERROR, T_ALL) == NULL && t_errno == TNOSTRUCTYPE);
    CHECK(t_alloc(fd, 0, T_ALL) == NULL && t_errno == TNOSTRUCTYPE);
    CHECK(t_alloc(fd, 8, T_ALL) == NULL && t_errno == TNOSTRUCTYPE);
    ANSWERS(t_free(call, T_CALL), 0);
    ANSWERS(t_free(bound, T_BIND), 0);
    ANSWERS(t_free(options, T_OPTMGMT), 0);
    ANSWERS(t_free(discon, T_DIS), 0);
    ANSWERS(t_free(info, T_INFO), 0);
    CHECK(t_free(NULL, 99) == -1 && t_errno == TNOSTRUCTYPE);
    ANSWERS(t_free(NULL, T_CALL), 0);
    call = (struct t_call *)t_alloc(fd, T_CALL, T_OPT);
    CHECK(call && call->addr.buf == NULL && call->addr.maxlen == 0 && call->opt.buf);
    ANSWERS(t_free(call, T_CALL), 0);
}

static void of_datagrams(int fd)
{
    struct t_unitdata *unit = (struct t_unitdata *)t_alloc(fd, T_UNITDATA, T_ALL);
    struct t_uderr *error = (struct t_uderr *)t_alloc(fd, T_UDERROR, T_ALL);
    struct t_info info;

    CHECK(unit && unit->udata.maxlen == 8192);
    CHECK(error && error->addr.maxlen == 64 && error->opt.maxlen == 256);
    CHECK(t_alloc(fd, T_CALL, T_ALL) == NULL && t_errno == TNOSTRUCTYPE);
    CHECK(t_alloc(fd, T_DIS, T_ALL) == NULL && t_errno == TNOSTRUCTYPE);
    CHECK(t_getinfo(fd, &info) == 0 && info.addr == 64 && info.options == 256 && info.tsdu == 8192 && info.etsdu == T_INVALID);
    CHECK(info.connect == T_INVALID && info.discon == T_INVALID && info.servtype == T_CLTS && info.flags == T_SENDZERO);
    ANSWERS(t_free(unit, T_UNITDATA), 0);
    ANSWERS(t_free(error, T_UDERROR), 0);
}

static void *other_thread(void *at)
{
    (void)at;
    CHECK(t_errno == 0);
    t_errno = TPROTO;
    return NULL;
}

static void of_errors(void)
{
    pthread_t thread;
    int i;

    CHECK(t_nerr == 30 && strcmp(t_errlist[TLOOK], t_strerror(TLOOK)) == 0);
    for (i = 1; i < t_nerr; i++)
        CHECK(strcmp(t_strerror(i), t_errlist[i]) == 0 && *t_errlist[i]);
    CHECK(strcmp(t_strerror(30), "30: error unknown") == 0 && strcmp(t_strerror(-1), "-1: error unknown") == 0);
    t_errno = TBADF;
    CHECK(pthread_create(&thread, NULL, other_thread, NULL) == 0 && pthread_join(thread, NULL) == 0);
    CHECK(t_errno == TBADF);
    ANSWERS(t_sysconf(_SC_T_IOV_MAX), 16);
    CHECK(t_sysconf(-5) == -1 && t_errno == TBADFLAG);
}

/* What t_error writes to standard error. */
static void of_t_error(void)
{
    FILE *written = tmpfile();
    char line[200];
    int saved = dup(2);

    CHECK(written && dup2(fileno(written), 2) == 2);
    t_errno = TFLOW;
    t_error("send");
    t_errno = TSYSERR;
    errno = EINTR;
    t_error("wait");
    t_errno = TNODATA;
    t_error("");
    t_error(NULL);
    fflush(stderr);
    dup2(saved, 2);
    close(saved);
    rewind(written);
    CHECK(fgets(line, sizeof line, written) && strcmp(line, "send: Flow control\n") == 0);
    CHECK(fgets(line, sizeof line, written) && strcmp(line, "wait: System error: Interrupted system call\n") == 0);
    CHECK(fgets(line, sizeof line, written) && strcmp(line, "No data\n") == 0);
    CHECK(fgets(line, sizeof line, written) && strcmp(line, "No data\n") == 0);
    fclose(written);
}

int main(void)
{
    int stream = t_open("/dev/ticotsord", O_RDWR, NULL), datagram = t_open("/dev/ticlts", O_RDWR | O_NONBLOCK, NULL);

    of_connections(stream);
    of_datagrams(datagram);
    ANSWERS(t_close(stream), 0);
    ANSWERS(t_close(datagram), 0);
    of_errors();
    of_t_error();
    return finish("structures");
}
