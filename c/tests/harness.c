#include "harness.h"

static int checks, failures;
static pthread_mutex_t counting = PTHREAD_MUTEX_INITIALIZER;

int check(int holds, const char *what, const char *file, int line)
{
    pthread_mutex_lock(&counting);
    checks++;
    if (!holds) {
        failures++;
        printf("%s:%d: %s\n", file, line, what);
    }
    pthread_mutex_unlock(&counting);
    return holds;
}

int refused(int result, const char *what, int error, int fd, int state, const char *file, int line)
{
    int found = t_errno, after;

    if (!check(result == -1 && found == error, what, file, line)) {
        printf("  answered %d, %s, and not %s\n", result, t_strerror(found), t_strerror(error));
        return 0;
    }
    after = t_getstate(fd);
    t_errno = error;
    if (!check(after == state, what, file, line))
        printf("  state %d, and not %d\n", after, state);
    return after == state;
}

int answers(int result, const char *what, int number, const char *file, int line)
{
    if (check(result == number, what, file, line))
        return 1;
    printf("  answered %d, %s, and not %d\n", result, result < 0 ? t_strerror(t_errno) : "no error", number);
    return 0;
}

int failed_checks(void)
{
    return failures;
}

int finish(const char *name)
{
    printf("%s: %d checks, %d failed\n", name, checks, failures);
    fflush(stdout);
    return failures != 0;
}

struct netbuf text(const char *bytes)
{
    struct netbuf n = { 0, 0, NULL };

    n.len = (unsigned int)strlen(bytes);
    n.buf = (void *)(uintptr_t)bytes;
    return n;
}

struct netbuf room(void *bytes, unsigned int maxlen)
{
    struct netbuf n = { 0, 0, NULL };

    n.maxlen = maxlen;
    n.buf = bytes;
    return n;
}

int endpoint(const char *provider, int flags, const char *address, unsigned int queue_length)
{
    int fd = t_open(provider, O_RDWR | flags, NULL);
    struct t_bind request = { { 0, 0, NULL }, 0 };

    if (!CHECK(fd >= 0) || !address)
        return fd;
    request.addr = text(address);
    request.qlen = queue_length;
    ANSWERS(t_bind(fd, &request, NULL), 0);
    return fd;
}

void set_nonblocking(int fd, int is_nonblocking)
{
    int flags = fcntl(fd, F_GETFL);

    CHECK(flags >= 0 && fcntl(fd, F_SETFL, is_nonblocking ? flags | O_NONBLOCK : flags & ~O_NONBLOCK) == 0);
}

int calling(const char *provider, const char *address)
{
    int fd = endpoint(provider, O_NONBLOCK, "", 0);
    struct t_call call;

    memset(&call, 0, sizeof call);
    call.addr = text(address);
    REFUSED(t_connect(fd, &call, NULL), TNODATA, fd, T_OUTCON);
    return fd;
}

int listened(int fd)
{
    struct t_call call;

    memset(&call, 0, sizeof call);
    ANSWERS(t_listen(fd, &call), 0);
    return call.sequence;
}

void connected(const char *provider, int *accepting, int *caller)
{
    struct t_call call;

    memset(&call, 0, sizeof call);
    *accepting = endpoint(provider, O_NONBLOCK, "harness", 1);
    *caller = calling(provider, "harness");
    call.sequence = listened(*accepting);
    ANSWERS(t_accept(*accepting, *accepting, &call), 0);
    ANSWERS(t_rcvconnect(*caller, NULL), 0);
}
