/* What fork, exec and close(2) do to endpoints. */
#include "harness.h"
#include <poll.h>
#include <sys/wait.h>

static int is_readable(int fd)
{
    struct pollfd one = { fd, POLLIN, 0 };

    return poll(&one, 1, 0) == 1 && one.revents & POLLIN;
}

static void send_to(int fd, const char *address)
{
    struct t_unitdata unit;

    memset(&unit, 0, sizeof unit);
    unit.addr = text(address);
    ANSWERS(t_sndudata(fd, &unit), 0);
}

static int receive(int fd)
{
    struct t_unitdata unit;
    int flags;

    memset(&unit, 0, sizeof unit);
    return t_rcvudata(fd, &unit, &flags);
}

/* The child has a copy of each endpoint: what it does there the parent doesn't see. */
static void forked(void)
{
    int a = endpoint("ticlts", O_NONBLOCK, "a", 0), b = endpoint("ticlts", 0, "b", 0), status;
    pid_t child;

    send_to(a, "b");
    fflush(stdout);
    child = fork();
    if (child == 0) {
        CHECK(is_readable(b) && (fcntl(a, F_GETFL) & O_NONBLOCK) && !(fcntl(b, F_GETFL) & O_NONBLOCK));
        ANSWERS(receive(b), 0);
        CHECK(!is_readable(b) && !is_readable(a));
        send_to(b, "a");
        CHECK(is_readable(a));
        ANSWERS(t_close(a), 0);
        _exit(finish("forks, the child"));
    }
    CHECK(child > 0 && waitpid(child, &status, 0) == child && status == 0);
    CHECK(is_readable(b) && !is_readable(a));
    ANSWERS(receive(b), 0);
    ANSWERS(t_look(a), 0);
    ANSWERS(t_close(a), 0);
    ANSWERS(t_close(b), 0);
}

/* After an exec no endpoint is open. */
static void executed(const char *program)
{
    int fd = endpoint("ticots", 0, "kept", 0), status;
    char number[12];
    pid_t child;

    snprintf(number, sizeof number, "%d", fd);
    fflush(stdout);
    child = fork();
    if (child == 0) {
        execl(program, program, number, (char *)NULL);
        _exit(9);
    }
    CHECK(child > 0 && waitpid(child, &status, 0) == child && status == 0);
    ANSWERS(t_close(fd), 0);
}

static int after_exec(int fd)
{
    REFUSED(t_sync(fd), TBADF, fd, -1);
    CHECK(fcntl(fd, F_GETFD) == -1);
    return finish("forks, after exec");
}

/* close(2) leaves the endpoint open, until its descriptor is given again. */
static void closed_by_the_system(void)
{
    int a = endpoint("ticots", O_NONBLOCK, "listener", 1), caller = calling("ticots", "listener"), again, other[2];

    CHECK(close(a) == 0 && pipe(other) == 0 && other[0] == a);
    ANSWERS(t_look(caller), 0);
    ANSWERS(t_snddis(caller, NULL), 0);
    CHECK(!is_readable(other[0]));
    CHECK(close(other[0]) == 0 && close(other[1]) == 0);
    again = endpoint("ticots", 0, "listener", 0);
    CHECK(again == a);
    ANSWERS(t_close(again), 0);
    ANSWERS(t_close(caller), 0);
}

int main(int count, char **words)
{
    if (count > 1)
        return after_exec(atoi(words[1]));
    forked();
    executed(words[0]);
    closed_by_the_system();
    return finish("forks");
}
