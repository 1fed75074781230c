/* Each allocation of a run is refused in turn, or, where a number N is given, each Nth: the call then answers TSYSERR with ENOMEM, leaves the state of its endpoint and has
   done nothing, so that it is made again and the run ends as ever. */
#include "harness.h"
#include "refuse.h"
#include <sys/wait.h>

/* An address, and data, of more bytes than are held without memory. */
static const char listening[] = "an address of more than sixteen bytes", data[] = "data of more than sixteen bytes";
static char bytes[9000];
static int times_refused;

/* The functions that take memory, by their pages, and whether it was refused to each. */
static struct {
    const char *name;
    int was_refused;
} taking[] = {
    { "t_open", 0 }, /* for the world alone, which the first one makes */
    { "t_bind", 0 },
    { "t_connect", 0 },
    { "t_rcvconnect", 0 },
    { "t_listen", 0 },
    { "t_accept", 0 },
    { "t_snddis", 0 },
    { "t_snd", 0 },
    { "t_sndv", 0 },
    { "t_rcv", 0 },
    { "t_rcvv", 0 },
    { "t_sndudata", 0 },
    { "t_sndvudata", 0 },
    { "t_rcvudata", 0 },
    { "t_rcvvudata", 0 },
    { "t_optmgmt", 0 },
    { "t_alloc", 0 },
};

enum { TAKING = sizeof taking / sizeof *taking };

static void note_refused(const char *call)
{
    int i, length = (int)strcspn(call, "(");

    for (i = 0; i < TAKING; i++)
        if ((int)strlen(taking[i].name) == length && strncmp(taking[i].name, call, (size_t)length) == 0)
            break;
    times_refused++;
    if (CHECK(i < TAKING))
        taking[i].was_refused = 1;
    else
        printf("  %s\n", call);
}

/* Whether a call is to be made again, since memory was refused. */
static int again(int is_failed, const char *call, int fd, int state)
{
    if (!is_failed || t_errno != TSYSERR || errno != ENOMEM)
        return 0;
    note_refused(call);
    CHECK(t_getstate(fd) == state);
    return 1;
}

/* A call of the endpoint, made again while memory is refused. */
#define RETRY(result, fd, call) \
    do { \
        int state_before = t_getstate(fd); \
        do \
            result = (call); \
        while (again((result) == -1, #call, fd, state_before)); \
    } while (0)

static int open_bound(const char *provider, const char *address, unsigned int queue_length)
{
    struct t_bind request = { { 0, 0, NULL }, 0 };
    struct t_info info;
    int fd, result;

    RETRY(fd, -1, t_open(provider, O_RDWR | O_NONBLOCK, &info));
    CHECK(fd >= 0);
    request.addr = text(address);
    request.qlen = queue_length;
    RETRY(result, fd, t_bind(fd, &request, NULL));
    CHECK(result == 0);
    return fd;
}

static void close_one(int fd)
{
    int result;

    RETRY(result, fd, t_close(fd));
    CHECK(result == 0);
}

/* Asks a listener for a connection, and has the request taken; its number. */
static int request(int listener, int caller)
{
    char room_for_data[64];
    struct t_call call;
    int result;

    memset(&call, 0, sizeof call);
    call.addr = text(listening);
    call.udata = text(data);
    RETRY(result, caller, t_connect(caller, &call, NULL));
    CHECK(result == -1 && t_errno == TNODATA);
    memset(&call, 0, sizeof call);
    call.udata = room(room_for_data, sizeof room_for_data);
    RETRY(result, listener, t_listen(listener, &call));
    CHECK(result == 0 && call.udata.len == sizeof data - 1);
    return call.sequence;
}

static void connection(void)
{
    int listener = open_bound("ticotsord", listening, 1), caller = open_bound("ticotsord", "", 0), result, flags;
    struct t_iovec parts[2] = { { bytes, 30 }, { bytes + 30, 40 } };
    struct t_call call;

    memset(&call, 0, sizeof call);
    call.sequence = request(listener, caller);
    call.udata = text(data);
    RETRY(result, listener, t_snddis(listener, &call));
    CHECK(result == 0);
    RETRY(result, caller, t_rcvdis(caller, NULL));
    CHECK(result == 0);
    call.sequence = request(listener, caller);
    RETRY(result, listener, t_accept(listener, listener, &call));
    CHECK(result == 0);
    call.udata = room(bytes, 64);
    RETRY(result, caller, t_rcvconnect(caller, &call));
    CHECK(result == 0 && call.udata.len == sizeof data - 1);
    RETRY(result, caller, t_snd(caller, bytes, 70, T_EXPEDITED));
    CHECK(result == 70);
    RETRY(result, caller, t_sndv(caller, parts, 2, 0));
    CHECK(result == 70);
    RETRY(result, listener, t_rcv(listener, bytes, sizeof bytes, &flags));
    CHECK(result == 70 && flags == T_EXPEDITED);
    RETRY(result, listener, t_rcvv(listener, parts, 2, &flags));
    CHECK(result == 70);
    RETRY(result, caller, t_sndrel(caller));
    CHECK(result == 0);
    RETRY(result, listener, t_rcvrel(listener));
    CHECK(result == 0);
    RETRY(result, listener, t_snddis(listener, NULL));
    CHECK(result == 0);
    RETRY(result, caller, t_rcvdis(caller, NULL));
    CHECK(result == 0);
    close_one(listener);
    close_one(caller);
}

static void datagrams(void)
{
    int a = open_bound("ticlts", "a", 0), result, flags;
    uint32_t list[5] = { 20, XTI_GENERIC, XTI_SNDBUF, 0, 1000 }, told[5];
    struct t_optmgmt request = { { 0, sizeof list, NULL }, T_NEGOTIATE }, answer = { { sizeof told, 0, NULL }, 0 };
    struct t_iovec parts[2] = { { bytes, 3000 }, { bytes + 3000, 4000 } };
    struct t_unitdata unit;

    memset(&unit, 0, sizeof unit);
    unit.addr = text("a");
    RETRY(result, a, t_sndvudata(a, &unit, parts, 2));
    CHECK(result == 0);
    unit.addr = text("nobody");
    unit.udata = text(data);
    RETRY(result, a, t_sndudata(a, &unit));
    CHECK(result == 0);
    RETRY(result, a, t_rcvuderr(a, NULL));
    CHECK(result == 0);
    memset(&unit, 0, sizeof unit);
    unit.udata = room(bytes, 5000);
    RETRY(result, a, t_rcvudata(a, &unit, &flags));
    CHECK(result == 0 && flags == T_MORE);
    RETRY(result, a, t_rcvvudata(a, &unit, parts, 2, &flags));
    CHECK(result == 2000 && flags == 0);
    request.opt.buf = list;
    answer.opt.buf = told;
    RETRY(result, a, t_optmgmt(a, &request, &answer));
    CHECK(result == 0 && answer.flags == T_SUCCESS && told[4] == 1000);
    close_one(a);
}

static void structures(void)
{
    int fd = open_bound("ticots", "s", 0);
    void *call;

    while (!(call = t_alloc(fd, T_CALL, T_ALL)) && again(1, "t_alloc(", fd, T_IDLE))
        ;
    CHECK(call && t_free(call, T_CALL) == 0);
    close_one(fd);
}

static void run(void)
{
    connection();
    datagrams();
    structures();
}

enum { RIGHT, RIGHT_OF_OPEN, WRONG, WITHOUT_REFUSAL };

/* A run in a process of its own, from the making of the world on, in which this allocation is refused. */
static int run_from_nothing(long at)
{
    int status = 0;
    pid_t child;

    fflush(stdout);
    child = fork();
    if (child == 0) {
        allocations = 0;
        refuse_at = at;
        run();
        refuse_at = 0;
        if (failed_checks() || times_refused != (allocations >= at))
            exit(WRONG);
        exit(allocations < at ? WITHOUT_REFUSAL : taking[0].was_refused ? RIGHT_OF_OPEN : RIGHT);
    }
    CHECK(child > 0 && waitpid(child, &status, 0) == child && WIFEXITED(status));
    return WEXITSTATUS(status);
}

/* Runs one after the other in one process. */
static long run_in_turn(long each)
{
    long last, i;

    run();
    allocations = 0;
    run();
    last = allocations;
    for (i = 1; i <= last; i += each) {
        allocations = 0;
        refuse_at = i;
        run();
    }
    refuse_at = 0;
    CHECK(times_refused == (last + each - 1) / each);
    return last;
}

static void check_all_were_refused(void)
{
    int i;

    for (i = 0; i < TAKING; i++)
        if (!CHECK(taking[i].was_refused))
            printf("  %s\n", taking[i].name);
}

int main(int words, char **word)
{
    long each = words > 1 ? atol(word[1]) : 1, at = 1, last;
    int end;

    while ((end = run_from_nothing(at)) == RIGHT || end == RIGHT_OF_OPEN) {
        taking[0].was_refused |= end == RIGHT_OF_OPEN;
        at += each;
    }
    CHECK(end == WITHOUT_REFUSAL && at > 10);
    last = run_in_turn(each);
    if (each == 1)
        check_all_were_refused();
    printf("memory: %ld allocations refused in a run from nothing, %ld in later ones\n", (at - 1) / each, (last + each - 1) / each);
    return finish("memory");
}
