/* A send and the receive of it, on one thread, beside the same over AF_UNIX: both take turns, some pairs at a time, and the median
   of the ratios is told. With a number of seconds: pairs of the library alone, for so long, and how much memory the process has
   had at most before and after. */
#include <fcntl.h>
#include <stdio.h>
#include <stdlib.h>
#include <string.h>
#include <sys/socket.h>
#include <time.h>
#include <unistd.h>
#include <xti.h>

enum { TURNS = 401, PAIRS = 200, MOST = 1024, EARLY = 100000 };

static char bytes[MOST], received[MOST];
static int streams[2], datagrams[2], sockets[2], datagram_sockets[2];

static void need(int holds, const char *what)
{
    if (!holds) {
        fprintf(stderr, "pairs: %s: %s\n", what, t_strerror(t_errno));
        exit(1);
    }
}

static double now(void)
{
    struct timespec time;

    clock_gettime(CLOCK_MONOTONIC, &time);
    return (double)time.tv_sec * 1e9 + (double)time.tv_nsec;
}

static int bound(const char *provider, const char *address, unsigned int queue_length)
{
    int fd = t_open(provider, O_RDWR, NULL);
    struct t_bind request;

    memset(&request, 0, sizeof request);
    request.addr.buf = (void *)(size_t)address;
    request.addr.len = (unsigned int)strlen(address);
    request.qlen = queue_length;
    need(fd >= 0 && t_bind(fd, &request, NULL) == 0, "bind");
    return fd;
}

static void open_all(void)
{
    struct t_call call;

    memset(&call, 0, sizeof call);
    streams[1] = bound("ticotsord", "stream", 1);
    streams[0] = bound("ticotsord", "", 0);
    call.addr.buf = (void *)(size_t)"stream";
    call.addr.len = 6;
    fcntl(streams[0], F_SETFL, O_NONBLOCK);
    t_connect(streams[0], &call, NULL);
    fcntl(streams[0], F_SETFL, 0);
    memset(&call, 0, sizeof call);
    need(t_listen(streams[1], &call) == 0 && t_accept(streams[1], streams[1], &call) == 0, "accept");
    need(t_rcvconnect(streams[0], NULL) == 0, "connect");
    datagrams[0] = bound("ticlts", "", 0);
    datagrams[1] = bound("ticlts", "datagram", 0);
    need(socketpair(AF_UNIX, SOCK_STREAM, 0, sockets) == 0, "socketpair");
    need(socketpair(AF_UNIX, SOCK_DGRAM, 0, datagram_sockets) == 0, "socketpair");
}

static void stream_pair(unsigned int size)
{
    int flags;

    need(t_snd(streams[0], bytes, size, 0) == (int)size, "t_snd");
    need(t_rcv(streams[1], received, size, &flags) == (int)size, "t_rcv");
}

static void datagram_pair(unsigned int size)
{
    struct t_unitdata unit;
    int flags;

    memset(&unit, 0, sizeof unit);
    unit.addr.buf = (void *)(size_t)"datagram";
    unit.addr.len = 8;
    unit.udata.buf = bytes;
    unit.udata.len = size;
    need(t_sndudata(datagrams[0], &unit) == 0, "t_sndudata");
    unit.addr.len = 0;
    unit.udata.buf = received;
    unit.udata.maxlen = MOST;
    need(t_rcvudata(datagrams[1], &unit, &flags) == 0 && unit.udata.len == size, "t_rcvudata");
}

static void kernel_pair(const int *ends, unsigned int size)
{
    need(write(ends[0], bytes, size) == (ssize_t)size && read(ends[1], received, MOST) == (ssize_t)size, "write or read");
}

static void kernel_stream_pair(unsigned int size)
{
    kernel_pair(sockets, size);
}

static void kernel_datagram_pair(unsigned int size)
{
    kernel_pair(datagram_sockets, size);
}

static double time_of(void (*pair)(unsigned int), unsigned int size)
{
    double begin = now();
    int i;

    for (i = 0; i < PAIRS; i++)
        pair(size);
    return (now() - begin) / PAIRS;
}

static int in_order(const void *a, const void *b)
{
    double x = *(const double *)a, y = *(const double *)b;

    return (x > y) - (x < y);
}

static double median(double *of)
{
    qsort(of, TURNS, sizeof *of, in_order);
    return of[TURNS / 2];
}

static void compare(const char *what, void (*pair)(unsigned int), void (*kernel)(unsigned int), unsigned int size)
{
    static double ours[TURNS], theirs[TURNS], ratios[TURNS];
    int i;

    for (i = -20; i < TURNS; i++) {
        double one = time_of(pair, size), other = time_of(kernel, size);
        if (i >= 0) {
            ours[i] = one;
            theirs[i] = other;
            ratios[i] = one / other;
        }
    }
    printf("%s, %u bytes: %.0f ns, AF_UNIX %.0f ns, ratio %.2f\n", what, size, median(ours), median(theirs), median(ratios));
}

/* The most memory that the process has had, in kB. */
static long most_memory(void)
{
    FILE *file = fopen("/proc/self/status", "r");
    char line[200];
    long found = -1;

    while (file && fgets(line, sizeof line, file))
        if (sscanf(line, "VmHWM: %ld", &found) == 1)
            break;
    if (file)
        fclose(file);
    return found;
}

static void run_long(double seconds)
{
    double end = now() + seconds * 1e9;
    long count, before = 0;

    for (count = 0; now() < end; count += PAIRS) {
        time_of(count / PAIRS % 2 ? stream_pair : datagram_pair, count / PAIRS % 3 ? 64 : MOST);
        /* Asking takes some, too. */
        if (count == EARLY / 2 || count == EARLY)
            before = most_memory();
    }
    printf("%ld pairs in %.0f s: %ld kB at most after the first %d, %ld kB at the end\n", count, seconds, before, EARLY, most_memory());
}

int main(int count, char **words)
{
    unsigned int size;

    open_all();
    if (count > 1) {
        run_long(atof(words[1]));
        return 0;
    }
    for (size = 64; size <= MOST; size *= 16) {
        compare("t_snd and t_rcv", stream_pair, kernel_stream_pair, size);
        compare("t_sndudata and t_rcvudata", datagram_pair, kernel_datagram_pair, size);
    }
    return 0;
}
