/* Recording: what a journal has, when it can begin, and what ends it. */
#include "harness.h"
#include "refuse.h"
#include <sys/resource.h>
#include <sys/wait.h>

enum { MOST = 65536, TOO_MANY = 33 };

static char name[] = "/tmp/xti-journal-XXXXXX";
static char journal[MOST];

/* A file for a journal, which is read back by `text_of`. */
static int new_file(void)
{
    int fd = mkstemp(name);

    CHECK(fd >= 0 && unlink(name) == 0);
    memcpy(name + sizeof name - 7, "XXXXXX", 6);
    return fd;
}

static const char *text_of(int fd)
{
    ssize_t n = pread(fd, journal, MOST - 1, 0);

    journal[n > 0 ? n : 0] = 0;
    return journal;
}

static int has(const char *text, const char *part)
{
    return strstr(text, part) != NULL;
}

static int ends_with(const char *text, const char *end)
{
    size_t len = strlen(text), n = strlen(end);

    return len >= n && strcmp(text + len - n, end) == 0;
}

/* Standard error goes to a file, which is read back. */
static int to_file(int *saved)
{
    int fd = new_file();

    *saved = dup(2);
    CHECK(*saved >= 0 && dup2(fd, 2) == 2);
    return fd;
}

static void back(int saved)
{
    CHECK(dup2(saved, 2) == 2 && close(saved) == 0);
}

/* Each step is a line, in order, with its answer. */
static void lines(void)
{
    static const char wanted[] = "xti-journal 2\n"
        "provider ticots tsdu=65536 sendzero=1 same_addr=0 sndbuf=16384 rcvbuf=16384\n"
        "provider ticotsord tsdu=0 sendzero=0 same_addr=0 sndbuf=16384 rcvbuf=16384 reldata=1\n"
        "provider ticlts tsdu=8192 sendzero=1 same_addr=0 sndbuf=16384 rcvbuf=16384\n"
        "1 0 open ticlts block => ok 0 T_UNBND\n"
        "2 0 bind 0 addr=x:61 qlen=0 amax=0 => ok x: 0 T_IDLE\n"
        "3 0 sndudata 0 addr=x:61 opt=x: data=x:6f6e65 => ok T_IDLE\n"
        "4 0 look 0 => ok T_DATA T_IDLE\n"
        "5 0 unbind 0 => err TLOOK T_DATA T_IDLE\n"
        "6 0 close 0 => ok T_UNINIT\n"
        "end 6\n";
    int file = new_file(), fd;
    struct t_unitdata unit;

    ANSWERS(xti_journal_to(file), 0);
    fd = endpoint("ticlts", 0, "a", 0);
    memset(&unit, 0, sizeof unit);
    unit.addr = text("a");
    unit.udata = text("one");
    ANSWERS(t_sndudata(fd, &unit), 0);
    ANSWERS(t_look(fd), T_DATA);
    CHECK(t_unbind(fd) == -1 && t_errno == TLOOK);
    ANSWERS(t_close(fd), 0);
    ANSWERS(xti_journal_to(-1), 0);
    if (!CHECK(strcmp(text_of(file), wanted) == 0))
        printf("%s", journal);
    CHECK(close(file) == 0);
}

/* A journal begins where no endpoint is open, and in a file that can be written. */
static void refusals(void)
{
    int file = new_file(), ends[2], fd = endpoint("ticots", 0, NULL, 0);

    CHECK(xti_journal_to(file) == -1 && t_errno == TOUTSTATE);
    ANSWERS(t_close(fd), 0);
    CHECK(xti_journal_to(-2) == -1 && t_errno == TBADF);
    CHECK(pipe(ends) == 0);
    CHECK(xti_journal_to(ends[0]) == -1 && t_errno == TBADF);
    CHECK(close(ends[0]) == 0 && close(ends[1]) == 0 && close(file) == 0);
    ANSWERS(xti_journal_to(-1), 0);
}

/* There is no further descriptor. */
static void no_descriptor(void)
{
    struct rlimit before, none;
    int file = new_file();

    CHECK(getrlimit(RLIMIT_NOFILE, &before) == 0);
    none = before;
    none.rlim_cur = 0;
    CHECK(setrlimit(RLIMIT_NOFILE, &none) == 0);
    CHECK(xti_journal_to(file) == -1 && t_errno == TSYSERR);
    CHECK(setrlimit(RLIMIT_NOFILE, &before) == 0 && close(file) == 0);
}

/* One journal after the other: each begins with descriptor 0, though the program has closed its own of the file. */
static void one_after_the_other(void)
{
    int files[2], i;

    for (i = 0; i < 2; i++) {
        int own;
        files[i] = new_file();
        own = dup(files[i]);
        ANSWERS(xti_journal_to(own), 0);
        CHECK(close(own) == 0);
        ANSWERS(t_close(endpoint("ticots", 0, NULL, 0)), 0);
    }
    ANSWERS(xti_journal_to(-1), 0);
    for (i = 0; i < 2; i++) {
        CHECK(has(text_of(files[i]), "\n1 0 open ticots block => ok 0 T_UNBND\n") && ends_with(journal, "\nend 2\n"));
        CHECK(close(files[i]) == 0);
    }
}

/* The child records nothing, and may record for itself. */
static void forked(void)
{
    int file = new_file(), fd, status;
    pid_t child;

    ANSWERS(xti_journal_to(file), 0);
    fd = endpoint("ticots", 0, NULL, 0);
    fflush(stdout);
    child = fork();
    if (child == 0) {
        int own = new_file();
        ANSWERS(t_close(fd), 0);
        ANSWERS(xti_journal_to(own), 0);
        ANSWERS(t_close(endpoint("ticlts", 0, NULL, 0)), 0);
        ANSWERS(xti_journal_to(-1), 0);
        CHECK(ends_with(text_of(own), "\nend 2\n"));
        exit(finish("recording, the child"));
    }
    CHECK(child > 0 && waitpid(child, &status, 0) == child && status == 0);
    ANSWERS(t_close(fd), 0);
    ANSWERS(xti_journal_to(-1), 0);
    CHECK(ends_with(text_of(file), "\n2 0 close 0 => ok T_UNINIT\nend 2\n"));
    CHECK(close(file) == 0);
}

static pthread_barrier_t all_there;

static void *open_and_stay(void *at)
{
    (void)at;
    ANSWERS(t_close(endpoint("ticots", 0, NULL, 0)), 0);
    pthread_barrier_wait(&all_there);
    return NULL;
}

/* A thread that has ended leaves its number to another one; where 32 are taken the journal ends, and the program goes on. */
static void threads(int count, int at_once)
{
    int file = new_file(), said, saved, i;
    pthread_t thread[TOO_MANY];

    said = to_file(&saved);
    ANSWERS(xti_journal_to(file), 0);
    CHECK(pthread_barrier_init(&all_there, NULL, at_once ? (unsigned int)count : 1) == 0);
    for (i = 0; i < count; i++) {
        CHECK(pthread_create(&thread[i], NULL, open_and_stay, NULL) == 0);
        if (!at_once)
            CHECK(pthread_join(thread[i], NULL) == 0);
    }
    for (i = 0; at_once && i < count; i++)
        CHECK(pthread_join(thread[i], NULL) == 0);
    CHECK(pthread_barrier_destroy(&all_there) == 0);
    ANSWERS(xti_journal_to(-1), 0);
    back(saved);
    CHECK(has(text_of(said), "xti: the journal stops after step ") == at_once);
    CHECK(has(text_of(file), "\nend ") && ends_with(journal, at_once ? "\n" : "\nend 66\n"));
    CHECK(close(file) == 0 && close(said) == 0);
}

/* A file that takes nothing ends the recording, and so does memory that is lacking for a line; each call is made all the same. */
static void lost(void)
{
    int file = new_file(), full = open("/dev/full", O_WRONLY), said, saved, fd;

    said = to_file(&saved);
    ANSWERS(xti_journal_to(full), 0);
    fd = endpoint("ticots", 0, NULL, 0);
    ANSWERS(t_close(fd), 0);
    ANSWERS(xti_journal_to(-1), 0);
    CHECK(has(text_of(said), "xti: the journal stops after step 2: No space left on device\n"));
    fd = endpoint("ticots", 0, NULL, 0);
    ANSWERS(t_close(fd), 0);
    ANSWERS(xti_journal_to(file), 0);
    fd = endpoint("ticots", 0, NULL, 0);
    allocations = 0;
    refuse_at = 1;
    ANSWERS(t_getstate(fd), T_UNBND);
    refuse_at = 0;
    ANSWERS(t_close(fd), 0);
    back(saved);
    CHECK(has(text_of(said), "xti: the journal stops after step 1: out of memory\n"));
    CHECK(ends_with(text_of(file), "\n1 0 open ticots block => ok 0 T_UNBND\nend 1\n"));
    CHECK(close(file) == 0 && close(full) == 0 && close(said) == 0);
}

int main(void)
{
    lines();
    refusals();
    no_descriptor();
    one_after_the_other();
    forked();
    threads(TOO_MANY, 0);
    threads(TOO_MANY, 1);
    lost();
    return finish("recording");
}
