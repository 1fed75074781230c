/* The journal of the steps that the process makes. Its lines are the library's; here they are numbered, kept, and written where many
   are kept, where a call waits, and at the end. */
#include "recording.h"
#include "calling.h"
#include "errors.h"
#include "forking.h"
#include "waiting.h"
#include "workers.h"
#include <errno.h>
#include <fcntl.h>
#include <stdio.h>
#include <stdlib.h>
#include <string.h>
#include <sys/file.h>
#include <unistd.h>
#include <xti.h>

/* So many bytes are kept before they are written, and no line is longer: of a call's arguments or of its answer at most 131,072 bytes
   are data, each of which is two digits. */
enum { MOST_KEPT = 65536, LONGEST_LINE = 327680 };

int xti_is_recording;

static int was_asked;
static uint8_t kept[MOST_KEPT + LONGEST_LINE];
static size_t kept_len;
static uint64_t steps;
static int file = -1;

static void leave_file(void)
{
    close(file);
    file = -1;
    kept_len = 0;
    xti_is_recording = 0;
}

/* Ends the recording before its time. */
static void give_up(const char *why)
{
    fprintf(stderr, "xti: the journal stops after step %llu: %s\n", (unsigned long long)steps, why);
    leave_file();
}

void xti_write_journal(void)
{
    size_t done = 0;

    while (done < kept_len) {
        ssize_t n = write(file, kept + done, kept_len - done);
        if (n == 0 || (n < 0 && errno != EINTR)) {
            give_up(strerror(errno));
            return;
        }
        done += n > 0 ? (size_t)n : 0;
    }
    kept_len = 0;
}

/* Writes the last line, and says why the journal ends here where that isn't the program's will. */
static void end(const char *why)
{
    kept_len += (size_t)sprintf((char *)kept + kept_len, "end %llu\n", (unsigned long long)steps);
    xti_write_journal();
    if (!xti_is_recording)
        return;
    if (why)
        give_up(why);
    else
        leave_file();
}

/* Begins a journal in the file of this descriptor, which is the library's own: 0, or -1 with errno set. The head is the journal of no
   steps without its last line. */
static int begin(int own)
{
    static const char no_steps[] = "end 0\n";
    size_t len = own < 0 ? 0 : xti_c_no_steps(kept, sizeof kept);

    if (own < 0)
        return -1;
    if (len == 0) {
        close(own);
        errno = ENOMEM;
        return -1;
    }
    file = own;
    kept_len = len - (sizeof no_steps - 1);
    steps = 0;
    xti_renew_workers();
    xti_is_recording = 1;
    return 0;
}

/* A descriptor of the library's own for a file that no other process records to; -1 with errno set. */
static int open_file(const char *name)
{
    int fd = open(name, O_WRONLY | O_CREAT | O_CLOEXEC, 0666), own;

    if (fd < 0)
        return -1;
    if (flock(fd, LOCK_EX | LOCK_NB) < 0 && errno == EWOULDBLOCK) {
        close(fd);
        errno = EBUSY;
        return -1;
    }
    own = xti_own_descriptor(fd);
    close(fd);
    /* A pipe or the like has no length. */
    if (own >= 0 && ftruncate(own, 0) < 0 && errno != EINVAL) {
        close(own);
        return -1;
    }
    return own;
}

void xti_record_by_environment(void)
{
    const char *name = was_asked ? NULL : secure_getenv("XTI_JOURNAL");

    was_asked = 1;
    if (name && *name && begin(open_file(name)) < 0)
        fprintf(stderr, "xti: no journal is written: %s: %s\n", name, strerror(errno));
}

void xti_place_step(const struct xti_asked *asked, struct place *place)
{
    int worker = xti_worker_of(asked);

    if (worker < 0)
        end("a journal has no number for a further thread");
    place->worker = (uint32_t)worker;
    place->number = steps + 1;
    place->room = kept + kept_len;
    place->room_len = xti_is_recording ? sizeof kept - kept_len : 0;
    place->line_len = 0;
}

void xti_take_line(const struct place *place, const struct xti_asked *asked, enum xti_end how)
{
    if (!xti_is_recording || (how != XTI_DONE && how != XTI_PART))
        return;
    if (place->line_len == 0) {
        end("out of memory");
        return;
    }
    if (place->line_len > place->room_len) {
        end("a line is too long");
        return;
    }
    steps++;
    kept_len += place->line_len;
    xti_note_part(asked, how);
    if (kept_len >= MOST_KEPT)
        xti_write_journal();
}

void xti_forget_journal(void)
{
    if (xti_is_recording)
        leave_file();
}

static int begin_locked(int fd)
{
    places open = xti_open_places;
    int flags = fcntl(fd, F_GETFL);

    if (flags < 0 || (flags & O_ACCMODE) == O_RDONLY)
        return xti_fail(TBADF);
    if (xti_take_place(&open) >= 0 || xti_has_waiters())
        return xti_fail(TOUTSTATE);
    if (xti_is_recording)
        end(NULL);
    xti_forget_world();
    return begin(xti_own_descriptor(fd)) < 0 ? xti_fail(TSYSERR) : 0;
}

int xti_journal_to(int fd)
{
    int result = 0;

    xti_watch_forks();
    xti_enter();
    was_asked = 1;
    if (fd != -1)
        result = begin_locked(fd);
    else if (xti_is_recording)
        end(NULL);
    xti_leave();
    return result;
}

__attribute__((destructor)) static void end_at_exit(void)
{
    xti_enter();
    if (xti_is_recording)
        end(NULL);
    xti_leave();
}
