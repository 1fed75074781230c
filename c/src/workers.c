/* The numbers of threads in a journal. A thread that has ended leaves its number to the next one; but a call that a signal or a
   cancellation ended part way keeps it, since in a journal its worker makes nothing else any more. */
#include "workers.h"
#include "waiting.h"
#include <pthread.h>
#include <stdint.h>

enum { THREADS = 32, FCNTL = THREADS };

/* Of the thread's number: the journal that it is for, itself, and whether the thread's call is part way. */
struct own {
    unsigned int journal;
    int worker, is_part_way;
};

static __thread struct own own;
static unsigned int journal;
static uint32_t taken;
static pthread_key_t key;
static int has_key;

/* The thread ends. */
static void leave_number(void *at)
{
    const struct own *it = at;

    xti_enter();
    if (it->journal == journal && !it->is_part_way)
        taken &= ~((uint32_t)1 << it->worker);
    xti_leave();
}

void xti_renew_workers(void)
{
    journal++;
    taken = 0;
    if (!has_key)
        has_key = pthread_key_create(&key, leave_number) == 0;
}

static int take_number(void)
{
    if (taken == UINT32_MAX)
        return -1;
    own.journal = journal;
    own.worker = __builtin_ctz(~taken);
    own.is_part_way = 0;
    taken |= (uint32_t)1 << own.worker;
    if (has_key)
        pthread_setspecific(key, &own);
    return own.worker;
}

int xti_worker_of(const struct xti_asked *asked)
{
    if (asked->call == XTI_MODE)
        return FCNTL;
    if (own.journal == journal && !(own.is_part_way && !asked->more))
        return own.worker;
    return take_number();
}

void xti_note_part(const struct xti_asked *asked, enum xti_end end)
{
    if (asked->call != XTI_MODE)
        own.is_part_way = end == XTI_PART;
}
