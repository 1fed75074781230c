/* After a fork each process has the world to itself: the child has a copy of every endpoint, none of them linked with the parent's,
   waits for nothing, and records nothing. Its descriptors get eventfds of their own, since the parent's would be shared. */
#include "forking.h"
#include "endpoints.h"
#include "recording.h"
#include "waiting.h"
#include <pthread.h>

static void in_child(void)
{
    places open = xti_open_places;
    struct endpoint *e;

    while ((e = xti_take_first(&open)))
        xti_renew_descriptors(e);
    xti_forget_waiters();
    xti_forget_journal();
    xti_leave();
}

static void watch(void)
{
    pthread_atfork(xti_enter, xti_leave, in_child);
}

void xti_watch_forks(void)
{
    static pthread_once_t once = PTHREAD_ONCE_INIT;

    pthread_once(&once, watch);
}
