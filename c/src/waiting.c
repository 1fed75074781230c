/* A blocked call queues at its endpoint, and at that which it sends a datagram to, and tries again when it is woken. It waits by a
   semaphore, since sem_wait ends with a signal, as a condition variable doesn't. */
#include "waiting.h"
#include "endpoints.h"
#include "watching.h"
#include <errno.h>
#include <pthread.h>
#include <semaphore.h>
#include <stddef.h>
#include <sys/single_threaded.h>

struct link {
    struct waiter *waiter;
    struct link *next;
};

struct waiter {
    sem_t woken;
    enum waits_for what;
    int places[2];
    struct link links[2];
};

static pthread_mutex_t lock = PTHREAD_MUTEX_INITIALIZER;
/* Whether who is in needs the lock, which a process of one thread doesn't; whether it holds off cancellation, and the state that it
   goes back to. */
static int is_locked, is_held_off, cancel_state;
static struct link *queues[XTI_PLACES];
unsigned int xti_waiters;

void xti_enter_to_step(void)
{
    if (__libc_single_threaded)
        return;
    pthread_mutex_lock(&lock);
    is_locked = 1;
}

void xti_hold_off_cancellation(void)
{
    if (is_held_off)
        return;
    pthread_setcancelstate(PTHREAD_CANCEL_DISABLE, &cancel_state);
    is_held_off = 1;
}

void xti_enter(void)
{
    int old;

    pthread_setcancelstate(PTHREAD_CANCEL_DISABLE, &old);
    pthread_mutex_lock(&lock);
    is_locked = 1;
    cancel_state = old;
    is_held_off = 1;
}

void xti_leave(void)
{
    int was_locked = is_locked, was_held_off = is_held_off, old = cancel_state;

    is_locked = is_held_off = 0;
    if (was_locked)
        pthread_mutex_unlock(&lock);
    if (was_held_off)
        pthread_setcancelstate(old, &old);
}

static void join_queue(struct waiter *w, int i)
{
    struct link *l = &w->links[i];

    l->waiter = w;
    l->next = queues[w->places[i]];
    queues[w->places[i]] = l;
}

static void leave_queue(struct waiter *w, int i)
{
    struct link **at = &queues[w->places[i]];

    while (*at != &w->links[i])
        at = &(*at)->next;
    *at = w->links[i].next;
}

static int count_of(const struct waiter *w)
{
    return w->places[0] == w->places[1] ? 1 : 2;
}

/* With the lock held again. */
static void end_wait(struct waiter *w)
{
    int i;

    for (i = 0; i < count_of(w); i++)
        leave_queue(w, i);
    xti_waiters--;
    sem_destroy(&w->woken);
}

/* Where the thread is cancelled in its wait, with the lock not held. */
static void cancelled(void *w)
{
    xti_enter();
    end_wait(w);
    xti_leave();
}

int xti_wait(int place, int other_place, enum waits_for what)
{
    struct waiter self;
    int i, is_interrupted = 0;

    sem_init(&self.woken, 0, 0);
    self.what = what;
    self.places[0] = place;
    self.places[1] = other_place;
    for (i = 0; i < count_of(&self); i++)
        join_queue(&self, i);
    xti_waiters++;
    pthread_cleanup_push(cancelled, &self);
    xti_leave();
    is_interrupted = sem_wait(&self.woken) < 0 && errno == EINTR;
    xti_enter();
    pthread_cleanup_pop(0);
    end_wait(&self);
    return is_interrupted;
}

void xti_wake(int place, int for_change, int for_room)
{
    struct link *l;

    for (l = queues[place]; l; l = l->next)
        if (l->waiter->what == WAITS_FOR_ROOM ? for_room : for_change)
            sem_post(&l->waiter->woken);
}

int xti_has_waiters(void)
{
    return xti_waiters > 0;
}

void xti_forget_waiters(void)
{
    int place;

    xti_waiters = 0;
    for (place = 0; place < XTI_PLACES; place++)
        queues[place] = NULL;
}
