/* Whether descriptors can be waited for. */
#ifndef XTI_WATCHING_H
#define XTI_WATCHING_H

/* Whether anything in the process can wait for descriptors, by poll, select, epoll or the like, or may come to. Where nothing can,
   nobody sees whether one is readable, so that no call needs to tell it, which takes as long as the rest of a call. */
extern int xti_is_watched;
/* Finds that out, once. */
void xti_find_watchers(void);

#endif
