/* What the tests share: checks, and endpoints in each state. */
#ifndef HARNESS_H
#define HARNESS_H

#include <errno.h>
#include <fcntl.h>
#include <pthread.h>
#include <stdio.h>
#include <stdlib.h>
#include <string.h>
#include <tiuser.h>
#include <unistd.h>

/* Counts and prints a check that fails. */
#define CHECK(condition) check((condition) != 0, #condition, __FILE__, __LINE__)
/* A call that answers -1 with this t_errno, and leaves the endpoint in this state. */
#define REFUSED(call, error, fd, state) refused((call), #call, (error), (fd), (state), __FILE__, __LINE__)
/* A call that answers this number. */
#define ANSWERS(call, number) answers((call), #call, (number), __FILE__, __LINE__)

int check(int holds, const char *text, const char *file, int line);
int refused(int result, const char *text, int error, int fd, int state, const char *file, int line);
int answers(int result, const char *text, int number, const char *file, int line);
/* How many checks have failed. */
int failed_checks(void);
/* Prints what was found; the status of the program. */
int finish(const char *name);

/* A netbuf of a text, and one of room. */
struct netbuf text(const char *bytes);
struct netbuf room(void *bytes, unsigned int maxlen);

/* An open endpoint, in T_IDLE with an address and a queue length where `address` isn't NULL. */
int endpoint(const char *provider, int flags, const char *address, unsigned int queue_length);
/* Two connected endpoints of a provider: the accepting one and the caller; both are set to O_NONBLOCK. */
void connected(const char *provider, int *accepting, int *caller);
/* Asks for a connection without waiting: a caller in T_OUTCON. */
int calling(const char *provider, const char *address);
/* Takes a request at a listener; its number. */
int listened(int fd);
void set_nonblocking(int fd, int is_nonblocking);

#endif
