/* t_errno and the texts of errors. */
#include "errors.h"
#include <errno.h>
#include <stdio.h>
#include <string.h>
#include <tiuser.h>

static __thread int the_error;

char *t_errlist[] = {
    "No error",
    "Incorrect address format",
    "Incorrect option format",
    "Incorrect permissions",
    "Illegal transport endpoint file descriptor",
    "Could not allocate address",
    "Routine will place interface out of state",
    "Illegal sequence number",
    "System error",
    "An event requires attention",
    "Illegal amount of data",
    "Buffer not large enough",
    "Flow control",
    "No data",
    "Disconnect not found",
    "Unitdata error not found",
    "Bad flags",
    "Orderly release not found",
    "Not supported by transport provider",
    "State is in process of changing",
    "Unsupported structure type requested",
    "Invalid transport provider name",
    "Listener queue length is zero",
    "Transport address in use",
    "Outstanding connection indications",
    "Listener and acceptor are of different providers",
    "Acceptor has a queue of connection indications",
    "Acceptor has another address",
    "Queue of connection indications is full",
    "Transport protocol error",
};
int t_nerr = sizeof t_errlist / sizeof *t_errlist;

int *_t_errno(void)
{
    return &the_error;
}

int xti_fail(int error)
{
    the_error = error;
    return -1;
}

int xti_system_fail(int error)
{
    errno = error;
    return xti_fail(TSYSERR);
}

const char *t_strerror(int errnum)
{
    static __thread char unknown[40];

    if (errnum >= 0 && errnum < t_nerr)
        return t_errlist[errnum];
    snprintf(unknown, sizeof unknown, "%d: error unknown", errnum);
    return unknown;
}

int t_error(const char *errmsg)
{
    int error = the_error, system = errno;

    if (errmsg && *errmsg)
        fprintf(stderr, "%s: ", errmsg);
    if (error == TSYSERR)
        fprintf(stderr, "%s: %s\n", t_strerror(error), strerror(system));
    else
        fprintf(stderr, "%s\n", t_strerror(error));
    return 0;
}

int t_sysconf(int name)
{
    return name == _SC_T_IOV_MAX ? T_IOV_MAX : xti_fail(TBADFLAG);
}
