/* What the steps of a journal need, which tools/journal-to-c puts before them. */
#include <errno.h>
#include <fcntl.h>
#include <stdio.h>
#include <stdlib.h>
#include <string.h>
#include <xti.h>

#define USED __attribute__((unused)) static

enum { ROOM = 262144, ENDPOINTS = /*ENDPOINTS*/, SEQUENCES = /*SEQUENCES*/ };

struct bytes {
    unsigned int len;
    const void *at;
};

USED const char *const states[] = { "T_UNINIT", "T_UNBND", "T_IDLE", "T_OUTCON", "T_INCON", "T_DATAXFER", "T_OUTREL", "T_INREL" };
/* The descriptors of endpoints, in the order in which they are opened, and the numbers of requests, in which they are taken. */
static int endpoint[ENDPOINTS];
USED int sequence[SEQUENCES];
/* The step, by its number in the journal, and how many answers were otherwise. */
static int step, wrong;

/* What a call is given and what it answers. */
USED unsigned char address[ROOM], options[ROOM], data[ROOM], peer[ROOM];
USED struct t_call call;
USED struct t_bind bound, other;
USED struct t_unitdata unit;
USED struct t_uderr uderr;
USED struct t_discon discon;
USED struct t_optmgmt managed;
USED struct t_info info;
USED struct t_iovec vector[T_IOV_MAX + 1];
USED int flags;

static void is_wrong(const char *what)
{
    printf("step %d: %s\n", step, what);
    wrong++;
}

/* A call answers this number. */
USED void answers(long found, long wanted)
{
    if (found == wanted)
        return;
    is_wrong("another answer");
    printf("  %ld, and not %ld%s%s\n", found, wanted, found < 0 ? ": " : "", found < 0 ? t_strerror(t_errno) : "");
}

/* A call is refused with this error. */
USED void refuses(long found, int error)
{
    if (found == -1 && t_errno == error)
        return;
    is_wrong("it isn't refused so");
    printf("  answered %ld, %s, and not %s\n", found, found < 0 ? t_strerror(t_errno) : "no error", t_strerror(error));
}

/* A request without waiting, which may be refused at once. */
USED void requests(long found)
{
    if (found != -1 || t_errno != TLOOK)
        refuses(found, TNODATA);
}

USED void stands(int fd, int state)
{
    int found = t_getstate(fd);

    if (found == state)
        return;
    is_wrong("another state");
    printf("  %d, and not %s\n", found, states[state]);
}

USED void same(const char *what, const void *found, size_t len, struct bytes wanted)
{
    size_t i = 0;

    while (i < len && i < wanted.len && ((const unsigned char *)found)[i] == ((const unsigned char *)wanted.at)[i])
        i++;
    if (i == len && i == wanted.len)
        return;
    is_wrong(what);
    printf("  %lu bytes, and not %u; they differ from byte %lu on\n", (unsigned long)len, wanted.len, (unsigned long)i);
}

USED void set_mode(int fd, int is_nonblocking)
{
    int now = fcntl(fd, F_GETFL);

    if (now < 0 || fcntl(fd, F_SETFL, is_nonblocking ? now | O_NONBLOCK : now & ~O_NONBLOCK) < 0)
        is_wrong("fcntl");
}

/* ---- netbufs */

USED struct netbuf given(struct bytes bytes)
{
    struct netbuf n = { 0, 0, NULL };

    n.len = bytes.len;
    n.buf = (void *)(size_t)bytes.at;
    return n;
}

USED struct netbuf room(void *at, unsigned int maxlen)
{
    struct netbuf n = { 0, 0, NULL };

    n.maxlen = maxlen;
    n.buf = at;
    return n;
}

USED void same_buffer(const char *what, const struct netbuf *found, struct bytes wanted)
{
    /* Where no room was given, none are told. */
    if (found->maxlen > 0)
        same(what, found->buf, found->len, wanted);
}

/* ---- options: in a journal the most significant byte of a word is the first */

USED uint32_t word_at(const unsigned char *at)
{
    return (uint32_t)at[0] << 24 | (uint32_t)at[1] << 16 | (uint32_t)at[2] << 8 | at[3];
}

USED void put_word(unsigned char *at, uint32_t word)
{
    at[0] = (unsigned char)(word >> 24);
    at[1] = (unsigned char)(word >> 16);
    at[2] = (unsigned char)(word >> 8);
    at[3] = (unsigned char)word;
}

USED void turn_word(unsigned char *at, int to_host)
{
    uint32_t word;

    if (to_host) {
        word = word_at(at);
        memcpy(at, &word, sizeof word);
    } else {
        memcpy(&word, at, sizeof word);
        put_word(at, word);
    }
}

/* Turns a list of options, as far as it is one. A value of XTI_GENERIC is words, too. */
USED void turn(unsigned char *list, size_t len, int to_host)
{
    size_t i = 0, at, header = sizeof(struct t_opthdr);

    while (i <= len && len - i >= header) {
        uint32_t words[4];
        for (at = 0; at < header; at += 4) {
            if (to_host)
                turn_word(list + i + at, 1);
            memcpy(&words[at / 4], list + i + at, 4);
            if (!to_host)
                turn_word(list + i + at, 0);
        }
        if (words[0] < header || words[0] > len - i)
            return;
        if (words[1] == XTI_GENERIC)
            for (at = header; at + 4 <= words[0]; at += 4)
                turn_word(list + i + at, to_host);
        i += (words[0] + 3) & ~(size_t)3;
    }
}

USED struct netbuf given_options(struct bytes bytes)
{
    struct netbuf n = { 0, 0, NULL };

    n.len = bytes.len;
    n.buf = options;
    if (bytes.len)
        memcpy(options, bytes.at, bytes.len);
    turn(options, bytes.len, 1);
    return n;
}

USED void same_options(struct netbuf *found, struct bytes wanted)
{
    if (found->maxlen == 0)
        return;
    turn(found->buf, found->len, 0);
    same("other options", found->buf, found->len, wanted);
}

/* ---- vectors */

USED void part(int i, struct bytes bytes)
{
    vector[i].iov_base = (void *)(size_t)bytes.at;
    vector[i].iov_len = bytes.len;
}

/* Buffers of these sizes, one after the other. */
USED void buffer(int i, size_t size)
{
    vector[i].iov_base = i ? (unsigned char *)vector[i - 1].iov_base + vector[i - 1].iov_len : data;
    vector[i].iov_len = size;
}

static int finish(int steps)
{
    printf("%d steps, %d answers are wrong\n", steps, wrong);
    return wrong != 0;
}
