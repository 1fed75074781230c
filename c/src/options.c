/* The words of options in either order. A value of XTI_GENERIC is a word, too. */
#include "options.h"
#include "buffers.h"
#include <string.h>

static uint32_t get_big(const uint8_t *at)
{
    return (uint32_t)at[0] << 24 | (uint32_t)at[1] << 16 | (uint32_t)at[2] << 8 | at[3];
}

static void put_big(uint8_t *at, uint32_t word)
{
    at[0] = (uint8_t)(word >> 24);
    at[1] = (uint8_t)(word >> 16);
    at[2] = (uint8_t)(word >> 8);
    at[3] = (uint8_t)word;
}

static uint32_t get_host(const uint8_t *at)
{
    uint32_t word;

    memcpy(&word, at, sizeof word);
    return word;
}

static void put_host(uint8_t *at, uint32_t word)
{
    memcpy(at, &word, sizeof word);
}

/* The header of an option, and the bytes up to the next one. */
static size_t up_to_next(size_t size)
{
    return (size + 3) & ~(size_t)3;
}

static void turn_words(uint8_t *at, size_t len, int to_host)
{
    size_t i;

    for (i = 0; i + 4 <= len; i += 4)
        if (to_host)
            put_host(at + i, get_big(at + i));
        else
            put_big(at + i, get_host(at + i));
}

/* Turns a list of options, as far as it is one: the rest stays as it is, and the library refuses it. */
static void turn(uint8_t *bytes, size_t len, int to_host)
{
    size_t i = 0;

    while (i <= len && len - i >= sizeof(struct t_opthdr)) {
        uint8_t *at = bytes + i;
        uint32_t size = to_host ? get_big(at) : get_host(at);
        uint32_t level = to_host ? get_big(at + 4) : get_host(at + 4);
        turn_words(at, sizeof(struct t_opthdr), to_host);
        if (size < sizeof(struct t_opthdr) || size > len - i)
            return;
        if (level == XTI_GENERIC)
            turn_words(at + sizeof(struct t_opthdr), size - sizeof(struct t_opthdr), to_host);
        i += up_to_next(size);
    }
}

/* Clears the bytes between options, and adds those after the last that a program may leave out; the length then. */
static size_t fill_up(uint8_t *bytes, size_t len)
{
    size_t i = 0;

    while (len - i >= sizeof(struct t_opthdr)) {
        uint32_t size = get_host(bytes + i);
        size_t end;
        if (size < sizeof(struct t_opthdr) || size > len - i)
            return len;
        end = i + up_to_next(size);
        if (end > MOST_OPTIONS)
            return len;
        memset(bytes + i + size, 0, end - (i + size));
        i = end;
        if (i > len)
            return i;
    }
    return len;
}

size_t xti_take_options(uint8_t *to, const struct netbuf *n)
{
    size_t len = xti_bounded(n->len, MOST_OPTIONS);

    if (len == 0)
        return 0;
    memcpy(to, n->buf, len);
    len = fill_up(to, len);
    turn(to, len, 0);
    return len;
}

void xti_give_options(struct netbuf *n, struct answer *a)
{
    turn(a->opt, a->told.opt, 1);
    xti_give(n, a->opt, a->told.opt);
}
