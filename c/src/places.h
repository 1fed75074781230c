/* Sets of places of endpoints, each a bit. */
#ifndef XTI_PLACES_H
#define XTI_PLACES_H

#include <stdint.h>

enum {
    XTI_PLACES = 256, /* how many endpoints may be open; an endpoint's place is its number modulo this */
    PLACES_OF_WORD = 64
};

typedef struct {
    uint64_t words[XTI_PLACES / PLACES_OF_WORD];
} places;

#define NO_PLACES ((places){ { 0 } })

static inline uint64_t xti_bit_of(int place)
{
    return (uint64_t)1 << place % PLACES_OF_WORD;
}

static inline void xti_add_place(places *to, int place)
{
    to->words[place / PLACES_OF_WORD] |= xti_bit_of(place);
}

static inline void xti_remove_place(places *from, int place)
{
    from->words[place / PLACES_OF_WORD] &= ~xti_bit_of(place);
}

static inline int xti_has_place(const places *all, int place)
{
    return (all->words[place / PLACES_OF_WORD] & xti_bit_of(place)) != 0;
}

static inline void xti_add_places(places *to, const places *more)
{
    int i;

    for (i = 0; i < XTI_PLACES / PLACES_OF_WORD; i++)
        to->words[i] |= more->words[i];
}

static inline void xti_keep_places(places *from, const places *kept)
{
    int i;

    for (i = 0; i < XTI_PLACES / PLACES_OF_WORD; i++)
        from->words[i] &= kept->words[i];
}

/* The first place, which is taken out; -1 where there is none left. */
static inline int xti_take_place(places *from)
{
    int i;

    for (i = 0; i < XTI_PLACES / PLACES_OF_WORD; i++)
        if (from->words[i]) {
            int bit = __builtin_ctzll(from->words[i]);

            from->words[i] &= from->words[i] - 1;
            return i * PLACES_OF_WORD + bit;
        }
    return -1;
}

#endif
