/*
 * Index buffers for the tests: the lists are lent from the middle of larger
 * ones, whose other places must stay as they are.
 */
#ifndef BUFFERS_H
#define BUFFERS_H

#include <stddef.h>
#include <stdint.h>

#define GUARD 4
#define CORNERS 2044
#define LINKS 1022
#define ITEMS 1024
#define MORE 8 /* places past the stated sizes that a list may have here */

/* An index buffer and the list of `meeting`, with the places around them. */
typedef struct {
    double corners[CORNERS + MORE + 2 * GUARD];
    uint32_t links[LINKS + MORE + 2 * GUARD];
    uint32_t items[ITEMS + MORE + 2 * GUARD];
    uint32_t list[ITEMS + MORE + 2 * GUARD];
} space;

/* The lengths that a call is told. */
typedef struct { size_t corners, links, items, list; } lengths;

extern const lengths stated, longer;

/* What a call is lent, and what it must leave there. */
extern space given, wanted;

/* What stands there before a call. */
void blank(space *s);

/* Zeros in the 511 nodes and 1,024 items. */
void clear(space *s);

/* The stated lengths with one of them, the k-th, one below what it must be. */
lengths shorter(int k);

/* What was given is what is wanted. */
void expect_spaces(const char *call, int line);

/* The index buffer as arguments. */
#define LENT(n) given.corners + GUARD, (n).corners, given.links + GUARD, (n).links, given.items + GUARD, (n).items

#endif
