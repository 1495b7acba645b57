/*
 * Zooming out: two cells, one inside the other, over random boxes. What the inner cell lists is what the
 * outer lists with some items left out, in the same order, and every box that shares a point with a cell
 * is listed for it.
 */
#include <stdio.h>
#include "buffers.h"
#include "expect.h"
#include "viskunor.h"

#define PAIRS 100000

static double boxes[4 * ITEMS];
static uint32_t inner[ITEMS], outer[ITEMS];

static uint32_t below(uint32_t n)
{
    static uint32_t state = 20010701;
    state ^= state << 13;
    state ^= state >> 17;
    state ^= state << 5;
    return state % n;
}

/* A quarter of a micrometre is the distance between places, so that sides often meet. */
static double place(uint32_t places)
{
    return ((double)below(places) - (double)(places / 2)) / 4;
}

/* So many boxes, points and lines among them. */
static uint32_t draw_boxes(void)
{
    uint32_t count = below(256) == 0 ? below(ITEMS + 1) : below(24), width = 1 + below(12), i;
    for (i = 0; i < count; i++) {
        double *b = boxes + 4 * i;
        b[0] = place(80);
        b[1] = place(80);
        b[2] = b[0] + below(width) / 4.0;
        b[3] = b[1] + below(width) / 4.0;
    }
    return count;
}

/* Four places of one axis in rising order, the inner cell's two in the middle; an inner side is now and then the outer one. */
static void draw_sides(double *s)
{
    int i, j;
    for (i = 0; i < 4; i++) {
        double x = place(96);
        for (j = i; j > 0 && s[j - 1] > x; j--)
            s[j] = s[j - 1];
        s[j] = x;
    }
    if (below(4) == 0)
        s[1] = s[0];
    if (below(4) == 0)
        s[2] = s[3];
}

/* What a cell lists: how many items. */
static uint32_t list_cell(int pair, uint32_t count, const double *x, const double *y, int first, uint32_t *list)
{
    uint32_t got = stale_word;
    expect_word("zooming out, vk_index_meeting", pair,
                vk_index_meeting(boxes, 4 * (size_t)count, x[first], y[first], x[3 - first], y[3 - first], LENT(stated),
                                 list, ITEMS, &got), 0);
    return got;
}

/* How many boxes share a point with the cell and are not listed. */
static uint32_t missed(uint32_t count, const double *x, const double *y, int first, const uint32_t *list, uint32_t listed)
{
    static uint32_t seen[ITEMS];
    uint32_t i, sum = 0;
    for (i = 0; i < count; i++)
        seen[i] = 0;
    for (i = 0; i < listed; i++)
        seen[list[i] % ITEMS] = 1;
    for (i = 0; i < count; i++) {
        const double *b = boxes + 4 * i;
        if (b[0] <= x[3 - first] && b[2] >= x[first] && b[1] <= y[3 - first] && b[3] >= y[first] && !seen[i])
            sum++;
    }
    return sum;
}

/* How many of the inner list's items, read from its front on, are found in the outer list in this order. */
static uint32_t in_order(uint32_t m, uint32_t n)
{
    uint32_t i = 0, j;
    for (j = 0; j < n && i < m; j++)
        if (inner[i] == outer[j])
            i++;
    return i;
}

void zooms(void)
{
    uint32_t left_out = 0, m, n;
    int pair;
    double x[4], y[4];
    for (pair = 0; pair < PAIRS; pair++) {
        uint32_t count = draw_boxes();
        draw_sides(x);
        draw_sides(y);
        m = list_cell(pair, count, x, y, 1, inner);
        n = list_cell(pair, count, x, y, 0, outer);
        expect_word("zooming out, the inner list's items in the outer list", pair, in_order(m, n), m);
        expect_word("zooming out, boxes missed by the inner cell", pair, missed(count, x, y, 1, inner, m), 0);
        expect_word("zooming out, boxes missed by the outer cell", pair, missed(count, x, y, 0, outer, n), 0);
        left_out += m > 0 && m < n;
    }
    /* the pairs tell something: the inner list is often neither empty nor the outer one */
    expect_word("zooming out, pairs with some items left out", 0, left_out > PAIRS / 10, 1);
    printf("zooming out: %d pairs of cells, the inner list neither empty nor the outer in %lu\n", PAIRS, (unsigned long)left_out);
}
