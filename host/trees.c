/* Tests of the box tree. */
#include <stdio.h>
#include <stdlib.h>
#include <string.h>
#include "buffers.h"
#include "expect.h"
#include "viskunor.h"

/* A node's record against what `wanted` holds of it, which may be what stood there before. */
static int same_node(const vk_node *n, int i)
{
    const double *c = wanted.corners + GUARD + 4 * i;
    const uint32_t *l = wanted.links + GUARD + 2 * i;
    return same_bits(n->min_x, c[0]) && same_bits(n->min_y, c[1]) && same_bits(n->max_x, c[2])
           && same_bits(n->max_y, c[3]) && n->first == l[0] && n->count == l[1];
}

/* The tree as records, of which `room` are lent, where `wanted` holds what must be left. */
static void test_nodes(int line, const double *boxes, size_t len, size_t room, size_t places,
                       uint32_t number, uint32_t nodes, uint32_t items)
{
    static vk_node list[511 + 2];
    uint32_t got_nodes = stale_word, got_items = stale_word;
    int i;
    vk_node old;
    old.min_x = old.min_y = old.max_x = old.max_y = from_bits(stale);
    old.first = old.count = stale_word;
    for (i = 0; i < COUNT(list); i++)
        list[i] = old;
    blank(&given);
    expect_word("vk_index_nodes", line,
                vk_index_nodes(boxes, len, list + 1, room, given.items + GUARD, places, &got_nodes, &got_items), number);
    expect_word("vk_index_nodes, nodes", line, got_nodes, nodes);
    expect_word("vk_index_nodes, items", line, got_items, items);
    for (i = 0; i < 511; i++)
        expect_word("vk_index_nodes, a record", line, (uint32_t)same_node(list + 1 + i, i), 1);
    expect_word("vk_index_nodes, around", line,
                list[0].first == stale_word && list[512].first == stale_word && same_bits(list[512].min_x, old.min_x), 1);
    expect_word("vk_index_nodes, items' list", line, memcmp(given.items, wanted.items, sizeof given.items) == 0, 1);
}

/* Building, in both forms, where `wanted` holds what must be left. */
static void test_build(int line, const double *boxes, size_t len, lengths n,
                       uint32_t number, uint32_t nodes, uint32_t items)
{
    uint32_t got_nodes = stale_word, got_items = stale_word;
    blank(&given);
    expect_word("vk_index_build", line,
                vk_index_build(boxes, len, LENT(n), &got_nodes, &got_items), number);
    expect_word("vk_index_build, nodes", line, got_nodes, nodes);
    expect_word("vk_index_build, items", line, got_items, items);
    expect_spaces("vk_index_build", line);
    if (number != 13)
        test_nodes(line, boxes, len, n.corners / 4, n.items, number, nodes, items);
}

/* What `meeting` must list; the buffer must be left cleared, or as it was where the call is refused. */
static void test_meeting(int line, const double *boxes, size_t len, const double *cell, lengths n,
                         uint32_t number, uint32_t count, const uint32_t *list)
{
    uint32_t got = stale_word;
    blank(&given);
    blank(&wanted);
    if (number == 0)
        clear(&wanted);
    memcpy(wanted.list + GUARD, list, count * sizeof *list);
    expect_word("vk_index_meeting", line,
                vk_index_meeting(boxes, len, cell[0], cell[1], cell[2], cell[3], LENT(n), given.list + GUARD, n.list, &got), number);
    expect_word("vk_index_meeting, count", line, got, count);
    expect_spaces("vk_index_meeting", line);
}

/* Node n of what must be left: its corners and links. */
static void want_node(int n, double min_x, double min_y, double max_x, double max_y, uint32_t first, uint32_t count)
{
    double *c = wanted.corners + GUARD + 4 * n;
    uint32_t *l = wanted.links + GUARD + 2 * n;
    c[0] = min_x;
    c[1] = min_y;
    c[2] = max_x;
    c[3] = max_y;
    l[0] = first;
    l[1] = count;
}

/* The items from 0 to n - 1, in this order. */
static void want_items(int n)
{
    int i;
    for (i = 0; i < n; i++)
        wanted.items[GUARD + i] = (uint32_t)i;
}

static const double two[] = { 0, 0, 1, 1, 10, 10, 11, 11 };
static const double row[] = { 0, 0, 1, 1, 2, 0, 3, 1, 4, 0, 5, 1, 6, 0, 7, 1, 8, 0, 9, 1 };
static const double column[] = { 0, 8, 1, 9, 0, 6, 1, 7, 0, 4, 1, 5, 0, 2, 1, 3, 0, 0, 1, 1 };
static const double all[4] = { -1048576, -1048576, 1048576, 1048576 };

static double margin(double largest)
{
    return 1e-9 * largest;
}

static void builds(void)
{
    double inf = from_bits(infinity), equal[20];
    int i;
    /* no boxes: the sole node is a leaf */
    blank(&wanted);
    want_node(0, inf, inf, -inf, -inf, 0, 0);
    test_build(0, (const double *)0, 0, stated, 0, 1, 0);
    test_build(1, (const double *)0, 0, longer, 0, 1, 0);
    blank(&wanted);
    want_node(0, -margin(1), -margin(1), 11 + margin(11), 11 + margin(11), 0, 2);
    want_items(2);
    test_build(2, LIST(two), stated, 0, 1, 2);
    test_build(3, LIST(two), longer, 0, 1, 2);
    /* five boxes: two in the first leaf, three in the second */
    blank(&wanted);
    want_node(0, -margin(1), -margin(9), 9 + margin(9), 1 + margin(9), 1, 0);
    want_node(1, -margin(1), -margin(3), 3 + margin(3), 1 + margin(3), 0, 2);
    want_node(2, 4 - margin(5), -margin(9), 9 + margin(9), 1 + margin(9), 2, 3);
    want_items(5);
    test_build(4, LIST(row), stated, 0, 3, 5);
    /* split along y: the last two come first, and a leaf's items ascend */
    blank(&wanted);
    want_node(0, -margin(9), -margin(1), 1 + margin(9), 9 + margin(9), 1, 0);
    want_node(1, -margin(3), -margin(1), 1 + margin(3), 3 + margin(3), 0, 2);
    want_node(2, -margin(9), 4 - margin(5), 1 + margin(9), 9 + margin(9), 2, 3);
    wanted.items[GUARD] = 3;
    wanted.items[GUARD + 1] = 4;
    for (i = 0; i < 3; i++)
        wanted.items[GUARD + 2 + i] = (uint32_t)i;
    test_build(5, LIST(column), stated, 0, 3, 5);
    /* equal centres: by number */
    for (i = 0; i < 20; i++)
        equal[i] = two[i % 4];
    blank(&wanted);
    for (i = 0; i < 3; i++)
        want_node(i, -margin(1), -margin(1), 1 + margin(1), 1 + margin(1), (uint32_t)(i == 0 ? 1 : 2 * i - 2),
                  (uint32_t)(i == 0 ? 0 : i + 1));
    want_items(5);
    test_build(6, LIST(equal), stated, 0, 3, 5);
}

static void refusals(void)
{
    static double many[4100];
    static const uint32_t none[1] = { 0 };
    double list[8], cell[4], bad[4];
    int i, j;
    lengths empty = { 0, 0, 0, 0 };
    bad[0] = from_bits(not_a_number);
    bad[1] = from_bits(infinity);
    bad[2] = from_bits(past_field_end);
    bad[3] = -from_bits(past_field_end);
    blank(&wanted);
    for (i = 0; i < 4; i++) {
        if (i < 3)
            test_build(10 + i, LIST(two), shorter(i), 13, 0, 0);
        test_meeting(10 + i, LIST(two), all, shorter(i), 13, 0, none);
        blank(&wanted);
    }
    test_nodes(15, LIST(two), 510, ITEMS, 13, 0, 0);
    test_nodes(16, LIST(two), 511, ITEMS - 1, 13, 0, 0);
    test_nodes(17, (const double *)0, 0, 0, 0, 13, 0, 0);
    for (i = 1; i < 4; i++) {
        test_build(20 + i, two, (size_t)(4 + i), empty, 11, 0, 0);
        test_meeting(20 + i, two, (size_t)(4 + i), all, empty, 11, 0, none);
        blank(&wanted);
    }
    for (i = 0; i < 8; i++)
        for (j = 0; j < 4; j++) {
            memcpy(list, two, sizeof list);
            list[i] = bad[j];
            test_build(100 + 4 * i + j, LIST(list), empty, 11, 0, 0);
            test_meeting(100 + 4 * i + j, LIST(list), all, empty, 11, 0, none);
            memcpy(cell, all, sizeof cell);
            cell[i % 4] = bad[j];
            test_meeting(200 + 4 * i + j, LIST(two), cell, empty, 11, 0, none);
            blank(&wanted);
        }
    for (i = 0; i < 2; i++) {
        memcpy(list, two, sizeof list);
        list[4 + i] = 12;
        test_build(300 + i, LIST(list), stated, 11, 0, 0);
        memcpy(cell, two, sizeof cell);
        cell[i] = 2;
        test_meeting(300 + i, LIST(two), cell, stated, 11, 0, none);
        blank(&wanted);
    }
    /* too many comes first */
    many[0] = from_bits(not_a_number);
    test_build(310, many, 4097, empty, 4, 0, 0);
    test_build(311, many, 4100, empty, 4, 0, 0);
    test_build(312, many, 4096, empty, 11, 0, 0);
    test_meeting(310, many, 4097, all, empty, 4, 0, none);
}

static void meetings(void)
{
    static const double between[4] = { 5, 5, 6, 6 }, beyond[4] = { 20, 20, 21, 21 }, edge[4] = { 3, 1, 3, 5 };
    static const double second[4] = { 8, 0, 8, 0 };
    static const uint32_t both[] = { 0, 1 }, late[] = { 2, 3, 4 }, by_row[] = { 0, 1, 2, 3, 4 },
                          by_column[] = { 3, 4, 0, 1, 2 };
    /* a leaf's box decides, not the item's own */
    test_meeting(0, LIST(two), between, stated, 0, 2, both);
    test_meeting(1, LIST(two), beyond, stated, 0, 0, both);
    test_meeting(2, LIST(two), between, longer, 0, 2, both);
    test_meeting(3, (const double *)0, 0, all, stated, 0, 0, both);
    test_meeting(4, LIST(row), all, stated, 0, 5, by_row);
    /* the first child's leaves first */
    test_meeting(5, LIST(column), all, stated, 0, 5, by_column);
    /* sides that touch share a point */
    test_meeting(6, LIST(row), edge, stated, 0, 2, both);
    test_meeting(7, LIST(row), second, stated, 0, 3, late);
}

/* 1,024 boxes: 511 nodes, every item once, each leaf's ascending. */
static void largest(void)
{
    static double list[4096];
    static uint32_t seen[ITEMS];
    uint32_t nodes, items, i, k;
    for (i = 0; i < 1024; i++) {
        list[4 * i] = list[4 * i + 2] = i * 37 % 101;
        list[4 * i + 1] = list[4 * i + 3] = i * 53 % 97;
    }
    blank(&given);
    expect_word("vk_index_build, 1,024 boxes", 0,
                vk_index_build(list, 4096, LENT(stated), &nodes, &items), 0);
    expect_word("vk_index_build, 1,024 boxes", 1, nodes, 511);
    expect_word("vk_index_build, 1,024 boxes", 2, items, 1024);
    for (i = 0; i < 1024; i++)
        seen[given.items[GUARD + i] % ITEMS]++;
    for (i = 0; i < 1024; i++)
        expect_word("vk_index_build, times an item stands", (int)i, seen[i], 1);
    for (i = 0; i < nodes; i++) {
        uint32_t first = given.links[GUARD + 2 * i], count = given.links[GUARD + 2 * i + 1];
        expect_word("vk_index_build, a link", (int)i, count <= 4 && (count > 0 ? first + count <= 1024 : first + 1 < 511), 1);
        for (k = 1; k < count && first + count <= 1024; k++)
            expect_word("vk_index_build, order in a leaf", (int)i,
                        given.items[GUARD + first + k - 1] < given.items[GUARD + first + k], 1);
    }
}

/* Lists of exactly the lengths told, from the heap: valgrind sees a read or write past them. */
static void exact_lengths(void)
{
    double *boxes = (double *)malloc(sizeof row), *corners = (double *)malloc(CORNERS * sizeof(double));
    uint32_t *links = (uint32_t *)malloc(LINKS * sizeof(uint32_t)), *items = (uint32_t *)malloc(ITEMS * sizeof(uint32_t)),
             *list = (uint32_t *)malloc(ITEMS * sizeof(uint32_t)), nodes, count;
    if (boxes == NULL || corners == NULL || links == NULL || items == NULL || list == NULL) {
        printf("no memory\n");
        exit(2);
    }
    memcpy(boxes, row, sizeof row);
    expect_word("vk_index_build", 900,
                vk_index_build(boxes, 20, corners, CORNERS, links, LINKS, items, ITEMS, &nodes, &count), 0);
    expect_word("vk_index_build, nodes", 900, nodes, 3);
    expect_word("vk_index_meeting", 900,
                vk_index_meeting(boxes, 20, -1, -1, 20, 20, corners, CORNERS, links, LINKS, items, ITEMS, list, ITEMS,
                                 &count), 0);
    expect_word("vk_index_meeting, count", 900, count, 5);
    free(list);
    free(items);
    free(links);
    free(corners);
    free(boxes);
}

void trees(void)
{
    builds();
    refusals();
    meetings();
    largest();
    exact_lengths();
}
