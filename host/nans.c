/*
 * NaNs in lent lists: the logic has one NaN, so the proofs do not tell payloads
 * and signs apart. What a call does not write to must keep its bytes.
 */
#include <stdio.h>
#include <string.h>
#include "expect.h"
#include "viskunor.h"

#define PLACES 2064 /* numbers of a list here: more than an index buffer's corners */
#define NODES 520   /* records of a list here: more than 511 */

/* quiet and signalling, with payloads and signs */
static const bits patterns[] = {
    { 0x7ff80000, 0x00000000 }, { 0xfff80000, 0x00000001 }, { 0x7ff00000, 0x00000001 },
    { 0xfff7ffff, 0xffffffff }, { 0x7fffffff, 0xffffffff }, { 0xfff12345, 0x6789abcd },
};

/* The lists as bytes: a NaN that is loaded as a double may lose its payload. */
static union { unsigned char bytes[8 * PLACES]; double numbers[PLACES]; } lent, before;
static union { unsigned char bytes[40 * NODES]; vk_node records[NODES]; } nodes, nodes_before;
static uint32_t links[1100], items[1100], list[1100];

/* the lists of vk_set_nearest_many: outlines, with patterns in each two places, and distances */
#define LISTED 264
static union { unsigned char bytes[4 * LISTED]; uint32_t words[LISTED]; } near_ones, near_before;
static union { unsigned char bytes[8 * LISTED]; double numbers[LISTED]; } away, away_before;

static const double square[] = { 0, 0, 4, 0, 4, 4, 0, 4 };
static const double boxes[] = { 0, 0, 1, 1, 10, 10, 11, 11 };
static const uint32_t counts[] = { 4 };

/* Each eight bytes hold a pattern, the first at place 0 the k-th. */
static void fill_bytes(unsigned char *bytes, size_t count, int k)
{
    size_t i;
    for (i = 0; i < count; i++) {
        bits b = patterns[(i + (size_t)k) % COUNT(patterns)];
        uint64_t n = ((uint64_t)b.hi << 32) | b.lo;
        memcpy(bytes + 8 * i, &n, 8);
    }
}

static void blank_lists(int k)
{
    fill_bytes(lent.bytes, PLACES, k);
    fill_bytes(nodes.bytes, 5 * NODES, k);
    memcpy(before.bytes, lent.bytes, sizeof before.bytes);
    memcpy(nodes_before.bytes, nodes.bytes, sizeof nodes_before.bytes);
}

/* From the place `used` on the list has the bytes that it had. */
static void expect_kept(const char *call, int k, uint32_t number, uint32_t want, size_t used)
{
    expect_word(call, k, number, want);
    checks++;
    if (memcmp(lent.bytes + 8 * used, before.bytes + 8 * used, sizeof lent.bytes - 8 * used) == 0)
        return;
    failures++;
    printf("%s, pattern %d: a place that is not written to has other bytes\n", call, k);
}

static void nans_in_outlines(int k)
{
    uint32_t count;
    double fill;
    blank_lists(k);
    expect_kept("make, 13", k, vk_outline_make(square, 8, lent.numbers, 7, &count), 13, 0);
    expect_kept("make, 3", k, vk_outline_make(square, 4, lent.numbers, PLACES, &count), 3, 0);
    expect_kept("make", k, vk_outline_make(square, 8, lent.numbers, PLACES, &count), 0, 8);
    blank_lists(k);
    expect_kept("make of NaNs", k, vk_outline_make(lent.numbers, 8, &fill, 0, &count), 5, 0);
    expect_kept("fill, 11", k, vk_outline_fill(square, 8, 3, 1, 1, 2, lent.numbers, 37, &fill), 11, 0);
    expect_kept("fill, 13", k, vk_outline_fill(square, 8, 1, 1, 3, 2, lent.numbers, 31, &fill), 13, 0);
    expect_kept("fill", k, vk_outline_fill(square, 8, 1, 1, 3, 2, lent.numbers, 133, &fill), 0, 128);
}

#define INDEX lent.numbers, PLACES, links, COUNT(links), items, COUNT(items)

static void nans_in_trees(int k)
{
    uint32_t a, b;
    double d;
    size_t used = sizeof(vk_node);
    blank_lists(k);
    expect_kept("build, 11", k, vk_index_build(boxes, 7, INDEX, &a, &b), 11, 0);
    expect_kept("build", k, vk_index_build(boxes, 8, INDEX, &a, &b), 0, 4);
    blank_lists(k);
    expect_kept("meeting, 13", k,
                vk_index_meeting(boxes, 8, 0, 0, 1, 1, INDEX, list, 1023, &a), 13, 0);
    expect_kept("meeting", k,
                vk_index_meeting(boxes, 8, 0, 0, 1, 1, INDEX, list, COUNT(list), &a), 0, 2044);
    blank_lists(k);
    expect_kept("any_at, 2", k, vk_set_any_at(square, 6, counts, 1, 1, 1, INDEX, &a), 2, 0);
    expect_kept("any_at", k, vk_set_any_at(square, 8, counts, 1, 1, 1, INDEX, &a), 0, 2044);
    blank_lists(k);
    expect_kept("nearest, 2", k, vk_set_nearest(square, 6, counts, 1, 1, 1, INDEX, &a, &b, &d), 2, 0);
    expect_kept("nearest", k, vk_set_nearest(square, 8, counts, 1, 1, 1, INDEX, &a, &b, &d), 0, 2044);
    expect_word("nodes, 13", k, vk_index_nodes(boxes, 8, nodes.records, 510, items, COUNT(items), &a, &b), 13);
    expect_word("nodes, 13: bytes", k, memcmp(nodes.bytes, nodes_before.bytes, sizeof nodes.bytes) == 0, 1);
    expect_word("nodes", k, vk_index_nodes(boxes, 8, nodes.records, NODES, items, COUNT(items), &a, &b), 0);
    expect_word("nodes: bytes", k,
                memcmp(nodes.bytes + used, nodes_before.bytes + used, sizeof nodes.bytes - used) == 0, 1);
}

/* Both lists have the bytes that they had from the place `used` on, and the index buffer from `cleared` on. */
static void expect_lists_kept(const char *call, int k, uint32_t number, uint32_t want, size_t used, size_t cleared)
{
    expect_kept(call, k, number, want, cleared);
    checks += 2;
    if (memcmp(near_ones.bytes + 4 * used, near_before.bytes + 4 * used, sizeof near_ones.bytes - 4 * used) == 0
        && memcmp(away.bytes + 8 * used, away_before.bytes + 8 * used, sizeof away.bytes - 8 * used) == 0)
        return;
    failures++;
    printf("%s, pattern %d: a place of the lists that is not written to has other bytes\n", call, k);
}

static void nans_in_many(int k)
{
    static const double points[] = { 1, 1, 6, 2, 5, 5 };
    static const uint32_t none[1] = { 0 };
    union { unsigned char bytes[8 * 6]; double numbers[6]; } bad;
    uint32_t found;
    blank_lists(k);
    fill_bytes(near_ones.bytes, LISTED / 2, k);
    fill_bytes(away.bytes, LISTED, k);
    memcpy(near_before.bytes, near_ones.bytes, sizeof near_before.bytes);
    memcpy(away_before.bytes, away.bytes, sizeof away_before.bytes);
    fill_bytes(bad.bytes, 6, k);
#define MANY(vertices, len, points, points_len) \
    vk_set_nearest_many(vertices, len, len == 0 ? none : counts, len == 0 ? 0 : 1, points, points_len, INDEX, \
                        near_ones.words, LISTED, away.numbers, LISTED, &found)
    expect_lists_kept("many, 2", k, MANY(square, 6, points, 6), 2, 0, 0);
    expect_lists_kept("many, 15", k, MANY(square, 8, points, 5), 15, 0, 0);
    expect_lists_kept("many of NaNs", k, MANY(square, 8, bad.numbers, 6), 10, 0, 0);
    expect_lists_kept("many, no points", k, MANY(square, 8, points, 0), 0, 0, 2044);
    expect_lists_kept("many, empty set", k, MANY(square, 0, points, 6), 0, 0, 2044);
    expect_lists_kept("many", k, MANY(square, 8, points, 6), 0, 3, 2044);
}

void nans(void)
{
    int k;
    for (k = 0; k < COUNT(patterns); k++) {
        nans_in_outlines(k);
        nans_in_trees(k);
        nans_in_many(k);
    }
}
