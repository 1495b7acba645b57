/* Tests of the queries over a set: for one point, and for many. */
#include <stdio.h>
#include <stdlib.h>
#include <string.h>
#include "buffers.h"
#include "expect.h"
#include "viskunor.h"

/* A set and a point. */
typedef struct {
    const double *vertices;
    size_t len;
    const uint32_t *counts;
    size_t outlines;
    double x, y;
} query;

/* What both queries answer. */
typedef struct {
    uint32_t number, any, found, outline;
    double distance;
} answers;

static answers refused(uint32_t number)
{
    answers a = { 0, 0, 0, 0, 0 };
    a.number = number;
    return a;
}

static answers told(uint32_t any, uint32_t outline, double distance)
{
    answers a = { 0, 0, 1, 0, 0 };
    a.any = any;
    a.outline = outline;
    a.distance = distance;
    return a;
}

static void test_set(int line, query q, lengths n, answers want)
{
    uint32_t any = stale_word, found = stale_word, outline = stale_word;
    double distance = from_bits(stale);
    blank(&wanted);
    if (want.number == 0)
        clear(&wanted);
    blank(&given);
    expect_word("vk_set_any_at", line,
                vk_set_any_at(q.vertices, q.len, q.counts, q.outlines, q.x, q.y, LENT(n), &any), want.number);
    expect_word("vk_set_any_at, any", line, any, want.any);
    expect_spaces("vk_set_any_at", line);
    blank(&given);
    expect_word("vk_set_nearest", line,
                vk_set_nearest(q.vertices, q.len, q.counts, q.outlines, q.x, q.y, LENT(n), &found, &outline,
                               &distance), want.number);
    expect_word("vk_set_nearest, found", line, found, want.found);
    expect_word("vk_set_nearest, outline", line, outline, want.outline);
    expect("vk_set_nearest, distance", line, distance, to_bits(want.distance));
    expect_spaces("vk_set_nearest", line);
}

/* S, S moved 10 right, and S again. */
static const double three[] = { 0, 0, 4, 0, 4, 4, 0, 4, 10, 0, 14, 0, 14, 4, 10, 4, 0, 0, 4, 0, 4, 4, 0, 4 };
static const uint32_t fours[] = { 4, 4, 4 };

static query of(size_t outlines, double x, double y)
{
    query q;
    q.vertices = three;
    q.len = 8 * outlines;
    q.counts = fours;
    q.outlines = outlines;
    q.x = x;
    q.y = y;
    return q;
}

static void set_answers(void)
{
    query empty = { 0, 0, 0, 0, 7, 2 };
    test_set(0, of(2, 7, 2), stated, told(0, 0, 3));
    test_set(1, of(2, 7.5, 2), stated, told(0, 1, 2.5));
    test_set(2, of(2, 7, 2), longer, told(0, 0, 3));
    /* inside: the magnitude of the distance */
    test_set(3, of(2, 12, 2), stated, told(1, 1, 2));
    test_set(4, of(2, 1, 2), stated, told(1, 0, 1));
    /* inside one and near the other */
    test_set(5, of(2, 13.5, 3), stated, told(1, 1, 0.5));
    /* equal distances: the lowest number */
    test_set(6, of(3, 7, 2), stated, told(0, 0, 3));
    test_set(7, of(3, 6, 6), stated, told(0, 0, vk_hypot(2, 2)));
    test_set(8, of(3, 2, 2), stated, told(1, 0, 2));
    /* on the boundary: `contains` decides */
    test_set(9, of(1, 0, 2), stated, told(1, 0, 0));
    test_set(10, of(1, 4, 2), stated, told(0, 0, 0));
    test_set(11, of(1, 1048576, 2), stated, told(0, 0, 1048572));
    /* an empty set: none, and zeros; its buffers are cleared too */
    test_set(12, empty, stated, refused(0));
    test_set(13, empty, longer, refused(0));
}

/* Counts that do not add up, and wrap where they are added in 32 bits. */
static void set_counts(void)
{
    static const uint32_t few[] = { 4, 3 }, many[] = { 4, 5 }, none[] = { 4, 0, 4 }, two[] = { 6, 2 },
                          wrap[] = { 4, 4, 0xffffffffu, 1 }, uneven[] = { 3, 5 };
    static const struct {
        const uint32_t *counts;
        size_t outlines;
        uint32_t refusal;
    } bad[] = { { few, 2, 2 },   { many, 2, 2 },  { wrap, 4, 2 }, { fours, 1, 2 },
                { fours, 0, 2 }, { fours, 3, 2 }, { none, 3, 3 }, { two, 2, 3 } };
    query q = of(2, 7, 2);
    double distance, x, y;
    int i;
    for (i = 0; i < 8; i++) {
        q.counts = bad[i].counts;
        q.outlines = bad[i].outlines;
        test_set(20 + i, q, stated, refused(bad[i].refusal));
    }
    /* a triangle, and a pentagon with the point inside */
    q.counts = uneven;
    expect_word("vk_outline_distance", 28, vk_outline_distance(three + 6, 10, 7, 2, &distance, &x, &y), 0);
    test_set(28, q, stated, told(1, 1, -distance));
    /* the list's parity comes before the counts */
    q.counts = few;
    q.len = 15;
    test_set(29, q, stated, refused(1));
}

/* Each test runs over all outlines before the next begins. */
static void set_order(void)
{
    static const struct { int at; double by; int at2; double by2; uint32_t number; } cases[] = {
        /* outline 0 has equal neighbours, outline 1 a number outside the field */
        { 2, 0, 12, 2000000, 6 },
        /* outline 0 has no area, outline 1 equal neighbours */
        { 2, 0, 10, 10, 7 },
    };
    static const double reversed_then_flat[] = { 0, 0, 0, 4, 4, 4, 4, 0, 10, 0, 11, 0, 12, 0, 13, 0 };
    double list[16], bad[4];
    query q = of(2, 7, 2);
    int i, k;
    lengths empty = { 0, 0, 0, 0 };
    q.vertices = list;
    for (i = 0; i < COUNT(cases); i++) {
        memcpy(list, three, sizeof list);
        list[cases[i].at] = cases[i].by;
        list[cases[i].at2] = cases[i].by2;
        test_set(30 + i, q, empty, refused(cases[i].number));
    }
    /* outline 0 is negative, outline 1 has no area: 8 comes first */
    q.vertices = reversed_then_flat;
    test_set(33, q, empty, refused(8));
    q.len = 8;
    q.outlines = 1;
    test_set(34, q, empty, refused(9));
    bad[0] = from_bits(not_a_number);
    bad[1] = from_bits(infinity);
    bad[2] = from_bits(past_field_end);
    bad[3] = -from_bits(past_field_end);
    q = of(2, 7, 2);
    q.vertices = list;
    for (i = 0; i < 4; i++)
        for (k = 0; k < 16; k++) {
            memcpy(list, three, sizeof list);
            list[k] = bad[i];
            test_set(100 + 16 * i + k, q, empty, refused(i < 2 ? 5 : 6));
        }
    for (i = 0; i < 4; i++) {
        test_set(200 + i, of(2, bad[i], 2), empty, refused(10));
        test_set(210 + i, of(2, 7, bad[i]), empty, refused(10));
        test_set(220 + i, of(0, bad[i], 2), empty, refused(10));
    }
    for (k = 0; k < 3; k++) {
        test_set(230 + k, of(2, 7, 2), shorter(k), refused(13));
        test_set(240 + k, of(0, 7, 2), shorter(k), refused(13));
    }
}

/* As many outlines and vertices as there may be, and one more. */
static void set_sizes(void)
{
    static double list[2 * 65540];
    static uint32_t counts[1030];
    query q;
    int i;
    q.vertices = list;
    q.counts = counts;
    q.x = 0;
    q.y = 5;
    /* triangles along x, two apart */
    for (i = 0; i < 1025; i++) {
        double *v = list + 6 * i;
        counts[i] = 3;
        v[0] = v[4] = 2 * i;
        v[2] = 2 * i + 1;
        v[1] = v[3] = 0;
        v[5] = 1;
    }
    q.len = 6 * 1024;
    q.outlines = 1024;
    test_set(300, q, stated, told(0, 0, 4));
    q.x = 2046;
    test_set(301, q, stated, told(0, 1023, 4));
    q.len = 6 * 1025;
    q.outlines = 1025;
    test_set(302, q, stated, refused(4));
    /* too few comes before too many */
    counts[7] = 2;
    counts[8] = 4;
    test_set(303, q, stated, refused(3));
    /* 16 outlines of 4,096 vertices: a zigzag and its way back */
    for (i = 0; i < 65540; i++) {
        int k = i % 4096;
        list[2 * i] = k < 4095 ? k : 0;
        list[2 * i + 1] = k < 4095 ? 0 : 1;
    }
    for (i = 0; i < 17; i++)
        counts[i] = 4096;
    q.x = 100;
    q.y = -3;
    q.len = 2 * 65536;
    q.outlines = 16;
    test_set(304, q, stated, told(0, 0, 3));
    /* three vertices more are too many together, and 4,097 too many of one */
    counts[16] = 3;
    q.len = 2 * 65539;
    q.outlines = 17;
    list[2 * 65536] = list[2 * 65538] = 0;
    list[2 * 65538 + 1] = 1;
    test_set(305, q, stated, refused(4));
    counts[0] = 4097;
    q.len = 2 * 4097;
    q.outlines = 1;
    test_set(306, q, stated, refused(4));
}

/* The lists of vk_set_nearest_many, with the places around them. */
#define MOST 256
typedef struct {
    uint32_t outlines[MOST + MORE + 2 * GUARD];
    double distances[MOST + MORE + 2 * GUARD];
} listed;

static listed lists, wanted_lists;

/* The lengths that a call is told of them. */
typedef struct { size_t outlines, distances; } rooms;
static const rooms full = { MOST, MOST }, more = { MOST + 3, MOST + 5 };

static void blank_lists(listed *l)
{
    int i;
    for (i = 0; i < COUNT(l->outlines); i++) {
        l->outlines[i] = stale_word;
        l->distances[i] = from_bits(stale);
    }
}

/* What single calls answer for an accepted call's points, in the lists that are wanted. */
static void one_by_one(int line, query q, const double *points, size_t len)
{
    uint32_t found;
    size_t i;
    for (i = 0; i < len / 2 && q.outlines > 0; i++)
        expect_word("vk_set_nearest, a point of many", line,
                    vk_set_nearest(q.vertices, q.len, q.counts, q.outlines, points[2 * i], points[2 * i + 1],
                                   LENT(stated), &found, wanted_lists.outlines + GUARD + i,
                                   wanted_lists.distances + GUARD + i), 0);
}

/* The query's own point is not asked about. What is lent to be read must stay as it was too. */
static void test_many(int line, query q, const double *points, size_t len, lengths n, rooms m, uint32_t number)
{
    static double points_before[2 * MOST + 8];
    uint32_t found = stale_word;
    if (len > 0)
        memcpy(points_before, points, len * sizeof *points);
    blank_lists(&wanted_lists);
    blank(&wanted);
    if (number == 0) {
        one_by_one(line, q, points, len);
        clear(&wanted);
    }
    blank(&given);
    blank_lists(&lists);
    expect_word("vk_set_nearest_many", line,
                vk_set_nearest_many(q.vertices, q.len, q.counts, q.outlines, points, len, LENT(n),
                                    lists.outlines + GUARD, m.outlines, lists.distances + GUARD, m.distances,
                                    &found), number);
    expect_word("vk_set_nearest_many, found", line, found, number == 0 && q.outlines > 0);
    expect_spaces("vk_set_nearest_many", line);
    expect_word("vk_set_nearest_many, outlines", line,
                memcmp(lists.outlines, wanted_lists.outlines, sizeof lists.outlines) == 0, 1);
    expect_word("vk_set_nearest_many, distances", line,
                memcmp(lists.distances, wanted_lists.distances, sizeof lists.distances) == 0, 1);
    expect_word("vk_set_nearest_many, points", line,
                len == 0 || memcmp(points, points_before, len * sizeof *points) == 0, 1);
}

/* Points around S and S moved: of two that follow each other, each is nearest to another of the two. */
static double around[2 * MOST + 8];

static void place_points(void)
{
    int i;
    for (i = 0; i < COUNT(around) / 2; i++) {
        around[2 * i] = i % 2 ? 16 - i / 32.0 : i / 64.0 - 4;
        around[2 * i + 1] = i % 7 - 1.5;
    }
}

static void many_answers(void)
{
    static const double four[] = { 7, 2, 7.5, 2, 12, 2, 1, 2 }, ends[] = { 1048576, -1048576, -0.0, 0, 0, 0, 0, 0 };
    static const uint32_t nearest[] = { 0, 1, 1, 0 };
    static const double away[] = { 3, 2.5, 2, 1 };
    static const size_t counts[] = { 0, 1, 2, 3, 128, 255, 256 };
    query empty = { 0, 0, 0, 0, 0, 0 };
    int i, outlines;
    test_many(400, of(2, 0, 0), LIST(four), stated, full, 0);
    for (i = 0; i < 4; i++) {
        expect_word("vk_set_nearest_many, outline", i, lists.outlines[GUARD + i], nearest[i]);
        expect("vk_set_nearest_many, distance", i, lists.distances[GUARD + i], to_bits(away[i]));
    }
    test_many(401, of(3, 0, 0), LIST(ends), longer, more, 0);
    test_many(402, of(2, 0, 0), 0, 0, stated, full, 0);
    test_many(403, empty, 0, 0, stated, full, 0);
    test_many(404, empty, 0, 0, longer, more, 0);
    for (outlines = 0; outlines <= 3; outlines++)
        for (i = 0; i < COUNT(counts); i++) {
            query q = outlines > 0 ? of((size_t)outlines, 0, 0) : empty;
            test_many(410 + 20 * outlines + i, q, around, 2 * counts[i], stated, full, 0);
            test_many(420 + 20 * outlines + i, q, around, 2 * counts[i], longer, more, 0);
        }
}

/* A set's refusals, then 15, then 10 over all points, then 13 for each of the five lists. */
static void many_order(void)
{
    static const size_t lens[] = { 1, 3, 511, 513, 514, 515 };
    static const double reversed[] = { 0, 0, 0, 4, 4, 4, 4, 0 };
    const lengths none = { 0, 0, 0, 0 };
    const rooms no_room = { 0, 0 }, few_outlines = { MOST - 1, MOST }, few_distances = { MOST, MOST - 1 };
    query bad_set = of(1, 0, 0);
    double list[2 * MOST + 8], bad[4];
    int i, k, outlines;
    bad[0] = from_bits(not_a_number);
    bad[1] = -from_bits(infinity);
    bad[2] = from_bits(past_field_end);
    bad[3] = -from_bits(past_field_end);
    bad_set.vertices = reversed;
    memcpy(list, around, sizeof list);
    list[0] = bad[0];
    for (i = 0; i < COUNT(lens); i++) {
        test_many(500 + i, bad_set, list, lens[i], none, no_room, 9);
        for (outlines = 0; outlines <= 2; outlines += 2) {
            test_many(510 + i, of((size_t)outlines, 0, 0), around, lens[i], stated, full, 15);
            test_many(520 + i, of((size_t)outlines, 0, 0), list, lens[i], none, no_room, 15);
        }
    }
    bad_set.len = 7;
    test_many(530, bad_set, list, 514, none, no_room, 1);
    bad_set.len = 6;
    test_many(531, bad_set, list, 514, none, no_room, 2);
    /* a bad number at any place, the last point's too */
    for (i = 0; i < 4; i++)
        for (k = 0; k < 2 * MOST; k += k < 6 || k > 504 ? 1 : 83) {
            memcpy(list, around, sizeof list);
            list[k] = bad[i];
            test_many(1000 + 512 * i + k, of(2, 0, 0), list, 2 * MOST, stated, full, 10);
            test_many(1000 + 512 * i + k, of(2, 0, 0), list, 2 * ((size_t)k / 2 + 1), none, no_room, 10);
            test_many(1000 + 512 * i + k, of(0, 0, 0), list, 2 * ((size_t)k / 2 + 1), none, no_room, 10);
            /* past the points it is not read */
            test_many(1000 + 512 * i + k, of(2, 0, 0), list, 2 * ((size_t)k / 2), stated, full, 0);
        }
    for (outlines = 0; outlines <= 2; outlines++)
        for (i = 0; i <= 2 * MOST; i += MOST) {
            query q = of((size_t)outlines, 0, 0);
            for (k = 0; k < 3; k++)
                test_many(540 + k, q, around, (size_t)i, shorter(k), full, 13);
            test_many(543, q, around, (size_t)i, stated, few_outlines, 13);
            test_many(544, q, around, (size_t)i, stated, few_distances, 13);
            test_many(545, q, around, (size_t)i, none, no_room, 13);
        }
}

/* As many outlines and points as there may be. */
static void many_sizes(void)
{
    static double list[8 * 1024], points[2 * MOST];
    static uint32_t counts[1024];
    query q = { list, 8 * 1024, counts, 1024, 0, 0 };
    int i;
    for (i = 0; i < 1024; i++) {
        double *v = list + 8 * i, x = i * 37 % 101, y = i * 53 % 97;
        counts[i] = 4;
        v[0] = v[6] = x;
        v[2] = v[4] = x + 1;
        v[1] = v[3] = y;
        v[5] = v[7] = y + 1;
    }
    for (i = 0; i < MOST; i++) {
        points[2 * i] = i * 29 % 103 + 0.25;
        points[2 * i + 1] = i * 41 % 99 - 0.5;
    }
    test_many(600, q, points, 2 * MOST, stated, full, 0);
    q.len = 8 * 33;
    q.outlines = 33;
    test_many(601, q, points, 2 * MOST, stated, full, 0);
}

void sets(void)
{
    set_answers();
    set_counts();
    set_order();
    set_sizes();
    place_points();
    many_answers();
    many_order();
    many_sizes();
}
