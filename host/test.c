/*
 * Tests the library through its header: fixed inputs, special ones among them,
 * with the answers compared by bit pattern, and what the library is lent
 * compared with what it must hold afterwards. Exits with 1 on a wrong answer.
 * Compiles as C89, as later C and as C++.
 */
#include <stdio.h>
#include <stdlib.h>
#include <string.h>
#include "expect.h"
#include "viskunor.h"

unsigned long checks;
unsigned long failures;

double from_bits(bits b)
{
    uint64_t n = ((uint64_t)b.hi << 32) | b.lo;
    double x;
    memcpy(&x, &n, sizeof x);
    return x;
}

bits to_bits(double x)
{
    uint64_t n;
    bits b;
    memcpy(&n, &x, sizeof n);
    b.hi = (uint32_t)(n >> 32);
    b.lo = (uint32_t)n;
    return b;
}

static int is_nan(bits b)
{
    uint32_t top = b.hi & 0x7fffffffu;
    return top > 0x7ff00000u || (top == 0x7ff00000u && b.lo != 0);
}

void expect(const char *call, int line, double got, bits want)
{
    bits g = to_bits(got);
    checks++;
    if (is_nan(want) ? is_nan(g) : g.hi == want.hi && g.lo == want.lo)
        return;
    failures++;
    printf("%s, case %d: got %08lx%08lx, expected %08lx%08lx\n", call, line,
           (unsigned long)g.hi, (unsigned long)g.lo, (unsigned long)want.hi, (unsigned long)want.lo);
}

static const struct { bits x, root; } sqrt_cases[] = {
    { { 0x00000000, 0x00000000 }, { 0x00000000, 0x00000000 } }, /* +0 */
    { { 0x80000000, 0x00000000 }, { 0x80000000, 0x00000000 } }, /* -0 */
    { { 0x7ff00000, 0x00000000 }, { 0x7ff00000, 0x00000000 } }, /* +infinity */
    { { 0xfff00000, 0x00000000 }, { 0x7ff80000, 0x00000000 } }, /* -infinity: NaN */
    { { 0x7ff80000, 0x00000000 }, { 0x7ff80000, 0x00000000 } }, /* quiet NaN */
    { { 0xfff80000, 0x00000001 }, { 0x7ff80000, 0x00000000 } }, /* NaN with sign and payload */
    { { 0x7ff00000, 0x00000001 }, { 0x7ff80000, 0x00000000 } }, /* signalling NaN */
    { { 0xbff00000, 0x00000000 }, { 0x7ff80000, 0x00000000 } }, /* -1: NaN */
    { { 0x80000000, 0x00000001 }, { 0x7ff80000, 0x00000000 } }, /* -2^-1074: NaN */
    { { 0x3ff00000, 0x00000000 }, { 0x3ff00000, 0x00000000 } }, /* 1 */
    { { 0x40000000, 0x00000000 }, { 0x3ff6a09e, 0x667f3bcd } }, /* 2 */
    { { 0x40100000, 0x00000000 }, { 0x40000000, 0x00000000 } }, /* 4 */
    { { 0x3fe00000, 0x00000000 }, { 0x3fe6a09e, 0x667f3bcd } }, /* 0.5 */
    { { 0x40020000, 0x00000000 }, { 0x3ff80000, 0x00000000 } }, /* 2.25 */
    { { 0x3fb99999, 0x9999999a }, { 0x3fd43d13, 0x6248490f } }, /* 0.1 */
    { { 0x3fefffff, 0xffffffff }, { 0x3fefffff, 0xffffffff } }, /* just below 1 */
    { { 0x3ff00000, 0x00000001 }, { 0x3ff00000, 0x00000000 } }, /* just above 1 */
    { { 0x400fffff, 0xffffffff }, { 0x3fffffff, 0xffffffff } }, /* just below 4 */
    { { 0x40100000, 0x00000001 }, { 0x40000000, 0x00000000 } }, /* just above 4 */
    { { 0x41300000, 0x00000000 }, { 0x40900000, 0x00000000 } }, /* 1,048,576 */
    { { 0x4480f0cf, 0x064dd592 }, { 0x42374876, 0xe8000000 } }, /* 1e22 */
    { { 0x00000000, 0x00000001 }, { 0x1e600000, 0x00000000 } }, /* 2^-1074, the least */
    { { 0x00000000, 0x00000002 }, { 0x1e66a09e, 0x667f3bcd } }, /* 2^-1073 */
    { { 0x00000000, 0x00000003 }, { 0x1e6bb67a, 0xe8584caa } }, /* 3 * 2^-1074 */
    { { 0x000fffff, 0xffffffff }, { 0x1fffffff, 0xffffffff } }, /* the largest subnormal */
    { { 0x00100000, 0x00000000 }, { 0x20000000, 0x00000000 } }, /* 2^-1022 */
    { { 0x00100000, 0x00000001 }, { 0x20000000, 0x00000000 } }, /* just above 2^-1022 */
    { { 0x7fefffff, 0xffffffff }, { 0x5fefffff, 0xffffffff } }  /* the largest */
};

static const struct { bits a, b, length; } hypot_cases[] = {
    { { 0x40080000, 0 }, { 0x40100000, 0 }, { 0x40140000, 0 } }, /* 3, 4 */
    { { 0xc0080000, 0 }, { 0x40100000, 0 }, { 0x40140000, 0 } }, /* -3, 4 */
    { { 0x3ff80000, 0 }, { 0xc0000000, 0 }, { 0x40040000, 0 } }, /* 1.5, -2 */
    { { 0x00000000, 0 }, { 0x00000000, 0 }, { 0x00000000, 0 } }, /* +0, +0 */
    { { 0x80000000, 0 }, { 0x80000000, 0 }, { 0x00000000, 0 } }, /* -0, -0: +0 */
    { { 0x00000000, 0 }, { 0x40140000, 0 }, { 0x40140000, 0 } }, /* 0, 5 */
    { { 0xc0140000, 0 }, { 0x00000000, 0 }, { 0x40140000, 0 } }, /* -5, 0 */
    { { 0x3ff00000, 0 }, { 0x3ff00000, 0 }, { 0x3ff6a09e, 0x667f3bcd } }, /* 1, 1 */
    { { 0x3fb99999, 0x9999999a }, { 0x3fc99999, 0x9999999a }, { 0x3fcc9f25, 0xc5bfedda } }, /* 0.1, 0.2 */
    { { 0x1e500000, 0 }, { 0x1e500000, 0 }, { 0x00000000, 0 } }, /* 2^-538 twice: squares vanish */
    { { 0x1e600000, 0 }, { 0x00000000, 0 }, { 0x1e600000, 0 } }, /* 2^-537, 0 */
    { { 0x5fefffff, 0xffffffff }, { 0x00000000, 0 }, { 0x5fefffff, 0xffffffff } }, /* just below 2^512, 0 */
    { { 0x5ff00000, 0 }, { 0x00000000, 0 }, { 0x7ff00000, 0 } }, /* 2^512, 0: the square overflows */
    { { 0xfff00000, 0 }, { 0x3ff00000, 0 }, { 0x7ff00000, 0 } }, /* -infinity, 1 */
    { { 0x7ff80000, 0 }, { 0x3ff00000, 0 }, { 0x7ff80000, 0 } }, /* NaN, 1: NaN */
    { { 0x7ff00000, 0 }, { 0x7ff80000, 0 }, { 0x7ff80000, 0 } }  /* infinity, NaN: NaN */
};

static void numbers(void)
{
    int i;
    for (i = 0; i < COUNT(sqrt_cases); i++)
        expect("vk_sqrt", i, vk_sqrt(from_bits(sqrt_cases[i].x)), sqrt_cases[i].root);
    for (i = 0; i < COUNT(hypot_cases); i++) {
        double a = from_bits(hypot_cases[i].a), b = from_bits(hypot_cases[i].b);
        expect("vk_hypot", i, vk_hypot(a, b), hypot_cases[i].length);
        expect("vk_hypot, swapped", i, vk_hypot(b, a), hypot_cases[i].length);
    }
}

/*
 * Outlines. Each list is lent from the middle of a larger one, whose other
 * places must stay as they are.
 */

#define GUARD 4
#define MOST 8200

const bits stale = { 0xdeadbeef, 0xdeadbeef };
const uint32_t stale_word = 0xdeadbeef;

const bits infinity = { 0x7ff00000, 0 };
const bits not_a_number = { 0x7ff80000, 0 };
const bits past_field_end = { 0x41300000, 0x00000001 };

static double lent_space[MOST + 2 * GUARD], made_space[MOST + 2 * GUARD];

void expect_word(const char *call, int line, uint32_t got, uint32_t want)
{
    checks++;
    if (got == want)
        return;
    failures++;
    printf("%s, case %d: got %lu, expected %lu\n", call, line, (unsigned long)got, (unsigned long)want);
}

int same_bits(double a, double b)
{
    return memcmp(&a, &b, sizeof a) == 0;
}

static double *blank(double *space)
{
    size_t i;
    for (i = 0; i < MOST + 2 * GUARD; i++)
        space[i] = from_bits(stale);
    return space + GUARD;
}

/* A lent copy of a list; NULL for an empty one. */
static const double *lend(const double *list, size_t len)
{
    double *lent = blank(lent_space);
    size_t i;
    for (i = 0; i < len; i++)
        lent[i] = list[i];
    return len == 0 ? (const double *)0 : lent;
}

/* The space holds the list and nothing else has been written to it. */
static void expect_space(const char *call, int line, const double *space, const double *list, size_t len)
{
    size_t i;
    checks++;
    for (i = 0; i < MOST + 2 * GUARD; i++) {
        double want = i >= GUARD && i - GUARD < len ? list[i - GUARD] : from_bits(stale);
        if (!same_bits(space[i], want)) {
            failures++;
            printf("%s, case %d: place %ld of a lent list is wrong\n", call, line, (long)i - GUARD);
            return;
        }
    }
}

/* Area, perimeter and bounds, or the refusal of each. */
typedef struct { double area, perimeter, min_x, min_y, max_x, max_y; } measures;

static const measures no_measures = { 0, 0, 0, 0, 0, 0 };

static void test_measures(int line, const double *list, size_t len, uint32_t number, measures want)
{
    double area = from_bits(stale), perimeter = area, box[4];
    const double *lent;
    box[0] = box[1] = box[2] = box[3] = area;

    lent = lend(list, len);
    expect_word("vk_outline_area", line, vk_outline_area(lent, len, &area), number);
    expect("vk_outline_area", line, area, to_bits(want.area));
    expect_space("vk_outline_area", line, lent_space, list, len);

    lent = lend(list, len);
    expect_word("vk_outline_perimeter", line, vk_outline_perimeter(lent, len, &perimeter), number);
    expect("vk_outline_perimeter", line, perimeter, to_bits(want.perimeter));
    expect_space("vk_outline_perimeter", line, lent_space, list, len);

    lent = lend(list, len);
    expect_word("vk_outline_bounds", line, vk_outline_bounds(lent, len, &box[0], &box[1], &box[2], &box[3]), number);
    expect("vk_outline_bounds, min x", line, box[0], to_bits(want.min_x));
    expect("vk_outline_bounds, min y", line, box[1], to_bits(want.min_y));
    expect("vk_outline_bounds, max x", line, box[2], to_bits(want.max_x));
    expect("vk_outline_bounds, max y", line, box[3], to_bits(want.max_y));
    expect_space("vk_outline_bounds", line, lent_space, list, len);
}

static void test_point(int line, const double *list, size_t len, double x, double y,
                       uint32_t number, uint32_t inside, uint32_t location)
{
    uint32_t told = stale_word;
    const double *lent = lend(list, len);
    expect_word("vk_outline_contains", line, vk_outline_contains(lent, len, x, y, &told), number);
    expect_word("vk_outline_contains, inside", line, told, inside);
    expect_space("vk_outline_contains", line, lent_space, list, len);

    told = stale_word;
    lent = lend(list, len);
    expect_word("vk_outline_locate", line, vk_outline_locate(lent, len, x, y, &told), number);
    expect_word("vk_outline_locate, location", line, told, location);
    expect_space("vk_outline_locate", line, lent_space, list, len);
}

/* A signed distance and its normal. */
typedef struct { double distance, x, y; } away;

static const away no_distance = { 0, 0, 0 };

static void test_distance(int line, const double *list, size_t len, double x, double y,
                          uint32_t number, away want)
{
    double distance = from_bits(stale), normal_x = distance, normal_y = distance;
    const double *lent = lend(list, len);
    expect_word("vk_outline_distance", line,
                vk_outline_distance(lent, len, x, y, &distance, &normal_x, &normal_y), number);
    expect("vk_outline_distance, distance", line, distance, to_bits(want.distance));
    expect("vk_outline_distance, normal x", line, normal_x, to_bits(want.x));
    expect("vk_outline_distance, normal y", line, normal_y, to_bits(want.y));
    expect_space("vk_outline_distance", line, lent_space, list, len);
}

/* Making into `room` places: `made` is what the first 2 * count of them must hold. */
static void test_make(int line, const double *list, size_t len, size_t room,
                      uint32_t number, uint32_t count, const double *made)
{
    uint32_t told = stale_word;
    const double *lent = lend(list, len);
    double *space = blank(made_space);
    expect_word("vk_outline_make", line,
                vk_outline_make(lent, len, room == 0 ? (double *)0 : space, room, &told), number);
    expect_word("vk_outline_make, count", line, told, count);
    expect_space("vk_outline_make", line, lent_space, list, len);
    expect_space("vk_outline_make, made", line, made_space, made, 2 * (size_t)count);
}

/* The buffer of a fill, lent from the middle of a larger one. */
#define MOST_WORK 32800

static double work_space[MOST_WORK + 2 * GUARD];

/* Both halves hold zeros where the call went as far as the clips; no other place has changed. */
static void expect_work(int line, size_t room, int cleared)
{
    size_t zeros = cleared ? room / 8 * 8 : 0, i;
    checks++;
    for (i = 0; i < MOST_WORK + 2 * GUARD; i++) {
        double want = i >= GUARD && i - GUARD < zeros ? 0.0 : from_bits(stale);
        if (!same_bits(work_space[i], want)) {
            failures++;
            printf("vk_outline_fill, case %d: place %ld of the buffer is wrong\n", line, (long)i - GUARD);
            return;
        }
    }
}

/* The fill of a cell (min x, min y, max x, max y) in a buffer of `room` numbers. */
static void test_fill(int line, const double *list, size_t len, const double *cell, size_t room,
                      uint32_t number, double want)
{
    double fill = from_bits(stale);
    const double *lent = lend(list, len);
    size_t i;
    for (i = 0; i < MOST_WORK + 2 * GUARD; i++)
        work_space[i] = from_bits(stale);
    expect_word("vk_outline_fill", line,
                vk_outline_fill(lent, len, cell[0], cell[1], cell[2], cell[3],
                                room == 0 ? (double *)0 : work_space + GUARD, room, &fill), number);
    expect("vk_outline_fill, fill", line, fill, to_bits(want));
    expect_space("vk_outline_fill", line, lent_space, list, len);
    expect_work(line, room, number == 0 || number == 14);
}

static const double square[] = { 0, 0, 4, 0, 4, 4, 0, 4 };
static const double turned[] = { 0, 0, 0, 4, 4, 4, 4, 0 };
static const double turned_made[] = { 4, 0, 4, 4, 0, 4, 0, 0 };
static const double closed[] = { 0, 0, 4, 0, 4, 4, 0, 4, 0, 0 };
static const double closed_twice[] = { 0, 0, 4, 0, 4, 4, 0, 4, 0, 0, 0, 0 };
static const double closed_pair[] = { 0, 0, 4, 0, 0, 0 };
static const double triangle[] = { -1.5, 0.25, 2.5, 3.25, -5.5, 3.25 };
static const double flat[] = { 0, 0, 1, 0, 2, 0 };
static const double bow_tie[] = { 0, 0, 2, 2, 2, 0, 0, 2 };
static const double equal[] = { 0, 0, 4, 0, 4, 0, 4, 4 };
static const double round_twice[] = { 0, 0, 4, 0, 4, 4, 0, 4, 0, 0, 4, 0, 4, 4, 0, 4 };
static const double largest[] = { -1048576, -1048576, 1048576, -1048576, 1048576, 1048576, -1048576, 1048576 };
/* teeth upwards, teeth to the left, and two loops, of which the left one runs clockwise */
static const double crown[] = { 0, 0, 6, 0, 6, 3, 5, 1, 4, 3, 3, 1, 2, 3, 1, 1, 0, 3 };
static const double rake[] = { 0, 0, 0, 6, -3, 6, -1, 5, -3, 4, -1, 3, -3, 2, -1, 1, -3, 0 };
static const double loops[] = { 3, -3, 3, 3, -1, -1, -1, 1 };
static const double tenths[] = { 0, 0.1, 0.1, 0.2, 0.3, 0, 0.1, 0.2 };
static const double tenths_made[] = { 0.1, 0.2, 0.3, 0, 0.1, 0.2, 0, 0.1 };

static void outline_measures(void)
{
    static const measures of_square = { 16, 16, 0, 0, 4, 4 };
    static const measures of_triangle = { 12, 18, -5.5, 0.25, 2.5, 3.25 };
    static const measures of_round_twice = { 32, 32, 0, 0, 4, 4 };
    static const measures of_largest = { 4398046511104.0, 8388608, -1048576, -1048576, 1048576, 1048576 };
    measures signed_zero = of_square;
    double list[8];
    int i;

    test_measures(0, LIST(square), 0, of_square);
    test_measures(1, LIST(triangle), 0, of_triangle);
    test_measures(2, LIST(round_twice), 0, of_round_twice);
    test_measures(3, LIST(largest), 0, of_largest);
    test_measures(4, (const double *)0, 0, 3, no_measures);
    test_measures(5, square, 1, 1, no_measures);
    test_measures(6, square, 7, 1, no_measures);
    test_measures(7, square, 4, 3, no_measures);
    test_measures(8, LIST(closed), 7, no_measures);
    test_measures(9, LIST(equal), 7, no_measures);
    test_measures(10, LIST(flat), 8, no_measures);
    test_measures(11, LIST(bow_tie), 8, no_measures);
    test_measures(12, LIST(turned), 9, no_measures);
    /* one number of the square damaged, each place in turn */
    for (i = 0; i < 8; i++) {
        memcpy(list, square, sizeof list);
        list[i] = from_bits(not_a_number);
        test_measures(100 + i, LIST(list), 5, no_measures);
        list[i] = from_bits(infinity);
        test_measures(200 + i, LIST(list), 5, no_measures);
        list[i] = -from_bits(infinity);
        test_measures(300 + i, LIST(list), 5, no_measures);
        list[i] = from_bits(past_field_end);
        test_measures(400 + i, LIST(list), 6, no_measures);
        list[i] = -from_bits(past_field_end);
        test_measures(500 + i, LIST(list), 6, no_measures);
        /* a test runs over the whole outline before the next */
        list[(i + 3) % 8] = from_bits(not_a_number);
        test_measures(600 + i, LIST(list), 5, no_measures);
    }
    /* a bound that is zero has the sign of the first vertex that has it */
    memcpy(list, square, sizeof list);
    list[0] = -list[0];
    signed_zero.min_x = -signed_zero.min_x;
    test_measures(13, LIST(list), 0, signed_zero);
    list[0] = -list[0];
    list[6] = -list[6];
    test_measures(14, LIST(list), 0, of_square);
}

static void outline_points(void)
{
    static const struct { double x, y; uint32_t inside, location; } cases[] = {
        { 2, 2, 1, 2 }, { 1, 3, 1, 2 }, { 6, 2, 0, 0 }, { -1, 2, 0, 0 }, { 2, 5, 0, 0 }, { 2, -1, 0, 0 },
        { 4, 2, 0, 1 }, { 0, 2, 1, 1 }, { 2, 0, 1, 1 }, { 2, 4, 0, 1 },
        { 0, 0, 1, 1 }, { 4, 0, 0, 1 }, { 4, 4, 0, 1 }, { 0, 4, 0, 1 },
        { 1048576, 1048576, 0, 0 }, { -1048576, 2, 0, 0 }
    };
    double bad[4];
    int i;
    for (i = 0; i < COUNT(cases); i++)
        test_point(i, LIST(square), cases[i].x, cases[i].y, 0, cases[i].inside, cases[i].location);
    /* parity: what is gone round twice contains nothing, but has its boundary */
    test_point(20, LIST(round_twice), 2, 2, 0, 0, 0);
    test_point(21, LIST(round_twice), 0, 2, 0, 0, 1);
    test_point(22, LIST(triangle), -1.5, 1, 0, 1, 2);
    /* the outline's refusals come before the point's */
    bad[0] = from_bits(not_a_number);
    bad[1] = from_bits(infinity);
    bad[2] = from_bits(past_field_end);
    bad[3] = -from_bits(past_field_end);
    for (i = 0; i < 4; i++) {
        test_point(100 + i, LIST(square), bad[i], 2, 10, 0, 0);
        test_point(110 + i, LIST(square), 2, bad[i], 10, 0, 0);
        test_point(120 + i, LIST(turned), bad[i], 2, 9, 0, 0);
        test_point(130 + i, (const double *)0, 0, bad[i], bad[i], 3, 0, 0);
    }
    test_point(140, LIST(flat), 2, 2, 8, 0, 0);
    test_point(141, LIST(closed), 2, 2, 7, 0, 0);
    test_point(142, square, 5, 2, 2, 1, 0, 0);
}

static void outline_distances(void)
{
    static const struct { double x, y; away want; } cases[] = {
        { 6, 2, { 2, 1, 0 } }, { 1, 2, { -1, -1, -0.0 } }, { 7, 8, { 5, 0.6, 0.8 } },
        { -3, -4, { 5, -0.6, -0.8 } }, { 2, 3, { -1, -0.0, 1 } }, { 2, -3, { 3, 0, -1 } },
        /* the first edge among equals: the lower one */
        { 2, 2, { -2, -0.0, -1 } },
        /* on the boundary: +0 and the edge's own normal, at a corner the first edge's */
        { 2, 0, { 0, 0, -1 } }, { 4, 2, { 0, 1, -0.0 } }, { 2, 4, { 0, 0, 1 } }, { 0, 2, { 0, -1, -0.0 } },
        { 4, 4, { 0, 1, -0.0 } }, { 0, 0, { 0, 0, -1 } }
    };
    away near_edge = { 0, 1, -0.0 };
    double bad[4];
    int i;
    for (i = 0; i < COUNT(cases); i++)
        test_distance(i, LIST(square), cases[i].x, cases[i].y, 0, cases[i].want);
    /* within 16 units of the edge: the magnitude stays, and the normal is the edge's own */
    near_edge.distance = 1.0 / 1125899906842624.0;
    test_distance(20, LIST(square), 4 + near_edge.distance, 2, 0, near_edge);
    near_edge.distance = -near_edge.distance / 2;
    test_distance(21, LIST(square), 4 + near_edge.distance, 2, 0, near_edge);
    bad[0] = from_bits(not_a_number);
    bad[1] = from_bits(infinity);
    bad[2] = from_bits(past_field_end);
    bad[3] = -from_bits(past_field_end);
    for (i = 0; i < 4; i++) {
        test_distance(100 + i, LIST(square), bad[i], 2, 10, no_distance);
        test_distance(110 + i, LIST(square), 2, bad[i], 10, no_distance);
        test_distance(120 + i, LIST(turned), bad[i], 2, 9, no_distance);
        test_distance(130 + i, (const double *)0, 0, bad[i], bad[i], 3, no_distance);
    }
    test_distance(140, LIST(flat), 2, 2, 8, no_distance);
    test_distance(141, LIST(closed), 2, 2, 7, no_distance);
    test_distance(142, square, 5, 2, 2, 1, no_distance);
}

static void outline_fills(void)
{
    static const struct { double cell[4], fill; } cases[] = {
        { { 1, 1, 3, 6 }, 6 }, { { 5, 5, 6, 6 }, 0 }, { { 0, 0, 4, 4 }, 16 }, { { -1, -1, 9, 9 }, 16 },
        { { 2, 0, 4, 4 }, 8 }, { { 1, 1, 3, 3 }, 4 }, { { -1, -1, 1, 1 }, 1 }, { { 3, 3, 9, 9 }, 1 },
        /* beside an edge, at a corner, without width */
        { { 4, 0, 6, 4 }, 0 }, { { 4, 4, 5, 5 }, 0 }, { { 1, 1, 1, 3 }, 0 }, { { 2, 2, 2, 2 }, 0 },
        { { -1048576, -1048576, 1048576, 1048576 }, 16 }
    };
    static const double across[4] = { 1, 1, 3, 6 };
    static const double left_loop[4] = { -1, -1, 0, 1 };
    static const double under_teeth[4] = { 0, 0, 6, 2 };
    static const double beside_teeth[4] = { -2, 0, 0, 6 };
    static const double half_of_teeth[4] = { -2, 3, 0, 6 };
    double bad[4], cell[4], list[8];
    int i, j;
    size_t room;
    for (i = 0; i < COUNT(cases); i++)
        test_fill(i, LIST(square), cases[i].cell, 32, 0, cases[i].fill);
    /* winding counts: twice round, and a loop that runs clockwise */
    test_fill(20, LIST(round_twice), across, 64, 0, 12);
    test_fill(21, LIST(loops), left_loop, 32, 0, -1);
    /* every buffer about the limits: a piece per vertex, and the longest list's pieces */
    for (room = 0; room <= 41; room++)
        test_fill(100 + (int)room, LIST(square), across, room, room < 32 ? 13 : 0, room < 32 ? 0 : 6);
    for (room = 62; room <= 113; room++) {
        uint32_t number = room < 72 ? 13 : room < 104 ? 14 : 0;
        test_fill(200 + (int)room, LIST(crown), under_teeth, room, number, number == 0 ? 10.5 : 0);
        test_fill(400 + (int)room, LIST(rake), beside_teeth, room, number, number == 0 ? 10.5 : 0);
        /* here the first list is the longest, not the last */
        test_fill(600 + (int)room, LIST(rake), half_of_teeth, room, number, number == 0 ? 5.25 : 0);
    }
    /* the cell's refusal comes after the outline's and before the buffer's */
    bad[0] = from_bits(not_a_number);
    bad[1] = from_bits(infinity);
    bad[2] = from_bits(past_field_end);
    bad[3] = -from_bits(past_field_end);
    for (i = 0; i < 4; i++)
        for (j = 0; j < 4; j++) {
            memcpy(cell, across, sizeof cell);
            cell[i] = bad[j];
            test_fill(800 + 4 * i + j, LIST(square), cell, 32, 11, 0);
            test_fill(820 + 4 * i + j, LIST(square), cell, 0, 11, 0);
            test_fill(840 + 4 * i + j, LIST(turned), cell, 32, 9, 0);
            test_fill(860 + 4 * i + j, (const double *)0, 0, cell, 0, 3, 0);
        }
    for (i = 0; i < 2; i++) {
        memcpy(cell, across, sizeof cell);
        cell[i] = cell[i + 2] + 1;
        test_fill(880 + i, LIST(square), cell, 32, 11, 0);
    }
    test_fill(890, square, 5, across, 40, 1, 0);
    test_fill(891, square, 4, across, 40, 3, 0);
    test_fill(892, LIST(closed), across, 40, 7, 0);
    test_fill(893, LIST(flat), across, 40, 8, 0);
    test_fill(894, LIST(turned), across, 0, 9, 0);
    memcpy(list, square, sizeof list);
    list[5] = from_bits(not_a_number);
    test_fill(895, LIST(list), across, 40, 5, 0);
    list[5] = from_bits(past_field_end);
    test_fill(896, LIST(list), across, 40, 6, 0);
}

static void outline_making(void)
{
    double list[8];
    test_make(0, LIST(square), 8, 0, 4, square);
    test_make(1, LIST(square), 20, 0, 4, square);
    test_make(2, LIST(turned), 8, 0, 4, turned_made);
    test_make(3, LIST(closed), 10, 0, 4, square);
    test_make(4, LIST(largest), 9, 0, 4, largest);
    test_make(5, LIST(tenths), 8, 0, 4, tenths_made);
    test_make(6, LIST(square), 7, 13, 0, square);
    test_make(7, LIST(square), 0, 13, 0, square);
    /* room for the input, though the closing vertex is dropped */
    test_make(8, LIST(closed), 8, 13, 0, square);
    test_make(9, LIST(closed), 9, 13, 0, square);
    test_make(10, LIST(closed_twice), 12, 7, 0, square);
    test_make(11, LIST(closed_pair), 6, 3, 0, square);
    test_make(12, LIST(flat), 6, 8, 0, square);
    /* 13 comes last */
    test_make(13, LIST(flat), 0, 8, 0, square);
    test_make(14, LIST(bow_tie), 8, 8, 0, square);
    test_make(15, square, 5, 8, 1, 0, square);
    test_make(16, square, 4, 8, 3, 0, square);
    test_make(17, (const double *)0, 0, 8, 3, 0, square);
    test_make(18, (const double *)0, 0, 0, 3, 0, square);
    test_make(19, LIST(equal), 8, 7, 0, square);
    memcpy(list, square, sizeof list);
    list[5] = from_bits(not_a_number);
    test_make(20, LIST(list), 8, 5, 0, square);
    list[5] = from_bits(past_field_end);
    test_make(21, LIST(list), 8, 6, 0, square);
    /* numbers are copied with the signs of their zeros */
    memcpy(list, square, sizeof list);
    list[1] = -list[1];
    test_make(22, LIST(list), 8, 0, 4, list);
    /* off the grid, making may leave what a query turns away */
    test_measures(23, LIST(tenths), 9, no_measures);
    test_measures(24, LIST(tenths_made), 8, no_measures);
}

/* n vertices: n - 1 of them along a line, and one above the first; and the first again. */
static void comb(double *list, int n)
{
    int i;
    for (i = 0; i < n - 1; i++) {
        list[2 * i] = i;
        list[2 * i + 1] = 0;
    }
    list[2 * n - 2] = 0;
    list[2 * n - 1] = 1;
    list[2 * n] = list[0];
    list[2 * n + 1] = list[1];
}

static void outline_sizes(void)
{
    static double list[MOST];
    measures want = { 2047, 0, 0, 0, 4094, 1 };
    static const double all[4] = { 0, 0, 4094, 1 };
    int i;
    comb(list, 4096);
    for (i = 0; i < 4096; i++)
        want.perimeter += vk_hypot(list[2 * i + 2] - list[2 * i], list[2 * i + 3] - list[2 * i + 1]);
    test_measures(0, list, 8192, 0, want);
    test_point(0, list, 8192, 1, 0.5, 0, 1, 2);
    test_point(1, list, 8192, 4093, 0.5, 0, 0, 0);
    test_point(2, list, 8192, 4093, 0, 0, 1, 1);
    test_make(0, list, 8192, 8192, 0, 4096, list);
    test_fill(0, list, 8192, all, 32767, 13, 0);
    test_fill(1, list, 8192, all, 32768, 0, 2047);
    test_fill(2, list, 8192, all, 32775, 0, 2047);
    /* with the first vertex again at the end: no query takes it, and making drops it */
    test_measures(1, list, 8194, 4, no_measures);
    test_make(1, list, 8194, 8194, 0, 4096, list);
    test_make(2, list, 8194, 8193, 13, 0, list);
    comb(list, 4097);
    test_measures(2, list, 8194, 4, no_measures);
    test_measures(3, list, 8193, 1, no_measures);
    test_point(3, list, 8194, 1, 0.5, 4, 0, 0);
    test_make(3, list, 8194, 8194, 4, 0, list);
    test_fill(3, list, 8194, all, 32784, 4, 0);
    test_make(4, list, 8196, 8196, 4, 0, list);
    /* too many comes before what the numbers are */
    list[0] = from_bits(not_a_number);
    test_measures(4, list, 8194, 4, no_measures);
    test_measures(5, list, 8192, 5, no_measures);
    test_measures(6, list, 0, 3, no_measures);
}

/*
 * Lists of exactly the lengths that are told, from the heap, and answer fields
 * that hold nothing yet: valgrind sees a read or write past them, and a
 * decision on what was never written.
 */
static void exact_memory(int line, const double *list, size_t len, uint32_t count)
{
    double *vertices = (double *)malloc(len * sizeof *vertices);
    double *made = (double *)malloc(len * sizeof *made);
    double *work = (double *)malloc(4 * len * sizeof *work);
    double area, perimeter, min_x, min_y, max_x, max_y, distance, normal_x, normal_y, fill;
    size_t i;
    uint32_t inside, location, told;
    if (vertices == NULL || made == NULL || work == NULL) {
        printf("no memory\n");
        exit(2);
    }
    memcpy(vertices, list, len * sizeof *vertices);
    expect_word("vk_outline_area", line, vk_outline_area(vertices, len, &area), 0);
    expect_word("vk_outline_perimeter", line, vk_outline_perimeter(vertices, len, &perimeter), 0);
    expect_word("vk_outline_bounds", line, vk_outline_bounds(vertices, len, &min_x, &min_y, &max_x, &max_y), 0);
    expect_word("vk_outline_contains", line, vk_outline_contains(vertices, len, max_x, min_y, &inside), 0);
    expect_word("vk_outline_locate", line, vk_outline_locate(vertices, len, min_x, max_y, &location), 0);
    expect_word("vk_outline_distance", line,
                vk_outline_distance(vertices, len, max_x, max_y + 1, &distance, &normal_x, &normal_y), 0);
    expect_word("vk_outline_make", line, vk_outline_make(vertices, len, made, len, &told), 0);
    expect_word("vk_outline_make, count", line, told, count);
    expect_word("vk_outline_fill", line,
                vk_outline_fill(vertices, len, min_x, min_y, max_x, max_y, work, 4 * len, &fill), 0);
    expect("vk_outline_fill, fill", line, fill, to_bits(area));
    for (i = 0; i < 4 * len; i++)
        expect("vk_outline_fill, buffer", line, work[i], to_bits(0));
    checks++;
    if (!(area > 0 && perimeter > 0 && min_x < max_x && min_y < max_y && inside <= 1 && location <= 2
          && distance >= 1 && normal_x >= 0 && normal_y > 0)
        || memcmp(made, list, 2 * count * sizeof *made) != 0) {
        failures++;
        printf("exact memory, case %d: a wrong answer\n", line);
    }
    free(work);
    free(made);
    free(vertices);
}

static void outline_memory(void)
{
    static double list[MOST];
    comb(list, 4096);
    exact_memory(0, LIST(square), 4);
    exact_memory(1, LIST(triangle), 3);
    exact_memory(2, LIST(round_twice), 8);
    exact_memory(3, list, 8192, 4096);
}

static void test_ellipse(int line, const double *in, uint32_t number, const double *want)
{
    double got[3];
    int i;
    got[0] = got[1] = got[2] = from_bits(stale);
    expect_word("vk_ellipse_nearest", line,
                vk_ellipse_nearest(in[0], in[1], in[2], in[3], in[4], in[5], &got[0], &got[1], &got[2]), number);
    for (i = 0; i < 3; i++)
        expect("vk_ellipse_nearest", line, got[i], to_bits(want[i]));
}

static void ellipses(void)
{
    static const double none[3] = { 0, 0, 0 };
    /* centre, semi-axes, point; nearest, distance */
    static const double cases[][9] = {
        { 0, 0, 2, 1, 3, 0, 2, 0, 1 },
        { 0, 0, 2, 1, -3, 0, -2, 0, 1 },
        { 0, 0, 2, 1, 0, 0, 0, 1, 1 },
        { 0, 0, 2, 1, 0, -0.0, 0, -1, 1 },
        { 0, 0, 1, 2, 0, 3, 0, 2, 1 },
        { 0, 0, 1, 2, 0, 0, 1, 0, 1 },
        { 0, 0, 1, 2, -0.0, 0, -1, 0, 1 },
        { 0, 0, 2, 1, 0, 5, 0, 1, 4 },
        { 0, 0, 2, 1, 0, -0.5, 0, -1, 0.5 },
        { 10, -20, 2, 1, 13, -20, 12, -20, 1 },
        { 0, 0, 5, 5, 6, 8, 3, 4, 5 },
        { 0, 0, 5, 5, -6, 8, -3, 4, 5 },
        { 0, 0, 1024, 0.0009765625, 0, 1, 0, 0.0009765625, 0.9990234375 },
        { 1048576, 0, 2, 1, 1048573, 0, 1048574, 0, 1 }
    };
    /* one number replaced: which, by what, and the refusal */
    static const struct { int place; double by; uint32_t number; } bad[] = {
        { 0, 1048576.5, 10 }, { 1, -1048577, 10 }, { 4, 1048577, 10 }, { 5, -1048576.5, 10 },
        { 2, 0, 12 }, { 3, -1, 12 }, { 2, 1024.5, 12 }, { 3, 1025, 12 }, { 3, 0.0009765624, 12 },
        { 4, 0.0000009536743, 12 }, { 5, -0.0000009536743, 12 }, { 5, 1e-300, 12 }
    };
    double in[6];
    int i, j;
    for (i = 0; i < COUNT(cases); i++)
        test_ellipse(i, cases[i], 0, cases[i] + 6);
    for (i = 0; i < COUNT(bad); i++) {
        memcpy(in, cases[0], sizeof in);
        in[bad[i].place] = bad[i].by;
        test_ellipse(100 + i, in, bad[i].number, none);
    }
    for (i = 0; i < 6; i++)
        for (j = 0; j < 3; j++) {
            memcpy(in, cases[0], sizeof in);
            in[i] = j == 0 ? from_bits(not_a_number) : j == 1 ? from_bits(infinity) : -from_bits(infinity);
            test_ellipse(200 + 3 * i + j, in, i == 2 || i == 3 ? 12 : 10, none);
            /* 10 comes before 12 */
            in[2] = 0;
            test_ellipse(300 + 3 * i + j, in, i == 2 || i == 3 ? 12 : 10, none);
        }
}

int main(void)
{
    numbers();
    ellipses();
    outline_measures();
    outline_points();
    outline_distances();
    outline_fills();
    outline_making();
    outline_sizes();
    outline_memory();
    trees();
    sets();
    nans();
    zooms();
    streams();
    printf("%lu answers compared, %lu wrong\n", checks, failures);
    return failures != 0;
}
