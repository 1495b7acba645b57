/*
 * Tests of reading a GDSII stream: what is read, each refusal and their order.
 * The stream is lent from a block of exactly its length, and the lists from the
 * middle of larger ones, whose other places must stay as they are.
 */
#include <stdio.h>
#include <stdlib.h>
#include <string.h>
#include "buffers.h"
#include "expect.h"
#include "viskunor.h"

#define MOST_BYTES 700000
#define MOST_RECORDS 5200
#define MOST_PLACES (131072 + 64)
#define REACH 1048576

/* A stream as a test writes it, and where its records begin. */
typedef struct {
    uint8_t bytes[MOST_BYTES];
    size_t len;
    size_t at[MOST_RECORDS];
    int records;
} stream;

static stream s, altered;

static void put(uint32_t n, int size)
{
    while (size-- > 0)
        s.bytes[s.len++] = (uint8_t)(n >> 8 * size & 255);
}

/* The head of a record with so many bytes of data. */
static void head(uint32_t type, size_t data)
{
    s.at[s.records++] = s.len;
    put((uint32_t)data + 4, 2);
    put(type, 2);
}

/* A record whose data is not read. */
static void record(uint32_t type, size_t data)
{
    head(type, data);
    memset(s.bytes + s.len, 0x5a, data);
    s.len += data;
}

/* HEADER to STRNAME; UNITS is record 3. */
static void open_stream(void)
{
    s.len = 0;
    s.records = 0;
    record(0x0002, 2);
    record(0x0102, 24);
    record(0x0206, 4);
    head(0x0305, 16);
    put(0x3e400000, 4);
    put(0, 4);
    put(0x39431bde, 4);
    put(0x82d7b635, 4);
    record(0x0502, 24);
    record(0x0606, 4);
}

static void xy(const long *steps, size_t vertices)
{
    size_t i;
    head(0x1003, 8 * vertices);
    for (i = 0; i < 2 * vertices; i++)
        put((uint32_t)steps[i], 4);
}

/* What comes before the XY of an element. */
static void open_element(void)
{
    record(0x0800, 0);
    record(0x0d02, 2);
    record(0x0e02, 2);
}

static void element(const long *steps, size_t vertices)
{
    open_element();
    xy(steps, vertices);
    record(0x1100, 0);
}

static void close_stream(void)
{
    record(0x0700, 0);
    record(0x0400, 0);
}

/* What a call answers, and the set that it writes. */
typedef struct {
    uint32_t number, outlines, vertices;
    const double *numbers;
    const uint32_t *counts;
} outcome;

static outcome refused(uint32_t number)
{
    outcome o = { 0, 0, 0, 0, 0 };
    o.number = number;
    return o;
}

static outcome found(uint32_t outlines, uint32_t vertices, const double *numbers, const uint32_t *counts)
{
    outcome o;
    o.number = 0;
    o.outlines = outlines;
    o.vertices = vertices;
    o.numbers = numbers;
    o.counts = counts;
    return o;
}

static double numbers_space[MOST_PLACES];
static uint32_t counts_space[MOST_PLACES];

/* Both lists, of these lengths, are as they were but for the set at their front. */
static void expect_lists(int line, outcome want, size_t numbers, size_t outlines)
{
    size_t i;
    int good = 1;
    for (i = 0; i < numbers + 2 * GUARD; i++)
        good &= same_bits(numbers_space[i], i >= GUARD && i - GUARD < 2 * (size_t)want.vertices
                                                ? want.numbers[i - GUARD] : from_bits(stale));
    expect_word("vk_gdsii_read, vertices", line, (uint32_t)good, 1);
    good = 1;
    for (i = 0; i < outlines + 2 * GUARD; i++)
        good &= counts_space[i] == (i >= GUARD && i - GUARD < want.outlines ? want.counts[i - GUARD] : stale_word);
    expect_word("vk_gdsii_read, counts", line, (uint32_t)good, 1);
}

/* Reads the first len bytes of a stream into lists of these lengths; NULL is lent for nothing. */
static void test_bytes(int line, const stream *t, size_t len, size_t numbers, size_t outlines, outcome want)
{
    uint32_t outline_count = stale_word, vertex_count = stale_word, number;
    uint8_t *lent = (uint8_t *)malloc(len > 0 ? len : 1);
    size_t i;
    if (lent == NULL) {
        printf("no memory\n");
        exit(2);
    }
    memcpy(lent, t->bytes, len);
    for (i = 0; i < numbers + 2 * GUARD; i++)
        numbers_space[i] = from_bits(stale);
    for (i = 0; i < outlines + 2 * GUARD; i++)
        counts_space[i] = stale_word;
    number = vk_gdsii_read(len > 0 ? lent : NULL, len, numbers > 0 ? numbers_space + GUARD : NULL, numbers,
                           outlines > 0 ? counts_space + GUARD : NULL, outlines, &outline_count, &vertex_count);
    expect_word("vk_gdsii_read", line, number, want.number);
    expect_word("vk_gdsii_read, outline_count", line, outline_count, want.outlines);
    expect_word("vk_gdsii_read, vertex_count", line, vertex_count, want.vertices);
    expect_word("vk_gdsii_read, stream", line, memcmp(lent, t->bytes, len) == 0, 1);
    expect_lists(line, want, numbers, outlines);
    free(lent);
}

/* The whole stream, in lists as long as the set found, or of a few places where it is refused. */
static void test_stream(int line, const stream *t, outcome want)
{
    if (want.number == 0)
        test_bytes(line, t, t->len, 2 * (size_t)want.vertices, want.outlines, want);
    else
        test_bytes(line, t, t->len, 24, 6, want);
}

static void test_read(int line, outcome want)
{
    test_stream(line, &s, want);
}

/* A stream with one outline. */
static void test_outline(int line, const long *steps, size_t vertices, outcome want)
{
    open_stream();
    element(steps, vertices);
    close_stream();
    test_read(line, want);
}

/* A square of 4 um, clockwise and closed, and a triangle with one vertex at zero; as they are made. */
static const long square[] = { 0, 0, 0, 4096, 4096, 4096, 4096, 0, 0, 0 };
static const long triangle[] = { -512, 1, 0, 0, 1024, 512 };
static const double made[] = { 4, 0, 4, 4, 0, 4, 0, 0, -0.5, 0.0009765625, 0, 0, 1, 0.5 };
static const uint32_t made_counts[] = { 4, 3 };

/* Records 9 and 14 are the two XY. */
static outcome write_both(void)
{
    open_stream();
    element(square, 5);
    element(triangle, 3);
    close_stream();
    return found(2, 7, made, made_counts);
}

static void what_is_read(void)
{
    /* negative, not closed; closed, not negative */
    static const long back[] = { 0, 0, 0, 4096, 4096, 4096, 4096, 0 };
    static const long closed[] = { 4096, 0, 4096, 4096, 0, 4096, 0, 0, 4096, 0 };
    /* the ends of the reach */
    static const long ends[] = { -REACH, -REACH, REACH, -REACH, REACH, REACH, -REACH, REACH };
    static const double ends_made[] = { -1024, -1024, 1024, -1024, 1024, 1024, -1024, 1024 };
    static const uint32_t four[] = { 4 };
    outcome both = write_both();
    size_t more;
    test_read(0, both);
    for (more = 0; more < 9; more++) {
        test_bytes(1, &s, s.len, 14 + more, 2, both);
        test_bytes(2, &s, s.len, 14, 2 + more, both);
        test_bytes(3, &s, s.len, 14 + more, 2 + more, both);
    }
    test_outline(4, back, 4, found(1, 4, made, four));
    test_outline(5, closed, 5, found(1, 4, made, four));
    test_outline(6, ends, 4, found(1, 4, ends_made, four));
    /* bytes after ENDLIB are ignored, a whole stream among them */
    both = write_both();
    for (more = 0; more < 9; more++) {
        put(more % 2 ? 0x04 : 0xff, 1);
        test_read(10 + (int)more, both);
    }
    memcpy(s.bytes + s.len, s.bytes, s.len);
    s.len *= 2;
    test_read(20, both);
    /* no elements: an empty set */
    open_stream();
    close_stream();
    test_read(21, found(0, 0, NULL, NULL));
    test_bytes(22, &s, s.len, 5, 3, found(0, 0, NULL, NULL));
}

/* Of the records that are not read only length and type count: any length from 4 on will do. */
static void other_lengths(void)
{
    static const size_t sizes[] = { 0, 1, 3, 7, 9, 700 };
    int i, k;
    for (i = 0; i < COUNT(sizes); i++)
        for (k = 0; k < 2; k++) {
            size_t n = sizes[i];
            s.len = 0;
            s.records = 0;
            record(0x0002, n);
            record(0x0102, k ? n : 24);
            record(0x0206, n);
            head(0x0305, 16);
            put(0x3e400000, 4);
            put(0, 4);
            put(0xffffffff, 4);
            put(0, 4);
            record(0x0502, n);
            record(0x0606, n);
            record(0x0800, n);
            record(0x0d02, n);
            record(0x0e02, k ? n : 2);
            xy(square, 5);
            record(0x1100, n);
            record(0x0700, n);
            record(0x0400, n);
            test_read(30 + 2 * i + k, found(1, 4, made, made_counts));
        }
}

/* The altered stream is s without the bytes from `from` up to `to`, and with those of `in` in their place. */
static void splice(size_t from, size_t to, const uint8_t *in, size_t len)
{
    memcpy(altered.bytes, s.bytes, from);
    memcpy(altered.bytes + from, in, len);
    memcpy(altered.bytes + from + len, s.bytes + to, s.len - to);
    altered.len = s.len - (to - from) + len;
}

static void set_byte(size_t at, uint32_t by)
{
    uint8_t b = (uint8_t)by;
    splice(at, at + 1, &b, 1);
}

static size_t end_of(int k)
{
    return k + 1 < s.records ? s.at[k + 1] : s.len;
}

/* 16: each record missing, there twice, of another type, of a length below 4 or past the stream's end. */
static void each_record(void)
{
    static const uint32_t types[] = { 0x0002, 0x0102, 0x0206, 0x0305, 0x0502, 0x0606, 0x0700, 0x0400, 0x0800,
                                      0x0d02, 0x0e02, 0x1003, 0x1100, 0x0900, 0x0a00, 0x0c00, 0x2b02, 0xffff };
    uint8_t type[2];
    int k, i;
    write_both();
    for (k = 0; k < s.records; k++) {
        size_t from = s.at[k], to = end_of(k);
        splice(from, to, s.bytes, 0);
        test_stream(100 + k, &altered, refused(16));
        splice(from, from, s.bytes + from, to - from);
        /* after ENDLIB nothing is read */
        test_stream(200 + k, &altered, k + 1 < s.records ? refused(16) : found(2, 7, made, made_counts));
        for (i = 0; i < COUNT(types); i++) {
            type[0] = (uint8_t)(types[i] >> 8);
            type[1] = (uint8_t)(types[i] & 255);
            if (memcmp(type, s.bytes + from + 2, 2) == 0)
                continue;
            splice(from + 2, from + 4, type, 2);
            test_stream(300 + k, &altered, refused(16));
        }
        for (i = 0; i < 4; i++) {
            set_byte(from + 1, (uint32_t)i);
            test_stream(400 + k, &altered, refused(16));
        }
        set_byte(from, 0xff);
        test_stream(500 + k, &altered, refused(16));
    }
}

/* Cut at every byte: 16, whatever stands in the record that is cut, in the last one too. */
static void cut_short(void)
{
    static const long far_off[] = { 0, 0, REACH + 1, 0 };
    size_t len;
    write_both();
    for (len = 0; len < s.len; len++)
        test_bytes(600, &s, len, 14, 2, refused(16));
    s.bytes[s.at[3] + 4] = 0x3f;
    for (len = 0; len < s.at[4]; len++)
        test_bytes(601, &s, len, 14, 2, refused(16));
    test_bytes(602, &s, len, 14, 2, refused(17));
    open_stream();
    element(far_off, 2);
    for (len = 0; len < s.at[10]; len++)
        test_bytes(603, &s, len, 14, 2, refused(16));
    test_bytes(604, &s, len, 14, 2, refused(18));
    /* an XY without data, cut in its head */
    open_stream();
    element(far_off, 0);
    for (len = s.at[9]; len < s.at[10]; len++)
        test_bytes(605, &s, len, 14, 2, refused(16));
    test_bytes(606, &s, len, 14, 2, refused(3));
}

/* A UNITS of n bytes of data, which begin with these. */
static void units(size_t n, uint32_t high, uint32_t low)
{
    s.len = 0;
    s.records = 0;
    record(0x0002, 2);
    record(0x0102, 24);
    record(0x0206, 4);
    head(0x0305, n);
    put(high, 4);
    put(low, 4);
    for (; n > 8; n--)
        put(0x11, 1);
    record(0x0502, 24);
    record(0x0606, 4);
    close_stream();
}

/* 17: the unit is decided by its eight bytes, not by its value; a UNITS not of 20 bytes is 16 first. */
static void unit(void)
{
    static const size_t sizes[] = { 8, 9, 12, 15, 17, 20, 24, 700 };
    outcome none = found(0, 0, NULL, NULL);
    int i;
    units(16, 0x3e400000, 0);
    test_read(700, none);
    for (i = 0; i < 128; i++) {
        size_t at = s.at[3] + 4 + (size_t)i / 8;
        set_byte(at, s.bytes[at] ^ (1u << i % 8));
        /* the second real is not read */
        test_stream(710 + i, &altered, i < 64 ? refused(17) : none);
    }
    /* 1/1,024 in other bytes, 1/1,000, 0 */
    units(16, 0x3f040000, 0);
    test_read(701, refused(17));
    units(16, 0x3e418937, 0x4bc6a7f0);
    test_read(702, refused(17));
    units(16, 0, 0);
    test_read(703, refused(17));
    for (i = 0; i < COUNT(sizes); i++) {
        units(sizes[i], 0x3e400000, 0);
        test_read(850 + i, refused(16));
        units(sizes[i], 0x3e418937, 0);
        test_read(860 + i, refused(16));
    }
}

/* 18 reads every coordinate, and comes before the outline's own refusals. */
static void reach(void)
{
    static const long far_off[] = { REACH + 1, -REACH - 1, 0x7fffffff, -0x7fffffff - 1, REACH + 256, -2 * REACH };
    static const long two[] = { 0, 0, 0, REACH + 1 }, one[] = { -REACH - 1, 0 },
                      equal[] = { 0, 0, 5, 0, 5, 0, REACH + 1, 4 }, flat[] = { 0, 0, 1, 0, REACH + 1, 0 },
                      closing[] = { REACH + 1, 0, 5, 0, 0, 5, REACH + 1, 0 };
    long steps[10];
    size_t k;
    int i;
    for (k = 0; k < 10; k++)
        for (i = 0; i < COUNT(far_off); i++) {
            memcpy(steps, square, sizeof steps);
            steps[k] = far_off[i];
            test_outline(900 + (int)k, steps, 5, refused(18));
        }
    test_outline(910, two, 2, refused(18));
    test_outline(911, one, 1, refused(18));
    test_outline(912, equal, 4, refused(18));
    test_outline(913, flat, 3, refused(18));
    test_outline(914, closing, 4, refused(18));
    /* an XY whose data is no multiple of 8 is 16 first */
    for (k = 0; k < 40; k++) {
        static const uint32_t numbers[] = { 18, 16, 16, 16, 16, 16, 16, 16 };
        open_stream();
        open_element();
        record(0x1003, k);
        record(0x1100, 0);
        close_stream();
        test_read(920 + (int)k, refused(k == 0 ? 3 : numbers[k % 8]));
    }
}

/* An outline's own refusals follow its XY: before the next record is read. */
static void own_refusals(void)
{
    static const long pair[] = { 0, 0, 4, 4 }, closed_pair[] = { 0, 0, 4, 4, 0, 0 }, flat[] = { 0, 0, 4, 0, 9, 0 },
                      equal[] = { 0, 0, 4, 0, 4, 0, 0, 4 }, twice[] = { 0, 0, 4, 0, 0, 4, 0, 0, 0, 0 },
                      bow[] = { 0, 0, 4, 4, 4, 0, 0, 4 }, flat_equal[] = { 0, 0, 4, 0, 4, 0 };
    static const struct { const long *steps; size_t vertices; uint32_t number; } cases[] = {
        { pair, 0, 3 }, { pair, 1, 3 }, { pair, 2, 3 }, { closed_pair, 3, 3 }, { flat, 3, 8 }, { equal, 4, 7 },
        { twice, 5, 7 }, { bow, 4, 8 }, { flat_equal, 3, 7 }
    };
    int i;
    for (i = 0; i < COUNT(cases); i++) {
        test_outline(1000 + i, cases[i].steps, cases[i].vertices, refused(cases[i].number));
        /* without its ENDEL, and with another record there */
        splice(s.at[10], end_of(10), s.bytes, 0);
        test_stream(1020 + i, &altered, refused(cases[i].number));
        test_bytes(1040 + i, &s, s.at[10], 24, 6, refused(cases[i].number));
        /* a fault before it comes first */
        splice(s.at[8], end_of(8), s.bytes, 0);
        test_stream(1060 + i, &altered, refused(16));
        /* the first of two outlines decides */
        open_stream();
        element(cases[i].steps, cases[i].vertices);
        element(cases[(i + 4) % COUNT(cases)].steps, cases[(i + 4) % COUNT(cases)].vertices);
        test_read(1080 + i, refused(cases[i].number));
    }
}

/* n vertices: n - 1 of them along a line, and one above the first; and the first again. */
static long comb[2 * 8200];

static void draw_comb(int n)
{
    int i;
    for (i = 0; i < n - 1; i++) {
        comb[2 * i] = i;
        comb[2 * i + 1] = 0;
    }
    comb[2 * n - 2] = 0;
    comb[2 * n - 1] = 1;
    comb[2 * n] = comb[2 * n + 1] = 0;
}

static double many_numbers[131072];
static uint32_t many_counts[1024];

/* So many outlines of n vertices each, closed or not, are written and wanted. */
static outcome write_many(int outlines, int n, int closed)
{
    int i, k;
    draw_comb(n);
    open_stream();
    for (k = 0; k < outlines; k++) {
        element(comb, (size_t)(n + closed));
        if (k >= 1024 || (k + 1) * n > 65536)
            continue;
        many_counts[k] = (uint32_t)n;
        for (i = 0; i < 2 * n; i++)
            many_numbers[2 * n * k + i] = comb[i] / 1024.0;
    }
    return found((uint32_t)outlines, (uint32_t)(outlines * n), many_numbers, many_counts);
}

/* A record's length is unsigned: a closed outline of 4,096 vertices has one of 32,780. */
static void outline_sizes(void)
{
    static const struct { int n, closed; uint32_t number; } cases[] = {
        { 3, 0, 0 }, { 3, 1, 0 }, { 4095, 0, 0 }, { 4095, 1, 0 }, { 4096, 0, 0 }, { 4096, 1, 0 },
        { 4097, 0, 4 }, { 4097, 1, 4 }, { 8190, 1, 4 }, { 8191, 0, 4 }
    };
    int i;
    for (i = 0; i < COUNT(cases); i++) {
        outcome want = write_many(1, cases[i].n, cases[i].closed);
        close_stream();
        test_read(1100 + i, cases[i].number == 0 ? want : refused(cases[i].number));
    }
    /* 18 and 4 come before 7 and 8 */
    draw_comb(4097);
    comb[2] = comb[3] = 0;
    test_outline(1120, comb, 4097, refused(4));
    comb[8192] = 5000;
    comb[8193] = 0;
    test_outline(1121, comb, 4097, refused(4));
    comb[8192] = REACH + 1;
    test_outline(1122, comb, 4097, refused(18));
}

/* 4 for the set follows the outline's own refusals, and comes before what follows its XY. */
static void set_sizes(void)
{
    static const struct { int outlines, n, closed; uint32_t number; } cases[] = {
        { 1024, 3, 0, 0 }, { 1024, 3, 1, 0 }, { 1025, 3, 0, 4 }, { 1024, 64, 0, 0 }, { 1024, 64, 1, 0 },
        { 1009, 65, 0, 4 }, { 16, 4096, 0, 0 }, { 16, 4096, 1, 0 }, { 17, 4096, 0, 4 }
    };
    static const long pair[] = { 0, 0, 4, 4 }, flat[] = { 0, 0, 4, 0, 9, 0 }, equal[] = { 0, 0, 4, 0, 4, 0 },
                      far_off[] = { 0, 0, 4, 0, 0, REACH + 1 }, good[] = { 0, 0, 4, 0, 0, 4 };
    static const struct { const long *steps; size_t vertices; uint32_t number; } last[] = {
        { pair, 0, 3 }, { pair, 2, 3 }, { flat, 3, 8 }, { equal, 3, 7 }, { far_off, 3, 18 }, { good, 3, 4 }
    };
    int i, k;
    for (i = 0; i < COUNT(cases); i++) {
        outcome want = write_many(cases[i].outlines, cases[i].n, cases[i].closed);
        close_stream();
        test_read(1200 + i, cases[i].number == 0 ? want : refused(cases[i].number));
    }
    for (k = 0; k < 2; k++)
        for (i = 0; i < COUNT(last); i++) {
            write_many(k ? 1024 : 16, k ? 3 : 4096, k);
            element(last[i].steps, last[i].vertices);
            /* with no ENDSTR, and with no ENDEL */
            test_read(1220 + 20 * k + i, refused(last[i].number));
            s.len -= 4;
            test_read(1230 + 20 * k + i, refused(last[i].number));
            /* an XY cut short is 16 */
            s.len--;
            test_read(1260 + 20 * k + i, refused(16));
        }
}

/* 65,537 vertices: 15 outlines of 4,096, one of 4,094 and a triangle; without a vertex they are accepted. */
static void one_too_many(void)
{
    int n;
    for (n = 4093; n <= 4094; n++) {
        outcome want = write_many(15, 4096, 0);
        int i;
        draw_comb(n);
        element(comb, (size_t)n);
        element(triangle, 3);
        close_stream();
        many_counts[15] = (uint32_t)n;
        many_counts[16] = 3;
        for (i = 0; i < 2 * n; i++)
            many_numbers[2 * 15 * 4096 + i] = comb[i] / 1024.0;
        if (n == 4093)
            for (i = 0; i < 6; i++)
                many_numbers[131066 + i] = made[8 + i];
        want.outlines = 17;
        want.vertices = 65536;
        test_read(1300 + n, n == 4093 ? want : refused(4));
    }
}

/* 13 comes last, and nothing is written then either. */
static void short_lists(void)
{
    outcome both = write_both();
    size_t n;
    for (n = 0; n < 14; n++) {
        test_bytes(1400 + (int)n, &s, s.len, n, 2, refused(13));
        test_bytes(1420 + (int)n, &s, s.len, n, 0, refused(13));
        test_bytes(1440 + (int)n, &s, s.len - 1, n, 2, refused(16));
    }
    test_bytes(1460, &s, s.len, 14, 0, refused(13));
    test_bytes(1461, &s, s.len, 14, 1, refused(13));
    test_bytes(1462, &s, s.len, 131072, 1, refused(13));
    test_bytes(1463, &s, s.len, 13, 1024, refused(13));
    test_bytes(1464, &s, s.len, 131072, 1024, both);
    set_byte(s.at[3] + 4, 0);
    test_bytes(1465, &altered, altered.len, 0, 0, refused(17));
    open_stream();
    close_stream();
    test_bytes(1466, &s, s.len, 0, 0, found(0, 0, NULL, NULL));
    test_bytes(1467, &s, 0, 0, 0, refused(16));
}

/* The two calls that a host makes: it reads a set, then asks about it. */
static void read_then_query(void)
{
    double vertices[20], distance = from_bits(stale);
    uint32_t counts[4], outlines, total, found_one, nearest;
    write_both();
    expect_word("vk_gdsii_read", 1500, vk_gdsii_read(s.bytes, s.len, vertices, 20, counts, 4, &outlines, &total), 0);
    blank(&given);
    expect_word("vk_set_nearest, a set that was read", 1500,
                vk_set_nearest(vertices, 2 * (size_t)total, counts, outlines, 7, 8, LENT(stated), &found_one, &nearest,
                               &distance), 0);
    expect_word("vk_set_nearest, found", 1500, found_one, 1);
    expect_word("vk_set_nearest, outline", 1500, nearest, 0);
    expect("vk_set_nearest, distance", 1500, distance, to_bits(5));
    open_stream();
    close_stream();
    expect_word("vk_gdsii_read", 1501, vk_gdsii_read(s.bytes, s.len, vertices, 20, counts, 4, &outlines, &total), 0);
    expect_word("vk_set_nearest, a set that was read", 1501,
                vk_set_nearest(vertices, 2 * (size_t)total, counts, outlines, 7, 8, LENT(stated), &found_one, &nearest,
                               &distance), 0);
    expect_word("vk_set_nearest, found", 1501, found_one, 0);
}

void streams(void)
{
    what_is_read();
    other_lengths();
    each_record();
    cut_short();
    unit();
    reach();
    own_refusals();
    outline_sizes();
    set_sizes();
    one_too_many();
    short_lists();
    read_then_query();
}
