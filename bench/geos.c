/*
 * Times the fill of a cell beside GEOS, for stars of 4, 64 and 4,096 vertices:
 * vk_outline_fill, and GEOSClipByRect_r with the area of what it gives, the
 * polygon made anew at each call. Both have the same vertices and cells, those
 * of the rows of stars in bench/src/fills.rs. Each figure is the best of
 * several repetitions, in ns per call. The areas are compared first: exits with
 * 1 where they are more than 1e-6 square micrometres apart, or a call fails.
 */
#define _POSIX_C_SOURCE 200809L
#include <geos_c.h>
#include <malloc.h>
#include <math.h>
#include <stdio.h>
#include <stdlib.h>
#include <time.h>
#include "viskunor.h"

#define MOST 4096
#define CELLS 16
#define WORK (8 * (2 * MOST + 8))
#define REPETITIONS 25
#define SECONDS 0.004

typedef struct { double min_x, min_y, max_x, max_y; } cell;

/* The star, its first vertex again at the end: GEOS has it so, ours without. */
static double star[2 * (MOST + 1)];
static unsigned vertices;

static cell cells[CELLS];
static double work[WORK];
static size_t work_len;
static GEOSContextHandle_t geos;

/* Where each answer goes, so that the compiler takes it for used. */
static volatile double kept;

static void fail(const char *call, const cell *c)
{
    fprintf(stderr, "star of %u, cell %.17g %.17g %.17g %.17g: %s failed\n", vertices, c->min_x, c->min_y, c->max_x,
            c->max_y, call);
    exit(1);
}

static double our_fill(const cell *c)
{
    double fill = 0.0;
    if (vk_outline_fill(star, 2 * (size_t)vertices, c->min_x, c->min_y, c->max_x, c->max_y, work, work_len, &fill) != 0)
        fail("vk_outline_fill", c);
    return fill;
}

static double geos_fill(const cell *c)
{
    double area = 0.0;
    GEOSCoordSequence *list = GEOSCoordSeq_copyFromBuffer_r(geos, star, vertices + 1, 0, 0);
    GEOSGeometry *ring = list == NULL ? NULL : GEOSGeom_createLinearRing_r(geos, list);
    GEOSGeometry *polygon = ring == NULL ? NULL : GEOSGeom_createPolygon_r(geos, ring, NULL, 0);
    GEOSGeometry *part =
        polygon == NULL ? NULL : GEOSClipByRect_r(geos, polygon, c->min_x, c->min_y, c->max_x, c->max_y);
    if (part == NULL || GEOSArea_r(geos, part, &area) != 1)
        fail("GEOS", c);
    GEOSGeom_destroy_r(geos, part);
    GEOSGeom_destroy_r(geos, polygon);
    return area;
}

/* A star around zero, every other vertex nearer to it, all of them on the grid. */
static void make_star(unsigned n)
{
    const double turn = 2.0 * acos(-1.0);
    unsigned i;
    for (i = 0; i < n; i++) {
        double angle = turn * (i + 0.3) / n, radius = i % 2 == 0 ? 120.0 : 90.0;
        star[2 * i] = round(radius * cos(angle) * 1024.0) / 1024.0;
        star[2 * i + 1] = round(radius * sin(angle) * 1024.0) / 1024.0;
    }
    star[2 * n] = star[0];
    star[2 * n + 1] = star[1];
    vertices = n;
    work_len = 8 * (2 * (size_t)n + 8);
}

/* Cells of 300 micrometres and a little more that hold the whole star. */
static void cover(void)
{
    int i;
    for (i = 0; i < CELLS; i++) {
        double half = 150.0 + i;
        cells[i] = (cell){-half, -half, half, half};
    }
}

/* Cells of 1 micrometre, each around the middle of an edge. */
static void at_edges(void)
{
    unsigned i;
    for (i = 0; i < CELLS; i++) {
        const double *a = star + 2 * (i * vertices / CELLS), *b = a + 2;
        double x = (a[0] + b[0]) / 2.0, y = (a[1] + b[1]) / 2.0;
        cells[i] = (cell){x - 0.5, y - 0.5, x + 0.5, y + 0.5};
    }
}

/* Seconds for so many rounds over the cells. */
static double measure(long rounds, double (*fill)(const cell *))
{
    struct timespec start, end;
    long k;
    int i;
    clock_gettime(CLOCK_MONOTONIC, &start);
    for (k = 0; k < rounds; k++)
        for (i = 0; i < CELLS; i++)
            kept = fill(&cells[i]);
    clock_gettime(CLOCK_MONOTONIC, &end);
    return (double)(end.tv_sec - start.tv_sec) + 1e-9 * (double)(end.tv_nsec - start.tv_nsec);
}

/* How many rounds take long enough to be timed. */
static long enough(double (*fill)(const cell *))
{
    long rounds = 1;
    while (measure(rounds, fill) < SECONDS)
        rounds *= 2;
    return rounds;
}

static void compare(void)
{
    int i;
    for (i = 0; i < CELLS; i++) {
        const cell *c = &cells[i];
        double ours = our_fill(c), theirs = geos_fill(c);
        if (!(fabs(ours - theirs) <= 1e-6)) {
            fprintf(stderr, "star of %u, cell %.17g %.17g %.17g %.17g: ours %.17g, GEOS %.17g\n", vertices, c->min_x,
                    c->min_y, c->max_x, c->max_y, ours, theirs);
            exit(1);
        }
    }
}

/* One line: the least times of both, the repetitions in turn, and ours divided by GEOS's. */
static void row(const char *place)
{
    double ours = INFINITY, theirs = INFINITY;
    long n, m;
    char inputs[64];
    int i;
    compare();
    n = enough(our_fill);
    m = enough(geos_fill);
    for (i = 0; i < REPETITIONS; i++) {
        ours = fmin(ours, measure(n, our_fill) / (double)n);
        theirs = fmin(theirs, measure(m, geos_fill) / (double)m);
    }
    snprintf(inputs, sizeof inputs, "star of %u, %s", vertices, place);
    printf("%-10s %-40s %12.2f %12.2f %8.2f\n", "fill", inputs, ours / CELLS * 1e9, theirs / CELLS * 1e9,
           ours / theirs);
    fflush(stdout);
}

int main(void)
{
    static const unsigned sizes[] = {4, 64, MOST};
    unsigned k;
#ifdef __GLIBC__
    /* Freed memory is kept, for GEOS's sake: glibc would give large blocks back to the system and get them again. */
    if (mallopt(M_TRIM_THRESHOLD, 1 << 30) != 1 || mallopt(M_MMAP_THRESHOLD, 1 << 30) != 1) {
        fprintf(stderr, "mallopt failed\n");
        return 1;
    }
#endif
    geos = GEOS_init_r();
    printf("GEOS %s\n", GEOSversion());
    printf("%-10s %-40s %12s %12s %8s\n", "operation", "inputs", "ours ns", "GEOS ns", "ratio");
    for (k = 0; k < sizeof sizes / sizeof *sizes; k++) {
        make_star(sizes[k]);
        cover();
        row("cells that cover it");
        at_edges();
        row("small cells at an edge");
    }
    GEOS_finish_r(geos);
    return 0;
}
