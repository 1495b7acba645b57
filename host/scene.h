/* What the sample host reads from its files: outlines, query points and ellipses. */
#ifndef SCENE_H
#define SCENE_H

#include <stddef.h>
#include <stdint.h>
#include <stdio.h>

#define MOST_OUTLINES 64
#define MOST_NUMBERS 4096
#define MOST_POINTS 32
#define MOST_ELLIPSES 8
#define MOST_BYTES 65536 /* of a stream file */

typedef struct { double x, y; } place;
typedef struct { double x, y, semi_x, semi_y; } ellipse;

/* A set as the library takes it: the outlines' vertices one after the other, and their counts. */
typedef struct {
    double vertices[MOST_NUMBERS];
    size_t numbers;
    uint32_t counts[MOST_OUTLINES];
    size_t outlines;
    place points[MOST_POINTS];
    size_t asked;
    ellipse ellipses[MOST_ELLIPSES];
    size_t rounds;
} scene;

/* Working space for an index: 511 nodes and 1,024 items. */
typedef struct {
    double corners[4 * 511];
    uint32_t links[2 * 511];
    uint32_t items[1024];
} index_space;

/* Where outline k's numbers begin, and how many there are. */
const double *outline_at(const scene *s, size_t k, size_t *len);

/* What a refusal's number says. */
const char *reason(uint32_t number);

/* Draws the scene as an SVG: cells with their fill, outlines, points with the nearest outline's distance. */
int draw(FILE *out, const scene *s);

#endif
