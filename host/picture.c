/*
 * The sample host's picture: cells shaded and labelled by the share of them
 * that the outlines fill, the outlines, the ellipses, and each query point with
 * a circle as large as its distance from the nearest outline.
 */
#include <stdio.h>
#include "scene.h"
#include "viskunor.h"

#define PIXELS 48 /* a cell's side, which is 1 micrometre */
#define COLUMNS 25
#define ROWS 11
#define WORK 8192 /* room for the pieces of an outline of a sample */

/* A place's pixels: y points up in the scene, and down in an SVG. */
static double right(double x)
{
    return PIXELS * x;
}

static double down(double y)
{
    return PIXELS * (ROWS - y);
}

/* The share of a cell that the outlines fill together, or the number of a refusal. */
static uint32_t share_of(const scene *s, int column, int row, double *share)
{
    static double work[WORK];
    size_t k, len;
    *share = 0;
    for (k = 0; k < s->outlines; k++) {
        const double *v = outline_at(s, k, &len);
        double fill;
        uint32_t number = vk_outline_fill(v, len, column, row, column + 1, row + 1, work, WORK, &fill);
        if (number != 0)
            return number;
        *share += fill;
    }
    return 0;
}

static int draw_cells(FILE *out, const scene *s)
{
    int column, row;
    for (row = 0; row < ROWS; row++)
        for (column = 0; column < COLUMNS; column++) {
            double share, x = right(column), y = down(row + 1);
            int light;
            if (share_of(s, column, row, &share) != 0)
                return 1;
            light = 255 - (int)(90 * share + 0.5);
            fprintf(out, "<rect x='%g' y='%g' width='%d' height='%d' fill='rgb(%d,%d,255)' stroke='silver'/>\n", x, y,
                    PIXELS, PIXELS, light, light);
            if (share >= 0.0005)
                fprintf(out, "<text x='%g' y='%g' font-size='13' fill='dimgray' text-anchor='middle'>%.1f</text>\n",
                        x + PIXELS / 2, y + PIXELS - 4, 100 * share);
        }
    return 0;
}

static void draw_outlines(FILE *out, const scene *s)
{
    size_t i, k, len;
    for (k = 0; k < s->outlines; k++) {
        const double *v = outline_at(s, k, &len);
        fprintf(out, "<polygon fill='none' stroke='black' stroke-width='2' points='");
        for (i = 0; i < len; i += 2)
            fprintf(out, " %g,%g", right(v[i]), down(v[i + 1]));
        fprintf(out, "'/>\n<text x='%g' y='%g' font-size='18' font-weight='bold'>%u</text>\n", right(v[0]) + 6,
                down(v[1]) - 6, (unsigned)k);
    }
    for (k = 0; k < s->rounds; k++) {
        const ellipse *e = &s->ellipses[k];
        fprintf(out, "<ellipse cx='%g' cy='%g' rx='%g' ry='%g' fill='none' stroke='green' stroke-width='2'/>\n",
                right(e->x), down(e->y), PIXELS * e->semi_x, PIXELS * e->semi_y);
    }
}

/* A point, its distance as a circle, and which outline that is of. */
static void draw_point(FILE *out, const scene *s, place p)
{
    static index_space w;
    uint32_t found, outline;
    double distance;
    uint32_t number = vk_set_nearest(s->vertices, s->numbers, s->counts, s->outlines, p.x, p.y, w.corners, 4 * 511,
                                     w.links, 2 * 511, w.items, 1024, &found, &outline, &distance);
    if (number != 0 || !found)
        return;
    fprintf(out, "<circle cx='%g' cy='%g' r='%g' fill='none' stroke='red'/>\n", right(p.x), down(p.y), PIXELS * distance);
    fprintf(out, "<circle cx='%g' cy='%g' r='4' fill='red'/>\n", right(p.x), down(p.y));
    fprintf(out, "<text x='%g' y='%g' font-size='14' fill='red'>%.4g to %u</text>\n", right(p.x) + 7, down(p.y) - 7,
            distance, (unsigned)outline);
}

int draw(FILE *out, const scene *s)
{
    size_t i;
    fprintf(out, "<svg xmlns='http://www.w3.org/2000/svg' width='%d' height='%d' font-family='sans-serif'>\n",
            PIXELS * COLUMNS, PIXELS * ROWS);
    if (draw_cells(out, s) != 0)
        return 1;
    draw_outlines(out, s);
    for (i = 0; i < s->asked; i++)
        draw_point(out, s, s->points[i]);
    fprintf(out, "</svg>\n");
    return 0;
}
