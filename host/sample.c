/*
 * A sample host: reads outlines, points and ellipses from a text file, calls
 * every operation of Viskunor on them, prints what it answers, and draws it;
 * then reads the outlines of a GDSII stream, asks about the same points, and
 * draws that.
 *   sample FILE PICTURE STREAM PICTURE
 * FILE is like host/sample.txt, STREAM like host/sample.gds; a PICTURE is where
 * a drawing goes, an SVG.
 */
#include <stdio.h>
#include <string.h>
#include "scene.h"
#include "viskunor.h"

const double *outline_at(const scene *s, size_t k, size_t *len)
{
    size_t i, start = 0;
    for (i = 0; i < k; i++)
        start += s->counts[i];
    *len = 2 * (size_t)s->counts[k];
    return s->vertices + 2 * start;
}

const char *reason(uint32_t number)
{
    switch (number) {
    case 0: return "accepted";
    case 1: return "an odd count of numbers";
    case 2: return "counts that do not add up";
    case 3: return "fewer than three vertices";
    case 4: return "too many vertices, outlines or boxes";
    case 5: return "a number that is not finite";
    case 6: return "a number outside the field";
    case 7: return "two equal neighbours";
    case 8: return "no area";
    case 9: return "a negative area";
    case 10: return "a point outside the field";
    case 11: return "a box or cell outside the field, or a minimum above its maximum";
    case 12: return "a bad semi-axis, or a point too close to an axis";
    case 13: return "a lent list that is too short";
    case 14: return "a clipped list that is too long for a half of the buffer";
    case 15: return "an odd count of points' numbers, or too many points";
    case 16: return "a record that is missing, cut short, unknown, out of order or of a wrong length";
    case 17: return "another unit than 1/1,024";
    case 18: return "a coordinate beyond 1,048,576 steps";
    default: return "?";
    }
}

static void refused(const char *what, uint32_t number)
{
    printf("%s is turned away, number %u: %s.\n", what, (unsigned)number, reason(number));
}

/* Makes an outline of what was read and adds it to the scene, if it can be made and there is room. */
static void add_outline(scene *s, const double *list, size_t len, unsigned line)
{
    uint32_t count, number;
    if (s->outlines == MOST_OUTLINES) {
        printf("There is no room for the outline before line %u.\n", line);
        return;
    }
    number = vk_outline_make(list, len, s->vertices + s->numbers, MOST_NUMBERS - s->numbers, &count);
    if (number != 0) {
        printf("Before line %u: ", line);
        refused("an outline", number);
        return;
    }
    printf("Outline %u is made: %u of %u vertices.\n", (unsigned)s->outlines, (unsigned)count, (unsigned)(len / 2));
    s->counts[s->outlines++] = count;
    s->numbers += 2 * (size_t)count;
}

static int read_scene(FILE *in, scene *s)
{
    double list[MOST_NUMBERS], x, y, a, b;
    char text[128];
    size_t len = 0;
    int open = 0;
    unsigned line = 0;
    while (fgets(text, sizeof text, in) != NULL) {
        line++;
        if (strncmp(text, "outline", 7) == 0) {
            if (open)
                add_outline(s, list, len, line);
            open = 1;
            len = 0;
        } else if (sscanf(text, "point %lf %lf", &x, &y) == 2 && s->asked < MOST_POINTS) {
            s->points[s->asked].x = x;
            s->points[s->asked++].y = y;
        } else if (sscanf(text, "ellipse %lf %lf %lf %lf", &x, &y, &a, &b) == 4 && s->rounds < MOST_ELLIPSES) {
            ellipse *e = &s->ellipses[s->rounds++];
            e->x = x;
            e->y = y;
            e->semi_x = a;
            e->semi_y = b;
        } else if (open && sscanf(text, "%lf %lf", &x, &y) == 2 && len + 2 <= MOST_NUMBERS) {
            list[len++] = x;
            list[len++] = y;
        } else if (text[0] != '#' && text[0] != '\n') {
            printf("Line %u cannot be read.\n", line);
            return 1;
        }
    }
    if (open)
        add_outline(s, list, len, line + 1);
    return 0;
}

static void measures(const scene *s, size_t k)
{
    double area, perimeter, min_x, min_y, max_x, max_y;
    size_t len;
    const double *v = outline_at(s, k, &len);
    uint32_t number = vk_outline_area(v, len, &area);
    if (number != 0) {
        refused("an outline", number);
        return;
    }
    printf("Outline %u has the area %.12g", (unsigned)k, area);
    if (vk_outline_perimeter(v, len, &perimeter) == 0)
        printf(", the perimeter %.12g", perimeter);
    if (vk_outline_bounds(v, len, &min_x, &min_y, &max_x, &max_y) == 0)
        printf(" and the box from (%g, %g) to (%g, %g)", min_x, min_y, max_x, max_y);
    printf(".\n");
}

/* Where a point lies of an outline, and how far from it. */
static void near_outline(const scene *s, size_t k, place p)
{
    static const char *const places[] = { "outside", "on the boundary of", "inside" };
    uint32_t inside, location;
    double distance, x, y;
    size_t len;
    const double *v = outline_at(s, k, &len);
    if (vk_outline_locate(v, len, p.x, p.y, &location) == 0 && vk_outline_contains(v, len, p.x, p.y, &inside) == 0)
        printf("  It is %s outline %u, which %s it", places[location], (unsigned)k,
               inside ? "contains" : "does not contain");
    if (vk_outline_distance(v, len, p.x, p.y, &distance, &x, &y) == 0)
        printf("; its distance from it is %.12g, with the normal (%.6g, %.6g).\n", distance, x, y);
}

/* Says whether the point is accepted. */
static int at_point(const scene *s, place p)
{
    static index_space w;
    uint32_t any, found, outline, number;
    double distance;
    number = vk_set_any_at(s->vertices, s->numbers, s->counts, s->outlines, p.x, p.y, w.corners, 4 * 511,
                           w.links, 2 * 511, w.items, 1024, &any);
    printf("(%g, %g): ", p.x, p.y);
    if (number != 0) {
        refused("the point", number);
        return 0;
    }
    number = vk_set_nearest(s->vertices, s->numbers, s->counts, s->outlines, p.x, p.y, w.corners, 4 * 511,
                            w.links, 2 * 511, w.items, 1024, &found, &outline, &distance);
    printf("%s outline contains it; ", any ? "an" : "no");
    if (number != 0 || !found) {
        printf("there is none.\n");
        return 1;
    }
    printf("the nearest is outline %u, %.12g away.\n", (unsigned)outline, distance);
    near_outline(s, outline, p);
    return 1;
}

/* The accepted points' nearest outlines, in one call. */
static void at_points(const scene *s)
{
    static index_space w;
    double points[2 * MOST_POINTS], distances[256];
    uint32_t outlines[256], found, number;
    size_t i, len = 0;
    for (i = 0; i < s->asked; i++)
        if (at_point(s, s->points[i])) {
            points[len++] = s->points[i].x;
            points[len++] = s->points[i].y;
        }
    number = vk_set_nearest_many(s->vertices, s->numbers, s->counts, s->outlines, points, len, w.corners, 4 * 511,
                                 w.links, 2 * 511, w.items, 1024, outlines, 256, distances, 256, &found);
    if (number != 0)
        refused("The list of points", number);
    else if (found) {
        printf("In one call the nearest are");
        for (i = 0; i < len / 2; i++)
            printf("%s outline %u, %.6g away", i > 0 ? ";" : "", (unsigned)outlines[i], distances[i]);
        printf(".\n");
    }
}

/* The tree over the outlines' boxes, and which of them meet a cell. */
static void tree(const scene *s)
{
    static index_space w;
    static vk_node nodes[511];
    double boxes[4 * MOST_OUTLINES];
    uint32_t list[1024], node_count, item_count, count, i, number;
    size_t k, len;
    for (k = 0; k < s->outlines; k++) {
        const double *v = outline_at(s, k, &len);
        double *b = boxes + 4 * k;
        vk_outline_bounds(v, len, b, b + 1, b + 2, b + 3);
    }
    number = vk_index_build(boxes, 4 * s->outlines, w.corners, 4 * 511, w.links, 2 * 511, w.items, 1024, &node_count,
                            &item_count);
    if (number != 0) {
        refused("the list of boxes", number);
        return;
    }
    printf("The tree over the outlines' boxes: nodes %u, items %u.\n", (unsigned)node_count, (unsigned)item_count);
    if (vk_index_nodes(boxes, 4 * s->outlines, nodes, 511, w.items, 1024, &node_count, &item_count) == 0)
        for (i = 0; i < node_count; i++)
            printf("  Node %u from (%g, %g) to (%g, %g): first %u, count %u.\n", (unsigned)i, nodes[i].min_x,
                   nodes[i].min_y, nodes[i].max_x, nodes[i].max_y, (unsigned)nodes[i].first, (unsigned)nodes[i].count);
    if (vk_index_meeting(boxes, 4 * s->outlines, 10, 0, 15, 3, w.corners, 4 * 511, w.links, 2 * 511, w.items, 1024,
                         list, 1024, &count) == 0) {
        printf("The leaves that meet the cell from (10, 0) to (15, 3) list");
        for (i = 0; i < count; i++)
            printf(" %u", (unsigned)list[i]);
        printf(".\n");
    }
}

static void ellipses(const scene *s)
{
    size_t i, k;
    for (k = 0; k < s->rounds; k++)
        for (i = 0; i < s->asked; i++) {
            const ellipse *e = &s->ellipses[k];
            place p = s->points[i];
            double x, y, distance;
            uint32_t number = vk_ellipse_nearest(e->x, e->y, e->semi_x, e->semi_y, p.x, p.y, &x, &y, &distance);
            if (number != 0)
                refused("An ellipse with a point", number);
            else
                printf("Of ellipse %u the point nearest to (%g, %g) is (%.6g, %.6g), %.6g away.\n", (unsigned)k, p.x, p.y,
                       x, y, distance);
        }
}

static int picture(const char *path, const scene *s)
{
    FILE *out = fopen(path, "w");
    int bad;
    if (out == NULL) {
        printf("%s cannot be written.\n", path);
        return 1;
    }
    bad = draw(out, s);
    if (fclose(out) != 0 || bad) {
        printf("%s is not complete.\n", path);
        return 1;
    }
    printf("%s shows the outlines, how much of each cell they fill, and each point's nearest outline.\n", path);
    return 0;
}

/* The stream's outlines, and the points that are asked about. */
static int read_stream(const char *path, const scene *asked, scene *s)
{
    static uint8_t bytes[MOST_BYTES];
    uint32_t outlines, vertices, number;
    size_t len;
    FILE *in = fopen(path, "rb");
    if (in == NULL) {
        printf("%s cannot be read.\n", path);
        return 1;
    }
    len = fread(bytes, 1, sizeof bytes, in);
    fclose(in);
    number = vk_gdsii_read(bytes, len, s->vertices, MOST_NUMBERS, s->counts, MOST_OUTLINES, &outlines, &vertices);
    if (number != 0) {
        refused("The stream", number);
        return 1;
    }
    s->outlines = outlines;
    s->numbers = 2 * (size_t)vertices;
    memcpy(s->points, asked->points, sizeof s->points);
    s->asked = asked->asked;
    printf("%s, %u bytes, holds %u outlines of %u vertices.\n", path, (unsigned)len, (unsigned)outlines,
           (unsigned)vertices);
    return 0;
}

static int of_text(const char *path, scene *s)
{
    FILE *in = fopen(path, "r");
    int bad;
    if (in == NULL) {
        printf("%s cannot be read.\n", path);
        return 1;
    }
    bad = read_scene(in, s);
    fclose(in);
    return bad;
}

int main(int argc, char **argv)
{
    static scene s, layout;
    size_t i;
    if (argc != 5) {
        printf("usage: sample FILE PICTURE STREAM PICTURE\n");
        return 2;
    }
    if (of_text(argv[1], &s) != 0)
        return 1;
    printf("The square root of 2 is %.17g, and the length of (3, 4) is %.17g.\n", vk_sqrt(2.0), vk_hypot(3.0, 4.0));
    for (i = 0; i < s.outlines; i++)
        measures(&s, i);
    tree(&s);
    at_points(&s);
    ellipses(&s);
    if (picture(argv[2], &s) != 0 || read_stream(argv[3], &s, &layout) != 0)
        return 1;
    for (i = 0; i < layout.outlines; i++)
        measures(&layout, i);
    at_points(&layout);
    return picture(argv[4], &layout);
}
