/* SPDX-License-Identifier: MIT OR Apache-2.0 */
/*
 * Viskunor: planar geometry with numbers and lent arrays at the border.
 *
 * Link with libviskunor.a. Each call reads and writes what it is lent and
 * nothing else: it keeps no state between calls, allocates nothing, does no
 * input or output, and may be made from several threads at once. Every call
 * ends, whatever bit patterns it is given.
 *
 * A double is an IEEE 754 binary64. Where NaN is the answer, its sign and
 * payload are not specified. The answers hold in the default floating-point
 * environment: rounding to the nearest, subnormal numbers kept. (Linking with
 * gcc's -ffast-math, among others, changes it for the whole program.)
 *
 * What a call is lent:
 *   Lists and answer fields may hold anything before a call, or nothing: what
 *     a call is to write, it never reads first.
 *   Each is aligned as its type is: a list of doubles, as malloc gives it or as
 *     an array of doubles is. More is not asked for.
 *   Threads that call at the same time need buffers and answer fields of their
 *     own. A list that is only read (const) can be shared.
 *   A pointer may be NULL where its length is 0, and only there. Answer fields
 *     are never NULL.
 *   No two of the things that a call is lent may overlap, nor be the same:
 *     vk_outline_make must not write where it reads. This is not tested: such a
 *     call may answer anything, and returns 0 all the same.
 */
#ifndef VISKUNOR_H
#define VISKUNOR_H

#include <stddef.h>
#include <stdint.h>

#ifdef __cplusplus
extern "C" {
#endif

/*
 * The version of this header: as a number, 10,000 times the first part, 100
 * times the second and the third together, and as text.
 *   The first part changes where a host must, the second where calls or
 *   constants are added, the third where neither is so.
 */
#define VK_VERSION 10100
#define VK_VERSION_TEXT "1.1.0"

/*
 * Sizes. A place is room for one number.
 */
#define VK_VERTICES_MAX 4096      /* vertices of an outline; 3 are the least */
#define VK_OUTLINES_MAX 1024      /* outlines of a set */
#define VK_SET_VERTICES_MAX 65536 /* vertices of a set, all its outlines' together */
#define VK_BOXES_MAX 1024         /* boxes of a list, four numbers each */
#define VK_POINTS_MAX 256         /* points of vk_set_nearest_many, two numbers each; places of its two lists */
#define VK_NODES 511              /* nodes of an index buffer */
#define VK_CORNERS 2044           /* places of its corners, four for each node */
#define VK_LINKS 1022             /* places of its links, two for each node */
#define VK_ITEMS 1024             /* places of its items */
#define VK_LIST 1024              /* places of vk_index_meeting's list */

/*
 * Places of vk_outline_fill's working space, for an outline or lists of n
 * pieces: VK_WORK(n) is the least for n vertices. Above 4,095 n, or for a
 * smaller one that is no constant, give it a size_t.
 */
#define VK_WORK(n) (8 * (n))

/*
 * Numbers, in micrometres: the field reaches from -VK_FIELD to VK_FIELD, the
 * grid from -VK_GRID to VK_GRID in steps of VK_STEP.
 */
#define VK_FIELD 1048576.0
#define VK_GRID 1024.0
#define VK_STEP 0.0009765625
#define VK_SEMI_AXIS_MIN 0.0009765625
#define VK_SEMI_AXIS_MAX 1024.0
#define VK_OFFSET_MIN 9.5367431640625e-7 /* 2^-20: see refusal 12 */

/*
 * What a call returns. viskunor_text.h has a sentence for each.
 */
#define VK_ACCEPTED 0
#define VK_REFUSED_ODD_COUNT 1
#define VK_REFUSED_BAD_COUNTS 2
#define VK_REFUSED_TOO_FEW 3
#define VK_REFUSED_TOO_MANY 4
#define VK_REFUSED_NOT_FINITE 5
#define VK_REFUSED_OUTSIDE_FIELD 6
#define VK_REFUSED_EQUAL_NEIGHBOURS 7
#define VK_REFUSED_ZERO_AREA 8
#define VK_REFUSED_NEGATIVE_AREA 9
#define VK_REFUSED_BAD_POINT 10
#define VK_REFUSED_BAD_BOX 11
#define VK_REFUSED_BAD_ELLIPSE 12
#define VK_REFUSED_SHORT_BUFFER 13
#define VK_REFUSED_LONG_LIST 14
#define VK_REFUSED_BAD_POINT_COUNT 15
#define VK_REFUSED_BAD_RECORD 16
#define VK_REFUSED_OTHER_UNIT 17
#define VK_REFUSED_BEYOND_REACH 18

/*
 * Where vk_outline_locate says that a point lies.
 */
#define VK_OUTSIDE 0
#define VK_BOUNDARY 1
#define VK_INSIDE 2

/*
 * Number helpers. They have nothing to turn away, so they return their value.
 */

/*
 * The double nearest to the exact square root of x, ties to even, for every
 * double x, subnormal numbers included.
 *   -0 gives -0, +0 gives +0;
 *   a number below zero, minus infinity and NaN give NaN;
 *   plus infinity gives plus infinity.
 */
double vk_sqrt(double x);

/*
 * The square root of a * a + b * b, each of the four operations rounded once
 * to the nearest double, ties to even.
 *   Tiny arguments vanish when they are squared (two of magnitude 2^-538 or
 *   less give 0), and huge ones overflow (one of magnitude 2^512 or more gives
 *   plus infinity).
 *   NaN in either argument gives NaN, beside an infinity too.
 */
double vk_hypot(double a, double b);

/*
 * Outlines.
 *
 * An outline is a list of vertices in order, two numbers each, x then y, in
 * micrometres. An edge joins each vertex to the next, and the last to the
 * first; the first is not repeated at the end. A list goes in as a pointer and
 * its length, which counts numbers, not vertices.
 *
 * The field is every finite number of magnitude at most 1,048,576. An outline
 * has 3 to 4,096 vertices, which lie in the field; its area is positive, so its
 * vertices run counterclockwise. It may cross itself. vk_outline_make turns a
 * list that runs the other way, or that repeats its first vertex at the end,
 * into an outline.
 *
 * Each call returns 0 where it is accepted, and the number of its refusal
 * otherwise. The tests are made in the order of their numbers, each over the
 * whole outline before the next; a call skips the tests about things that it
 * does not take.
 *
 *    1  the list has an odd count of numbers
 *    3  the outline has fewer than three vertices
 *    4  it has more than 4,096 vertices
 *    5  a number of it is not finite (NaN or an infinity)
 *    6  a number of it is outside the field
 *    7  two neighbouring vertices are equal, last and first included; zeros of
 *       either sign are equal
 *    8  the area works out to zero
 *    9  the area is negative
 *   10  a number of the point is outside the field or not finite
 *   13  a lent list is shorter than it must be
 *
 * The answer fields, the last parameters, point to one number each. A refused
 * call writes zero (+0) to every answer field and leaves every list as it was,
 * but for refusal 14 of vk_outline_fill, which clears its working space. No call
 * changes the outline that it is lent. A pointer may be NULL where its length is
 * 0, and only there. No two of the things that a call is lent may overlap.
 */

/*
 * Makes an outline from a list of vertices: drops one closing vertex that
 * equals the first, tests the others, and reverses their order where the area
 * is negative. The numbers themselves are copied as they are.
 *   refusals: 1, 3 to 8, 13. Tests 3 and 4 count the vertices without the
 *     closing one. 13: made_len is below vertices_len (even where a closing
 *     vertex is dropped).
 *   made: gets the outline's numbers, two for each vertex; its places past
 *     those stay as they were.
 *   count: the number of vertices of the outline made.
 * The area is tested before the order is reversed. Where vertices are off the
 * grid (whole multiples of 1/1,024 within 1,024 of zero) and the exact area is
 * zero or nearly so, rounding can leave a reversed outline whose area works out
 * to zero or negative; the calls below then turn it away with 8 or 9.
 */
uint32_t vk_outline_make(const double *vertices, size_t vertices_len,
                         double *made, size_t made_len, uint32_t *count);

/*
 * The area: half the sum, from the first edge to the last, of ax * by - bx * ay
 * over the edges from (ax, ay) to (bx, by), each operation rounded once.
 *   refusals: 1, 3 to 9.
 */
uint32_t vk_outline_area(const double *vertices, size_t vertices_len, double *area);

/*
 * The perimeter: the sum, from the first edge to the last, of
 * vk_hypot(bx - ax, by - ay), each operation rounded once.
 *   refusals: 1, 3 to 9.
 */
uint32_t vk_outline_perimeter(const double *vertices, size_t vertices_len, double *perimeter);

/*
 * The smallest box that holds every vertex. A bound that is zero has the sign
 * of the first vertex that has it.
 *   refusals: 1, 3 to 9.
 */
uint32_t vk_outline_bounds(const double *vertices, size_t vertices_len,
                           double *min_x, double *min_y, double *max_x, double *max_y);

/*
 * Whether the outline contains the point (x, y): inside is 1 where an odd
 * number of edges count, and 0 otherwise. An edge counts where exactly one of
 * its ends has its y above the point's and the point's x is below the crossing
 * of the edge with the horizontal through the point. A point on an edge may be
 * told either way; vk_outline_locate tells it apart.
 *   refusals: 1, 3 to 10.
 */
uint32_t vk_outline_contains(const double *vertices, size_t vertices_len,
                             double x, double y, uint32_t *inside);

/*
 * Where the point (x, y) lies: location is 0 outside, 1 on the boundary, 2
 * inside. The boundary is tested first: the point is on an edge where it lies
 * in the box of the edge's ends and the cross product of the edge and the way
 * from its start to the point works out to zero. Any other point is inside
 * where vk_outline_contains says 1.
 *   refusals: 1, 3 to 10.
 */
uint32_t vk_outline_locate(const double *vertices, size_t vertices_len,
                           double x, double y, uint32_t *location);

/*
 * The signed distance of the point (x, y) from the boundary, and the normal at
 * the nearest point.
 *   The nearest point of an edge from a to b is a + t * (b - a), where t is the
 * dot product of (point - a) and (b - a) over the squared length of the edge,
 * held to 0..1 (0 where that square vanishes); t = 1 gives b itself. Its
 * magnitude is vk_hypot of the point less the nearest point. The first edge
 * among those of the least magnitude is taken.
 *   distance: the magnitude, negated where vk_outline_contains says 1; +0 where
 *     it is 0.
 *   normal_x, normal_y: (point - nearest) / magnitude, negated where
 *     vk_outline_contains says 1, so that it points out of the outline. Where
 *     the magnitude is at most 16 * 2^-52 * the largest magnitude of the point's
 *     and the nearest point's coordinates, the edge's own normal instead: the
 *     way from a to b turned to the right, over its length; (1, 0) where that
 *     length vanishes.
 *   refusals: 1, 3 to 10.
 */
uint32_t vk_outline_distance(const double *vertices, size_t vertices_len, double x, double y,
                             double *distance, double *normal_x, double *normal_y);

/*
 * How much of the cell min_x, min_y, max_x, max_y the outline fills: its edges
 * are clipped at min_x, max_x, min_y and max_y, in this order, and the sum of
 * (x of a + x of b) / 2 * (y of b - y of a) over the lines that are left is
 * given. It counts winding, and it may be negative.
 *   work: working space of two halves, the second right after the first. Each
 *     has floor(work_len / 8) pieces of four numbers, and at least one piece per
 *     vertex. After an accepted call and after refusal 14 both halves hold only
 *     zeros; numbers past both, and the whole list after another refusal, are
 *     unchanged.
 *   fill: the filled area.
 *   refusals: 1, 3 to 9; then
 *   11  a number of the cell is outside the field or not finite, or a minimum is
 *       above its maximum
 *   13  a half has fewer pieces than the outline has vertices
 *   14  one of the four clipped lists has more pieces than a half
 */
uint32_t vk_outline_fill(const double *vertices, size_t vertices_len,
                         double min_x, double min_y, double max_x, double max_y,
                         double *work, size_t work_len, double *fill);

/*
 * Ellipses.
 *
 * An ellipse is given by its centre and its two semi-axes, semi_x along x and
 * semi_y along y, in micrometres. Its call returns 0 where it is accepted, and
 * the number of its refusal otherwise, tested in this order:
 *
 *   10  a number of the point or the centre is outside the field or not finite
 *   12  a semi-axis is outside 2^-10 to 1,024 or not finite, or x - centre_x or
 *       y - centre_y, as a double, is neither zero nor at least 2^-20 in
 *       magnitude
 *
 * A refused call writes zero (+0) to every answer field. No two answer fields
 * may be the same.
 */

/*
 * The point of the ellipse that is nearest to (x, y), and its distance: the
 * vk_hypot of (x, y) less that point. Of points that are equally near, the one
 * on the side that the signs of x - centre_x and y - centre_y say, those of
 * zeros included.
 * The point is found by halving an interval, and is not promised to be exact:
 * near the centre of a nearly round ellipse it can be off, and lie off the
 * ellipse, by 2^-12 micrometres.
 *   refusals: 10, 12.
 */
uint32_t vk_ellipse_nearest(double centre_x, double centre_y, double semi_x, double semi_y,
                            double x, double y,
                            double *nearest_x, double *nearest_y, double *distance);

/*
 * The box tree.
 *
 * A box, and a cell, is four numbers: min x, min y, max x, max y. A list holds
 * 0 to 1,024 boxes, numbered from 0; its length counts numbers. The tree is
 * over the boxes, each widened by 1e-9 times the largest of 1 and its numbers'
 * magnitudes. More than four items are split at half their count, rounded down,
 * in the order of the widened boxes' centres along the axis on which those
 * spread wider (x on a tie), then of their numbers. A node is
 *
 *   corners  four numbers: the box around the widened boxes of all items below
 *   links    first and count: a leaf has count items, from the place first of
 *            items on, in ascending order; an inner node has count 0, and its
 *            children are the nodes first and first + 1
 *
 * Node 0 is the root. Both children get their numbers at the split; then all
 * below the first child get theirs, then all below the second. The one node
 * over no boxes is a leaf with first 0, count 0, both minima plus infinity and
 * both maxima minus infinity. An index buffer has 511 nodes (corners_len at
 * least 2,044, links_len at least 1,022) and 1,024 items.
 *
 * Each call returns 0 where it is accepted, and the number of its refusal
 * otherwise, tested in this order:
 *
 *    4  the list has more than 4,096 numbers
 *   11  the list's length is no multiple of four, or a box or the cell has a
 *       number not finite or outside the field, or a minimum above its maximum
 *   13  a lent list is shorter than it must be
 *
 * A refused call writes zero to every answer field and leaves every list as it
 * was. No two of the things that a call is lent may overlap.
 */

/*
 * Builds the tree over the boxes. Places past the nodes and items used stay as
 * they were.
 *   refusals: 4, 11, 13.
 *   node_count, item_count: the number of nodes, at most 511, and of boxes.
 */
uint32_t vk_index_build(const double *boxes, size_t boxes_len,
                        double *corners, size_t corners_len, uint32_t *links, size_t links_len,
                        uint32_t *items, size_t items_len, uint32_t *node_count, uint32_t *item_count);

/*
 * A node: its four corner numbers, and its links.
 */
typedef struct vk_node {
    double min_x, min_y, max_x, max_y;
    uint32_t first, count;
} vk_node;

/*
 * The same tree as node records, one for each node in the order of their
 * numbers. Places past the nodes and items used stay as they were.
 *   refusals: 4, 11, 13. 13: nodes_len, which counts records, below 511, or
 *     items_len below 1,024.
 *   node_count, item_count: the number of nodes, at most 511, and of boxes.
 */
uint32_t vk_index_nodes(const double *boxes, size_t boxes_len,
                        vk_node *nodes, size_t nodes_len, uint32_t *items, size_t items_len,
                        uint32_t *node_count, uint32_t *item_count);

/*
 * Lists every item of each leaf whose box shares a point with the cell, the
 * first child's leaves first: every box that shares a point with the cell, and
 * others of the same leaves, none twice. A cell inside another gets the other's
 * list with some items left out, in the same order. The tree is built in the
 * lent index buffer, whose 511 nodes and 1,024 items hold only zeros after an
 * accepted call; past them it stays as it was.
 *   refusals: 4, 11, 13. 13: the index buffer, or list_len below 1,024.
 *   list: gets the items' numbers; its places past those stay as they were.
 *   count: how many there are.
 */
uint32_t vk_index_meeting(const double *boxes, size_t boxes_len,
                          double min_x, double min_y, double max_x, double max_y,
                          double *corners, size_t corners_len, uint32_t *links, size_t links_len,
                          uint32_t *items, size_t items_len,
                          uint32_t *list, size_t list_len, uint32_t *count);

/*
 * Sets.
 *
 * A set is 0 to 1,024 outlines, numbered from 0, of at most 65,536 vertices
 * together: vertices holds the outlines' vertices one after the other, and
 * counts each outline's vertex count. counts_len counts outlines. The tree is the one over
 * the outlines' boxes, built in the lent index buffer, whose 511 nodes and 1,024
 * items hold only zeros after an accepted call; past them it stays as it was.
 *
 * Each call returns 0 where it is accepted, and the number of its refusal
 * otherwise, tested in this order, each test over all outlines before the next:
 *
 *    1  vertices_len is odd
 *    2  the counts do not add up to the list's vertices
 *    3  an outline has fewer than three vertices
 *    4  an outline has more than 4,096 vertices, or the set more than 1,024
 *       outlines or 65,536 vertices
 *    5  a vertex number is not finite
 *    6  a vertex number is outside the field
 *    7  two neighbouring vertices of an outline, last and first included, are
 *       equal
 *    8  an outline's area works out to zero
 *    9  an outline's area is negative
 *   15  the list of points has an odd count of numbers, or more than 512: tested
 *       after 9 and before 10
 *   10  a number of a point is outside the field or not finite
 *   13  a lent list is shorter than it must be: the index buffer, or one of the
 *       two lists of vk_set_nearest_many
 *
 * A refused call writes zero to every answer field and leaves every list as it
 * was. No two of the things that a call is lent may overlap.
 */

/*
 * Whether an outline that vk_index_meeting lists for the cell x, y, x, y, over
 * the outlines' boxes, contains the point (x, y) as vk_outline_contains says.
 *   refusals: 1 to 10, 13.
 *   any: 1 where one does, and 0 where none does.
 */
uint32_t vk_set_any_at(const double *vertices, size_t vertices_len,
                       const uint32_t *counts, size_t counts_len, double x, double y,
                       double *corners, size_t corners_len, uint32_t *links, size_t links_len,
                       uint32_t *items, size_t items_len, uint32_t *any);

/*
 * The outline of the set that is nearest to the point (x, y): the least magnitude
 * of the outlines' distances, as vk_outline_distance gives them, and of the
 * outlines that have it the lowest number.
 *   refusals: 1 to 10, 13.
 *   found: 1 where there is one, and 0 over an empty set only.
 *   outline: its number.
 *   distance: the magnitude.
 */
uint32_t vk_set_nearest(const double *vertices, size_t vertices_len,
                        const uint32_t *counts, size_t counts_len, double x, double y,
                        double *corners, size_t corners_len, uint32_t *links, size_t links_len,
                        uint32_t *items, size_t items_len,
                        uint32_t *found, uint32_t *outline, double *distance);

/*
 * The same for each of 0 to 256 points: what vk_set_nearest gives for them one by
 * one, in their order. The set is tested, and the tree built, once.
 *   points: x then y of each point; points_len counts numbers.
 *   refusals: 1 to 9, 15, 10, 13, in this order. 15: points_len is odd or above
 *     512. 10 runs over all points: one that is turned away refuses the call.
 *     13: the index buffer, or outlines_len or distances_len below 256, however
 *     many points there are.
 *   outlines, distances: place i of each gets the number and the magnitude of
 *     point i's nearest outline; the places past the points stay as they were.
 *   found: 1 over a set that has an outline, for no points too, and 0 over an
 *     empty set, where both lists stay as they were.
 */
uint32_t vk_set_nearest_many(const double *vertices, size_t vertices_len,
                             const uint32_t *counts, size_t counts_len,
                             const double *points, size_t points_len,
                             double *corners, size_t corners_len, uint32_t *links, size_t links_len,
                             uint32_t *items, size_t items_len,
                             uint32_t *outlines, size_t outlines_len,
                             double *distances, size_t distances_len, uint32_t *found);

/*
 * GDSII streams.
 *
 * A stream is a list of bytes that holds records, one after the other. A record
 * opens with its length in bytes, itself and the type included (two bytes,
 * unsigned), then its type (two bytes), then its data. Every number has its high
 * byte first. These records are read, in this order, types in hexadecimal:
 *
 *   HEADER 0002, BGNLIB 0102, LIBNAME 0206, UNITS 0305,
 *   BGNSTR 0502, STRNAME 0606,
 *   elements, none or more, each BOUNDARY 0800, LAYER 0D02, DATATYPE 0E02,
 *     XY 1003, ENDEL 1100,
 *   ENDSTR 0700, ENDLIB 0400
 *
 * Bytes after ENDLIB are ignored. UNITS has two reals of eight bytes: the first
 * must have the bytes 3E 40 00 00 00 00 00 00, which is 1/1,024, and the second
 * is not read. XY has x and y of each vertex, signed numbers of four bytes, in
 * steps of 1/1,024 micrometre. Of all other records only length and type count.
 * An element's vertices are made an outline as vk_outline_make does it: one
 * closing vertex is dropped, and a negative outline reversed.
 *
 * Its call returns 0 where it is accepted, and the number of its refusal
 * otherwise. The records are tested in their order, each in the order
 *
 *   16  the record is missing, cut short, of a length below 4, of a type that is
 *       unknown or out of order, a UNITS not of 20 bytes, or an XY whose data is
 *       no multiple of 8 bytes
 *   17  the first real of UNITS has other bytes
 *   18  a coordinate of XY is beyond +-1,048,576 steps; the closing vertex's too
 *    3  the outline has fewer than three vertices, without the closing one
 *    4  it has more than 4,096
 *    7  two neighbouring vertices are equal, last and first included
 *    8  the area is zero
 *    4  the set, with this outline, has more than 1,024 outlines or 65,536
 *       vertices
 *
 * and after the last record
 *
 *   13  vertices_len is below twice the set's vertices, or counts_len below its
 *       outlines
 *
 * A refused call writes zero to both answer fields and leaves both lists as they
 * were. No two of the things that a call is lent may overlap.
 */

/*
 * Reads the set that a stream holds. Its outlines are in the stream's order, and
 * a vertex of k steps has the number k / 1,024, exactly; a zero is +0. Every call
 * over a set accepts it.
 *   stream_len counts bytes.
 *   refusals: 16, 17, 18, 3, 4, 7, 8, as above, then 13.
 *   vertices, counts: get the set, as the calls over a set take it; places past
 *     it stay as they were. 131,072 numbers and 1,024 counts are always enough.
 *   outline_count, vertex_count: how many outlines and vertices it has; both are
 *     0 where there are no elements.
 * A host reads a stream, then asks about the set:
 *
 *   if (vk_gdsii_read(stream, stream_len, vertices, 131072, counts, 1024,
 *                     &outlines, &total) == 0)
 *       vk_set_nearest(vertices, 2 * (size_t)total, counts, outlines, x, y,
 *                      corners, 2044, links, 1022, items, 1024,
 *                      &found, &outline, &distance);
 */
uint32_t vk_gdsii_read(const uint8_t *stream, size_t stream_len,
                       double *vertices, size_t vertices_len, uint32_t *counts, size_t counts_len,
                       uint32_t *outline_count, uint32_t *vertex_count);

#ifdef __cplusplus
}
#endif

#endif
