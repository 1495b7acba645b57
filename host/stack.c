/*
 * Measures how much stack each call takes at the largest sizes: the call runs
 * on a thread whose stack was painted before, and what is no longer paint was
 * used. What an empty thread takes is subtracted. Exits with 1 where a call
 * takes more than 128 KiB, or is refused.
 */
#include <pthread.h>
#include <stdio.h>
#include <stdlib.h>
#include <string.h>
#include "viskunor.h"

#define STACK (1024 * 1024)
#define LIMIT (128 * 1024)
#define PAINT 0xa5

static double outline[2 * 4096], outlines[2 * 65536], boxes[4096], work[16 * 4096], corners[2044];
static double points[512], distances[256], numbers[2 * 65536];
static uint32_t counts[1024], links[1022], items[1024], list[1024];
static vk_node nodes[511];

/* A GDSII stream of the same outlines, each with its first vertex again at the end. */
static uint8_t stream[128 + 1024 * 560];
static size_t stream_len;

/* What each call answers into. */
static double d0, d1, d2, d3;
static uint32_t n0, n1;

static uint32_t nothing(void) { return 0; }
static uint32_t root(void) { d0 = vk_sqrt(2.0); return 0; }
static uint32_t length(void) { d0 = vk_hypot(1.0, 2.0); return 0; }
static uint32_t make(void) { return vk_outline_make(outline, 8192, work, 8192, &n0); }
static uint32_t area(void) { return vk_outline_area(outline, 8192, &d0); }
static uint32_t perimeter(void) { return vk_outline_perimeter(outline, 8192, &d0); }
static uint32_t bounds(void) { return vk_outline_bounds(outline, 8192, &d0, &d1, &d2, &d3); }
static uint32_t contains(void) { return vk_outline_contains(outline, 8192, 1, 0.5, &n0); }
static uint32_t locate(void) { return vk_outline_locate(outline, 8192, 1, 0.5, &n0); }
static uint32_t distance(void) { return vk_outline_distance(outline, 8192, 1, 0.5, &d0, &d1, &d2); }
static uint32_t fill(void) { return vk_outline_fill(outline, 8192, 1, 0.1, 50, 0.9, work, 16 * 4096, &d0); }
static uint32_t nearest_point(void) { return vk_ellipse_nearest(0, 0, 1, 2, 0.3, 0.4, &d0, &d1, &d2); }
static uint32_t build(void) { return vk_index_build(boxes, 4096, corners, 2044, links, 1022, items, 1024, &n0, &n1); }
static uint32_t records(void) { return vk_index_nodes(boxes, 4096, nodes, 511, items, 1024, &n0, &n1); }

static uint32_t meeting(void)
{
    return vk_index_meeting(boxes, 4096, -1e6, -1e6, 1e6, 1e6, corners, 2044, links, 1022, items, 1024, list, 1024, &n0);
}

static uint32_t any_at(void)
{
    return vk_set_any_at(outlines, 2 * 65536, counts, 1024, 5, 5, corners, 2044, links, 1022, items, 1024, &n0);
}

static uint32_t nearest(void)
{
    return vk_set_nearest(outlines, 2 * 65536, counts, 1024, 5, 5, corners, 2044, links, 1022, items, 1024, &n0, &n1,
                          &d0);
}

static uint32_t nearest_many(void)
{
    return vk_set_nearest_many(outlines, 2 * 65536, counts, 1024, points, 512, corners, 2044, links, 1022, items, 1024,
                               list, 256, distances, 256, &n0);
}

static uint32_t read_stream(void)
{
    return vk_gdsii_read(stream, stream_len, numbers, 2 * 65536, list, 1024, &n0, &n1);
}

typedef struct { const char *name; uint32_t (*call)(void); uint32_t number; } measured;

static void *run(void *arg)
{
    measured *m = (measured *)arg;
    m->number = m->call();
    return arg;
}

/* The bytes that were used of a painted stack. */
static size_t used_by(measured *m)
{
    static unsigned char *stack;
    pthread_attr_t attr;
    pthread_t thread;
    size_t i = 0;
    if (stack == NULL && posix_memalign((void **)&stack, 4096, STACK) != 0)
        exit(2);
    memset(stack, PAINT, STACK);
    pthread_attr_init(&attr);
    if (pthread_attr_setstack(&attr, stack, STACK) != 0 || pthread_create(&thread, &attr, run, m) != 0)
        exit(2);
    pthread_join(thread, NULL);
    pthread_attr_destroy(&attr);
    while (i < STACK && stack[i] == PAINT)
        i++;
    return STACK - i;
}

static void prepare(void)
{
    int i, k;
    for (i = 0; i < 4096; i++) {
        outline[2 * i] = i < 4095 ? i : 0;
        outline[2 * i + 1] = i < 4095 ? 0 : 1;
    }
    for (k = 0; k < 1024; k++) {
        double x = k * 37 % 101, y = k * 53 % 97;
        counts[k] = 64;
        boxes[4 * k] = x;
        boxes[4 * k + 1] = y;
        boxes[4 * k + 2] = x + 1;
        boxes[4 * k + 3] = y + 1;
        for (i = 0; i < 64; i++) {
            double *v = outlines + 2 * (64 * k + i);
            v[0] = x + (i < 63 ? i / 64.0 : 0);
            v[1] = y + (i < 63 ? 0 : 1);
        }
    }
    for (i = 0; i < 256; i++) {
        points[2 * i] = i * 29 % 103;
        points[2 * i + 1] = i * 41 % 99;
    }
}

static void put(uint32_t n, int size)
{
    while (size-- > 0)
        stream[stream_len++] = (uint8_t)(n >> 8 * size & 255);
}

/* A record whose data is zeros. */
static void record(uint32_t type, size_t data)
{
    put((uint32_t)data + 4, 2);
    put(type, 2);
    stream_len += data;
}

static void write_stream(void)
{
    int i, k;
    record(0x0002, 2);
    record(0x0102, 24);
    record(0x0206, 4);
    record(0x0305, 16);
    stream[stream_len - 16] = 0x3e;
    stream[stream_len - 15] = 0x40;
    record(0x0502, 24);
    record(0x0606, 4);
    for (k = 0; k < 1024; k++) {
        record(0x0800, 0);
        record(0x0d02, 2);
        record(0x0e02, 2);
        put(4 + 65 * 8, 2);
        put(0x1003, 2);
        for (i = 0; i < 2 * 65; i++)
            put((uint32_t)(outlines[128 * k + i % 128] * 1024), 4);
        record(0x1100, 0);
    }
    record(0x0700, 0);
    record(0x0400, 0);
}

int main(void)
{
    static measured all[] = {
        { "vk_sqrt", root, 0 }, { "vk_hypot", length, 0 }, { "vk_outline_make", make, 0 }, { "vk_outline_area", area, 0 },
        { "vk_outline_perimeter", perimeter, 0 }, { "vk_outline_bounds", bounds, 0 },
        { "vk_outline_contains", contains, 0 }, { "vk_outline_locate", locate, 0 },
        { "vk_outline_distance", distance, 0 }, { "vk_outline_fill", fill, 0 },
        { "vk_ellipse_nearest", nearest_point, 0 }, { "vk_index_build", build, 0 }, { "vk_index_nodes", records, 0 },
        { "vk_index_meeting", meeting, 0 }, { "vk_set_any_at", any_at, 0 }, { "vk_set_nearest", nearest, 0 },
        { "vk_set_nearest_many", nearest_many, 0 }, { "vk_gdsii_read", read_stream, 0 }
    };
    static measured none = { "nothing", nothing, 0 };
    size_t i, empty;
    int bad = 0;
    prepare();
    write_stream();
    empty = used_by(&none);
    for (i = 0; i < sizeof all / sizeof *all; i++) {
        size_t used = used_by(&all[i]);
        used = used > empty ? used - empty : 0;
        printf("%-22s %7lu bytes of stack", all[i].name, (unsigned long)used);
        if (all[i].number != 0)
            printf(", REFUSED with %u", (unsigned)all[i].number);
        printf("\n");
        bad |= used > LIMIT || all[i].number != 0;
    }
    return bad;
}
