/* What the test's files share: the counts, bit patterns and comparisons. */
#ifndef EXPECT_H
#define EXPECT_H

#include <stddef.h>
#include <stdint.h>

/* A bit pattern as its upper and lower 32 bits: C89 has no 64-bit constants. */
typedef struct { uint32_t hi, lo; } bits;

extern unsigned long checks, failures;

/* What stands in answer fields and lent places before a call. */
extern const bits stale;
extern const uint32_t stale_word;

extern const bits infinity;
extern const bits not_a_number;
extern const bits past_field_end; /* the next double */

double from_bits(bits b);
bits to_bits(double x);
int same_bits(double a, double b);
void expect(const char *call, int line, double got, bits want);
void expect_word(const char *call, int line, uint32_t got, uint32_t want);

#define COUNT(list) ((int)(sizeof(list) / sizeof(list)[0]))
#define LIST(list) list, sizeof(list) / sizeof(list)[0]

/* trees.c, sets.c, nans.c, zooms.c and streams.c */
void trees(void);
void sets(void);
void nans(void);
void zooms(void);
void streams(void);

#endif
