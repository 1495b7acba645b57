/* SPDX-License-Identifier: MIT OR Apache-2.0 */
/*
 * A sentence in English for each number that a call of viskunor.h returns, for
 * hosts that report to people. C89 and C++; nothing is linked.
 */
#ifndef VISKUNOR_TEXT_H
#define VISKUNOR_TEXT_H

#include "viskunor.h"

#if defined(__cplusplus)
#define VK_TEXT_FUNCTION inline
#elif defined(__GNUC__)
#define VK_TEXT_FUNCTION static __attribute__((unused))
#else
#define VK_TEXT_FUNCTION static
#endif

/* What the number says, or that it is none of this version's. Never NULL. */
VK_TEXT_FUNCTION const char *vk_text(uint32_t number)
{
    switch (number) {
    case VK_ACCEPTED: return "The call is accepted.";
    case VK_REFUSED_ODD_COUNT: return "The list of vertices has an odd count of numbers.";
    case VK_REFUSED_BAD_COUNTS: return "The outlines' vertex counts do not add up to the list of vertices.";
    case VK_REFUSED_TOO_FEW: return "An outline has fewer than three vertices.";
    case VK_REFUSED_TOO_MANY: return "There are too many vertices, outlines or boxes.";
    case VK_REFUSED_NOT_FINITE: return "A vertex has a number that is infinite or not a number.";
    case VK_REFUSED_OUTSIDE_FIELD: return "A vertex is farther than 1,048,576 from zero.";
    case VK_REFUSED_EQUAL_NEIGHBOURS: return "Two neighbouring vertices of an outline are equal.";
    case VK_REFUSED_ZERO_AREA: return "An outline's area is zero.";
    case VK_REFUSED_NEGATIVE_AREA: return "An outline's area is negative: its vertices run clockwise.";
    case VK_REFUSED_BAD_POINT: return "A point or centre is farther than 1,048,576 from zero, infinite or not a number.";
    case VK_REFUSED_BAD_BOX: return "A box or cell is not four numbers within 1,048,576 of zero, or a minimum is above its maximum.";
    case VK_REFUSED_BAD_ELLIPSE: return "A semi-axis is not within 1/1,024 to 1,024, or the point is too close to an axis without being on it.";
    case VK_REFUSED_SHORT_BUFFER: return "A lent list has too few places.";
    case VK_REFUSED_LONG_LIST: return "The working space is too short for the pieces of this cell; call again with more.";
    case VK_REFUSED_BAD_POINT_COUNT: return "The list of points has an odd count of numbers, or more than 256 points.";
    case VK_REFUSED_BAD_RECORD: return "A record of the stream is missing, cut short, unknown, out of order or of a wrong length.";
    case VK_REFUSED_OTHER_UNIT: return "The stream's unit is not 1/1,024.";
    case VK_REFUSED_BEYOND_REACH: return "A coordinate of the stream is beyond 1,048,576 steps.";
    default: return "This version of the library gives no such number.";
    }
}

#endif
