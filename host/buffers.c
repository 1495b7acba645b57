#include <stdio.h>
#include <string.h>
#include "buffers.h"
#include "expect.h"

const lengths stated = { CORNERS, LINKS, ITEMS, ITEMS };
const lengths longer = { CORNERS + 3, LINKS + 5, ITEMS + 7, ITEMS + 8 };

space given, wanted;

void blank(space *s)
{
    int i;
    for (i = 0; i < COUNT(s->corners); i++)
        s->corners[i] = from_bits(stale);
    for (i = 0; i < COUNT(s->links); i++)
        s->links[i] = stale_word;
    for (i = 0; i < COUNT(s->items); i++)
        s->items[i] = s->list[i] = stale_word;
}

void clear(space *s)
{
    int i;
    for (i = 0; i < CORNERS; i++)
        s->corners[GUARD + i] = 0;
    memset(s->links + GUARD, 0, LINKS * sizeof *s->links);
    memset(s->items + GUARD, 0, ITEMS * sizeof *s->items);
}

void expect_spaces(const char *call, int line)
{
    checks++;
    if (memcmp(&given, &wanted, sizeof given) == 0)
        return;
    failures++;
    printf("%s, case %d: a lent list is wrong\n", call, line);
}

lengths shorter(int k)
{
    lengths n = stated;
    if (k == 0)
        n.corners--;
    else if (k == 1)
        n.links--;
    else if (k == 2)
        n.items--;
    else
        n.list--;
    return n;
}
