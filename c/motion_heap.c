/* The three functions that the library asks of its host, over malloc. A program with an arena of its
 * own, or with none, writes others in their place: after motion_open no loop calls them. */
#include "motion.h"

#include <stdlib.h>

static rattle_tried tried(void *p)
{
    rattle_tried made;
    made.ok = p != NULL;
    made.p = p;
    return made;
}

rattle_tried rattle_alloc(size_t size, size_t align)
{
    return tried(malloc(size ? size : align));
}

rattle_tried rattle_realloc(void *p, size_t used, size_t size, size_t align)
{
    (void)used; /* as many bytes of the old block are to be kept: realloc keeps them all */
    return tried(realloc(p, size ? size : align));
}

void rattle_dealloc(void *p)
{
    free(p);
}
