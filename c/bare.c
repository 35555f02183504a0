/* A program with no C library at all: the linker says whether the library asks for more than these
 * functions. It is linked, not run. */
#include "motion.h"

void *memcpy(void *to, const void *from, size_t count)
{
    unsigned char *t = (unsigned char *)to;
    const unsigned char *f = (const unsigned char *)from;
    while (count--) *t++ = *f++;
    return to;
}

void *memmove(void *to, const void *from, size_t count)
{
    unsigned char *t = (unsigned char *)to;
    const unsigned char *f = (const unsigned char *)from;
    if (t < f) return memcpy(to, from, count);
    while (count--) t[count] = f[count];
    return to;
}

void *memset(void *to, int byte, size_t count)
{
    unsigned char *t = (unsigned char *)to;
    while (count--) *t++ = (unsigned char)byte;
    return to;
}

int memcmp(const void *one, const void *other, size_t count)
{
    const unsigned char *a = (const unsigned char *)one;
    const unsigned char *b = (const unsigned char *)other;
    for (; count--; a++, b++)
        if (*a != *b) return *a - *b;
    return 0;
}

rattle_tried rattle_alloc(size_t size, size_t align)
{
    rattle_tried none = { 0, NULL };
    (void)size;
    (void)align;
    return none;
}

rattle_tried rattle_realloc(void *p, size_t used, size_t size, size_t align)
{
    (void)p;
    (void)used;
    return rattle_alloc(size, align);
}

void rattle_dealloc(void *p)
{
    (void)p;
}

void _start(void)
{
    static motion m = MOTION_NONE;
    static motion_refusal why;
    static motion_inputs in;
    static motion_outputs out;
    static motion_drive_in answer;
    static motion_drive_out given;
    static motion_axis_row axis;
    static motion_group_row group;
    static uint8_t text[1];
    motion_open(&m, text, 1, &why);
    motion_call(&m, 0, &in, &out);
    motion_cycle(&m, &answer, 1, &given, 1);
    motion_end(&m, 0);
    motion_axis_look(&m, 0, &axis);
    motion_group_look(&m, 0, &group);
    motion_trace(&m, &answer, 1);
    motion_trace_text(&m, 0, text, 1);
    motion_close(&m);
    for (;;) {
    }
}
