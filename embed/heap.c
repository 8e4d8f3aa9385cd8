/* The heap of the exports that allocate: the C library's. They call these three by name, and `malloc` aligns as they need. */
#include <stdbool.h>
#include <stddef.h>
#include <stdlib.h>

/* Whether there was memory, and where it is; the pointer is never null. */
struct tried {
    bool is_there;
    void *at;
};

static char nowhere;

static struct tried answered(void *at)
{
    return at ? (struct tried){true, at} : (struct tried){false, &nowhere};
}

/* No block is empty: one of no bytes is as long as its alignment. */
struct tried rattle_alloc(size_t size, size_t align)
{
    return answered(malloc(size ? size : align));
}

struct tried rattle_realloc(void *at, size_t kept, size_t size, size_t align)
{
    (void)kept;
    return answered(realloc(at, size ? size : align));
}

void rattle_dealloc(void *at)
{
    free(at);
}
