/* Linked under the library by `--wrap`: refuses the request for memory with the number `refused_request`, counted from 1, and counts
 * the requests and the blocks that are held. */
#include <stddef.h>

void *__real_malloc(size_t size);
void *__real_realloc(void *at, size_t size);
void __real_free(void *at);
void *__wrap_malloc(size_t size);
void *__wrap_realloc(void *at, size_t size);
void __wrap_free(void *at);

long refused_request;
long requests;
long held_blocks;

static int is_refused(void)
{
    requests += 1;
    return requests == refused_request;
}

void *__wrap_malloc(size_t size)
{
    void *at = is_refused() ? NULL : __real_malloc(size);
    held_blocks += at != NULL;
    return at;
}

/* The kernel asks it of blocks that it has, and never for none. */
void *__wrap_realloc(void *at, size_t size)
{
    return is_refused() ? NULL : __real_realloc(at, size);
}

void __wrap_free(void *at)
{
    held_blocks -= at != NULL;
    __real_free(at);
}
