/* The heap that the archive asks for, which heap.c has, or a file in its place. */
#ifndef GWB_HEAP_H
#define GWB_HEAP_H
#include "gwb.h"

/* A block, or none: where there is no memory, `ok` is false and `at` points to any byte. */
struct tried {
    bool ok;
    void *at;
};

struct tried rattle_alloc(size_t size, size_t align);
/* The block's first `kept` bytes stay as they are. Where it fails, the block is as it was. */
struct tried rattle_realloc(void *at, size_t kept, size_t size, size_t align);
void rattle_dealloc(void *at);

/* The pages from which a session has its small blocks. */
struct pages;

/* Where this thread takes blocks: small ones from the pages, where there are any, as in a call that changes a session; others from the heap.
 * (`__thread` is the same in C and C++.) */
struct used {
    const gwb_heap *heap;
    struct pages *pages;
};

extern __thread struct used gwb_used __attribute__((visibility("hidden"), tls_model("initial-exec")));

/* Pages of the heap that this thread uses: none, where each block is to lie alone. False where memory is refused. */
bool gwb_open_pages(struct pages **pages);
/* Gives the pages back. No block of theirs is held any more. */
void gwb_close_pages(struct pages *pages);

#endif
