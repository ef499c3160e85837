/* The heap that the archive asks for: that of the C library, or the one that a thread uses. Whoever has a heap for the whole program writes
 * the three functions rattle_* over it: one allocator for all three, blocks aligned to each power of two up to 16 that divides their size.
 *
 * A session has its small blocks cut from pages of its heap. Those of one size that were given back are a list, and the next one is taken from
 * there. A session is of one thread at a time, so its pages need no lock. With GWB_BLOCKS_ALONE each block is taken from the heap for itself: so
 * valgrind and sanitizers see each of them, and each can be refused. */
#include "heap.h"
#include <stdlib.h>
#include <string.h>

static void *take(void *user, size_t size) { return (void)user, malloc(size); }
static void *grow(void *user, void *block, size_t size) { return (void)user, realloc(block, size); }
static void give_back(void *user, void *block) { (void)user, free(block); }

static const gwb_heap c_library = {take, grow, give_back, NULL};
__thread struct used gwb_used = {&c_library, NULL};
static char nothing;

const gwb_heap *gwb_use_heap(const gwb_heap *heap)
{
    const gwb_heap *before = gwb_used.heap;
    gwb_used.heap = heap != NULL ? heap : &c_library;
    return before != &c_library ? before : NULL;
}

static struct tried tried(void *block) { return (struct tried){block != NULL, block != NULL ? block : &nothing}; }

/* What lies right before a block: the heap that it was taken from, or 1 above the address of its bin. */
static uintptr_t *origin(void *block) { return (uintptr_t *)block - 1; }

/* ---- blocks of their own: `HEAD` bytes lie before them, so that they are aligned as the heap's are */

enum { HEAD = 16 };

static size_t whole(size_t size) { return size <= SIZE_MAX - HEAD ? size + HEAD : 0; }

/* A block, by what the heap gave. */
static void *behind_head(void *head, const gwb_heap *heap)
{
    if (head == NULL)
        return NULL;
    void *block = (char *)head + HEAD;
    *origin(block) = (uintptr_t)heap;
    return block;
}

static void *take_alone(const gwb_heap *heap, size_t size)
{
    return whole(size) != 0 ? behind_head(heap->allocate(heap->user, whole(size)), heap) : NULL;
}

static void *grow_alone(const gwb_heap *heap, void *block, size_t size)
{
    return whole(size) != 0 ? behind_head(heap->reallocate(heap->user, (char *)block - HEAD, whole(size)), heap) : NULL;
}

/* ---- small blocks */

enum { STEP = 16, BINS = 32, MOST_SMALL = BINS * STEP - sizeof(uintptr_t), LEAST_PAGE = 4096, MOST_PAGE = 1 << 16 };

/* Blocks of one size: each takes `room` bytes and the word before it. */
struct bin {
    void *given_back; /* each has the one before it as its first word */
    size_t room;
    struct pages *pages;
};

struct page {
    struct page *before;
};

struct pages {
    const gwb_heap *heap;
    struct page *last;
    char *at, *end; /* what is left of the last page; `at` is a word before what is aligned to 16 */
    size_t taken;   /* in bytes, by all pages */
    struct bin bins[BINS];
};

/* The bin of the blocks with room for a size: those of the first have room for a word. */
static size_t bin_of(size_t size) { return (size + sizeof(uintptr_t) - 1) / STEP; }

/* A page more, the eighth part of all there are. */
static bool add_page(struct pages *pages)
{
    size_t size = pages->taken / 8 < LEAST_PAGE ? LEAST_PAGE : pages->taken / 8 > MOST_PAGE ? MOST_PAGE : pages->taken / 8 / STEP * STEP;
    struct page *page = pages->heap->allocate(pages->heap->user, size);
    if (page == NULL)
        return false;
    page->before = pages->last;
    pages->last = page;
    pages->at = (char *)(page + 1);
    pages->end = (char *)page + size;
    pages->taken += size;
    return true;
}

__attribute__((noinline)) static void *cut(struct pages *pages, struct bin *bin)
{
    size_t size = bin->room + sizeof(uintptr_t);
    if ((size_t)(pages->end - pages->at) < size && !add_page(pages))
        return NULL;
    void *block = pages->at + sizeof(uintptr_t);
    *origin(block) = (uintptr_t)bin + 1;
    pages->at += size;
    return block;
}

static void *take_small(struct pages *pages, size_t size)
{
    struct bin *bin = &pages->bins[bin_of(size)];
    void *block = bin->given_back;
    if (block == NULL)
        return cut(pages, bin);
    bin->given_back = *(void **)block;
    return block;
}

static void give_back_small(struct bin *bin, void *block)
{
    *(void **)block = bin->given_back;
    bin->given_back = block;
}

bool gwb_open_pages(struct pages **opened)
{
    *opened = NULL;
#ifndef GWB_BLOCKS_ALONE
    struct pages *pages = gwb_used.heap->allocate(gwb_used.heap->user, sizeof *pages);
    if (pages == NULL)
        return false;
    *pages = (struct pages){.heap = gwb_used.heap};
    for (size_t i = 0; i < BINS; i++)
        pages->bins[i] = (struct bin){NULL, (i + 1) * STEP - sizeof(uintptr_t), pages};
    *opened = pages;
#endif
    return true;
}

void gwb_close_pages(struct pages *pages)
{
    if (pages == NULL)
        return;
    const gwb_heap *heap = pages->heap;
    for (struct page *page = pages->last, *before; page != NULL; page = before) {
        before = page->before;
        heap->release(heap->user, page);
    }
    heap->release(heap->user, pages);
}

/* ---- what the archive asks for */

struct tried rattle_alloc(size_t size, size_t align)
{
    (void)align;
    struct pages *pages = gwb_used.pages;
    return tried(pages != NULL && size <= MOST_SMALL ? take_small(pages, size) : take_alone(gwb_used.heap, size));
}

/* A small block becomes a larger one: what it holds is written there. */
static void *grow_small(struct bin *bin, void *block, size_t kept, size_t size)
{
    if (size <= bin->room)
        return block;
    void *grown = size <= MOST_SMALL ? take_small(bin->pages, size) : take_alone(bin->pages->heap, size);
    if (grown == NULL)
        return NULL;
    memcpy(grown, block, kept);
    give_back_small(bin, block);
    return grown;
}

/* The block's first `kept` bytes stay as they are. Where it fails, the block is as it was. */
struct tried rattle_realloc(void *at, size_t kept, size_t size, size_t align)
{
    (void)align;
    uintptr_t from = *origin(at);
    return tried(from % 2 != 0 ? grow_small((struct bin *)(from - 1), at, kept, size) : grow_alone((const gwb_heap *)from, at, size));
}

void rattle_dealloc(void *at)
{
    uintptr_t from = *origin(at);
    const gwb_heap *heap = (const gwb_heap *)from;
    if (from % 2 != 0)
        give_back_small((struct bin *)(from - 1), at);
    else
        heap->release(heap->user, (char *)at - HEAD);
}
