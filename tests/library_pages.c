/* Small blocks from the pages of a session (bindings/heap.c): random ones taken, made larger and given back, in two threads at once, each with
 * pages of its own. Each block keeps what is written in it, is aligned, and lies apart from all others; memory is refused at random, which leaves
 * the block as it was; and all that was taken of the heap goes back to it. The last line is 'N passed, M failed'. */
#include "../bindings/heap.c"
#include <pthread.h>
#include <stdio.h>

enum { BLOCKS = 500, MOST = 600 };

static long rounds = 200000;

/* A heap over that of the C library, which refuses now and then, and counts. */
struct counted {
    uint64_t state;
    long held, requests;
    bool may_refuse;
};

static uint64_t random_below(struct counted *counted, uint64_t most)
{
    counted->state ^= counted->state << 13, counted->state ^= counted->state >> 7, counted->state ^= counted->state << 17;
    return counted->state % most;
}

static void *allocate(void *user, size_t size)
{
    struct counted *counted = user;
    void *block = counted->may_refuse && random_below(counted, 4) == 0 ? NULL : malloc(size);
    counted->requests++;
    counted->held += block != NULL;
    return block;
}

static void *reallocate(void *user, void *block, size_t size)
{
    struct counted *counted = user;
    counted->requests++;
    return counted->may_refuse && random_below(counted, 4) == 0 ? NULL : realloc(block, size);
}

static void release(void *user, void *block)
{
    ((struct counted *)user)->held--;
    free(block);
}

/* A block that is held, and the byte that all of it has. */
struct held {
    unsigned char *at, byte;
    size_t size;
};

static bool is_whole(const struct held *block)
{
    bool is = (uintptr_t)block->at % 16 == 0;
    for (size_t i = 0; i < block->size; i++)
        is = is && block->at[i] == block->byte;
    return is;
}

static void fill(struct held *block, unsigned char *at, size_t size, unsigned char byte)
{
    *block = (struct held){at, byte, size};
    memset(at, byte, size);
}

/* Mostly small, now and then larger than all that come from pages. */
static size_t draw_size(struct counted *counted) { return random_below(counted, random_below(counted, 4) == 0 ? MOST : 60); }

/* Takes, makes larger, or gives back one block: whether all is as it should be. */
static bool change(struct counted *counted, struct held *block)
{
    size_t size = draw_size(counted);
    bool was_whole = block->at == NULL || is_whole(block);
    if (block->at == NULL) {
        struct tried tried = rattle_alloc(size, 16);
        if (tried.ok)
            fill(block, tried.at, size, (unsigned char)random_below(counted, 256));
    } else if (random_below(counted, 3) == 0 && size > block->size) {
        struct tried tried = rattle_realloc(block->at, block->size, size, 16);
        block->at = tried.ok ? tried.at : block->at;
        was_whole = was_whole && is_whole(block);
        if (tried.ok)
            fill(block, block->at, size, block->byte);
    } else {
        rattle_dealloc(block->at);
        block->at = NULL;
    }
    return was_whole;
}

/* How much went wrong in a session's blocks. */
static void *try_pages(void *seed)
{
    struct held blocks[BLOCKS] = {{NULL, 0, 0}};
    struct counted counted = {.state = (uint64_t)(uintptr_t)seed};
    gwb_heap heap = {allocate, reallocate, release, &counted};
    long wrong = 0;
    gwb_use_heap(&heap);
    wrong += !gwb_open_pages(&gwb_used.pages);
    counted.may_refuse = true;
    for (long i = 0; i < rounds; i++)
        wrong += !change(&counted, &blocks[random_below(&counted, BLOCKS)]);
    for (size_t i = 0; i < BLOCKS; i++) {
        wrong += blocks[i].at != NULL && !is_whole(&blocks[i]);
        if (blocks[i].at != NULL)
            rattle_dealloc(blocks[i].at);
    }
    gwb_close_pages(gwb_used.pages);
    gwb_used.pages = NULL;
    gwb_use_heap(NULL);
    return (void *)(wrong + (counted.held != 0) + (counted.requests == 0));
}

/* Small blocks ask the heap for pages alone, and those given back are taken again. */
static bool are_from_pages(void)
{
    struct counted counted = {.state = 7};
    gwb_heap heap = {allocate, reallocate, release, &counted};
    void *blocks[100];
    gwb_use_heap(&heap);
    bool is_well = gwb_open_pages(&gwb_used.pages);
    for (int round = 0; round < 3; round++) {
        for (int i = 0; i < 100; i++)
            blocks[i] = rattle_alloc(24, 8).at;
        for (int i = 0; i < 100; i++)
            rattle_dealloc(blocks[i]);
    }
    long requests = gwb_used.pages != NULL ? 2 : 300; /* each block alone has no pages */
    is_well = is_well && counted.requests == requests && !rattle_alloc(SIZE_MAX, 1).ok;
    gwb_close_pages(gwb_used.pages);
    gwb_used.pages = NULL;
    gwb_use_heap(NULL);
    return is_well && counted.held == 0;
}

int main(int count, char **words)
{
    pthread_t threads[2];
    long wrong = 0;
    rounds = count > 1 ? 100 * atol(words[1]) : rounds;
    for (uintptr_t i = 0; i < 2; i++)
        wrong += pthread_create(&threads[i], NULL, try_pages, (void *)(i + 1));
    for (int i = 0; i < 2; i++) {
        void *found = NULL;
        wrong += pthread_join(threads[i], &found) + (long)found;
    }
    int failed = (wrong != 0) + !are_from_pages();
    printf("%ld blocks went wrong\n%d passed, %d failed\n", wrong, 2 - failed, failed);
    return failed != 0;
}
