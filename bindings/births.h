/* Births: what tells one thing from another that has had its number. No two things of a kind ever have the same. */
#ifndef GWB_BIRTHS_H
#define GWB_BIRTHS_H
#include "lists.h"
#include "walks.h"

enum { KINDS = GWB_VERTEX + 1, NUMBER_BITS = 20 };

/* A kind and a number in one, by which things are in order. */
static inline uint32_t key_of(uint32_t kind, uint32_t number) { return kind << NUMBER_BITS | number; }
static inline uint32_t kind_of(uint32_t key) { return key >> NUMBER_BITS; }
static inline uint32_t number_of(uint32_t key) { return key & ((UINT32_C(1) << NUMBER_BITS) - 1); }

/* A thing and its birth. Of a command: what it made, with the birth that the number had before; while it is undone, with the one that it made. */
struct thing {
    uint32_t key;
    uint64_t birth;
};

struct births {
    struct list of[KINDS]; /* of uint64_t, by numbers: 0 is that of what was there when births began */
    uint64_t began;        /* which is so much and the number: where this is 0, none is known */
    uint64_t next;
    struct list seen; /* of struct seen: what the call that is being made may make or take */
};

#define NO_BIRTHS(each) {{each, each, each, each, each}, 0, 1, {.size = 2 * sizeof(uint32_t)}}

void births_free(struct births *b);

/* From here on births are known; or no more, until they begin again. What is there when they begin has births that nothing has had. */
void births_begin(struct births *b);
void births_forget(struct births *b);

/* The birth of the thing that has a number, or had it last: 0 where none is known. */
uint64_t birth_of(const struct births *b, uint32_t key);

/* A number that the call makes, or that is in use before what the call does next. False where memory is refused. */
bool births_see(struct births *b, uint32_t kind, uint32_t number, bool is_in_use);
/* What the call made of numbers that weren't in use before it gets births. Each is added to `made`. False where memory is refused. */
bool births_give(struct births *b, struct list *made);
/* A number gets a birth that another one had, alike. */
bool births_move(struct births *b, uint32_t key, uint64_t birth, struct list *made);

/* Changes the births of these things for those that are written there, the last ones first or the first ones. Others than things are left. */
void births_take_back(struct births *b, struct thing *things, size_t count);
void births_restore(struct births *b, struct thing *things, size_t count);

#endif
