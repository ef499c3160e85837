/* Replies and listings go out by way of one buffer. */
#ifndef OUTPUT_H
#define OUTPUT_H

#include "operators.h"
#include <string.h>

#define OUTPUT_SIZE (1 << 17)
#define PIECE 256       /* no piece that is put between two calls of `output_room` is longer */

extern char output[OUTPUT_SIZE], *output_at;
extern bool any_bad;    /* whether a reply was a refusal or a fault */

void flush_output(void);

static inline void output_room(void)
{
    if (output_at > output + OUTPUT_SIZE - PIECE)
        flush_output();
}

static inline void put_byte(char c)
{
    *output_at++ = c;
}

static inline void put_bytes(const char *bytes, size_t count)
{
    memcpy(output_at, bytes, count);
    output_at += count;
}

#define PUT(text) put_bytes(text, sizeof(text) - 1)

extern const char digit_pairs[201];

static inline void put_number_text(u64 n)
{
    char text[20], *at = text + sizeof text;
    while (n >= 100) {
        at -= 2;
        memcpy(at, digit_pairs + 2 * (n % 100), 2);
        n /= 100;
    }
    if (n >= 10) {
        at -= 2;
        memcpy(at, digit_pairs + 2 * n, 2);
    } else {
        *--at = '0' + n;
    }
    put_bytes(at, text + sizeof text - at);
}

/* A space and then the number. */
static inline void put_word(u64 n)
{
    put_byte(' ');
    put_number_text(n);
}

void put_integer(i128 n);       /* a space and then the number */

void reply_refused(struct refusal refusal);
void reply_fault(u32 number);

static inline void reply_ok(void)
{
    PUT("ok\n");
}

/* `ok`, or what was refused. */
static inline void reply(struct refusal refusal)
{
    if (refusal.why)
        reply_refused(refusal);
    else
        reply_ok();
}

void list_model(void);

#endif
