/* The output buffer, numbers in decimal, and the two replies that count as bad. */
#include "output.h"
#include <errno.h>
#include <unistd.h>

char output[OUTPUT_SIZE], *output_at = output;
bool any_bad;

const char digit_pairs[201] =
    "00010203040506070809101112131415161718192021222324252627282930313233343536373839404142434445464748495051525354555657585960616263646566"
    "676869707172737475767778798081828384858687888990919293949596979899";

void flush_output(void)
{
    const char *at = output;
    while (at < output_at) {
        ssize_t count = write(STDOUT_FILENO, at, output_at - at);
        if (count < 0 && errno == EINTR)
            continue;
        if (count <= 0)
            fail("write fault");
        at += count;
    }
    output_at = output;
}

#define TEN_TO_18 1000000000000000000ull

static void put_18_digits(u64 n)
{
    char text[18];
    for (int i = 16; i >= 0; i -= 2) {
        memcpy(text + i, digit_pairs + 2 * (n % 100), 2);
        n /= 100;
    }
    put_bytes(text, sizeof text);
}

static void put_large(unsigned __int128 n)
{
    if (n < TEN_TO_18) {
        put_number_text(n);
    } else {
        put_large(n / TEN_TO_18);
        put_18_digits(n % TEN_TO_18);
    }
}

void put_integer(i128 n)
{
    put_byte(' ');
    if (n < 0) {
        put_byte('-');
        n = -n;
    }
    put_large(n);
}

void reply_refused(struct refusal refusal)
{
    any_bad = true;
    PUT("refused");
    put_word(refusal.why);
    put_word(refusal.number);
    put_byte('\n');
}

void reply_fault(u32 number)
{
    any_bad = true;
    PUT("fault");
    put_word(number);
    put_byte('\n');
}
