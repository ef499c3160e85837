/* floor: reads each word of a script from standard input as a number, eight bytes at a time, adds them all up, and answers each line `ok`. No program of the
 * script language does less, so what `plain` takes above it is its own. */
#define _GNU_SOURCE
#include <stdbool.h>
#include <stdint.h>
#include <string.h>
#include <unistd.h>

enum { INPUT_SIZE = 1 << 18, OUTPUT_SIZE = 1 << 17, BYTES = 8 };
#define EACH 0x0101010101010101u

static unsigned char input[INPUT_SIZE + BYTES], output[OUTPUT_SIZE + BYTES];
static size_t written;
static volatile uint64_t all;

static bool flush(void)
{
    size_t done = 0;
    while (done < written) {
        ssize_t count = write(STDOUT_FILENO, output + done, written - done);
        if (count < 0)
            return false;
        done += (size_t)count;
    }
    written = 0;
    return true;
}

static void answer(void)
{
    memcpy(output + written, "ok\n", 4);
    written += 3;
    if (written > OUTPUT_SIZE - BYTES)
        flush();
}

/* Reads the words up to the last newline, which stands before `end`. */
static void read_words(const unsigned char *at, const unsigned char *end)
{
    uint64_t sum = 0;
    while (at < end) {
        uint64_t x;
        memcpy(&x, at, sizeof x);
        uint64_t ends = (x - EACH * ('!' + 0u)) & ~x & EACH * 0x80;
        unsigned bits = ends ? (unsigned)__builtin_ctzll(ends) & 56 : 64;
        x = bits ? (x - EACH * '0') << (64 - bits) : 0;
        x = (x * 10 + (x >> 8)) & 0x00ff00ff00ff00ff;
        x = (x * 100 + (x >> 16)) & 0x0000ffff0000ffff;
        sum += (uint32_t)(x * 10000 + (x >> 32));
        at += bits / 8;
        if (bits < 64 && *at++ == '\n')
            answer();
    }
    all += sum;
}

int main(void)
{
    size_t held = 0;
    ssize_t count;
    while ((count = read(STDIN_FILENO, input + held, INPUT_SIZE - held)) > 0) {
        held += (size_t)count;
        const unsigned char *last = memrchr(input, '\n', held);
        if (!last)
            return 2;
        read_words(input, last + 1);
        held -= (size_t)(last + 1 - input);
        memmove(input, last + 1, held);
    }
    return count < 0 || held > 0 || !flush();
}
