/* The words of commands, as a script has them and a record. */
#ifndef GWB_WORDS_H
#define GWB_WORDS_H
#include <stdbool.h>
#include <stddef.h>
#include <stdint.h>
#include <string.h>

/* A word, and what its values are (watch.h): those that a script has come first. */
static const struct word {
    const char *word, *kinds;
} words[] = {{"mvfs", "SFLV"}, {"kvfs", "s"},   {"mev", "h_EV"},   {"kev", "h"},    {"mef", "h_EFL"}, {"kef", "h"},  {"kemr", "hL"},
             {"mekr", "hhE"},  {"kfmrh", "ff"}, {"mfkrh", "lF"},   {"ringmv", "lf_"}, {"lamina", "S*"}, {"block", "S*"}, {"sweep", "f*"},
             {"glue", "gg+"},   {"split", "s____S*+"}, {"outer", "lf"}, {"merge", "ss"}, {"part", "Sf"}};
enum { WORDS = sizeof words / sizeof *words, SCRIPT_WORDS = WORDS - 3, MOST_VALUES = 8 };

static inline const char *kinds_of(const char *word)
{
    size_t at = 0;
    while (at + 1 < WORDS && strcmp(words[at].word, word) != 0)
        at++;
    return words[at].kinds;
}

/* Whether a byte stands between words. */
static inline bool is_blank(char c) { return c == ' ' || c == '\t' || c == '\r'; }

/* Whether the first word of a line is this one. */
static inline bool begins_with(const char *line, size_t n, const char *word)
{
    const size_t length = strlen(word);
    for (; n > 0 && is_blank(*line); n--)
        line++;
    return n >= length && memcmp(line, word, length) == 0 && (n == length || is_blank(line[length]));
}

/* That of the first ones with which a line begins, or NULL. */
static inline const struct word *word_of(const char *line, size_t n, size_t count)
{
    size_t at = 0;
    while (at < count && !begins_with(line, n, words[at].word))
        at++;
    return at < count ? &words[at] : NULL;
}

/* The word after a place, where it ends, and its number, without the sign. */
static inline const char *read_value(const char *at, const char *end, int64_t *value)
{
    while (at < end && is_blank(*at))
        at++;
    for (*value = 0; at < end && !is_blank(*at); at++)
        if (*at >= '0' && *at <= '9' && *value < UINT32_MAX)
            *value = 10 * *value + (*at - '0');
    return at;
}

#endif
