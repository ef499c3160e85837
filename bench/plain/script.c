/* Lines and words. A line is read in one pass: its words are taken as they come, and only where one can't be read is the line looked at as a
 * whole. A line that was read to its end is ASCII, since each of its bytes was part of a word or a blank. */
#define _GNU_SOURCE
#include "script.h"
#include "journal.h"
#include "larger.h"
#include "measure.h"
#include "output.h"
#include <errno.h>
#include <unistd.h>

#define LINE_LIMIT 65536
#define SCRIPT_LIMIT 67108864
#define INPUT_SIZE (1 << 18)

enum fault { NO_FAULT, BAD_WORD, BAD_NUMBER, MISSING_WORD, EXTRA_WORD, NOT_ASCII, LONG_LINE };

/* The rest of a line, the first fault in it, and the first number out of range. The line ends with a newline. */
struct words {
    const unsigned char *at;
    enum fault fault;
    bool out_of_range;
    u32 number;
};

static inline bool is_blank(unsigned char c)
{
    return c == ' ' || c == '\t' || c == '\r';
}

static inline bool is_word_end(unsigned char c)
{
    return is_blank(c) || c == '\n';
}

static inline void skip_blanks(struct words *w)
{
    while (is_blank(*w->at))
        w->at++;
}

/* Goes to the next word; false where there is none or the line is at fault. Mostly one space lies before it. */
static inline bool next_word(struct words *w)
{
    if (w->fault)
        return false;
    if (*w->at == ' ' && w->at[1] > ' ') {
        w->at++;
        return true;
    }
    skip_blanks(w);
    if (*w->at == '\n')
        w->fault = MISSING_WORD;
    return !w->fault;
}

/* The same digits where they are many, none, or not all of the word: each of them is tested. */
static __attribute__((noinline, cold)) u64 read_digits_slowly(struct words *w, const unsigned char *at, u64 greatest)
{
    u64 n = 0;
    bool large = at == w->at;
    for (; at < w->at; at++) {
        large |= n >> 60 != 0;
        n = 10 * n + (*at - '0');
    }
    if (large || n > greatest || !is_word_end(*at))
        w->fault = BAD_NUMBER;
    return n;
}

/* The digits before the first of these eight bytes that is none, as a number: pairs, fours and eights are added up in three steps. */
static inline u64 added_up(u64 x, unsigned bits)
{
    x <<= 64 - bits;
    x = (x * 10 + (x >> 8)) & 0x00ff00ff00ff00ff;
    x = (x * 100 + (x >> 16)) & 0x0000ffff0000ffff;
    return (u32)(x * 10000 + (x >> 32));
}

/* The digits up to the end of the word, up to `greatest`: up to seven by one load of eight bytes, more one after the other. As many as fit in 64 bits
 * whatever they are are tested once, behind the last. */
static inline u64 read_digits(struct words *w, u64 greatest)
{
    const unsigned char *first = w->at, *at = first;
    u64 x;
    memcpy(&x, at, sizeof x);
    x ^= 0x3030303030303030;
    u64 others = ((x + 0x7676767676767676) | x) & 0x8080808080808080;
    unsigned bits = others ? (unsigned)__builtin_ctzll(others) & 56 : 0;
    at += bits >> 3;
    if (__builtin_expect(bits != 0 && (*at == ' ' || *at == '\n'), true)) {
        w->at = at;
        return added_up(x, bits);
    }
    at = first;
    u64 n = 0;
    for (; (unsigned)(*at - '0') < 10; at++)
        n = 10 * n + (*at - '0');
    w->at = at;
    bool is_usual = (u64)(at - first - 1) < 18 && n <= greatest && (*at == ' ' || *at == '\n');
    return __builtin_expect(is_usual, true) ? n : read_digits_slowly(w, first, greatest);
}

static inline u32 read_thing(struct words *w)
{
    u32 n = read_digits(w, UINT32_MAX);
    if (n - 1 >= NUMBER_LIMIT && !w->fault && !w->out_of_range) {
        w->out_of_range = true;
        w->number = n;
    }
    return n;
}

static inline u32 read_number(struct words *w)
{
    return next_word(w) ? read_thing(w) : 0;
}

static inline u32 read_edge(struct words *w)
{
    return 2 * read_number(w);
}

static inline i64 read_integer(struct words *w)
{
    if (!next_word(w))
        return 0;
    if (*w->at != '-')
        return read_digits(w, INT64_MAX);
    w->at++;
    return -read_digits(w, (u64)INT64_MAX + 1);
}

/* A coordinate; one out of range stays so. */
static inline i32 read_coordinate(struct words *w)
{
    i64 n = read_integer(w);
    return n > INT32_MAX ? INT32_MAX : n < INT32_MIN ? INT32_MIN : n;
}

static inline struct point read_point(struct words *w)
{
    struct point p;
    p.x = read_coordinate(w);
    p.y = read_coordinate(w);
    p.z = read_coordinate(w);
    return p;
}

static inline struct wide_point read_wide_point(struct words *w)
{
    struct wide_point p;
    p.x = read_integer(w);
    p.y = read_integer(w);
    p.z = read_integer(w);
    return p;
}

static inline u32 read_half(struct words *w)
{
    if (!next_word(w))
        return 0;
    unsigned char sign = *w->at;
    if (sign != '+' && sign != '-') {
        w->fault = BAD_NUMBER;
        return 0;
    }
    w->at++;
    return 2 * read_thing(w) + (sign == '-');
}

static inline u32 read_corner(struct words *w)
{
    if (!next_word(w))
        return 0;
    if (*w->at != '@')
        return read_half(w);
    w->at++;
    return LONE | read_thing(w);
}

/* A word of up to seven bytes as a number that no other word has: 1 and then its bytes. */
static inline u64 read_name(struct words *w)
{
    const unsigned char *first = w->at;
    u64 name = 1;
    for (; !is_word_end(*w->at); w->at++)
        name = name << 8 | *w->at;
    return w->at - first <= 7 ? name : 0;
}

#define NAME1(a) ((u64)1 << 8 | (u64)(a))
#define NAME2(a, b) (NAME1(a) << 8 | (u64)(b))
#define NAME3(a, b, c) (NAME2(a, b) << 8 | (u64)(c))
#define NAME4(a, b, c, d) (NAME3(a, b, c) << 8 | (u64)(d))
#define NAME5(a, b, c, d, e) (NAME4(a, b, c, d) << 8 | (u64)(e))
#define NAME6(a, b, c, d, e, f) (NAME5(a, b, c, d, e) << 8 | (u64)(f))

static inline enum operator read_way(struct words *w)
{
    if (!next_word(w))
        return RING_IN;
    u64 name = read_name(w);
    if (name != NAME2('i', 'n') && name != NAME3('o', 'u', 't'))
        w->fault = BAD_WORD;
    return name == NAME2('i', 'n') ? RING_IN : RING_OUT;
}

/* ---- the end of a line */

static bool has_wide_byte(const unsigned char *from, const unsigned char *to)
{
    for (; from < to; from++)
        if (*from > 127)
            return true;
    return false;
}

/* Replies to a line of which the words are no command, or that has none. */
static void reply_line_fault(struct words *w, const unsigned char *line)
{
    const unsigned char *end = rawmemchr(w->at, '\n');
    if (end - line > LINE_LIMIT)
        reply_fault(LONG_LINE);
    else if (has_wide_byte(line, end))
        reply_fault(NOT_ASCII);
    else if (w->fault)
        reply_fault(w->fault);
    w->at = end;
}

/* Whether the line ends here, has no fault and all of its numbers are in range; else it is answered. */
static inline bool is_whole(struct words *w, const unsigned char *line)
{
    if (!w->fault) {
        skip_blanks(w);
        if (*w->at != '\n')
            w->fault = EXTRA_WORD;
    }
    if (w->fault || w->at - line > LINE_LIMIT) {
        reply_line_fault(w, line);
        return false;
    }
    if (w->out_of_range)
        reply_refused((struct refusal){ NUMBER_RANGE, w->number });
    return !w->out_of_range;
}

/* ---- commands */

/* Carries out an operator of which the words were read. */
static inline void answer_operator(struct words *w, const unsigned char *line, const struct step *step)
{
    if (is_whole(w, line))
        reply(act(step));
}

static void answer_mvfs(struct words *w, const unsigned char *line)
{
    struct step step = { .operator = MVFS };
    step.mvfs.solid = read_number(w);
    step.mvfs.face = read_number(w);
    step.mvfs.loop = read_number(w);
    step.mvfs.vertex = read_number(w);
    step.mvfs.point = read_point(w);
    answer_operator(w, line, &step);
}

static void answer_mev(struct words *w, const unsigned char *line)
{
    struct step step = { .operator = MEV };
    step.mev.corner1 = read_corner(w);
    step.mev.corner2 = read_corner(w);
    step.mev.half = read_edge(w);
    step.mev.vertex = read_number(w);
    step.mev.point = read_point(w);
    answer_operator(w, line, &step);
}

static void answer_mef(struct words *w, const unsigned char *line)
{
    struct step step = { .operator = MEF };
    step.mef.half1 = read_half(w);
    step.mef.half2 = read_half(w);
    step.mef.half = read_edge(w);
    step.mef.face = read_number(w);
    step.mef.loop = read_number(w);
    answer_operator(w, line, &step);
}

static void answer_mekr(struct words *w, const unsigned char *line)
{
    struct step step = { .operator = MEKR };
    step.mekr.corner1 = read_corner(w);
    step.mekr.corner2 = read_corner(w);
    step.mekr.half = read_edge(w);
    answer_operator(w, line, &step);
}

static void answer_ringmv(struct words *w, const unsigned char *line)
{
    struct step step;
    step.ring.loop = read_number(w);
    step.ring.face = read_number(w);
    step.operator = read_way(w);
    answer_operator(w, line, &step);
}

/* The operators of one or two words. */
static void answer_short(struct words *w, const unsigned char *line, enum operator operator)
{
    struct step step = { .operator = operator };
    switch (operator) {
    case KVFS:
        step.kvfs.solid = read_number(w);
        break;
    case KEV:
    case KEF:
        step.kev.half = read_half(w);
        break;
    case KEMR:
        step.kemr.half = read_half(w);
        step.kemr.loop = read_number(w);
        break;
    case KFMRH:
        step.kfmrh.face = read_number(w);
        step.kfmrh.gone = read_number(w);
        break;
    default:
        step.mfkrh.loop = read_number(w);
        step.mfkrh.face = read_number(w);
    }
    answer_operator(w, line, &step);
}

static void answer_lamina(struct words *w, const unsigned char *line)
{
    struct wide_point points[LAMINA_POINTS];
    u32 solid = read_number(w), count = 0;
    while (!w->fault) {
        skip_blanks(w);
        if (*w->at == '\n')
            break;
        if (count == LAMINA_POINTS)
            w->fault = EXTRA_WORD;
        else
            points[count++] = read_wide_point(w);
    }
    if (is_whole(w, line))
        reply(lamina(solid, points, count));
}

static void answer_block(struct words *w, const unsigned char *line)
{
    u32 solid = read_number(w);
    struct wide_point corner = read_wide_point(w);
    struct wide_point sizes = read_wide_point(w);
    if (is_whole(w, line))
        reply(block(solid, corner, sizes));
}

static void answer_sweep(struct words *w, const unsigned char *line)
{
    u32 face = read_number(w);
    struct wide_point by = read_wide_point(w);
    if (is_whole(w, line))
        reply(sweep(face, by));
}

static void answer_glue(struct words *w, const unsigned char *line)
{
    u32 face1 = read_number(w);
    u32 face2 = read_number(w);
    if (is_whole(w, line))
        reply(glue(face1, face2));
}

static void answer_split(struct words *w, const unsigned char *line)
{
    i64 plane[4];
    u32 solid = read_number(w);
    for (int i = 0; i < 4; i++)
        plane[i] = read_integer(w);
    u32 other = read_number(w);
    if (is_whole(w, line))
        reply(split(solid, plane, other));
}

static void answer_query(struct words *w, const unsigned char *line, struct refusal (*tell)(u32))
{
    u32 n = read_number(w);
    if (!is_whole(w, line))
        return;
    struct refusal refusal = tell(n);
    if (refusal.why)
        reply_refused(refusal);
}

static void answer_turn(struct words *w, const unsigned char *line, bool (*turn)(void), enum why nothing)
{
    if (is_whole(w, line))
        reply(turn() ? (struct refusal){ ACCEPTED, 0 } : (struct refusal){ nothing, 0 });
}

static void answer_list(struct words *w, const unsigned char *line)
{
    if (is_whole(w, line))
        list_model();
}

#define WORD4(a, b, c, d) ((u32)(a) | (u32)(b) << 8 | (u32)(c) << 16 | (u32)(d) << 24)

/* Whether the line begins with one of the usual names and a space or its end, by one load: then it is answered. */
static inline bool is_usual(struct words *w, const unsigned char *line)
{
    u32 glance;
    memcpy(&glance, w->at, sizeof glance);
    const unsigned char behind = w->at[4];
    switch (glance) {
    case WORD4('m', 'e', 'v', ' '): w->at += 3; answer_mev(w, line); return true;
    case WORD4('m', 'e', 'f', ' '): w->at += 3; answer_mef(w, line); return true;
    case WORD4('k', 'e', 'v', ' '): w->at += 3; answer_short(w, line, KEV); return true;
    case WORD4('k', 'e', 'f', ' '): w->at += 3; answer_short(w, line, KEF); return true;
    case WORD4('k', 'v', 'f', 's'): return behind == ' ' && (w->at += 4, answer_short(w, line, KVFS), true);
    case WORD4('u', 'n', 'd', 'o'): return behind == '\n' && (w->at += 4, answer_turn(w, line, undo, NOTHING_TO_UNDO), true);
    case WORD4('r', 'e', 'd', 'o'): return behind == '\n' && (w->at += 4, answer_turn(w, line, redo, NOTHING_TO_REDO), true);
    default: return false;
    }
}

static void answer_command(struct words *w, const unsigned char *line)
{
    if (is_usual(w, line))
        return;
    switch (read_name(w)) {
    case NAME4('m', 'v', 'f', 's'): answer_mvfs(w, line); break;
    case NAME4('k', 'v', 'f', 's'): answer_short(w, line, KVFS); break;
    case NAME3('m', 'e', 'v'): answer_mev(w, line); break;
    case NAME3('k', 'e', 'v'): answer_short(w, line, KEV); break;
    case NAME3('m', 'e', 'f'): answer_mef(w, line); break;
    case NAME3('k', 'e', 'f'): answer_short(w, line, KEF); break;
    case NAME4('k', 'e', 'm', 'r'): answer_short(w, line, KEMR); break;
    case NAME4('m', 'e', 'k', 'r'): answer_mekr(w, line); break;
    case NAME5('k', 'f', 'm', 'r', 'h'): answer_short(w, line, KFMRH); break;
    case NAME5('m', 'f', 'k', 'r', 'h'): answer_short(w, line, MFKRH); break;
    case NAME6('r', 'i', 'n', 'g', 'm', 'v'): answer_ringmv(w, line); break;
    case NAME6('l', 'a', 'm', 'i', 'n', 'a'): answer_lamina(w, line); break;
    case NAME5('b', 'l', 'o', 'c', 'k'): answer_block(w, line); break;
    case NAME5('s', 'w', 'e', 'e', 'p'): answer_sweep(w, line); break;
    case NAME4('g', 'l', 'u', 'e'): answer_glue(w, line); break;
    case NAME5('s', 'p', 'l', 'i', 't'): answer_split(w, line); break;
    case NAME5('p', 'l', 'a', 'n', 'e'): answer_query(w, line, tell_plane); break;
    case NAME6('v', 'o', 'l', 'u', 'm', 'e'): answer_query(w, line, tell_volume); break;
    case NAME5('c', 'o', 'u', 'n', 't'): answer_query(w, line, tell_count); break;
    case NAME4('u', 'n', 'd', 'o'): answer_turn(w, line, undo, NOTHING_TO_UNDO); break;
    case NAME4('r', 'e', 'd', 'o'): answer_turn(w, line, redo, NOTHING_TO_REDO); break;
    case NAME4('l', 'i', 's', 't'): answer_list(w, line); break;
    default:
        w->fault = BAD_WORD;
        reply_line_fault(w, line);
    }
}

/* Answers the line that starts here; answers where the next one starts. */
static const unsigned char *answer_line(const unsigned char *line)
{
    struct words w = { .at = line };
    skip_blanks(&w);
    if (*w.at == '\n' || *w.at == '#')
        reply_line_fault(&w, line);
    else
        answer_command(&w, line);
    return w.at + 1;
}

/* ---- the file */

static unsigned char input[INPUT_SIZE + 16];    /* a word is read eight bytes at a time, past the end too */
static size_t held;             /* bytes of `input` that aren't answered yet */
static bool skipping;           /* the line that goes on is too long, and its bytes are dropped */

/* Answers the long line that ends here; answers where the next one starts. */
static const unsigned char *end_long_line(void)
{
    skipping = false;
    output_room();
    reply_fault(LONG_LINE);
    return (const unsigned char *)memchr(input, '\n', held) + 1;
}

/* Answers the whole lines held; true where the run stops there. */
static bool answer_lines(bool stop)
{
    const unsigned char *last = memrchr(input, '\n', held);
    if (last) {
        const unsigned char *at = skipping ? end_long_line() : input;
        while (at <= last && !(stop && any_bad)) {
            output_room();
            at = answer_line(at);
        }
        held -= at - input;
        memmove(input, at, held);
    }
    if (held > LINE_LIMIT)
        skipping = true;
    if (skipping)
        held = 0;
    return stop && any_bad;
}

enum run_end run_script(int file, bool stop)
{
    size_t total = 0;
    for (;;) {
        size_t room = INPUT_SIZE - held, left = SCRIPT_LIMIT + 1 - total;
        flush_output();
        ssize_t count = read(file, input + held, room < left ? room : left);
        if (count < 0 && errno == EINTR)
            continue;
        if (count < 0)
            return READ_FAULT;
        total += count;
        held += count;
        if (total > SCRIPT_LIMIT)
            held--;
        else if (count == 0 && (held > 0 || skipping))
            input[held++] = '\n';
        if (answer_lines(stop))
            return RUN_ENDED;
        if (total > SCRIPT_LIMIT)
            return TOO_LONG;
        if (count == 0)
            return RUN_ENDED;
    }
}
