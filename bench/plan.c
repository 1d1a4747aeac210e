/* What busplan does but for its planner, in plain C, written from request j of document 02, its readings and the form of the
 * lines alone:
 *     plan FILE                     by hand: the lines of busplan, where each message has its first frame or the file is refused
 *                                   or wrong
 *     plan --verify FILE LINES ..   whether what busplan printed for a file is right, a line for each such pair: `given` where
 *                                   the planner is not asked and all is as here; `found` where the proposal is whole and the
 *                                   check accepts it; `none` where busplan found none; else `wrong LINE`, the first to blame
 * Exit status: 0 done; 1 something is wrong; 2 wrong usage, or a file that cannot be read; 3 a plan is to be proposed, which
 * this does not do. */
#define _GNU_SOURCE /* memmem */
#include "commands.h"

#include <errno.h>
#include <stdbool.h>
#include <stdint.h>
#include <stdio.h>
#include <stdlib.h>
#include <string.h>

#define MESSAGES 64
#define FRAMES 64
#define PARTS 5 /* of a line that is right: message C1 C2 PERIOD FIRST */

/* ---- which plans are possible */

/* "Mode codes" of document 01: "All else is reserved." */
static bool is_listed(unsigned code, bool transmit, bool broadcast)
{
    switch (code) {
    case 0:
    case 2:
    case 16:
    case 18:
    case 19:
        return transmit && !broadcast;
    case 1:
    case 3:
    case 4:
    case 5:
    case 6:
    case 7:
    case 8:
        return transmit;
    case 17:
    case 20:
    case 21:
        return !transmit;
    default:
        return false;
    }
}

/* "One: not a broadcast transmit unless a mode command; a mode command as in the code table." */
static bool is_single(uint16_t command)
{
    if (is_mode(command))
        return is_listed(count_of(command), transmits(command), is_broadcast(command));
    return !(transmits(command) && is_broadcast(command));
}

/* "Two commands: a receive and a transmit as above, the receive perhaps to 31." Above: "transmits, to another address than ours
 * and 31, no mode command, equal count field", after "a receive command that is no mode command". */
static bool is_pair(uint16_t receive, uint16_t transmit)
{
    return !transmits(receive) && !is_mode(receive) && transmits(transmit) && !is_mode(transmit) && !is_broadcast(transmit) &&
           address_of(transmit) != address_of(receive) && count_of(transmit) == count_of(receive);
}

/* ---- messages */

typedef struct {
    uint16_t commands[2];
    unsigned command_count;
    uint64_t period;
    bool has_first;
    uint64_t first;
} message;

static bool is_period(uint64_t period)
{
    return period > 0 && period <= FRAMES && (period & (period - 1)) == 0;
}

static bool is_possible(const message *m)
{
    return m->command_count == 1 ? is_single(m->commands[0]) : is_pair(m->commands[0], m->commands[1]);
}

/* "n being 0 or 1 for mode codes": 16 to 21 have a data word. */
static unsigned data_words(uint16_t command)
{
    unsigned code = count_of(command);
    if (is_mode(command))
        return 16 <= code && code <= 21;
    return words_of(command);
}

/* "200(n+2)+100 for one terminal .. 200(n+4)+200 between two terminals; 200(n+1) broadcast; 200(n+3)+100 broadcast from a
 * terminal; plus 20 each" */
static uint64_t load_of(const message *m)
{
    unsigned n = data_words(m->commands[0]);
    if (m->command_count == 1)
        return (is_broadcast(m->commands[0]) ? 200 * (n + 1) : 200 * (n + 2) + 100) + 20;
    return (is_broadcast(m->commands[0]) ? 200 * (n + 3) + 100 : 200 * (n + 4) + 200) + 20;
}

/* ---- the schedule's text */

typedef struct {
    uint64_t wrong_line; /* the first line that cannot be read, from 1; 0 for none */
    uint64_t count;      /* messages, also where there are more than are kept */
    message messages[MESSAGES];
    bool is_refused; /* "another period or an impossible plan", of any message */
    uint64_t capacities[FRAMES];
} schedule;

typedef struct {
    const char *at;
    size_t n;
} text;

/* Parts are one or more spaces apart. One more than a right line has is enough to tell a wrong one. */
static unsigned take_parts(text line, text *parts)
{
    unsigned count = 0;
    const char *comment = memchr(line.at, '#', line.n), *at = line.at, *end = comment ? comment : line.at + line.n;
    while (count <= PARTS) {
        while (at < end && *at == ' ')
            at++;
        if (at == end)
            break;
        const char *start = at;
        while (at < end && *at != ' ')
            at++;
        parts[count++] = (text){start, (size_t)(at - start)};
    }
    return count;
}

static bool is_word(text part, const char *word)
{
    return part.n == strlen(word) && memcmp(part.at, word, part.n) == 0;
}

/* 1 to 20 decimal digits, and below 2^64 */
static bool read_number(text part, uint64_t *number)
{
    *number = 0;
    if (part.n == 0 || part.n > 20)
        return false;
    for (size_t i = 0; i < part.n; i++) {
        unsigned digit = (unsigned char)part.at[i] - '0';
        if (digit > 9 || *number > (UINT64_MAX - digit) / 10)
            return false;
        *number = *number * 10 + digit;
    }
    return true;
}

/* Exactly four hexadecimal digits, in either case. */
static bool read_command(text part, uint16_t *command)
{
    *command = 0;
    if (part.n != 4)
        return false;
    for (size_t i = 0; i < 4; i++) {
        static const char digits[] = "0123456789ABCDEF0123456789abcdef";
        const char *digit = memchr(digits, part.at[i], sizeof digits - 1);
        if (digit == NULL)
            return false;
        *command = (uint16_t)(*command << 4 | ((digit - digits) & 15));
    }
    return true;
}

/* TICKS for all frames, or FRAME TICKS */
static bool read_capacity(const text *parts, unsigned count, schedule *s)
{
    uint64_t from = 0, to = FRAMES - 1, ticks;
    if (count < 1 || count > 2 || !read_number(parts[count - 1], &ticks))
        return false;
    if (count == 2) {
        if (!read_number(parts[0], &from) || from >= FRAMES)
            return false;
        to = from;
    }
    for (uint64_t frame = from; frame <= to; frame++)
        s->capacities[frame] = ticks;
    return true;
}

/* C1 [C2] PERIOD [FIRST]: of three or four parts the second is C2 where it has exactly four hexadecimal digits. */
static bool read_message(const text *parts, unsigned count, message *m)
{
    *m = (message){.command_count = 1};
    if (count < 2 || count > 4 || !read_command(parts[0], &m->commands[0]))
        return false;
    if (count > 2 && read_command(parts[1], &m->commands[1]))
        m->command_count = 2;
    const text *numbers = parts + m->command_count;
    unsigned left = count - m->command_count;
    if (left > 2 || !read_number(numbers[0], &m->period))
        return false;
    m->has_first = left == 2;
    return !m->has_first || read_number(numbers[1], &m->first);
}

static bool read_line(text line, schedule *s)
{
    text parts[PARTS + 1];
    message m;
    unsigned count = take_parts(line, parts);
    if (count == 0)
        return true;
    if (is_word(parts[0], "capacity"))
        return read_capacity(parts + 1, count - 1, s);
    if (!is_word(parts[0], "message") || !read_message(parts + 1, count - 1, &m))
        return false;
    if (s->count < MESSAGES)
        s->messages[s->count] = m;
    s->count++;
    s->is_refused |= !is_period(m.period) || !is_possible(&m);
    return true;
}

/* The line at the start of the text, which is taken off; the last one may have no end. */
static text take_line(text *all)
{
    const char *end = memchr(all->at, '\n', all->n);
    text line = {all->at, end ? (size_t)(end - all->at) : all->n};
    size_t taken = line.n + (end != NULL);
    *all = (text){all->at + taken, all->n - taken};
    return line;
}

static void read_schedule(text all, schedule *s)
{
    *s = (schedule){0};
    for (uint64_t line = 1; all.n > 0 && s->wrong_line == 0; line++)
        if (!read_line(take_line(&all), s))
            s->wrong_line = line;
}

/* "more messages, another period or an impossible plan is refused with 15" */
static bool is_refused(const schedule *s)
{
    return s->is_refused || s->count > MESSAGES;
}

static bool is_to_be_proposed(const schedule *s)
{
    if (s->wrong_line > 0 || is_refused(s))
        return false;
    for (unsigned i = 0; i < s->count; i++)
        if (!s->messages[i].has_first)
            return true;
    return false;
}

/* ---- the check: "each first frame is below the period and no frame of the 64 is loaded above its capacity in ticks" */

static uint64_t frame_load(const schedule *s, unsigned frame)
{
    uint64_t sum = 0;
    for (unsigned i = 0; i < s->count; i++)
        if (frame % s->messages[i].period == s->messages[i].first)
            sum += load_of(&s->messages[i]);
    return sum;
}

/* "the first offending message"; the count where there is none */
static unsigned offending_message(const schedule *s)
{
    unsigned i = 0;
    while (i < s->count && s->messages[i].first < s->messages[i].period)
        i++;
    return i;
}

/* "or else the first frame"; FRAMES where there is none */
static unsigned offending_frame(const schedule *s)
{
    unsigned frame = 0;
    while (frame < FRAMES && frame_load(s, frame) <= s->capacities[frame])
        frame++;
    return frame;
}

static bool is_accepted(const schedule *s)
{
    return offending_message(s) == s->count && offending_frame(s) == FRAMES;
}

/* ---- the lines */

static void put_tables(FILE *out, const schedule *s)
{
    for (unsigned i = 0; i < s->count; i++)
        fprintf(out, "message %u first=%llu load=%llu\n", i, (unsigned long long)s->messages[i].first,
                (unsigned long long)load_of(&s->messages[i]));
    for (unsigned frame = 0; frame < FRAMES; frame++)
        fprintf(out, "frame %u load=%llu capacity=%llu\n", frame, (unsigned long long)frame_load(s, frame),
                (unsigned long long)s->capacities[frame]);
}

static void put_judged(FILE *out, const schedule *s)
{
    unsigned i = offending_message(s), frame = offending_frame(s);
    if (i < s->count) {
        fprintf(out, "# rejected message=%u\n", i);
        return;
    }
    put_tables(out, s);
    if (frame < FRAMES)
        fprintf(out, "# rejected frame=%u\n", frame);
    else
        fputs("# accepted\n", out);
}

/* Of a schedule whose messages all have their first frames, if it can be read and is not refused. */
static void put_lines(FILE *out, const char *name, const schedule *s)
{
    fprintf(out, "# busplan %s\n", name);
    if (s->wrong_line > 0)
        fprintf(out, "# error line=%llu\n", (unsigned long long)s->wrong_line);
    else if (is_refused(s))
        fputs("# refused 15\n", out);
    else
        put_judged(out, s);
}

/* ---- what busplan printed */

static void fail(const char *name)
{
    fprintf(stderr, "plan: %s: %s\n", name, strerror(errno));
    exit(2);
}

static text all_of(const char *name)
{
    size_t room = 65536, n = 0, got;
    char *bytes = malloc(room);
    FILE *in = fopen(name, "rb");
    if (in == NULL || bytes == NULL)
        fail(name);
    while ((got = fread(bytes + n, 1, room - n, in)) > 0) {
        n += got;
        if (n == room && (bytes = realloc(bytes, room *= 2)) == NULL)
            fail(name);
    }
    if (ferror(in))
        fail(name);
    fclose(in);
    return (text){bytes, n};
}

/* Takes the first frames from the lines that name them. Nothing else of them is looked at: all the lines must then be those of
 * a schedule with these first frames. */
static void take_firsts(text lines, schedule *s)
{
    take_line(&lines);
    for (unsigned i = 0; i < s->count && lines.n > 0; i++) {
        text line = take_line(&lines);
        const char *key = memmem(line.at, line.n, "first=", 6), *end = line.at + line.n;
        if (key == NULL)
            return;
        text number = {key + 6, 0};
        while (number.at + number.n < end && number.at[number.n] != ' ')
            number.n++;
        read_number(number, &s->messages[i].first);
    }
}

/* From 1; 0 where both are the same. */
static uint64_t first_difference(text one, text other)
{
    for (uint64_t line = 1; one.n > 0 || other.n > 0; line++) {
        text mine = take_line(&one), its = take_line(&other);
        bool ended = mine.at + mine.n == one.at, its_ended = its.at + its.n == other.at; /* without the end of the line */
        if (mine.n != its.n || memcmp(mine.at, its.at, mine.n) != 0 || ended != its_ended)
            return line;
    }
    return 0;
}

static uint64_t difference(const char *name, const schedule *s, text lines)
{
    text ours = {NULL, 0};
    char *bytes = NULL;
    FILE *out = open_memstream(&bytes, &ours.n);
    if (out == NULL)
        fail(name);
    put_lines(out, name, s);
    if (fclose(out) != 0)
        fail(name);
    ours.at = bytes;
    uint64_t line = first_difference(ours, lines);
    free(bytes);
    return line;
}

static bool is_none(const char *name, text lines)
{
    text first = take_line(&lines);
    return first.n == strlen(name) + 10 && memcmp(first.at, "# busplan ", 10) == 0 &&
           memcmp(first.at + 10, name, first.n - 10) == 0 && lines.n == 7 && memcmp(lines.at, "# none\n", 7) == 0;
}

static bool verify(const char *name, const char *lines_name)
{
    static schedule s;
    text all = all_of(name), lines = all_of(lines_name);
    read_schedule(all, &s);
    bool proposed = is_to_be_proposed(&s), none = proposed && is_none(name, lines);
    if (proposed && !none)
        take_firsts(lines, &s);
    uint64_t line = none ? 0 : difference(name, &s, lines);
    /* a proposal that the check rejects must not be printed at all */
    if (line == 0 && proposed && !none && !is_accepted(&s))
        line = 2;
    if (line > 0)
        printf("wrong %llu\n", (unsigned long long)line);
    else
        puts(!proposed ? "given" : none ? "none" : "found");
    free((void *)all.at);
    free((void *)lines.at);
    return line == 0;
}

static int tell(const char *name)
{
    static schedule s;
    text all = all_of(name);
    read_schedule(all, &s);
    free((void *)all.at);
    if (is_to_be_proposed(&s)) {
        fprintf(stderr, "plan: %s: not every message has its first frame\n", name);
        return 3;
    }
    put_lines(stdout, name, &s);
    return fflush(stdout) != 0 || ferror(stdout) ? 2 : 0;
}

int main(int count, char **arguments)
{
    bool right = true, verifies = count > 1 && strcmp(arguments[1], "--verify") == 0;
    if (verifies ? count < 4 || count % 2 != 0 : count != 2) {
        fprintf(stderr, "usage: plan FILE | plan --verify FILE LINES ..\n");
        return 2;
    }
    for (int i = 2; i < count; i += 2)
        right &= verify(arguments[i], arguments[i + 1]);
    if (verifies)
        return !right;
    return tell(arguments[1]);
}
