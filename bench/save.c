/* What bussave does, in plain C, written from request c of document 02 and its readings alone: save DAMAGED CLEAN. It writes
 * the same lines and the same clean file, in constant memory, and says on standard error that nothing was kept, or how many
 * whole records it skipped for their time alone. Exit status: 0 saved; 2 wrong usage, or a file that cannot be read or written. */
#include "plain.h"

#include <endian.h>
#include <errno.h>
#include <fcntl.h>
#include <stdio.h>
#include <stdlib.h>
#include <string.h>
#include <unistd.h>

#define BLOCK 65536
#define REACH 100000000 /* "at most 100,000,000 ticks after it" */

static void fail(const char *name)
{
    fprintf(stderr, "save: %s: %s\n", name, strerror(errno));
    exit(2);
}

/* ---- bytes out, a block at a time */

typedef struct {
    const char *name;
    int file;
    size_t n;
    uint8_t bytes[BLOCK];
} outlet;

static void flush(outlet *out)
{
    for (size_t done = 0; done < out->n;) {
        ssize_t written = write(out->file, out->bytes + done, out->n - done);
        if (written >= 0)
            done += (size_t)written;
        else if (errno != EINTR)
            fail(out->name);
    }
    out->n = 0;
}

static inline void put(outlet *out, const void *bytes, size_t n)
{
    if (n > BLOCK - out->n)
        flush(out);
    memcpy(out->bytes + out->n, bytes, n);
    out->n += n;
}

static void put_text(outlet *out, const char *text)
{
    put(out, text, strlen(text));
}

/* Where every few records are damaged the lines are most of the work, and fprintf would be most of the lines. */
static void put_decimal(outlet *out, uint64_t number)
{
    char digits[20];
    unsigned at = sizeof digits;
    do
        digits[--at] = (char)('0' + number % 10);
    while ((number /= 10) > 0);
    put(out, digits + at, sizeof digits - at);
}

/* ---- the walk */

typedef struct {
    outlet clean, lines;
    int changed;          /* the first byte */
    uint64_t place;       /* of the next byte to walk, from 0 of the damaged file */
    uint64_t run;         /* the place behind the last kept record: from here to the next one is a skipped run */
    uint64_t last, reach; /* the times that may be kept: from the last kept one to so many ticks after it */
    uint64_t records, skipped;
    uint64_t late, early, first_late, first_early; /* whole records that are skipped for their time, and the first's places */
    uint64_t stray;                                /* the place behind the latest of them */
} saving;

#define NO_TIME UINT64_MAX

/* The time of the record that the 16 bytes are, or NO_TIME. Two big-endian numbers: length and the time's upper six bytes,
 * of which two must be 0, and the time's lower two, bus, sync, faults, word, parity. plain_record_read would be a call for
 * each skipped byte. */
static inline uint64_t time_of(const uint8_t *bytes)
{
    uint64_t upper, lower;
    memcpy(&upper, bytes, sizeof upper);
    upper = be64toh(upper);
    if (upper >> 32 != 14u << 16)
        return NO_TIME;
    memcpy(&lower, bytes + sizeof upper, sizeof lower);
    lower = be64toh(lower);
    if (lower & 0x0000FEFCFC0000FE || (lower >> 32 & 3) == 3)
        return NO_TIME;
    return upper << 32 >> 16 | lower >> 48;
}

/* Ends the skipped run, if there is one, at the next byte. */
static void end_run(saving *s)
{
    uint64_t length = s->place - s->run;
    if (length == 0)
        return;
    put_text(&s->lines, "skip byte=");
    put_decimal(&s->lines, s->run);
    put_text(&s->lines, " length=");
    put_decimal(&s->lines, length);
    put_text(&s->lines, "\n");
    s->skipped += length;
}

static inline void keep(saving *s, const uint8_t *bytes, uint64_t time)
{
    end_run(s);
    put(&s->clean, bytes, PLAIN_RECORD);
    s->records++;
    s->last = time;
    s->reach = REACH;
    s->run = s->place + PLAIN_RECORD;
}

/* The next place where a record may begin: the next byte. With -DLEAPS it is one byte before the next 14, since memchr passes
 * over many bytes at once; where there is none, the first place with fewer than 16 bytes left. */
static inline size_t next_place(const uint8_t *bytes, size_t at, size_t n)
{
#ifdef LEAPS
    const uint8_t *length = memchr(bytes + at + 2, 14, n - at - PLAIN_RECORD);
    return length ? (size_t)(length - bytes) - 1 : n - PLAIN_RECORD + 1;
#else
    (void)bytes, (void)n;
    return at + 1;
#endif
}

/* A record at a place that is skipped for its time alone, unless it lies inside another such. */
static void count_stray(saving *s, uint64_t place, uint64_t time)
{
    if (place < s->stray)
        return;
    s->stray = place + PLAIN_RECORD;
    if (time < s->last) {
        if (s->early++ == 0)
            s->first_early = place;
    } else if (s->late++ == 0)
        s->first_late = place;
}

/* Walks until fewer than 16 bytes are left, and gives how many it walked. */
static size_t walk(saving *s, const uint8_t *bytes, size_t n)
{
    const uint64_t start = s->place;
    size_t at = 0;
    while (n - at >= PLAIN_RECORD) {
        uint64_t time = time_of(bytes + at);
        /* also false of an earlier time, which wraps to a large one, and of NO_TIME */
        if (time - s->last <= s->reach) {
            s->place = start + at;
            keep(s, bytes + at, time);
            at += PLAIN_RECORD;
        } else {
            if (time != NO_TIME)
                count_stray(s, start + at, time);
            at = next_place(bytes, at, n);
        }
    }
    s->place = start + at;
    return at;
}

/* ---- the files */

static size_t read_some(int file, const char *name, uint8_t *bytes, size_t n)
{
    ssize_t got;
    while ((got = read(file, bytes, n)) < 0)
        if (errno != EINTR)
            fail(name);
    return (size_t)got;
}

/* "the first byte is never data" */
static void save_first(saving *s, int damaged, const char *name)
{
    uint8_t first = 0;
    s->place = read_some(damaged, name, &first, 1);
    s->run = s->place;
    s->changed = first != 1;
    put(&s->clean, "\1", 1);
}

static void save_rest(saving *s, int damaged, const char *name)
{
    static uint8_t room[PLAIN_RECORD + BLOCK];
    size_t n = 0, got;
    while ((got = read_some(damaged, name, room + n, BLOCK)) > 0) {
        n += got;
        size_t walked = walk(s, room, n);
        n -= walked;
        memmove(room, room + walked, n);
    }
    s->place += n;
    end_run(s);
}

static void put_end(saving *s)
{
    put_text(&s->lines, s->changed ? "# end first=changed records=" : "# end first=kept records=");
    put_decimal(&s->lines, s->records);
    put_text(&s->lines, " skipped=");
    put_decimal(&s->lines, s->skipped);
    put_text(&s->lines, " bytes=");
    put_decimal(&s->lines, s->place);
    put_text(&s->lines, "\n");
}

/* A number with a comma before every three digits. */
static void tell_grouped(uint64_t number)
{
    if (number >= 1000) {
        tell_grouped(number / 1000);
        fprintf(stderr, ",%03u", (unsigned)(number % 1000));
    } else
        fprintf(stderr, "%u", (unsigned)number);
}

static void tell_strays(const char *name, uint64_t count, uint64_t first, const char *why)
{
    if (count == 0)
        return;
    fprintf(stderr, "bussave: %s: ", name);
    tell_grouped(count);
    fprintf(stderr, " whole record%s skipped from byte %llu on: %s; see LINES\n", count == 1 ? "" : "s",
            (unsigned long long)first, why);
}

/* The last lines come last of all: what they say was saved is on the disk. */
static void close_all(saving *s, int damaged)
{
    flush(&s->clean);
    if (fsync(s->clean.file) != 0 || close(s->clean.file) != 0)
        fail(s->clean.name);
    close(damaged);
    flush(&s->lines);
}

int main(int count, char **arguments)
{
    static saving s = {.reach = PLAIN_TIMES - 1}; /* "the first kept may have any time" */
    if (count != 3) {
        fprintf(stderr, "usage: save DAMAGED CLEAN\n");
        return 2;
    }
    int damaged = open(arguments[1], O_RDONLY | O_CLOEXEC);
    if (damaged < 0)
        fail(arguments[1]);
    s.lines.name = "standard output";
    s.lines.file = STDOUT_FILENO;
    s.clean.name = arguments[2];
    s.clean.file = open(arguments[2], O_WRONLY | O_CREAT | O_EXCL | O_CLOEXEC, 0666);
    if (s.clean.file < 0)
        fail(arguments[2]);
    put_text(&s.lines, "# bussave ");
    put_text(&s.lines, arguments[1]);
    put_text(&s.lines, "\n");
    save_first(&s, damaged, arguments[1]);
    save_rest(&s, damaged, arguments[1]);
    put_end(&s);
    close_all(&s, damaged);
    if (s.records == 0 && s.place > 1)
        fprintf(stderr, "bussave: %s: no record in it could be kept\n", arguments[1]);
    tell_strays(arguments[1], s.late, s.first_late, "more than 10 s after the one before");
    tell_strays(arguments[1], s.early, s.first_early, "earlier than the one before");
    return 0;
}
