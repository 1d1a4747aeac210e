/* What busdump does, in plain C, made from the text of requests a and i of document 02, read as DECISIONS 42 to 46 read
 * them, and not from the crates: dump [-e] [-v] FILE. It writes the same lines in constant memory: two walks over the file, one a bus, each
 * giving the entries of its bus in order, are merged by the place of an entry's first record; and it says the same of a refused
 * file. Exit status: 0 the log is written, also of a refused file; 2 wrong usage, or a file that cannot be read. */
#include "commands.h"
#include "plain.h"

#include <endian.h>
#include <errno.h>
#include <fcntl.h>
#include <stdbool.h>
#include <stdio.h>
#include <stdlib.h>
#include <string.h>
#include <unistd.h>

#define BLOCK 65536 /* whole records: the version byte is read by itself */
#define LINE_MOST 512
#define PARITY_AT 180    /* a gap runs from "the middle of its parity bit" */
#define SPACED_LEAST 195 /* "195 to 205 after the one before" */
#define SPACED_MOST 205
#define STATUS_LEAST 220 /* gaps of 40 and 120 */
#define STATUS_MOST 300
#define OPEN_MOST 320 /* the next record of an entry is at most so long after its last; also a gap of 140 */

enum { COMMAND_SYNC, DATA_SYNC };

typedef struct {
    uint64_t time;
    uint16_t word;
    uint8_t bus, sync, faults, parity;
    bool valid;
} record;

/* ---- mode codes */

/* One bit a mode code. */
#define MODES_TRANSMIT 0x000D01FFu      /* T/R 1: 0 to 8, 16, 18, 19 */
#define MODES_RECEIVE 0x00320000u       /* T/R 0: 17, 20, 21 */
#define MODES_NOT_BROADCAST 0x000D0005u /* 0, 2, 16, 18, 19 */
#define MODES_SENDING 0x000D0000u       /* a data word comes back: 16, 18, 19 */
#define MODES_EXEMPT 0x00040004u        /* message error and busy are not judged: 2, 18 */

/* "One: not a broadcast transmit unless a mode command; a mode command as in the code table." */
static bool is_possible(uint16_t command)
{
    if (!is_mode(command))
        return !(transmits(command) && is_broadcast(command));
    uint32_t modes = transmits(command) ? MODES_TRANSMIT : MODES_RECEIVE;
    if (is_broadcast(command))
        modes &= ~MODES_NOT_BROADCAST;
    return modes >> count_of(command) & 1;
}

/* The data words that the controller sends after a possible command: a T/R 0 mode code of the table has one. */
static unsigned words_sent(uint16_t command)
{
    if (transmits(command))
        return 0;
    return is_mode(command) ? 1 : words_of(command);
}

/* The data words that come back after the status of a possible command. */
static unsigned words_back(uint16_t command)
{
    if (is_mode(command))
        return MODES_SENDING >> count_of(command) & 1;
    return transmits(command) ? words_of(command) : 0;
}

static bool is_exempt(uint16_t command)
{
    return is_mode(command) && MODES_EXEMPT >> count_of(command) & 1;
}

/* ---- an entry */

enum { GOOD, NO_RESPONSE, WAITING, EARLY, LATE, INVALID, SYNC, ADDRESS, MESSAGE_ERROR, BUSY, SPACING, LEFT_OVER, OVERLAP, NONE };

/* What the next record of an entry must be. A record that is something else decides the verdict, so until then the entry's
 * last record is also the last word of the rules. */
enum { OWN_WORD, FIRST_STATUS, DATA_WORD, SECOND_STATUS, NOTHING, DECIDED };

typedef struct {
    uint64_t place;         /* of the first record in the file, from 0 */
    uint64_t last;          /* the last record's time */
    uint64_t records, data; /* all records, and the valid data words */
    record first;           /* a single record is kept whole */
    int gap;                /* before the first status */
    uint16_t commands[2], statuses[2];
    uint8_t command_count, status_count; /* no command: a single record */
    bool owes[2];                        /* a status of this command's address is expected */
    uint8_t phase, verdict;
    uint8_t own_left, data_left; /* words to come, of the controller and back */
} entry;

static bool is_spaced(uint64_t distance)
{
    return distance >= SPACED_LEAST && distance <= SPACED_MOST;
}

static void decide(entry *e, unsigned verdict)
{
    e->phase = DECIDED;
    e->verdict = (uint8_t)verdict;
}

static void await_first_status(entry *e)
{
    bool broadcast = e->command_count == 1 && is_broadcast(e->commands[0]);
    e->phase = broadcast ? NOTHING : FIRST_STATUS;
}

static void await_data(entry *e)
{
    if (e->data_left > 0)
        e->phase = DATA_WORD;
    else /* "for two commands the transmitter's status and data, then the receiver's status" */
        e->phase = e->command_count == 2 && !is_broadcast(e->commands[0]) ? SECOND_STATUS : NOTHING;
}

static void start(entry *e, const record *r, uint64_t place)
{
    *e = (entry){.place = place, .last = r->time, .records = 1, .first = *r};
    if (!r->valid || r->sync != COMMAND_SYNC)
        return;
    e->commands[0] = r->word;
    e->command_count = 1;
    e->owes[0] = !is_broadcast(r->word);
    if (!is_possible(r->word)) {
        decide(e, NONE);
        return;
    }
    e->own_left = (uint8_t)words_sent(r->word);
    e->data_left = (uint8_t)words_back(r->word);
    if (e->own_left > 0)
        e->phase = OWN_WORD;
    else
        await_first_status(e);
}

/* The very next record after a receive command: "within 195 to 205 .. transmits, to another address .. and 31, no mode
 * command, equal count field". It is known to be valid and to have command sync. */
static bool is_second_command(const entry *e, uint16_t word, uint64_t distance)
{
    uint16_t receive = e->commands[0];
    return e->records == 1 && !transmits(receive) && !is_mode(receive) && is_spaced(distance) && transmits(word) &&
           !is_mode(word) && count_of(word) == count_of(receive) && !is_broadcast(word) &&
           address_of(word) != address_of(receive);
}

static void join_second_command(entry *e, uint16_t word)
{
    e->commands[1] = word;
    e->command_count = 2;
    e->owes[1] = true;
    e->data_left = (uint8_t)words_back(word);
    await_first_status(e);
}

/* Takes a word of an address that still owes its status. The two commands have different addresses. */
static bool take_status(entry *e, uint16_t word, uint64_t distance)
{
    for (unsigned i = 0; i < e->command_count; i++) {
        if (!e->owes[i] || address_of(e->commands[i]) != address_of(word))
            continue;
        if (e->status_count == 0)
            e->gap = (int)distance - PARITY_AT;
        e->statuses[e->status_count++] = word;
        e->owes[i] = false;
        return true;
    }
    return false;
}

/* ---- its verdict */

static void judge_own_word(entry *e, const record *r, uint64_t distance)
{
    if (!is_spaced(distance) || !r->valid || r->sync != DATA_SYNC)
        decide(e, NONE);
    else if (--e->own_left == 0)
        await_first_status(e);
}

/* A record more than 320 after the last is in another entry. */
static unsigned status_verdict(uint16_t command, const record *r, uint64_t distance)
{
    if (distance < STATUS_LEAST)
        return EARLY;
    if (distance > STATUS_MOST)
        return LATE;
    if (!r->valid)
        return INVALID;
    if (r->sync != COMMAND_SYNC)
        return SYNC;
    if (address_of(r->word) != address_of(command))
        return ADDRESS;
    if (is_exempt(command))
        return GOOD;
    if (r->word & PLAIN_MESSAGE_ERROR)
        return MESSAGE_ERROR;
    return r->word & PLAIN_BUSY ? BUSY : GOOD;
}

static void judge_first_status(entry *e, const record *r, uint64_t distance)
{
    unsigned verdict = status_verdict(e->commands[e->command_count - 1], r, distance);
    if (verdict != GOOD)
        decide(e, verdict);
    else
        await_data(e);
}

static void judge_second_status(entry *e, const record *r, uint64_t distance)
{
    unsigned verdict = status_verdict(e->commands[0], r, distance);
    if (verdict != GOOD)
        decide(e, verdict);
    else
        e->phase = NOTHING;
}

static void judge_data_word(entry *e, const record *r, uint64_t distance)
{
    if (distance < SPACED_LEAST) /* "10 separated or missing and 12 overlapping" */
        decide(e, OVERLAP);
    else if (distance > SPACED_MOST)
        decide(e, SPACING);
    else if (!r->valid)
        decide(e, INVALID);
    else if (r->sync != DATA_SYNC)
        decide(e, SYNC);
    else if (--e->data_left == 0)
        await_data(e);
}

static void judge(entry *e, const record *r, uint64_t distance)
{
    switch (e->phase) {
    case OWN_WORD:
        judge_own_word(e, r, distance);
        break;
    case FIRST_STATUS:
        judge_first_status(e, r, distance);
        break;
    case DATA_WORD:
        judge_data_word(e, r, distance);
        break;
    case SECOND_STATUS:
        judge_second_status(e, r, distance);
        break;
    case NOTHING:
        decide(e, LEFT_OVER);
        break;
    }
    /* whatever was decided: times never go back, so two records with one time stand next to each other */
    if (distance == 0)
        decide(e, NONE);
}

/* What is decided by listening for so many ticks after the last record. */
static void judge_silence(entry *e, uint64_t silence)
{
    switch (e->phase) {
    case OWN_WORD:
        decide(e, NONE);
        break;
    case FIRST_STATUS:
    case SECOND_STATUS:
        decide(e, silence >= OPEN_MOST ? NO_RESPONSE : WAITING);
        break;
    case DATA_WORD:
        decide(e, silence > SPACED_MOST ? SPACING : WAITING);
        break;
    case NOTHING:
        decide(e, silence < STATUS_LEAST ? WAITING : GOOD);
        break;
    }
}

/* ---- lines out, a block at a time */

static struct {
    size_t n;
    char bytes[BLOCK];
} out;

static void tell(const char *name)
{
    fprintf(stderr, "dump: %s: %s\n", name, strerror(errno));
}

static void flush(void)
{
    for (size_t done = 0; done < out.n;) {
        ssize_t written = write(STDOUT_FILENO, out.bytes + done, out.n - done);
        if (written >= 0)
            done += (size_t)written;
        else if (errno != EINTR) {
            tell("standard output");
            exit(2);
        }
    }
    out.n = 0;
}

/* A line may be written where it begins, without asking for room at each part. */
static char *begin_line(void)
{
    if (BLOCK - out.n < LINE_MOST)
        flush();
    return out.bytes + out.n;
}

static void end_line(char *at)
{
    *at++ = '\n';
    out.n = (size_t)(at - out.bytes);
}

/* A name may be longer than a line's room. */
static void put_remark(const char *remark, const char *name)
{
    flush();
    dprintf(STDOUT_FILENO, "# %s %s\n", remark, name);
}

/* ---- the options */

static bool only_bad; /* -e: messages whose verdict is not 0, and single records */
static bool in_words; /* -v: the commands' fields, and what is bad in a single record's word */

/* ---- records in */

typedef struct {
    const char *name;
    int file;
    unsigned refused;           /* the refusal's number, 0 for none */
    uint8_t first[3];           /* the first bytes of a file that is refused with 8, and how many there are */
    size_t firsts;
    uint64_t read;              /* records of either bus that were read */
    uint64_t time;              /* of the last of them */
    const uint8_t *at, *behind; /* the bytes of the block that are still to be read */
    uint8_t block[BLOCK];
} reader;

static void fail(const char *name)
{
    tell(name);
    put_remark("error", name);
    exit(2);
}

static size_t read_some(reader *in, uint8_t *bytes, size_t n)
{
    ssize_t got;
    while ((got = read(in->file, bytes, n)) < 0)
        if (errno != EINTR)
            fail(in->name);
    return (size_t)got;
}

/* A block is cut short by the end of the file alone, so that no record lies in two of them. */
static bool read_block(reader *in)
{
    size_t n = 0, got;
    while (n < BLOCK && (got = read_some(in, in->block + n, BLOCK - n)) > 0)
        n += got;
    in->at = in->block;
    in->behind = in->block + n;
    return n > 0;
}

static void open_reader(reader *in, const char *name)
{
    in->name = name;
    in->file = open(name, O_RDONLY | O_CLOEXEC);
    if (in->file < 0)
        fail(name);
    in->at = in->behind = in->block;
    if (read_some(in, in->first, 1) == 1 && in->first[0] == 1)
        return;
    in->refused = 8;
    in->firsts = (size_t)pread(in->file, in->first, sizeof in->first, 0);
}

static inline uint64_t big_endian_8(const uint8_t *bytes)
{
    uint64_t number;
    memcpy(&number, bytes, sizeof number);
    return be64toh(number);
}

/* A record as two numbers: length and the time's upper six bytes, of which two must be 0; and the time's lower two, bus,
 * sync, faults, word, parity. */
static inline bool is_in_range(uint64_t upper, uint64_t lower)
{
    return upper >> 32 == 14u << 16 && !(lower & 0x0000FEFCFC0000FE) && (lower >> 32 & 3) != 3;
}

static inline unsigned bus_of(uint64_t lower)
{
    return lower >> 40 & 1;
}

static inline void take_apart(record *r, uint64_t time, uint64_t lower)
{
    r->time = time;
    r->bus = (uint8_t)bus_of(lower);
    r->sync = (uint8_t)(lower >> 32);
    r->faults = (uint8_t)(lower >> 24);
    r->word = (uint16_t)(lower >> 8);
    r->parity = (uint8_t)lower;
    r->valid = r->sync < 2 && r->faults == 0 && __builtin_parity(r->word) != r->parity;
}

/* "then record by record 3, 4, 5"; then 6, "A record earlier than the one before is refused with 6". 0 where it is read. */
static inline unsigned read_one(reader *in, uint64_t *lower)
{
    if (in->behind - in->at < PLAIN_RECORD)
        return 3;
    uint64_t upper = big_endian_8(in->at);
    *lower = big_endian_8(in->at + sizeof upper);
    if (!is_in_range(upper, *lower))
        return upper >> 48 != 14 ? 4 : 5;
    uint64_t time = upper << 32 >> 16 | *lower >> 48;
    if (time < in->time)
        return 6;
    in->at += PLAIN_RECORD;
    in->read++;
    in->time = time;
    return 0;
}

/* The next record of that bus; false at the end of the file and where it is refused. Those of the other bus are read for
 * their refusals and the time alone. */
static bool read_next(reader *in, unsigned bus, record *r)
{
    uint64_t lower;
    while (in->refused == 0) {
        if (in->at == in->behind && !read_block(in))
            return false;
        in->refused = read_one(in, &lower);
        if (in->refused == 0 && bus_of(lower) == bus) {
            take_apart(r, in->time, lower);
            return true;
        }
    }
    return false;
}

/* ---- the walk of one bus */

typedef struct {
    reader in;
    unsigned bus;
    bool more;   /* the next record is at hand: it begins the next entry */
    record next; /* of that bus */
    bool given;  /* there is an entry */
    entry entry;
} walk;

static void step(walk *w)
{
    w->more = read_next(&w->in, w->bus, &w->next);
}

/* Takes the next record into the entry, if it belongs there. */
static bool take(entry *e, const record *r)
{
    uint64_t distance = r->time - e->last;
    if (distance > OPEN_MOST)
        return false;
    if (r->valid && r->sync == COMMAND_SYNC) {
        if (is_second_command(e, r->word, distance))
            join_second_command(e, r->word);
        else if (take_status(e, r->word, distance))
            judge(e, r, distance);
        else
            return false;
    } else
        judge(e, r, distance);
    e->last = r->time;
    e->records++;
    e->data += r->valid && r->sync == DATA_SYNC;
    return true;
}

/* "Q is its time" of a starting command, "that last plus 320", or "the time of the file's last record". A larger silence
 * than 320 decides nothing else than 320. */
static void close_entry(entry *e, const walk *w)
{
    uint64_t until = w->more ? w->next.time : w->in.time;
    judge_silence(e, until - e->last);
}

static void next_entry(walk *w)
{
    entry *e = &w->entry;
    w->given = w->more;
    if (!w->more)
        return;
    start(e, &w->next, w->in.read - 1);
    step(w);
    if (e->command_count == 0)
        return;
    while (w->more && take(e, &w->next))
        step(w);
    close_entry(e, w);
}

static void open_walk(walk *w, const char *name, unsigned bus)
{
    w->bus = bus;
    open_reader(&w->in, name);
    step(w);
    next_entry(w);
}

/* ---- an entry's line */

static inline char *put_text(char *at, const char *text)
{
    return stpcpy(at, text);
}

static char *put_decimal(char *at, uint64_t number)
{
    char digits[20];
    unsigned from = sizeof digits;
    do
        digits[--from] = (char)('0' + number % 10);
    while ((number /= 10) > 0);
    memcpy(at, digits + from, sizeof digits - from);
    return at + (sizeof digits - from);
}

static char *put_signed(char *at, int number)
{
    if (number < 0)
        *at++ = '-';
    return put_decimal(at, (uint64_t)(number < 0 ? -number : number));
}

static char *put_word(char *at, uint16_t word)
{
    for (int shift = 12; shift >= 0; shift -= 4)
        *at++ = "0123456789ABCDEF"[word >> shift & 15];
    return at;
}

/* One word, two with a comma between, or `-`. */
static char *put_words(char *at, const uint16_t *words, unsigned n)
{
    if (n == 0)
        return put_text(at, "-");
    at = put_word(at, words[0]);
    if (n == 2) {
        *at++ = ',';
        at = put_word(at, words[1]);
    }
    return at;
}

static char *put_message(char *at, const entry *e)
{
    static const char *const verdicts[] = {
        "0 good",    "1 no-response", "2 waiting", "3 early", "4 late",     "5 invalid",    "6 sync",
        "7 address", "8 error",       "9 busy",    "10 spacing", "11 left-over", "12 overlap", "- none",
    };
    at = put_text(at, " msg cmd=");
    at = put_words(at, e->commands, e->command_count);
    at = put_text(at, " st=");
    at = put_words(at, e->statuses, e->status_count);
    at = put_text(at, " data=");
    at = put_decimal(at, e->data);
    at = put_text(at, " rec=");
    at = put_decimal(at, e->records);
    at = put_text(at, " gap=");
    at = e->status_count > 0 ? put_signed(at, e->gap) : put_text(at, "-");
    at = put_text(at, " verdict=");
    return put_text(at, verdicts[e->verdict]);
}

/* "A word is valid if its sync is one of the two shapes, no receiver fault is marked and parity is odd." */
static char *put_flaws(char *at, const record *r)
{
    const struct {
        bool is;
        const char *name;
    } flaws[] = {
        {(__builtin_popcount(r->word) + r->parity) % 2 == 0, "parity"},
        {r->faults == 1 || r->faults == 3, "manchester"},
        {r->faults == 2 || r->faults == 3, "bits"},
        {r->sync != COMMAND_SYNC && r->sync != DATA_SYNC, "sync"},
    };
    const char *mark = " bad=";
    for (unsigned i = 0; i < sizeof flaws / sizeof *flaws; i++)
        if (flaws[i].is) {
            at = put_text(put_text(at, mark), flaws[i].name);
            mark = ",";
        }
    return r->valid ? put_text(at, " bad=-") : at;
}

/* The fields of a command word: rt5,receive,sa2,count2. */
static char *put_fields(char *at, unsigned number, uint16_t command)
{
    at = put_text(put_decimal(put_text(at, " c"), number), "=");
    at = is_broadcast(command) ? put_text(at, "all") : put_decimal(put_text(at, "rt"), address_of(command));
    at = put_text(at, transmits(command) ? ",transmit" : ",receive");
    if (is_mode(command))
        return put_decimal(put_text(at, ",mode,code"), count_of(command));
    at = put_decimal(put_text(at, ",sa"), command >> 5 & 31);
    return put_decimal(put_text(at, ",count"), words_of(command));
}

static char *put_single(char *at, const record *r)
{
    at = put_text(at, " one sync=");
    at = put_decimal(at, r->sync);
    at = put_text(at, " faults=");
    at = put_decimal(at, r->faults);
    at = put_text(at, " word=");
    at = put_word(at, r->word);
    at = put_text(at, " parity=");
    return put_decimal(at, r->parity);
}

/* "every entry whose verdict is not 0 and every single record" */
static bool is_shown(const entry *e)
{
    return !only_bad || e->command_count == 0 || e->verdict != GOOD;
}

static char *put_in_words(char *at, const entry *e)
{
    if (e->command_count == 0)
        return put_flaws(at, &e->first);
    for (unsigned i = 0; i < e->command_count; i++)
        at = put_fields(at, i + 1, e->commands[i]);
    return at;
}

static void put_entry(const entry *e)
{
    if (!is_shown(e))
        return;
    char *at = put_decimal(begin_line(), e->first.time);
    at = put_text(at, e->first.bus == 0 ? " A" : " B");
    at = e->command_count > 0 ? put_message(at, e) : put_single(at, &e->first);
    end_line(in_words ? put_in_words(at, e) : at);
}

/* Both readers have come to the same end. */
static void put_end(const reader *in, uint64_t entries)
{
    char *at = begin_line();
    if (in->refused) {
        at = put_decimal(put_text(at, "# refused "), in->refused);
        at = put_decimal(put_text(at, " record="), in->read);
        at = put_decimal(put_text(at, " byte="), in->refused == 8 ? 0 : 1 + PLAIN_RECORD * in->read);
        at = put_decimal(put_text(at, " entries="), entries);
    } else {
        at = put_decimal(put_text(at, "# end entries="), entries);
        at = put_decimal(put_text(at, " records="), in->read);
    }
    end_line(at);
}

/* What a file is that begins with no version that is read. */
static void tell_beginning(const reader *in)
{
    fprintf(stderr, "busdump: %s: ", in->name);
    if (in->firsts == 0)
        fprintf(stderr, "it is empty, and a record file has a version byte");
    else if (in->firsts >= 2 && in->first[0] == 0 && in->first[1] == 14)
        fprintf(stderr, "its version byte is missing, and a record begins in its place");
    else if (in->firsts == 1 || (in->firsts == 3 && in->first[1] == 0 && in->first[2] == 14))
        fprintf(stderr, "its version is %u, and only version 1 is read", in->first[0]);
    else
        fprintf(stderr, "it is no record file: its first byte is %u, and no record begins behind it", in->first[0]);
    fprintf(stderr, " (refusal 8)\n");
}

/* Says the refusal in words: document 01, "Numbers for a refused call". */
static void tell_refusal(const reader *in)
{
    static const char *const why[] = {
        [3] = "fewer than 16 bytes are left for a record",
        [4] = "its length is not 14",
        [5] = "a field or its time is out of range",
        [6] = "it is earlier than the record before it",
    };
    if (in->refused == 8)
        tell_beginning(in);
    else if (in->refused)
        fprintf(stderr, "busdump: %s: record %llu at byte %llu: %s (refusal %u)\n", in->name, (unsigned long long)in->read,
                (unsigned long long)(1 + PLAIN_RECORD * in->read), why[in->refused], in->refused);
}

/* Puts the first line, and gives the name of the file: the options stand before it, as they were given. */
static const char *read_options(int count, char **arguments)
{
    flush();
    dprintf(STDOUT_FILENO, "# busdump ");
    for (int i = 1; i < count - 1; i++) {
        only_bad = only_bad || strcmp(arguments[i], "-e") == 0;
        in_words = in_words || strcmp(arguments[i], "-v") == 0;
        dprintf(STDOUT_FILENO, "%s ", arguments[i]);
    }
    dprintf(STDOUT_FILENO, "%s\n", arguments[count - 1]);
    return arguments[count - 1];
}

/* The walk whose entry comes first in the file; NULL after the last one. */
static walk *first_of(walk *a, walk *b)
{
    if (!a->given)
        return b->given ? b : NULL;
    return !b->given || a->entry.place < b->entry.place ? a : b;
}

int main(int count, char **arguments)
{
    static walk a, b;
    uint64_t entries = 0;
    if (count < 2) {
        fprintf(stderr, "usage: dump [-e] [-v] FILE\n");
        return 2;
    }
    const char *name = read_options(count, arguments);
    open_walk(&a, name, 0);
    open_walk(&b, name, 1);
    for (walk *first; (first = first_of(&a, &b)) != NULL; entries++) {
        put_entry(&first->entry);
        next_entry(first);
    }
    put_end(&a.in, entries);
    flush();
    tell_refusal(&a.in);
    return 0;
}
