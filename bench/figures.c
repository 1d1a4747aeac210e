/* The times of the proved functions and of plain C (plain.c, course.c), in one table: figures [short], where short is fewer
 * rounds. A loop is written once and taken in whole for each side, so that what is timed is a direct call into another unit with
 * the parameters of that side's own header. Neither side pays for a wrapper; where plain C takes a pointer to a struct, ours
 * takes and gives its fields one by one, and that is in our time. Each pass gives a sum of all that came out, and the two
 * sides must give the same. */
#include "common.h"
#include "course.h"
#include "ours.h"
#include "plans.h"

#include <stdio.h>
#include <stdlib.h>
#include <string.h>

#define FILE_RECORDS 1000000
#define RECORDS 4096 /* of the rows read and write: few enough to stay in the cache */
#define PLANS 1000
#define CALLS 1000000

/* How often a pass does all of it. */
#define WORD_TURNS 16
#define RECORD_TURNS 64
#define PLAN_TURNS 20

#define IN_WHOLE static inline __attribute__((always_inline))

static uint8_t file[1 + PLAIN_RECORD * (size_t)FILE_RECORDS];
static plain_record records[RECORDS];
static uint8_t written[PLAIN_RECORD * RECORDS];
static Case cases[PLANS];
static uint8_t course[COURSE_CALL * (size_t)CALLS];

/* ---- one pass of each row */

typedef int Valid(uint8_t, uint8_t, uint16_t, uint8_t);
typedef unsigned Read(const uint8_t *, size_t, plain_record *);
typedef unsigned Write(uint8_t *, size_t, const plain_record *);
typedef unsigned Check(const uint8_t *, size_t, uint64_t *);
typedef unsigned Verdict(const plain_plan *, const uint8_t *, size_t, uint8_t *, uint8_t *);

IN_WHOLE uint64_t judge_words(Valid *valid)
{
    uint64_t sum = 0;
    for (unsigned turn = 0; turn < WORD_TURNS; turn++)
        for (unsigned word = 0; word < 65536; word++)
            sum += (unsigned)valid(turn % 2, 0, (uint16_t)word, word % 2);
    return sum;
}

IN_WHOLE uint64_t read_records(Read *read)
{
    uint64_t sum = 0;
    for (unsigned turn = 0; turn < RECORD_TURNS; turn++)
        for (unsigned i = 0; i < RECORDS; i++) {
            plain_record r = {0};
            sum += read(file + 1 + PLAIN_RECORD * i, PLAIN_RECORD, &r);
            sum += r.time + r.word + r.bus + r.sync + r.faults + r.parity;
        }
    return sum;
}

IN_WHOLE uint64_t write_records(Write *write)
{
    uint64_t sum = 0;
    for (unsigned turn = 0; turn < RECORD_TURNS; turn++)
        for (unsigned i = 0; i < RECORDS; i++)
            sum += write(written + PLAIN_RECORD * i, PLAIN_RECORD, &records[i]);
    /* once a pass, less than a hundredth of its time */
    for (unsigned i = 0; i < sizeof written; i += sizeof(uint64_t)) {
        uint64_t eight;
        memcpy(&eight, written + i, sizeof eight);
        sum = sum * 31 + eight;
    }
    memset(written, 0, sizeof written);
    return sum;
}

IN_WHOLE uint64_t check_file(Check *check)
{
    uint64_t found = 0;
    unsigned refused = check(file, sizeof file, &found);
    return found + refused;
}

IN_WHOLE uint64_t judge_plans(Verdict *give)
{
    uint64_t sum = 0;
    for (unsigned turn = 0; turn < PLAN_TURNS; turn++)
        for (unsigned i = 0; i < PLANS; i++) {
            uint8_t verdict = 0, looked = 0;
            sum = sum * 31 + give(&cases[i].plan, cases[i].bytes, cases[i].n, &verdict, &looked);
            sum = sum * 31 + verdict;
            sum = sum * 31 + looked;
        }
    return sum;
}

static uint64_t ours_words(void) { return judge_words(ours_valid); }
static uint64_t plain_words(void) { return judge_words(plain_valid); }
static uint64_t ours_reads(void) { return read_records(ours_record_read); }
static uint64_t plain_reads(void) { return read_records(plain_record_read); }
static uint64_t ours_writes(void) { return write_records(ours_record_write); }
static uint64_t plain_writes(void) { return write_records(plain_record_write); }
static uint64_t ours_check(void) { return check_file(ours_file_check); }
static uint64_t plain_check(void) { return check_file(plain_file_check); }
static uint64_t ours_plans(void) { return judge_plans(ours_verdict); }
static uint64_t plain_plans(void) { return judge_plans(plain_verdict); }
static uint64_t ours_course(void) { return course_play(course, sizeof course, false); }
static uint64_t plain_course(void) { return plain_course_play(course, sizeof course, false); }
static uint64_t ours_asked(void) { return course_play(course, sizeof course, true); }
static uint64_t plain_asked(void) { return plain_course_play(course, sizeof course, true); }

/* ---- the table */

typedef struct {
    const char *what;
    uint64_t (*pass[2])(void); /* ours, plain C */
    double items;              /* of a pass */
} Row;

static const Row rows[] = {
    {"word judged", {ours_words, plain_words}, WORD_TURNS * 65536.0},
    {"record read", {ours_reads, plain_reads}, (double)RECORD_TURNS * RECORDS},
    {"record write", {ours_writes, plain_writes}, (double)RECORD_TURNS * RECORDS},
    {"file check", {ours_check, plain_check}, FILE_RECORDS},
    {"verdict", {ours_plans, plain_plans}, (double)PLAN_TURNS * PLANS},
    {"terminal event", {ours_course, plain_course}, CALLS},
    {"event, asked", {ours_asked, plain_asked}, CALLS},
};

#define ROWS (sizeof rows / sizeof *rows)

static double best[ROWS][2]; /* nanoseconds an item */

/* One pass of each side. The sides take turns at being first, since the second finds the cache filled. */
static void measure(unsigned at, unsigned first)
{
    const Row *row = &rows[at];
    uint64_t sums[2];
    for (unsigned turn = 0; turn < 2; turn++) {
        unsigned side = first ^ turn;
        double start = now();
        sums[side] = row->pass[side]();
        double took = (now() - start) / row->items;
        if (best[at][side] == 0 || took < best[at][side])
            best[at][side] = took;
    }
    if (sums[0] != sums[1]) {
        printf("%s: ours and plain C differ\n", row->what);
        exit(1);
    }
}

/* A round is a pass of every row, so that a busy moment of the machine spoils a little of each and not all of one. */
static void measure_all(unsigned rounds)
{
    for (unsigned round = 0; round < rounds; round++)
        for (unsigned at = 0; at < ROWS; at++)
            measure(at, round % 2);
}

static void print_table(void)
{
    printf("%-16s%10s%12s%8s\n", "what", "ours, ns", "plain C, ns", "ratio");
    for (unsigned at = 0; at < ROWS; at++)
        printf("%-16s%10.2f%12.2f%8.2f\n", rows[at].what, best[at][0], best[at][1], best[at][0] / best[at][1]);
}

/* Seven plans in eight have a good course; gives how many records they have at the mean. */
static double make_cases(void)
{
    double total = 0;
    for (unsigned i = 0; i < PLANS; i++) {
        good_course(&cases[i]);
        lay(&cases[i]);
        if (i % 8 == 0)
            damage(&cases[i]);
        total += (double)(cases[i].n / PLAIN_RECORD);
    }
    return total / PLANS;
}

int main(int count, char **arguments)
{
    int brief = count == 2 && strcmp(arguments[1], "short") == 0;
    if (count > 1 && !brief) {
        fprintf(stderr, "usage: figures [short]\n");
        return 2;
    }
    unsigned rounds = brief ? 4 : 50;
    draw_file(file, FILE_RECORDS);
    for (unsigned i = 0; i < RECORDS; i++)
        records[i] = draw_record(16, 1, 3);
    double mean = make_cases();
    size_t events = course_make(course, CALLS);
    measure_all(rounds);
    print_table();
    printf("best of %u rounds, ours and plain C in turn; file check: a record of a file of %d\n", rounds, FILE_RECORDS);
    printf("verdict: a plan of %d, seven in eight good, %.1f records at the mean\n", PLANS, mean);
    printf("terminal event: a call of a course of %d, %.1f %% of them events, refused ones too; reading the 16 bytes is in it on both sides\n",
           CALLS, 100.0 * (double)events / CALLS);
    printf("event, asked: the same, and the host asks for the next moment after each event\n");
    return 0;
}
