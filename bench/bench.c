/* Prints the word records of a file and, given a plan, judges them as the records that came back. Over include/buscard.h alone, as a
 * user's own program would be.
 *     bench FILE
 *     bench FILE COMMANDS FIRST SECOND BUS E Q
 * Exit status: 0 all read (and judged); 1 the input was refused; 2 wrong usage, a file that cannot be read, output that cannot be written;
 * 3 two functions of the library disagree, which is proved not to happen. */
#include "buscard.h"

#include <errno.h>
#include <inttypes.h>
#include <stdio.h>
#include <stdlib.h>
#include <string.h>

enum { ALL_READ, REFUSED, UNUSABLE, DISAGREE };

/* The words of document 01, and of request i. Of refusal 6 the half that is about records: this program has no events. */
static const char *const verdicts[] = {
    [BUS_VERDICT_GOOD] = "good",
    [BUS_VERDICT_NO_RESPONSE] = "no response",
    [BUS_VERDICT_WAITING] = "still waiting",
    [BUS_VERDICT_EARLY] = "early",
    [BUS_VERDICT_LATE] = "late",
    [BUS_VERDICT_INVALID] = "not valid",
    [BUS_VERDICT_SYNC] = "data sync for a status, or command sync for data",
    [BUS_VERDICT_ADDRESS] = "wrong address",
    [BUS_VERDICT_ERROR] = "message error",
    [BUS_VERDICT_BUSY] = "busy",
    [BUS_VERDICT_SPACING] = "data more than 205 after the last word, or missing",
    [BUS_VERDICT_LEFT_OVER] = "a record left over",
    [BUS_VERDICT_OVERLAP] = "data less than 195 after the last word",
};
static const char *const refusals[] = {
    [BUS_REFUSED_NONE] = "none",
    [BUS_REFUSED_TABLE_SIZE] = "a lent word table is not 1,024 words, a lent mask table not 32 masks",
    [BUS_REFUSED_OWN_ADDRESS] = "own address above 30",
    [BUS_REFUSED_SHORT_RECORD] = "fewer than 16 bytes for a record",
    [BUS_REFUSED_RECORD_LENGTH] = "record length not 14",
    [BUS_REFUSED_OUT_OF_RANGE] = "a field or a time out of range",
    [BUS_REFUSED_OUT_OF_ORDER] = "returned record not later than the one before (E first) or after Q",
    [BUS_REFUSED_IMPOSSIBLE_PLAN] = "impossible plan",
    [BUS_REFUSED_WRONG_VERSION] = "version not 1, or no byte",
    [BUS_REFUSED_NO_ROOM] = "fewer than 16 bytes to write a record",
};
static const char another_bus[] = "a record of another bus than the plan's";

/* Numbers are appended, and a later library may give one that this program does not know. */
#define WORDS(table, number) ((number) < sizeof(table) / sizeof *(table) && (table)[number] ? (table)[number] : "a number without words here")

/* ---- complaints */

static int usage(void)
{
    fputs("bench - print the word records of a file, and judge them as what came back\n"
          "usage: bench FILE\n"
          "       bench FILE COMMANDS FIRST SECOND BUS E Q      FIRST and SECOND hexadecimal, the rest decimal\n"
          "example: bench flight.rec 1 2842 0 0 1400 1900\n",
          stderr);
    return UNUSABLE;
}

static int unusable(const char *what, int reason)
{
    fprintf(stderr, "bench: %s: %s\n", what, strerror(reason));
    return UNUSABLE;
}

static int refused_at(uint8_t number, uint64_t record, uint64_t byte, const char *words)
{
    printf("refused %u record=%" PRIu64 " byte=%" PRIu64 ": %s\n", number, record, byte, words);
    return REFUSED;
}

static uint64_t byte_of(uint64_t record)
{
    return BUS_VERSION_BYTES + BUS_RECORD_BYTES * record;
}

/* ---- the plan of the command line */

typedef struct {
    uint8_t commands, bus;
    uint16_t first, second;
    uint64_t last, until;
} Plan;

enum { COMMANDS, FIRST, SECOND, BUS, E, Q, PLAN_ARGUMENTS };

/* An argument may be any number that the library's parameter can hold: what is out of range, the library refuses. */
static const struct {
    const char *name, *wants;
    unsigned base;
    size_t digits;
    uint64_t most;
} wanted[PLAN_ARGUMENTS] = {
    [COMMANDS] = {"COMMANDS", "a decimal number up to 255", 10, 3, UINT8_MAX},
    [FIRST] = {"FIRST", "1 to 4 hexadecimal digits", 16, 4, UINT16_MAX},
    [SECOND] = {"SECOND", "1 to 4 hexadecimal digits", 16, 4, UINT16_MAX},
    [BUS] = {"BUS", "a decimal number up to 255", 10, 3, UINT8_MAX},
    [E] = {"E", "a decimal number up to 18446744073709551615", 10, 20, UINT64_MAX},
    [Q] = {"Q", "a decimal number up to 18446744073709551615", 10, 20, UINT64_MAX},
};

static unsigned digit_of(char c)
{
    static const char small[] = "0123456789abcdef", large[] = "0123456789ABCDEF";
    for (unsigned digit = 0; digit < 16; digit++)
        if (c == small[digit] || c == large[digit])
            return digit;
    return 16;
}

/* Digits and nothing else: strtoull would also take a sign, spaces and 0x. */
static int read_number(const char *text, unsigned base, size_t digits, uint64_t most, uint64_t *number)
{
    uint64_t sum = 0;
    if (*text == '\0' || strlen(text) > digits)
        return 0;
    for (; *text; text++) {
        unsigned digit = digit_of(*text);
        if (digit >= base || sum > (most - digit) / base)
            return 0;
        sum = sum * base + digit;
    }
    *number = sum;
    return 1;
}

static int read_plan(char **arguments, Plan *plan)
{
    uint64_t numbers[PLAN_ARGUMENTS];
    for (unsigned i = 0; i < PLAN_ARGUMENTS; i++)
        if (!read_number(arguments[i], wanted[i].base, wanted[i].digits, wanted[i].most, &numbers[i])) {
            fprintf(stderr, "bench: %s wants %s, not \"%s\"\n", wanted[i].name, wanted[i].wants, arguments[i]);
            return 0;
        }
    plan->commands = (uint8_t)numbers[COMMANDS];
    plan->first = (uint16_t)numbers[FIRST];
    plan->second = (uint16_t)numbers[SECOND];
    plan->bus = (uint8_t)numbers[BUS];
    plan->last = numbers[E];
    plan->until = numbers[Q];
    return 1;
}

/* ---- the bytes of the file */

typedef struct {
    uint8_t *bytes;
    size_t size, room;
} File;

/* Room is doubled, since nobody knows the size of a pipe; realloc gives up long before the doubling could wrap. */
static int grow(File *file)
{
    size_t room = file->room ? 2 * file->room : 65536;
    uint8_t *bytes = realloc(file->bytes, room);
    if (!bytes)
        return 0;
    file->bytes = bytes;
    file->room = room;
    return 1;
}

/* Gives 0 or the system's reason. */
static int read_to_end(FILE *in, File *file)
{
    while (!feof(in)) {
        if (file->size == file->room && !grow(file))
            return ENOMEM;
        file->size += fread(file->bytes + file->size, 1, file->room - file->size, in);
        if (ferror(in))
            return errno;
    }
    return 0;
}

/* Spare room goes back, so that a memory checker sees a byte read behind the file. */
static void shrink(File *file)
{
    uint8_t *bytes = file->size ? realloc(file->bytes, file->size) : NULL;
    if (bytes)
        file->bytes = bytes;
}

static int read_file(const char *name, File *file)
{
    FILE *in = fopen(name, "rb");
    if (!in)
        return unusable(name, errno);
    int reason = read_to_end(in, file);
    fclose(in);
    shrink(file);
    return reason ? unusable(name, reason) : ALL_READ;
}

/* ---- the records */

/* Prints the record at the front of the bytes, or gives its refusal. */
static uint8_t print_record(uint64_t number, const uint8_t *bytes, size_t n)
{
    uint64_t time;
    uint8_t bus, sync, faults, parity;
    uint16_t word;
    uint8_t refused = bus_record_read(bytes, n, &time, &bus, &sync, &faults, &word, &parity);
    if (!refused)
        printf("%" PRIu64 " %" PRIu64 " %c sync=%u faults=%u word=%04X parity=%u valid=%u\n", number, time, bus == BUS_B ? 'B' : 'A', sync, faults,
               word, parity, bus_word_valid(sync, faults, word, parity));
    return refused;
}

static int disagree(uint8_t refused, uint64_t printed, uint8_t checked, uint64_t records)
{
    fprintf(stderr, "bench: record by record: refused %u after %" PRIu64 "; bus_file_check: refused %u, records %" PRIu64 "\n", refused, printed,
            checked, records);
    return DISAGREE;
}

static int print_file(const File *file)
{
    uint64_t records = 0, printed = 0;
    uint8_t checked = bus_file_check(file->bytes, file->size, &records), refused = BUS_REFUSED_NONE;
    if (checked == BUS_REFUSED_WRONG_VERSION)
        return refused_at(checked, 0, 0, WORDS(refusals, checked));
    for (size_t at = BUS_VERSION_BYTES; at < file->size && !refused; at += BUS_RECORD_BYTES) {
        refused = print_record(printed, file->bytes + at, file->size - at);
        printed += !refused;
    }
    if (refused != checked || (!refused && printed != records))
        return disagree(refused, printed, checked, records);
    if (refused)
        return refused_at(refused, printed, byte_of(printed), WORDS(refusals, refused));
    printf("records: %" PRIu64 "\n", printed);
    return ALL_READ;
}

/* ---- the verdict */

/* Judges the first so many records of the file. */
static uint8_t judge(const Plan *plan, const File *file, size_t count, uint8_t *verdict)
{
    return bus_verdict_give(plan->commands, plan->first, plan->second, plan->bus, plan->last, plan->until, file->bytes + BUS_VERSION_BYTES,
                            BUS_RECORD_BYTES * count, verdict);
}

/* How many records it takes until the plan is refused: none, and it is wrong by itself, or the last of them is the bad one. A record more
 * takes no refusal back, so that halving finds it. */
static size_t count_until_refused(const Plan *plan, const File *file, size_t count)
{
    size_t least = 0, most = count;
    uint8_t verdict;
    while (least < most) {
        size_t middle = least + (most - least) / 2;
        if (judge(plan, file, middle, &verdict))
            most = middle;
        else
            least = middle + 1;
    }
    return most;
}

static int judge_file(const Plan *plan, const File *file)
{
    size_t count = (file->size - BUS_VERSION_BYTES) / BUS_RECORD_BYTES;
    uint8_t verdict = 0, refused = judge(plan, file, count, &verdict);
    if (!refused) {
        printf("verdict %u: %s\n", verdict, WORDS(verdicts, verdict));
        return ALL_READ;
    }
    size_t taken = count_until_refused(plan, file, count);
    if (taken == 0) {
        printf("refused %u %s: %s\n", refused, refused == BUS_REFUSED_IMPOSSIBLE_PLAN ? "COMMANDS FIRST SECOND" : "BUS E Q", WORDS(refusals, refused));
        return REFUSED;
    }
    /* Every field is in range, or the file had been refused: of a record, 5 can only mean its bus. */
    const char *words = refused == BUS_REFUSED_OUT_OF_RANGE ? another_bus : WORDS(refusals, refused);
    return refused_at(refused, taken - 1, byte_of(taken - 1), words);
}

int main(int count, char **arguments)
{
    int judging = count == 2 + PLAN_ARGUMENTS;
    Plan plan = {0};
    File file = {0};
    if ((count != 2 && !judging) || (judging && !read_plan(arguments + 2, &plan)))
        return usage();
    setvbuf(stdout, NULL, _IOFBF, 65536);
    int status = read_file(arguments[1], &file);
    if (status == ALL_READ)
        status = print_file(&file);
    if (status == ALL_READ && judging)
        status = judge_file(&plan, &file);
    free(file.bytes);
    /* A full disk shows only when the last of the output is written. */
    if (fflush(stdout) || ferror(stdout))
        return unusable("standard output", errno);
    return status;
}
