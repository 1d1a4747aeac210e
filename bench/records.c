/* Record functions against plain C: the example of document 01, every field at and past its range, and COUNT random and
 * damaged records. */
#include "common.h"
#include "ours.h"

#include <stdio.h>
#include <string.h>

#define COUNT 1000000

static unsigned long compared, differ;

static void same(const char *what, const uint8_t *bytes, size_t n, int equal)
{
    compared++;
    if (equal || differ++ >= 10)
        return;
    printf("%s differs from plain C, %zu bytes:", what, n);
    for (size_t i = 0; i < n && i < 40; i++)
        printf(" %02X", bytes[i]);
    printf("\n");
}

/* ---- one call of each, beside plain C */

static int equal(const plain_record *a, const plain_record *b)
{
    return a->time == b->time && a->bus == b->bus && a->sync == b->sync && a->faults == b->faults && a->word == b->word && a->parity == b->parity;
}

static void read_both(const uint8_t *bytes, size_t n)
{
    static const plain_record before = {.time = 0x1122334455667788, .bus = 0x99, .sync = 0xAA, .faults = 0xBB, .parity = 0xCC, .word = 0xDDEE};
    plain_record got = before, wanted = before;
    unsigned refused = ours_record_read(bytes, n, &got), right = plain_record_read(bytes, n, &wanted);
    same("reading", bytes, n, refused == right && equal(&got, &wanted));
}

static void write_both(size_t n, const plain_record *r)
{
    uint8_t got[40], wanted[40];
    memset(got, 0xEE, sizeof got);
    memset(wanted, 0xEE, sizeof wanted);
    unsigned refused = ours_record_write(got, n, r), right = plain_record_write(wanted, n, r);
    same("writing", got, n, refused == right && memcmp(got, wanted, sizeof got) == 0);
}

static void check_both(const uint8_t *bytes, size_t n)
{
    uint64_t got = 77, wanted = 77;
    unsigned refused = bus_file_check(bytes, n, &got), right = plain_file_check(bytes, n, &wanted);
    same("checking a file", bytes, n, refused == right && got == wanted);
}

/* ---- the example, and the ends of every range */

static int example(void)
{
    static const uint8_t file[17] = {0x01, 0x00, 0x0E, 0, 0, 0, 0, 0, 0, 0x03, 0xE8, 0, 0, 0, 0x28, 0x42, 0x01};
    static const plain_record record = {.time = 1000, .word = 0x2842, .parity = 1};
    uint8_t made[17] = {1};
    uint64_t records = 0;
    plain_record got = {0};
    int wrong = ours_record_write(made + 1, 16, &record) != 0 || memcmp(made, file, 17) != 0;
    wrong |= bus_file_check(file, 17, &records) != 0 || records != 1;
    wrong |= ours_record_read(file + 1, 16, &got) != 0 || !equal(&got, &record);
    printf("the example file of one record: %s\n", wrong ? "WRONG" : "ok");
    return wrong;
}

/* Writes the record, and reads it under every length, right or wrong; into and of 0 to 33 bytes. */
static void every_room(const plain_record *r)
{
    static const uint8_t lengths[][2] = {{0, 14}, {0, 0}, {0, 13}, {0, 15}, {255, 255}, {1, 14}, {14, 0}};
    uint8_t bytes[33] = {0};
    for (size_t n = 0; n <= sizeof bytes; n++)
        write_both(n, r);
    lay_record(bytes, r);
    for (unsigned l = 0; l < 7; l++) {
        memcpy(bytes, lengths[l], 2);
        for (size_t n = 0; n <= sizeof bytes; n++)
            read_both(bytes, n);
    }
}

static void ends(void)
{
    static const uint64_t times[] = {0, 1, 1000, PLAIN_TIMES - 1, PLAIN_TIMES, (uint64_t)1 << 63, UINT64_MAX};
    static const uint8_t numbers[] = {0, 1, 2, 3, 4, 5, 255};
    for (unsigned t = 0; t < 7; t++)
        for (unsigned k = 0; k < 7; k++)
            for (unsigned field = 0; field < 4; field++) {
                plain_record r = {.time = times[t], .word = 0xABCD};
                *(uint8_t *[]){&r.bus, &r.sync, &r.faults, &r.parity}[field] = numbers[k];
                every_room(&r);
            }
    read_both(NULL, 0);
    same("writing", NULL, 0, bus_record_write(NULL, 0, 0, 0, 0, 0, 0, 0) == 9);
    check_both(NULL, 0);
}

/* Files of up to three records, cut at every length, under every version, one byte of one record changed. */
static void small_files(void)
{
    static const uint8_t versions[] = {1, 0, 2, 255};
    static const uint8_t changed[] = {0, 1, 2, 10, 11, 12, 15};
    for (unsigned v = 0; v < 4; v++)
        for (unsigned c = 0; c < 7; c++)
            for (unsigned k = 0; k < 4; k++) {
                uint8_t file[49] = {versions[v]};
                for (unsigned i = 0; i < 3; i++)
                    lay_record(file + 1 + 16 * i, &(plain_record){.time = 1000 + i, .word = 0x2842, .parity = 1});
                if (k < 3)
                    file[1 + 16 * k + changed[c]] ^= 0x44;
                for (size_t n = 0; n <= sizeof file; n++)
                    check_both(file, n);
            }
}

/* ---- random and damaged records */

static uint8_t random_file[1 + 16 * (size_t)COUNT];

/* Reads a record of the file and writes a drawn one: half of them damaged, a byte changed by a little, or anything, or the record cut short. */
static void random_record(uint8_t *bytes)
{
    unsigned kind = upto(7);
    uint8_t *hit = bytes + upto(15), before = *hit;
    if (kind < 2)
        *hit ^= (uint8_t)(1u << upto(7));
    else if (kind == 2)
        *hit = (uint8_t)draw();
    size_t n = kind == 3 ? upto(15) : 16;
    read_both(bytes, n);
    *hit = before;
    plain_record r = draw_record(upto(20), kind < 4 ? 2 : 1, kind < 2 ? 4 : 3);
    write_both(kind == 5 ? upto(33) : 16, &r);
}

static void random_records(void)
{
    draw_file(random_file, COUNT);
    check_both(random_file, sizeof random_file);
    for (size_t i = 0; i < COUNT; i++)
        random_record(random_file + 1 + 16 * i);
    for (unsigned i = 0; i < 2000; i++) {
        size_t n = upto(16 * 40), at = upto((unsigned)n);
        uint8_t before = random_file[at];
        if (i % 2)
            random_file[at] ^= (uint8_t)(1u << upto(7));
        check_both(random_file, n);
        random_file[at] = before;
    }
}

int main(void)
{
    int wrong = example();
    ends();
    small_files();
    random_records();
    printf("%d random and damaged records, %lu calls in all: %lu differ\n", COUNT, compared, differ);
    return wrong || differ;
}
