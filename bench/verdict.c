/* Verdicts against plain C: every command word, every distance and Q around the limits, and COUNT random plans, each
 * with a good course and then with a damaged one. */
#include "ours.h"
#include "plans.h"

#include <stdio.h>

#define COUNT 1000000
#define GOOD 0
#define VERDICTS (BUS_VERDICT_LAST + 1)

/* ---- one call of each */

static unsigned long compared, differ, not_good, verdicts[VERDICTS], refusals[8], looked[256];

/* What a call gives. What is not given stays EE. */
typedef struct {
    unsigned refused;
    uint8_t verdict, looked;
} Outcome;

static const Outcome none = {0, 0xEE, 0xEE};

static void show(const plain_plan *p, const uint8_t *bytes, size_t n)
{
    printf("  plan %u %04X %04X %u %llu %llu\n", p->commands, p->first, p->second, p->bus, (unsigned long long)p->last,
           (unsigned long long)p->until);
    for (size_t i = 0; i < n; i++)
        printf("%s%02X%s", i % 16 ? "" : "  bytes ", bytes[i], i % 16 == 15 || i + 1 == n ? "\n" : "");
}

/* 1 if they differ and it is to be shown in whole. */
static int compare(const char *name, Outcome ours, Outcome right)
{
    compared++;
    if ((ours.refused == right.refused && ours.verdict == right.verdict && ours.looked == right.looked) || differ++ >= 10)
        return 0;
    printf("%s: refused %u, verdict %u, looked at %u; ", name, ours.refused, ours.verdict, ours.looked);
    printf("plain C: refused %u, verdict %u, looked at %u\n", right.refused, right.verdict, right.looked);
    return 1;
}

static void tally(Outcome right)
{
    if (right.refused) {
        refusals[right.refused]++;
        return;
    }
    verdicts[right.verdict]++;
    looked[right.looked]++;
}

/* Calls plain C and both functions of the card; 1 if plain C gives the verdict good. */
static int judge(const plain_plan *p, const uint8_t *bytes, size_t n)
{
    Outcome ours = none, given = none, right = none;
    right.refused = plain_verdict(p, bytes, n, &right.verdict, &right.looked);
    tally(right);
    ours.refused = ours_verdict(p, bytes, n, &ours.verdict, &ours.looked);
    given.refused = bus_verdict_give((uint8_t)p->commands, p->first, p->second, p->bus, p->last, p->until, bytes, n, &given.verdict);
    given.looked = right.looked;
    if (compare("bus_verdict_looked", ours, right) | compare("bus_verdict_give", given, right))
        show(p, bytes, n);
    return !right.refused && right.verdict == GOOD;
}

static int both(const Case *c)
{
    return judge(&c->plan, c->bytes, c->n);
}

static void random_plans(void)
{
    static Case c;
    for (unsigned i = 0; i < COUNT; i++) {
        good_course(&c);
        lay(&c);
        not_good += !both(&c);
        damage(&c);
        both(&c);
    }
}

/* ---- every command word, every limit */

static void with_commands(Case *c, unsigned commands, unsigned first, unsigned second)
{
    c->plan.commands = commands;
    c->plan.first = (uint16_t)first;
    c->plan.second = (uint16_t)second;
}

/* The commands, and nothing came back. */
static void unanswered(unsigned commands, unsigned first, unsigned second)
{
    static Case c = {.plan = {.last = 1000, .until = 1320}};
    with_commands(&c, commands, first, second);
    both(&c);
}

/* Every word as the one command, as the first of two and as the second; every number of commands. */
static void all_commands(void)
{
    for (unsigned word = 0; word < 65536; word++) {
        unanswered(1, word, 0);
        unanswered(2, word, plain_command_build(5, 1, 2, word));
        unanswered(2, plain_command_build(5, 0, 2, 3), word);
        unanswered(2, plain_command_build(31, 0, 2, 3), word);
    }
    for (unsigned commands = 0; commands < 256; commands++)
        unanswered(commands, plain_command_build(5, 0, 2, 3), plain_command_build(6, 1, 7, 3));
}

/* A course, cut after each record: each Q, and each distance of its last record. */
static void all_limits(unsigned commands, unsigned first, unsigned second)
{
    static Case whole = {.plan = {.last = 1000}}, cut;
    with_commands(&whole, commands, first, second);
    add_answers(&whole);
    leave_over(&whole);
    for (unsigned count = 0; count <= whole.count; count++)
        for (unsigned distance = 0; distance < 400; distance++) {
            cut = whole;
            cut.count = count;
            cut.plan.until = before(&cut, count) + distance;
            lay(&cut);
            both(&cut);
            if (count > 0)
                space(&cut, count - 1, distance);
            lay(&cut);
            both(&cut);
        }
}

static void fixed_plans(void)
{
    all_commands();
    for (unsigned code = 0; code < 32; code++) {
        all_limits(1, plain_command_build(5, 0, 0, code), 0);
        all_limits(1, plain_command_build(5, 1, 31, code), 0);
    }
    for (unsigned address = 5; address < 32; address += 26) {
        all_limits(1, plain_command_build(address, 0, 2, 3), 0);
        all_limits(2, plain_command_build(address, 0, 2, 3), plain_command_build(6, 1, 7, 3));
        all_limits(2, plain_command_build(address, 0, 2, 0), plain_command_build(6, 1, 7, 0));
    }
    all_limits(1, plain_command_build(5, 1, 2, 3), 0);
    all_limits(1, plain_command_build(5, 1, 2, 0), 0);
    plain_plan broadcast = {.commands = 1, .first = plain_command_build(31, 0, 2, 3), .last = 1000, .until = 1220};
    not_good += !judge(&broadcast, NULL, 0);
}

int main(void)
{
    fixed_plans();
    random_plans();
    printf("%d random plans, %lu calls in all: %lu differ\n", COUNT, compared, differ);
    printf("good courses not judged good: %lu\n", not_good);
    for (unsigned i = 0; i < VERDICTS; i++)
        printf("verdict %u: %lu\n", i, verdicts[i]);
    for (unsigned i = 3; i < 8; i++)
        printf("refused %u: %lu\n", i, refusals[i]);
    for (unsigned i = 0; i < 256; i++)
        if (looked[i])
            printf("looked at %u: %lu\n", i, looked[i]);
    return differ || not_good;
}
