/* The terminal for this machine's own processor, built by bench/native: native times | copies. It times an event against plain C over the course of
 * figures.c, without and with the host's question for the next moment after each event, or says how many bytes a call copies, where the code was
 * built to count them. */
#include "common.h"
#include "course.h"

#include <stdio.h>
#include <string.h>

#define CALLS 1000000
#define ROUNDS 50

static uint8_t course[COURSE_CALL * (size_t)CALLS];
static uint64_t copied;

typedef uint64_t Play(const uint8_t *calls, size_t n, bool ask);

/* course_play of course.h, for this processor; and that of other sources, where bench/native was given some. */
Play native_play;
__attribute__((weak)) Play other_play;

void native_copied(uint64_t bytes);
void native_copied(uint64_t bytes) { copied += bytes; }

/* ---- the sides, each timed without and with the question */

enum { PLAIN, OURS, OTHER };

static Play *const plays[] = {[PLAIN] = plain_course_play, [OURS] = native_play, [OTHER] = other_play};
static const char *const names[] = {[PLAIN] = "plain C", [OURS] = "ours", [OTHER] = "the other sources"};
static double best[3][2]; /* nanoseconds a call */

/* A pass of each side, beginning with that one; gives whether the sums are equal, and says which is not. */
static int measure(unsigned sides, unsigned first, bool ask)
{
    uint64_t sums[3];
    for (unsigned turn = 0; turn < sides; turn++) {
        unsigned side = (first + turn) % sides;
        double start = now();
        sums[side] = plays[side](course, sizeof course, ask);
        double took = (now() - start) / CALLS;
        if (best[side][ask] == 0 || took < best[side][ask])
            best[side][ask] = took;
    }
    for (unsigned side = 1; side < sides; side++)
        if (sums[side] != sums[PLAIN]) {
            printf("%s and plain C differ\n", names[side]);
            return 0;
        }
    return 1;
}

/* Each side is first in turn. A question is what an event with one takes more than one without. */
static int print_times(size_t events)
{
    unsigned sides = other_play ? 3 : 2;
    for (unsigned round = 0; round < ROUNDS; round++)
        if (!measure(sides, round % sides, false) || !measure(sides, round % sides, true))
            return 1;
    for (unsigned side = 0; side < sides; side++)
        printf("    %-18s%7.2f ns, ratio to plain C %.3f; with the question %7.2f ns, ratio %.3f, the question %.2f ns\n", names[side],
               best[side][0], best[side][0] / best[PLAIN][0], best[side][1], best[side][1] / best[PLAIN][1],
               (best[side][1] - best[side][0]) * CALLS / (double)events);
    return 0;
}

int main(int count, char **arguments)
{
    int times = count == 2 && strcmp(arguments[1], "times") == 0;
    if (count != 2 || (!times && strcmp(arguments[1], "copies") != 0)) {
        fprintf(stderr, "usage: native times | copies\n");
        return 2;
    }
    size_t events = course_make(course, CALLS);
    if (times)
        return print_times(events);
    native_play(course, sizeof course, false);
    printf("%.1f bytes\n", (double)copied / CALLS);
    return 0;
}
