/* measure NAME JOBS WORK SLOTS MORE BUILDS < fields: the measured functions on one table, by the first BUILDS builds. It prints
 * `places NAME NUMBER` first. Alone it then prints a line `time|stack NAME BUILD PART NUMBER` for each, nanoseconds and bytes;
 * under callgrind it leaves a dump for each, named `NAME BUILD PART`, with the instructions.
 * All builds but the floor have to agree on every answer and every vector. */
#define _POSIX_C_SOURCE 199309L
#include "builds.h"
#include "slots.h"
#include <stdio.h>
#include <stdlib.h>
#include <string.h>
#include <time.h>
#include <valgrind/callgrind.h>

/* `longer` is `stand` with a thousand slots more. */
enum part { FIELDS, TABLE, STAND, LONGER, MOVING, ADMISSION, PARTS };
static const char *const parts[PARTS] = {"fields", "table", "stand", "longer", "moving", "admission"};

static const struct build *const builds[] = {&ours, &method_in_c, &plan_in_c, &pile_in_c, &only_writes};
enum { BUILDS = sizeof builds / sizeof builds[0], FLOOR = BUILDS - 1 };
enum { MOST_FIELDS = 4096, TRIES = 40, SECONDS = 4, STACK = 1 << 16 };

static uint8_t fields[MOST_FIELDS];
static size_t length;
static uint32_t jobs, slots, places;
static uint16_t work, more;
static uint16_t k[MOST_PLACES], d[MOST_PLACES], y[MOST_PLACES];

static uint64_t call(int build, int part)
{
    const struct build *b = builds[build];
    size_t room = build == FLOOR ? places : MOST_PLACES;
    switch (part) {
    case FIELDS:
        return b->fields(fields, length);
    case TABLE:
        return b->table(fields, length, k, room, d, room);
    case STAND:
        return b->stand(fields, length, jobs, work, slots, k, room, d, room, y, room);
    case LONGER:
        return b->stand(fields, length, jobs, work, slots + 1000, k, room, d, room, y, room);
    case MOVING:
        return b->moving(fields, length, jobs, work, slots, k, room, d, room, y, room);
    default:
        return b->admission(fields, length, jobs, work, slots, more, k, room, d, room, y, room);
    }
}

/* What a call gave, and the vectors after it. */
struct outcome {
    uint64_t told;
    uint16_t k[MOST_PLACES], d[MOST_PLACES], y[MOST_PLACES];
};

static void observe(struct outcome *o, int build, int part)
{
    memset(k, 0, sizeof k), memset(d, 0, sizeof d), memset(y, 0, sizeof y);
    o->told = call(build, part);
    memcpy(o->k, k, sizeof k), memcpy(o->d, d, sizeof d), memcpy(o->y, y, sizeof y);
}

static void agree(int part, int measured)
{
    static struct outcome first, other;
    observe(&first, 0, part);
    for (int b = 1; b < FLOOR && b < measured; b++) {
        observe(&other, b, part);
        if (memcmp(&first, &other, sizeof first)) {
            fprintf(stderr, "measure: %s and %s differ on %s\n", builds[0]->name, builds[b]->name, parts[part]);
            exit(1);
        }
    }
}

static double nanoseconds(void)
{
    struct timespec t;
    clock_gettime(CLOCK_PROCESS_CPUTIME_ID, &t);
    return 1e9 * (double)t.tv_sec + (double)t.tv_nsec;
}

static double time_once(int build, int part, double about)
{
    int often = about < 1e3 ? 100 : about < 1e4 ? 10 : 1;
    double start = nanoseconds();
    for (int i = 0; i < often; i++)
        call(build, part);
    return (nanoseconds() - start) / often;
}

/* The best of TRIES tries, or of as many short ones as fit in SECONDS: what a call costs is a small difference of two times. In
 * each try every part has its turn by every build, so that a quiet moment serves all, and as often by each as by the first
 * build: a call that is repeated finds its branches foreseen. */
static void time_all(const char *name, int measured)
{
    static double best[BUILDS][PARTS];
    double enough = nanoseconds() + 1e9 * SECONDS;
    for (int try = 0; try < TRIES || nanoseconds() < enough; try++)
        for (int part = 0; part < PARTS; part++)
            for (int b = 0; b < measured; b++) {
                double each = time_once(b, part, try ? best[0][part] : 1e18);
                if (!try || each < best[b][part])
                    best[b][part] = each;
            }
    for (int b = 0; b < measured; b++)
        for (int part = 0; part < PARTS; part++)
            printf("time %s %s %s %.1f\n", name, builds[b]->name, parts[part], best[b][part]);
}

/* How far a call went into the stack below: `look(true)` paints it, `look(false)` finds how much of the paint is gone. */
__attribute__((noinline)) static size_t look(bool paint)
{
    volatile uint8_t below[STACK];
    size_t clean = 0;
    if (paint)
        for (size_t i = 0; i < STACK; i++)
            below[i] = 0xA5;
    while (clean < STACK && below[clean] == 0xA5)
        clean++;
    return STACK - clean;
}

__attribute__((noinline)) static void stack_part(const char *name, int part, int measured)
{
    for (int b = 0; b < FLOOR && b < measured; b++) {
        look(true);
        call(b, part);
        printf("stack %s %s %s %zu\n", name, builds[b]->name, parts[part], look(false));
    }
}

static void count_part(const char *name, int part, int measured)
{
    for (int b = 0; b < measured; b++) {
        char text[128];
        snprintf(text, sizeof text, "%s %s %s", name, builds[b]->name, parts[part]);
        CALLGRIND_ZERO_STATS;
        call(b, part);
        CALLGRIND_DUMP_STATS_AT(text);
    }
}

int main(int words, char **word)
{
    if (words != 7) {
        fprintf(stderr, "usage: measure NAME JOBS WORK SLOTS MORE BUILDS < fields\n");
        return 2;
    }
    jobs = (uint32_t)atol(word[2]);
    work = (uint16_t)atol(word[3]);
    slots = (uint32_t)atol(word[4]);
    more = (uint16_t)atol(word[5]);
    int measured = atoi(word[6]);
    length = fread(fields, 1, sizeof fields, stdin);
    places = (uint32_t)method_in_c.moving(fields, length, jobs, work, slots, k, MOST_PLACES, d, MOST_PLACES, y, MOST_PLACES);
    printf("places %s %u\n", word[1], (unsigned)places);
    for (int part = 0; part < PARTS; part++) {
        agree(part, measured);
        if (RUNNING_ON_VALGRIND)
            count_part(word[1], part, measured);
        else
            stack_part(word[1], part, measured);
    }
    if (!RUNNING_ON_VALGRIND)
        time_all(word[1], measured);
    return 0;
}
