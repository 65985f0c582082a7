/* The words of the C programs: tasks, the running state, lent vectors, and the calls of document 01. A request with nothing
 * left is done, so a C state has no way to say "left 0"; all else is as there. */
#ifndef SLOTS_H
#define SLOTS_H

#include <stdbool.h>
#include <stddef.h>
#include <stdint.h>

enum { MOST_TASKS = 16, MOST_JOBS = 8, MOST_PLACES = 1024, LONGEST_PERIOD = 10000, LONGEST_WINDOW = 30000, MOST_WORK = 30000 };

#define CLOCK_END (UINT64_C(1) << 40)
#define NO_LATEST UINT64_MAX

struct task {
    uint16_t work, deadline, period;
};

struct table {
    struct task tasks[MOST_TASKS];
    size_t count;
};

struct job {
    uint16_t left;
    uint64_t promise;
};

struct state {
    uint64_t now;
    uint16_t left[MOST_TASKS];
    struct job jobs[MOST_JOBS];
    uint8_t waiting;
    uint16_t given, idle;
};

struct vector {
    uint16_t *at;
    size_t room;
};

struct checked {
    uint32_t number, place, window, places, idle;
};

struct moved {
    uint32_t number, place, places;
};

struct admitted {
    uint32_t number, place;
    uint64_t promise;
};

enum who { IDLE, TASK, JOB };

/* `which` is the task's number, from 1, or the job's promise. */
struct ran {
    uint32_t number, place;
    enum who who;
    uint64_t which;
    uint16_t ready;
};

/* One way to make the vectors. A state is changed in place, and kept as it was on a refusal. */
struct engine {
    struct checked (*power_on)(const struct table *, struct state *);
    struct checked (*check)(const struct table *, struct vector k, struct vector d);
    struct moved (*moving)(const struct table *, const struct state *, struct vector k, struct vector d, struct vector y);
    struct admitted (*admit)(const struct table *, struct state *, uint16_t work, uint64_t latest, struct vector k, struct vector d,
                             struct vector y);
    struct ran (*slot)(const struct table *, struct state *);
};

extern const struct engine by_deadlines, by_slots, by_pile;

/* The engine of a letter: a the method, b the plan, p the pile. */
const struct engine *engine_of(const char *letter);

#endif
