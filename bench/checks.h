/* Refusals 1 to 3, 7 and 8, which both engines ask alike. */
#ifndef CHECKS_H
#define CHECKS_H

#include "slots.h"

struct judged {
    uint32_t number, place, window;
};

static bool within_limits(struct task t)
{
    return 1 <= t.work && t.work <= t.deadline && t.deadline <= t.period && t.period <= LONGEST_PERIOD;
}

/* 1 and 2. */
static struct judged limits(const struct table *t)
{
    if (t->count < 1 || t->count > MOST_TASKS)
        return (struct judged){1, 0, 0};
    for (size_t j = 0; j < t->count; j++)
        if (!within_limits(t->tasks[j]))
            return (struct judged){2, (uint32_t)j + 1, 0};
    return (struct judged){0, 0, 0};
}

static uint32_t common(uint32_t a, uint32_t b)
{
    while (b) {
        uint32_t rest = a % b;
        a = b;
        b = rest;
    }
    return a;
}

/* 1 to 3, and the window. */
static struct judged judge(const struct table *t)
{
    struct judged j = limits(t);
    if (j.number)
        return j;
    uint32_t w = 1;
    for (size_t i = 0; i < t->count; i++) {
        uint32_t p = t->tasks[i].period;
        w = p / common(p, w) * w;
        if (w > LONGEST_WINDOW)
            return (struct judged){3, 0, 0};
    }
    return (struct judged){0, 0, w};
}

/* 7, at offset v. */
static bool shaped(const struct table *t, const struct state *s, uint32_t v)
{
    if (s->now > CLOCK_END || s->waiting > MOST_JOBS || (uint32_t)s->given + s->idle > v)
        return false;
    for (size_t j = 0; j < MOST_TASKS; j++)
        if (s->left[j] > (j < t->count ? t->tasks[j].work : 0))
            return false;
    uint64_t low = 0;
    for (size_t i = 0; i < s->waiting; i++) {
        struct job job = s->jobs[i];
        if (job.left < 1 || job.left > MOST_WORK || job.promise < low || job.promise > CLOCK_END)
            return false;
        low = job.promise + 1;
    }
    for (size_t i = s->waiting; i < MOST_JOBS; i++)
        if (s->jobs[i].left || s->jobs[i].promise)
            return false;
    return true;
}

/* The deadline, as an offset, of a task's present request. */
static uint32_t present(struct task t, uint32_t v)
{
    return v / t.period * t.period + t.deadline;
}

/* 8. Promises rise, so the oldest job's is the earliest. */
static bool overdue(const struct table *t, const struct state *s, uint32_t v)
{
    for (size_t j = 0; j < t->count; j++)
        if (s->left[j] && present(t->tasks[j], v) <= v)
            return true;
    return s->waiting && s->jobs[0].promise <= s->now;
}

#endif
