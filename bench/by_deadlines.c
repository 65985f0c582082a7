/* The method in C: the vectors by places. Each task's next deadline is kept, so that no place costs a divide, and the work due
 * by a place stands in the vector until the walk back turns it into idle slots. */
#include "slots.h"

struct survey {
    uint32_t places, overload;
};

/* What `fill_moving` found: the place of the state's offset, the sum of Y, and whether periodic work does not fit. */
struct left {
    uint32_t here, idle;
    bool overload;
};

/* A walk over the window's deadlines: the work due up to the last one taken, and what each task has due next. */
struct dues {
    uint32_t next[MOST_TASKS], work[MOST_TASKS];
    uint32_t soonest, due;
};

static struct dues from_start(const struct table *t)
{
    struct dues w = {.soonest = UINT32_MAX};
    for (size_t j = 0; j < t->count; j++) {
        w.next[j] = t->tasks[j].deadline;
        w.work[j] = t->tasks[j].work;
        if (w.next[j] < w.soonest)
            w.soonest = w.next[j];
    }
    return w;
}

/* The deadlines after offset v, the present requests with what they have left. */
static struct dues from_state(const struct table *t, const struct state *s, uint32_t v)
{
    struct dues w = {.soonest = UINT32_MAX};
    for (size_t j = 0; j < t->count; j++) {
        uint32_t p = t->tasks[j].period, deadline = v / p * p + t->tasks[j].deadline;
        bool open = deadline > v;
        w.next[j] = open ? deadline : deadline + p;
        w.work[j] = open ? s->left[j] : t->tasks[j].work;
        if (w.next[j] < w.soonest)
            w.soonest = w.next[j];
    }
    return w;
}

/* Takes all that is due at the soonest deadline. */
static void take(const struct table *t, struct dues *w)
{
    uint32_t k = w->soonest, soonest = UINT32_MAX;
    for (size_t j = 0; j < t->count; j++) {
        if (w->next[j] == k) {
            w->due += w->work[j];
            w->work[j] = t->tasks[j].work;
            w->next[j] += t->tasks[j].period;
        }
        if (w->next[j] < soonest)
            soonest = w->next[j];
    }
    w->soonest = soonest;
}

/* The places, at most one above the most that are allowed, and the first deadline by which too much is due. */
static struct survey survey(const struct table *t, uint32_t window)
{
    struct survey s = {1, 0};
    struct dues w = from_start(t);
    while (w.soonest <= window && s.places <= MOST_PLACES) {
        uint32_t k = w.soonest;
        take(t, &w);
        s.places++;
        if (w.due > k && !s.overload)
            s.overload = k;
    }
    return s;
}

/* From the last place down to the first, the work due by a place becomes the idle slots after it. */
static uint32_t turn(uint32_t window, uint32_t first, uint32_t offset, uint32_t places, uint32_t total, const uint16_t *k, uint16_t *v)
{
    uint32_t idle = 0;
    for (uint32_t i = places; i-- > first;) {
        uint32_t time = i == first ? offset : k[i];
        uint32_t taken = total - v[i] + idle, room = window - time;
        uint32_t free = room > taken ? room - taken : 0;
        v[i] = (uint16_t)free;
        idle += free;
    }
    return idle;
}

static uint32_t fill_static(const struct table *t, uint32_t window, uint32_t places, uint16_t *k, uint16_t *d)
{
    struct dues w = from_start(t);
    k[0] = 0;
    d[0] = 0;
    for (uint32_t i = 1; i < places; i++) {
        k[i] = (uint16_t)w.soonest;
        take(t, &w);
        d[i] = (uint16_t)w.due;
    }
    return turn(window, 0, 0, places, w.due, k, d);
}

static struct left fill_moving(const struct table *t, const struct state *s, uint32_t window, uint32_t offset, uint32_t places,
                               const uint16_t *k, uint16_t *y)
{
    struct left l = {0, 0, false};
    uint32_t i = 0;
    for (; i + 1 < places && k[i + 1] <= offset; i++)
        y[i] = 0;
    l.here = i;
    y[i] = 0;
    struct dues w = from_state(t, s, offset);
    while (++i < places) {
        take(t, &w);
        y[i] = (uint16_t)w.due;
        l.overload |= w.due > k[i] - offset;
    }
    l.idle = turn(window, l.here, offset, places, w.due, k, y);
    return l;
}

#include "calls.h"

const struct engine by_deadlines = {power_on, check, moving, admit, slot};
