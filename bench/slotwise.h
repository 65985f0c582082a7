/* The vectors by way of a plan of the window, slot by slot. The engine defines `plan` after this file: it decides, from the
 * window's end back to `from`, which slots the latest plan leaves idle. Without a state the plan is that of a fresh window.
 * Included once by each engine. */
#include "slots.h"
#include <string.h>

struct survey {
    uint32_t places, overload;
};

struct left {
    uint32_t here, idle;
    bool overload;
};

/* The work due at each offset, and who has each slot in the plan: 0 where it is idle. */
static uint32_t due[LONGEST_WINDOW + 1];
static uint8_t owner[LONGEST_WINDOW];

static void plan(const struct table *t, const struct state *s, uint32_t from, uint32_t window);

static void due_in_window(const struct table *t, uint32_t window)
{
    memset(due, 0, (window + 1) * sizeof due[0]);
    for (size_t j = 0; j < t->count; j++)
        for (uint32_t d = t->tasks[j].deadline; d <= window; d += t->tasks[j].period)
            due[d] += t->tasks[j].work;
}

static void due_from_state(const struct table *t, const struct state *s, uint32_t window, uint32_t offset)
{
    memset(due, 0, (window + 1) * sizeof due[0]);
    for (size_t j = 0; j < t->count; j++) {
        uint32_t p = t->tasks[j].period, d = offset / p * p + t->tasks[j].deadline;
        due[d] += s->left[j];
        for (d += p; d <= window; d += p)
            due[d] += t->tasks[j].work;
    }
}

static struct survey survey(const struct table *t, uint32_t window)
{
    struct survey s = {1, 0};
    uint32_t total = 0;
    due_in_window(t, window);
    for (uint32_t u = 1; u <= window; u++) {
        total += due[u];
        s.places += due[u] > 0;
        if (total > u && !s.overload)
            s.overload = u;
    }
    return s;
}

static uint32_t count_by_place(uint32_t first, uint32_t from, uint32_t window, uint32_t places, const uint16_t *k, uint16_t *v)
{
    uint32_t total = 0, slot = from;
    for (uint32_t i = first; i < places; i++) {
        uint32_t end = i + 1 < places ? k[i + 1] : window, here = 0;
        for (; slot < end; slot++)
            here += owner[slot] == 0;
        v[i] = (uint16_t)here;
        total += here;
    }
    return total;
}

static uint32_t fill_static(const struct table *t, uint32_t window, uint32_t places, uint16_t *k, uint16_t *d)
{
    due_in_window(t, window);
    k[0] = 0;
    for (uint32_t u = 1, i = 1; u <= window; u++)
        if (due[u])
            k[i++] = (uint16_t)u;
    plan(t, NULL, 0, window);
    return count_by_place(0, 0, window, places, k, d);
}

static struct left fill_moving(const struct table *t, const struct state *s, uint32_t window, uint32_t offset, uint32_t places,
                               const uint16_t *k, uint16_t *y)
{
    struct left l = {0, 0, false};
    uint32_t total = 0;
    for (; l.here + 1 < places && k[l.here + 1] <= offset; l.here++)
        y[l.here] = 0;
    due_from_state(t, s, window, offset);
    for (uint32_t u = offset; u <= window; u++) {
        total += due[u];
        l.overload |= total > u - offset;
    }
    plan(t, s, offset, window);
    l.idle = count_by_place(l.here, offset, window, places, k, y);
    return l;
}
