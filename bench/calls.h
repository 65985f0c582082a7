/* The calls, over an engine's three functions: `survey` counts the places and finds the first overload, `fill_static` writes K
 * and D and gives F, `fill_moving` writes Y. Included once by each engine, after it has defined them. */
#include "checks.h"

static struct checked power_on(const struct table *t, struct state *s)
{
    struct judged j = limits(t);
    *s = (struct state){0};
    if (!j.number)
        for (size_t i = 0; i < t->count; i++)
            s->left[i] = t->tasks[i].work;
    return (struct checked){.number = j.number, .place = j.place};
}

/* 1 to 6, with the shortest of the lent vectors. */
static struct checked one_to_six(const struct table *t, size_t room)
{
    struct judged j = judge(t);
    if (j.number)
        return (struct checked){.number = j.number, .place = j.place};
    struct survey s = survey(t, j.window);
    if (s.places > MOST_PLACES)
        return (struct checked){.number = 4};
    if (s.places > room)
        return (struct checked){.number = 5};
    if (s.overload)
        return (struct checked){.number = 6, .place = s.overload};
    return (struct checked){.window = j.window, .places = s.places};
}

static size_t shorter(size_t a, size_t b)
{
    return a < b ? a : b;
}

static struct checked check(const struct table *t, struct vector k, struct vector d)
{
    struct checked c = one_to_six(t, shorter(k.room, d.room));
    if (!c.number)
        c.idle = fill_static(t, c.window, c.places, k.at, d.at);
    return c;
}

/* What the moving vectors leave to know. */
struct filled {
    uint32_t number, place, window, places, idle, offset;
    struct left left;
};

/* 1 to 8, then K, D and Y. */
static struct filled fill(const struct table *t, const struct state *s, struct vector k, struct vector d, struct vector y)
{
    struct checked c = one_to_six(t, shorter(k.room, shorter(d.room, y.room)));
    if (c.number)
        return (struct filled){.number = c.number, .place = c.place};
    uint32_t v = (uint32_t)(s->now % c.window);
    if (!shaped(t, s, v))
        return (struct filled){.number = 7};
    if (overdue(t, s, v))
        return (struct filled){.number = 8};
    struct filled f = {.window = c.window, .places = c.places, .offset = v};
    f.idle = fill_static(t, c.window, c.places, k.at, d.at);
    f.left = fill_moving(t, s, c.window, v, c.places, k.at, y.at);
    return f;
}

static struct moved moving(const struct table *t, const struct state *s, struct vector k, struct vector d, struct vector y)
{
    struct filled f = fill(t, s, k, d, y);
    return (struct moved){f.number, f.place, f.places};
}

/* Where a walk over idle slots stands: first Y, then D in each later window. */
struct walk {
    const uint16_t *k, *idle, *d;
    uint64_t base, passed;
    uint32_t at, places, here, offset, window, each;
};

/* The least time by which there are `need` idle slots. Needs rise from call to call; `each` is not 0 where Y does not do. */
static uint64_t promise(struct walk *w, uint64_t need)
{
    while (w->passed + w->idle[w->at] < need) {
        w->passed += w->idle[w->at];
        if (++w->at < w->places)
            continue;
        uint64_t whole = (need - w->passed - 1) / w->each;
        w->passed += whole * w->each;
        w->base += (whole + 1) * w->window;
        w->idle = w->d;
        w->at = 0;
        w->here = UINT32_MAX;
    }
    uint32_t time = w->at == w->here ? w->offset : w->k[w->at];
    return w->base + time + (need - w->passed);
}

/* 9's second and third rule; the walk then stands at the last waiting job's end, and `need` at the work of all. */
static bool sound(const struct state *s, const struct filled *f, struct walk *w, uint64_t *need)
{
    if (f->idle != (uint32_t)s->given + s->idle + f->left.idle)
        return false;
    if (s->waiting && !f->idle)
        return false;
    for (size_t i = 0; i < s->waiting; i++) {
        *need += s->jobs[i].left;
        if (promise(w, *need) != s->jobs[i].promise)
            return false;
    }
    return true;
}

static struct admitted admit(const struct table *t, struct state *s, uint16_t work, uint64_t latest, struct vector k,
                             struct vector d, struct vector y)
{
    struct filled f = fill(t, s, k, d, y);
    if (f.number)
        return (struct admitted){f.number, f.place, 0};
    struct walk w = {.k = k.at, .idle = y.at, .d = d.at, .base = s->now - f.offset, .at = f.left.here, .places = f.places,
                     .here = f.left.here, .offset = f.offset, .window = f.window, .each = f.idle};
    uint64_t need = 0;
    if (f.left.overload || !sound(s, &f, &w, &need))
        return (struct admitted){9, 0, 0};
    if (work < 1 || work > MOST_WORK)
        return (struct admitted){10, 0, 0};
    if (s->waiting == MOST_JOBS)
        return (struct admitted){11, 0, 0};
    if (!f.idle)
        return (struct admitted){12, 0, 0};
    uint64_t end = promise(&w, need + work);
    if (end > CLOCK_END)
        return (struct admitted){13, 0, 0};
    if (end > latest)
        return (struct admitted){14, 0, 0};
    s->jobs[s->waiting++] = (struct job){work, end};
    return (struct admitted){0, 0, end};
}

/* What is due first, in slots from now on, and the units that are due by the end of this slot. */
struct choice {
    uint64_t due;
    uint32_t task, soon;
    bool late;
};

/* On a tie the job, then the lowest task number. `task` is 0 for the job; `due` is the greatest number for nothing. */
static struct choice choose(const struct table *t, const struct state *s, uint32_t v)
{
    struct choice c = {.due = UINT64_MAX};
    if (s->waiting) {
        c.late = s->jobs[0].promise <= s->now;
        c.due = s->jobs[0].promise - s->now;
        c.soon = c.due == 1 ? s->jobs[0].left : 0;
    }
    for (size_t j = 0; j < t->count; j++) {
        if (!s->left[j])
            continue;
        uint32_t deadline = present(t->tasks[j], v);
        if (deadline <= v)
            c.late = true;
        uint32_t due = deadline - v;
        if (due == 1)
            c.soon += s->left[j];
        if (due < c.due) {
            c.due = due;
            c.task = (uint32_t)j + 1;
        }
    }
    return c;
}

static struct ran serve(struct state *s, struct choice c)
{
    if (c.due == UINT64_MAX) {
        s->idle++;
        return (struct ran){.who = IDLE};
    }
    if (c.task) {
        s->left[c.task - 1]--;
        return (struct ran){.who = TASK, .which = c.task};
    }
    uint64_t promised = s->jobs[0].promise;
    s->given++;
    if (!--s->jobs[0].left) {
        s->waiting--;
        for (size_t i = 0; i < s->waiting; i++)
            s->jobs[i] = s->jobs[i + 1];
        s->jobs[s->waiting] = (struct job){0, 0};
    }
    return (struct ran){.who = JOB, .which = promised};
}

/* The clock moves, releases enter, and the ready word tells what has work left. */
static uint16_t move_on(const struct table *t, struct state *s, uint32_t next, uint32_t window)
{
    uint16_t ready = 0;
    s->now++;
    for (size_t j = 0; j < t->count; j++) {
        if (next % t->tasks[j].period == 0)
            s->left[j] = t->tasks[j].work;
        if (s->left[j])
            ready |= (uint16_t)(1u << j);
    }
    if (next == window)
        s->given = s->idle = 0;
    return ready;
}

static struct ran slot(const struct table *t, struct state *s)
{
    struct judged j = judge(t);
    if (j.number)
        return (struct ran){.number = j.number, .place = j.place};
    uint32_t v = (uint32_t)(s->now % j.window);
    if (!shaped(t, s, v))
        return (struct ran){.number = 7};
    if (s->now == CLOCK_END)
        return (struct ran){.number = 15};
    struct choice c = choose(t, s, v);
    if (c.late || c.soon > 1)
        return (struct ran){.number = 8};
    struct ran r = serve(s, c);
    r.ready = move_on(t, s, v + 1, j.window);
    return r;
}
