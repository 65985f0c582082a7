/* The latest plan: each slot, from the window's end backwards, goes to the request with a later deadline and work without a slot
 * that was released last, then to the lowest number. The plain way to the vectors; its cost goes by slots and tasks. */
#include "slotwise.h"

/* What the plan has of a task: its next deadline on the way back, what is without a slot, and since when. */
struct open {
    uint32_t deadline, last, unplaced, release;
    uint16_t last_work;
};

static void enter(struct open *o, struct task t)
{
    bool last = o->deadline == o->last;
    o->unplaced += last ? o->last_work : t.work;
    o->release = o->deadline - t.deadline;
    o->deadline = last ? 0 : o->deadline - t.period;
}

static void plan(const struct table *t, const struct state *s, uint32_t from, uint32_t window)
{
    struct open open[MOST_TASKS];
    for (size_t j = 0; j < t->count; j++) {
        struct task task = t->tasks[j];
        open[j] = (struct open){.deadline = window - task.period + task.deadline};
        open[j].last = from / task.period * task.period + task.deadline;
        open[j].last_work = s ? s->left[j] : task.work;
    }
    for (uint32_t slot = window; slot-- > from;) {
        uint32_t who = 0, newest = 0;
        for (size_t j = 0; j < t->count; j++) {
            if (open[j].deadline == slot + 1)
                enter(&open[j], t->tasks[j]);
            if (open[j].unplaced && (!who || open[j].release > newest)) {
                who = (uint32_t)j + 1;
                newest = open[j].release;
            }
        }
        owner[slot] = (uint8_t)who;
        if (who)
            open[who - 1].unplaced--;
    }
}

#include "calls.h"

const struct engine by_slots = {power_on, check, moving, admit, slot};
