/* The latest plan without its owners: a pile of the work due later that has no slot yet says whether a slot is idle. Cheaper
 * than a plan and of no other use. */
#include "slotwise.h"

static void plan(const struct table *t, const struct state *s, uint32_t from, uint32_t window)
{
    uint32_t pile = 0;
    (void)t, (void)s;
    for (uint32_t slot = window; slot-- > from;) {
        pile += due[slot + 1];
        owner[slot] = pile > 0;
        if (pile)
            pile--;
    }
}

#include "calls.h"

const struct engine by_pile = {power_on, check, moving, admit, slot};
