/* The engines by letter. */
#include "slots.h"

const struct engine *engine_of(const char *letter)
{
    return *letter == 'a' ? &by_deadlines : *letter == 'b' ? &by_slots : &by_pile;
}
