/* The measured functions, in one shape for every build: tagged fields in, a state made of their table, and then one call. What a
 * call costs is the difference to the function that leads up to it: `fields` for the table check, `stand` for the others; a
 * slot costs what `stand` takes for more slots.
 * The state: power-on, then `jobs` jobs of some work each, then `slots` slots. */
#ifndef BUILDS_H
#define BUILDS_H

#include <stddef.h>
#include <stdint.h>

/* Bytes and lent vectors cross as pointer and length. */
#define BYTES(v) const uint8_t *v, size_t v##_length
#define LENT(v) uint16_t *v, size_t v##_room

struct build {
    const char *name;
    /* Gives the slots to run. */
    uint32_t (*fields)(BYTES(bytes));
    /* Gives F. */
    uint32_t (*table)(BYTES(bytes), LENT(k), LENT(d));
    /* Gives I. */
    uint16_t (*stand)(BYTES(bytes), uint32_t jobs, uint16_t work, uint32_t slots, LENT(k), LENT(d), LENT(y));
    /* Gives the places. */
    uint32_t (*moving)(BYTES(bytes), uint32_t jobs, uint16_t work, uint32_t slots, LENT(k), LENT(d), LENT(y));
    /* Gives the promise of one job more. */
    uint64_t (*admission)(BYTES(bytes), uint32_t jobs, uint16_t work, uint32_t slots, uint16_t more, LENT(k), LENT(d), LENT(y));
};

extern const struct build ours, method_in_c, plan_in_c, pile_in_c, only_writes;

#endif
