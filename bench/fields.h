/* Tagged fields, read in C: the table, the arrivals and the slots to run, or a refusal's number and place. */
#ifndef FIELDS_H
#define FIELDS_H

#include "slots.h"

enum { LONGEST_INPUT = 4096, LONGEST_RUN = 100000, MOST_ARRIVALS = LONGEST_INPUT / 9 };

struct arrival {
    uint32_t slot;
    uint16_t work;
    uint64_t latest;
};

struct file {
    uint32_t number, place, slots;
    size_t arrived;
    struct table table;
    struct arrival arrivals[MOST_ARRIVALS];
};

void read_fields(struct file *f, const uint8_t *bytes, size_t length);

#endif
