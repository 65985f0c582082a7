/* Pyeodasik's boot call: judges a string of tagged fields, and then the table that they hold. It takes any bytes. */
#ifndef PYEODASIK_H
#define PYEODASIK_H

#include <stddef.h>
#include <stdint.h>

/* The refusal numbers of all calls; docs/REFUSALS.md says of each what to do about it. */
enum pyeodasik_refusal {
    PYEODASIK_NO_OR_MANY_TASKS = 1,    /* no task, or over 16 */
    PYEODASIK_TASK_OUT_OF_LIMITS = 2,  /* not 1 <= C <= R <= P <= 10,000 [the first such task, from 1] */
    PYEODASIK_WINDOW_TOO_LONG = 3,     /* W over 30,000 */
    PYEODASIK_TOO_MANY_PLACES = 4,     /* K needs over 1,024 places */
    PYEODASIK_VECTOR_TOO_SHORT = 5,    /* a lent vector is shorter than K */
    PYEODASIK_OVERLOADED = 6,          /* more work is due by t than t [the least t] */
    PYEODASIK_MISSHAPEN = 7,           /* the state has a shape that no call leaves */
    PYEODASIK_OVERDUE = 8,             /* unfinished work has its deadline or promise at or before now */
    PYEODASIK_UNFIT = 9,               /* periodic work, tallies or promises do not fit the state */
    PYEODASIK_BAD_WORK = 10,           /* new work 0 or above 30,000 */
    PYEODASIK_EIGHT_WAIT = 11,         /* eight jobs wait */
    PYEODASIK_NEVER_IDLE = 12,         /* F is 0 */
    PYEODASIK_PAST_THE_CLOCK = 13,     /* the promise lies above H */
    PYEODASIK_TOO_LATE = 14,           /* the promise lies above the latest finish */
    PYEODASIK_CLOCK_AT_ITS_END = 15,   /* a slot is asked at H */
    PYEODASIK_CUT = 16,                /* one or two bytes left, or a body cut [byte of the field, from 0] */
    PYEODASIK_UNKNOWN_TAG = 17,        /* [byte of the field] */
    PYEODASIK_WRONG_LENGTH = 18,       /* [byte of the field] */
    PYEODASIK_WRONG_ORDER = 19,        /* [byte of the field; with no tag 3 the input's length] */
    PYEODASIK_INPUT_TOO_LONG = 20,     /* over 4,096 bytes */
    PYEODASIK_RUN_TOO_LONG = 21        /* over 100,000 slots [byte of the field] */
};

struct pyeodasik_boot_answer {
    uint32_t number; /* 0: all is good; else the refusal: 16 to 21 or 1 of a field, 2, 3, 4 or 6 of the table */
    uint32_t place;  /* of a field its first byte, from 0; of 2 the task, from 1; of 6 the time; else 0 */
    uint32_t window; /* W, the table's window in slots; 0 on a refusal */
};

struct pyeodasik_boot_answer pyeodasik_boot(const uint8_t *fields, size_t length);

#endif
