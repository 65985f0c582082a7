/* The C builds, one for each engine. */
#include "builds.h"
#include "fields.h"

static struct file f;

static uint32_t fields(BYTES(bytes))
{
    read_fields(&f, bytes, bytes_length);
    return f.slots;
}

static struct state stand(const struct engine *e, uint32_t jobs, uint16_t work, uint32_t slots, struct vector k, struct vector d,
                          struct vector y)
{
    struct state s;
    e->power_on(&f.table, &s);
    while (jobs--)
        e->admit(&f.table, &s, work, NO_LATEST, k, d, y);
    while (slots--)
        e->slot(&f.table, &s);
    return s;
}

#define VECTOR(v) ((struct vector){v, v##_room})
#define VECTORS VECTOR(k), VECTOR(d), VECTOR(y)

#define BUILD(engine, title, instance)                                                                                             \
    static uint32_t engine##_table(BYTES(bytes), LENT(k), LENT(d))                                                                 \
    {                                                                                                                              \
        read_fields(&f, bytes, bytes_length);                                                                                      \
        return engine.check(&f.table, VECTOR(k), VECTOR(d)).idle;                                                                  \
    }                                                                                                                              \
    static uint16_t engine##_stand(BYTES(bytes), uint32_t jobs, uint16_t work, uint32_t slots, LENT(k), LENT(d), LENT(y))          \
    {                                                                                                                              \
        read_fields(&f, bytes, bytes_length);                                                                                      \
        return stand(&engine, jobs, work, slots, VECTORS).idle;                                                                    \
    }                                                                                                                              \
    static uint32_t engine##_moving(BYTES(bytes), uint32_t jobs, uint16_t work, uint32_t slots, LENT(k), LENT(d), LENT(y))         \
    {                                                                                                                              \
        read_fields(&f, bytes, bytes_length);                                                                                      \
        struct state s = stand(&engine, jobs, work, slots, VECTORS);                                                               \
        return engine.moving(&f.table, &s, VECTORS).places;                                                                        \
    }                                                                                                                              \
    static uint64_t engine##_admission(BYTES(bytes), uint32_t jobs, uint16_t work, uint32_t slots, uint16_t more, LENT(k),         \
                                       LENT(d), LENT(y))                                                                           \
    {                                                                                                                              \
        read_fields(&f, bytes, bytes_length);                                                                                      \
        struct state s = stand(&engine, jobs, work, slots, VECTORS);                                                               \
        return engine.admit(&f.table, &s, more, NO_LATEST, VECTORS).promise;                                                       \
    }                                                                                                                              \
    const struct build instance = {title, fields, engine##_table, engine##_stand, engine##_moving, engine##_admission};

BUILD(by_deadlines, "method", method_in_c)
BUILD(by_slots, "plan", plan_in_c)
BUILD(by_pile, "pile", pile_in_c)
