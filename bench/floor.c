/* The floor: a bare loop that only writes vectors of the given lengths, with no thought behind a number. */
#include "builds.h"

static void write_all(uint16_t *v, size_t room)
{
    for (size_t i = 0; i < room; i++)
        v[i] = (uint16_t)i;
}

static uint32_t fields(BYTES(bytes))
{
    (void)bytes, (void)bytes_length;
    return 0;
}

static uint32_t table(BYTES(bytes), LENT(k), LENT(d))
{
    (void)bytes, (void)bytes_length;
    write_all(k, k_room);
    write_all(d, d_room);
    return 0;
}

static uint16_t stand(BYTES(bytes), uint32_t jobs, uint16_t work, uint32_t slots, LENT(k), LENT(d), LENT(y))
{
    (void)bytes, (void)bytes_length, (void)jobs, (void)work, (void)slots;
    (void)k, (void)k_room, (void)d, (void)d_room, (void)y, (void)y_room;
    return 0;
}

static uint32_t moving(BYTES(bytes), uint32_t jobs, uint16_t work, uint32_t slots, LENT(k), LENT(d), LENT(y))
{
    (void)bytes, (void)bytes_length, (void)jobs, (void)work, (void)slots;
    write_all(k, k_room);
    write_all(d, d_room);
    write_all(y, y_room);
    return 0;
}

static uint64_t admission(BYTES(bytes), uint32_t jobs, uint16_t work, uint32_t slots, uint16_t more, LENT(k), LENT(d), LENT(y))
{
    (void)more;
    return moving(bytes, bytes_length, jobs, work, slots, k, k_room, d, d_room, y, y_room);
}

const struct build only_writes = {"floor", fields, table, stand, moving, admission};
