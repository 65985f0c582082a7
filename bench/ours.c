/* The proved calls, from the static library `benched`. */
#include "builds.h"

uint32_t bench_fields(BYTES(bytes));
uint32_t bench_table(BYTES(bytes), LENT(k), LENT(d));
uint16_t bench_stand(BYTES(bytes), uint32_t jobs, uint16_t work, uint32_t slots, LENT(k), LENT(d), LENT(y));
uint32_t bench_moving(BYTES(bytes), uint32_t jobs, uint16_t work, uint32_t slots, LENT(k), LENT(d), LENT(y));
uint64_t bench_admission(BYTES(bytes), uint32_t jobs, uint16_t work, uint32_t slots, uint16_t more, LENT(k), LENT(d), LENT(y));

const struct build ours = {"ours", bench_fields, bench_table, bench_stand, bench_moving, bench_admission};
