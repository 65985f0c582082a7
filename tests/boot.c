/* The boot call against what document 01 says of each input: its number, its place and W. */
#include "pyeodasik.h"
#include <stdio.h>
#include <string.h>

#define LOW2(n) (n) & 255, (n) >> 8 & 255
#define LOW4(n) LOW2(n), (n) >> 16 & 255, (n) >> 24 & 255
#define TASK(c, r, p) 1, 6, 0, LOW2(c), LOW2(r), LOW2(p)
#define ARRIVAL(slot, work) 2, 6, 0, LOW4(slot), LOW2(work)
#define ARRIVAL_BY(slot, work, latest) 2, 10, 0, LOW4(slot), LOW2(work), LOW4(latest)
#define RUN(slots) 3, 4, 0, LOW4(slots)
#define M TASK(2, 3, 5), TASK(2, 8, 10)

struct input {
    const char *what;
    uint32_t number, place, window;
    size_t length;
    const uint8_t *bytes;
};

#define BYTES(...) sizeof((const uint8_t[]){__VA_ARGS__}), (const uint8_t[]){__VA_ARGS__}

static const struct input inputs[] = {
    /* good */
    {"the paper's example", 0, 0, 10, BYTES(M, ARRIVAL(1, 2), RUN(10))},
    {"one task", 0, 0, 5, BYTES(TASK(2, 3, 5), RUN(0))},
    {"one task of one slot", 0, 0, 1, BYTES(TASK(1, 1, 1), RUN(1))},
    {"never idle", 0, 0, 2, BYTES(TASK(1, 1, 2), TASK(1, 2, 2), RUN(100000))},
    {"source document 000's table", 0, 0, 150, BYTES(TASK(5, 25, 30), TASK(10, 40, 50), TASK(20, 55, 75), RUN(150))},
    {"1,024 places", 0, 0, 2046, BYTES(TASK(1, 2, 2), TASK(1, 2046, 2046), RUN(1))},
    {"W 30,000", 0, 0, 30000, BYTES(TASK(1, 3000, 3000), TASK(1, 10000, 10000), RUN(1))},
    {"the longest period", 0, 0, 10000, BYTES(TASK(10000, 10000, 10000), RUN(1))},
    {"a latest finish", 0, 0, 10, BYTES(M, ARRIVAL_BY(3, 4, 14), RUN(20))},
    {"arrivals of one slot", 0, 0, 10, BYTES(M, ARRIVAL(3, 4), ARRIVAL_BY(3, 1, 0), ARRIVAL(3, 1), RUN(20))},
    {"work 0 is no field error", 0, 0, 10, BYTES(M, ARRIVAL(0, 0), ARRIVAL(4294967295u, 65535), RUN(20))},
    /* 16 */
    {"one byte", 16, 0, 0, BYTES(1)},
    {"two bytes left", 16, 18, 0, BYTES(M, 9, 9)},
    {"a task's body cut", 16, 0, 0, BYTES(1, 6, 0, 2, 0, 3, 0, 5)},
    {"an arrival's body cut, before any task", 16, 0, 0, BYTES(2, 10, 0, 1, 0, 0, 0, 2, 0)},
    {"tag 3 with no body", 16, 18, 0, BYTES(M, 3, 4, 0)},
    {"a cut field after a task that breaks its limits", 16, 9, 0, BYTES(TASK(0, 3, 5), 3)},
    /* 17 */
    {"tag 0", 17, 0, 0, BYTES(0, 6, 0)},
    {"tag 4", 17, 18, 0, BYTES(M, 4, 1, 0, 1)},
    {"tag 255, of no length that any tag has", 17, 18, 0, BYTES(M, 255, 255, 255)},
    /* 18 */
    {"a task of length 10", 18, 0, 0, BYTES(1, 10, 0)},
    {"an arrival of length 8", 18, 18, 0, BYTES(M, 2, 8, 0, 0, 0, 0, 0, 1, 0, 0, 0)},
    {"tag 3 of length 6", 18, 18, 0, BYTES(M, 3, 6, 0)},
    {"a length with its high byte first", 18, 0, 0, BYTES(1, 0, 6, 0, 2, 0, 3, 0, 5)},
    /* 19 */
    {"a task after an arrival", 19, 18, 0, BYTES(TASK(2, 3, 5), ARRIVAL(1, 2), TASK(2, 8, 10), RUN(10))},
    {"an arrival before any task", 19, 0, 0, BYTES(ARRIVAL(1, 2), M, RUN(10))},
    {"tag 3 before any task", 19, 0, 0, BYTES(RUN(100001))},
    {"slots that fall", 19, 27, 0, BYTES(M, ARRIVAL(2, 1), ARRIVAL(1, 1), RUN(10))},
    {"a byte after tag 3", 19, 25, 0, BYTES(M, RUN(10), 1)},
    {"a second tag 3", 19, 25, 0, BYTES(M, RUN(10), RUN(10))},
    {"no tag 3", 19, 27, 0, BYTES(M, ARRIVAL(1, 2))},
    /* 21 */
    {"100,001 slots", 21, 18, 0, BYTES(M, RUN(100001))},
    {"100,001 slots, and a byte after them", 21, 18, 0, BYTES(M, RUN(100001), 0)},
    {"the most slots that four bytes hold", 21, 18, 0, BYTES(M, RUN(4294967295u))},
    /* 2 */
    {"no work", 2, 1, 0, BYTES(TASK(0, 3, 5), RUN(1))},
    {"a deadline before the work is done", 2, 2, 0, BYTES(TASK(2, 3, 5), TASK(9, 8, 10), RUN(1))},
    {"a deadline after the period", 2, 3, 0, BYTES(M, TASK(1, 6, 5), RUN(1))},
    {"period 10,001, before 3", 2, 2, 0, BYTES(TASK(1, 9999, 9999), TASK(1, 10000, 10001), RUN(1))},
    /* 3 */
    {"9,999 and 10,000", 3, 0, 0, BYTES(TASK(1, 9999, 9999), TASK(1, 10000, 10000), RUN(1))},
    {"W over 30,000 and overloaded", 3, 0, 0, BYTES(TASK(9999, 9999, 9999), TASK(9998, 9998, 9998), RUN(1))},
    /* 4 */
    {"1,025 places", 4, 0, 0, BYTES(TASK(1, 2, 2), TASK(1, 2045, 2046), RUN(1))},
    {"1,025 places and overloaded", 4, 0, 0, BYTES(TASK(2, 2, 2), TASK(1, 2045, 2046), RUN(1))},
    /* 6 */
    {"overloaded at 3, of load 1", 6, 3, 0, BYTES(TASK(2, 2, 4), TASK(2, 3, 4), RUN(10))},
    {"overloaded at 1", 6, 1, 0, BYTES(TASK(1, 1, 1), TASK(1, 1, 1), RUN(10))},
    {"overloaded at the window's end", 6, 10, 0, BYTES(TASK(5, 5, 5), TASK(1, 10, 10), RUN(10))},
};

static int checked, wrong;

static void check(const char *what, const uint8_t *bytes, size_t length, uint32_t number, uint32_t place, uint32_t window)
{
    struct pyeodasik_boot_answer a = pyeodasik_boot(bytes, length);
    checked++;
    if (a.number != number || a.place != place || a.window != window) {
        wrong++;
        printf("boot: %s: got %u %u %u, expected %u %u %u\n", what, a.number, a.place, a.window, number, place, window);
    }
}

/* n tasks of one period, m arrivals, tag 3, and as many more bytes */
static size_t build(uint8_t *to, int n, int m, size_t more)
{
    static const uint8_t task[] = {TASK(1, 100, 100)}, arrival[] = {ARRIVAL(7, 1)}, run[] = {RUN(10)};
    uint8_t *at = to;
    for (int i = 0; i < n; i++, at += sizeof task)
        memcpy(at, task, sizeof task);
    for (int i = 0; i < m; i++, at += sizeof arrival)
        memcpy(at, arrival, sizeof arrival);
    memcpy(at, run, sizeof run);
    at += sizeof run;
    memset(at, 0, more);
    return (size_t)(at - to) + more;
}

int main(void)
{
    static uint8_t bytes[8192];
    for (size_t i = 0; i < sizeof inputs / sizeof *inputs; i++)
        check(inputs[i].what, inputs[i].bytes, inputs[i].length, inputs[i].number, inputs[i].place, inputs[i].window);
    check("no byte", bytes, 0, 19, 0, 0);
    check("sixteen tasks", bytes, build(bytes, 16, 0, 0), 0, 0, 100);
    check("a seventeenth task", bytes, build(bytes, 17, 0, 0), 1, 144, 0);
    check("the longest input, a byte of it after tag 3", bytes, build(bytes, 1, 453, 3), 19, 4093, 0);
    check("453 arrivals", bytes, build(bytes, 1, 453, 0), 0, 0, 100);
    check("4,097 bytes", bytes, build(bytes, 1, 453, 4), 20, 0, 0);
    if (wrong) {
        printf("boot: %d of %d inputs differ\n", wrong, checked);
        return 1;
    }
    printf("boot: %d inputs through C, all as document 01 has them\n", checked);
    return 0;
}
