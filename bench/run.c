/* run a|b|p < fields: the listing of the run program, by the method in C (a), the latest plan (b) or the pile (p). Lines go into
 * a buffer and from there to standard output. */
#include "fields.h"
#include <stdio.h>
#include <string.h>

enum { LONGEST_LINE = 64, ROOM = 1 << 16 };

static uint16_t k[MOST_PLACES], d[MOST_PLACES], y[MOST_PLACES];
static const struct vector K = {k, MOST_PLACES}, D = {d, MOST_PLACES}, Y = {y, MOST_PLACES};
static char buffer[ROOM];
static size_t used;

static void put(char c)
{
    buffer[used++] = c;
}

static void put_number(uint64_t n)
{
    char digits[20];
    size_t count = 0;
    do
        digits[count++] = (char)('0' + n % 10);
    while (n /= 10);
    while (count)
        put(digits[--count]);
}

/* The line's end; the buffer is written out while another line still fits. */
static void end_line(void)
{
    put('\n');
    if (used + LONGEST_LINE > ROOM) {
        fwrite(buffer, 1, used, stdout);
        used = 0;
    }
}

static void three_numbers(char kind, uint64_t first, uint64_t second, uint64_t third)
{
    put(kind);
    put(' ');
    put_number(first);
    put(' ');
    put_number(second);
    put(' ');
    put_number(third);
    end_line();
}

static void slot_line(uint32_t slot, struct ran r)
{
    put_number(slot);
    put(' ');
    if (r.who == IDLE) {
        put('-');
    } else {
        put(r.who == TASK ? 'P' : 'S');
        put_number(r.which);
    }
    end_line();
}

static void walk(const struct engine *e, const struct file *f)
{
    struct state s;
    size_t next = 0;
    e->power_on(&f->table, &s);
    for (uint32_t now = 0; now < f->slots; now++) {
        for (; next < f->arrived && f->arrivals[next].slot == now; next++) {
            struct arrival a = f->arrivals[next];
            struct admitted told = e->admit(&f->table, &s, a.work, a.latest, K, D, Y);
            three_numbers(told.number ? 'r' : 'a', a.slot, a.work, told.number ? told.number : told.promise);
        }
        slot_line(now, e->slot(&f->table, &s));
    }
}

int main(int words, char **word)
{
    static uint8_t bytes[LONGEST_INPUT + 1];
    static struct file f;
    if (words != 2) {
        fprintf(stderr, "usage: run a|b|p < fields\n");
        return 2;
    }
    const struct engine *e = engine_of(word[1]);
    read_fields(&f, bytes, fread(bytes, 1, sizeof bytes, stdin));
    memcpy(buffer, "slot who\n", 9);
    used = 9;
    struct checked c = {.number = f.number, .place = f.place};
    if (!c.number)
        c = e->check(&f.table, K, D);
    if (c.number) {
        put('x');
        put(' ');
        put_number(c.number);
        put(' ');
        put_number(c.place);
        end_line();
    } else {
        walk(e, &f);
    }
    fwrite(buffer, 1, used, stdout);
    return 0;
}
