/* show a|b|p < fields: the vectors and tallies at each arrival, by the method in C (a), the latest plan (b) or the pile (p). The
 * same output as the second program's, so that the two can be compared. */
#include "fields.h"
#include <inttypes.h>
#include <stdio.h>

static uint16_t k[MOST_PLACES], d[MOST_PLACES], y[MOST_PLACES];
static const struct vector K = {k, MOST_PLACES}, D = {d, MOST_PLACES}, Y = {y, MOST_PLACES};

static void vector_line(const char *name, const uint16_t *v, uint32_t places)
{
    printf("%s", name);
    for (uint32_t i = 0; i < places; i++)
        printf(" %d", v[i]);
    printf("\n");
}

static void state_lines(const struct engine *e, const struct table *t, const struct state *s)
{
    printf("at %" PRIu64 "\nA %d\nI %d\n", s->now, s->given, s->idle);
    struct moved m = e->moving(t, s, K, D, Y);
    vector_line("Y", y, m.places);
}

static void arrival_line(const struct engine *e, const struct table *t, struct state *s, struct arrival a)
{
    struct admitted told = e->admit(t, s, a.work, a.latest, K, D, Y);
    if (told.number)
        printf("r %" PRIu32 " %d %" PRIu32 "\n", a.slot, a.work, told.number);
    else
        printf("a %" PRIu32 " %d %" PRIu64 "\n", a.slot, a.work, told.promise);
}

static void walk(const struct engine *e, const struct file *f)
{
    struct state s;
    size_t next = 0;
    e->power_on(&f->table, &s);
    for (uint32_t now = 0; now < f->slots; now++) {
        for (; next < f->arrived && f->arrivals[next].slot == now; next++) {
            state_lines(e, &f->table, &s);
            arrival_line(e, &f->table, &s, f->arrivals[next]);
        }
        e->slot(&f->table, &s);
    }
}

int main(int words, char **word)
{
    static uint8_t bytes[LONGEST_INPUT + 1];
    static struct file f;
    if (words != 2) {
        fprintf(stderr, "usage: show a|b|p < fields\n");
        return 2;
    }
    const struct engine *e = engine_of(word[1]);
    read_fields(&f, bytes, fread(bytes, 1, sizeof bytes, stdin));
    struct checked c = {.number = f.number, .place = f.place};
    if (!c.number)
        c = e->check(&f.table, K, D);
    if (c.number) {
        printf("x %" PRIu32 " %" PRIu32 "\n", c.number, c.place);
        return 0;
    }
    printf("W %" PRIu32 "\nplaces %" PRIu32 "\n", c.window, c.places);
    vector_line("K", k, c.places);
    vector_line("D", d, c.places);
    printf("F %" PRIu32 "\n", c.idle);
    walk(e, &f);
    return 0;
}
