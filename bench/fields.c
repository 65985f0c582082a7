/* The reader of tagged fields, field by field, in document 01's order of refusals. */
#include "fields.h"

static uint32_t number_at(const uint8_t *b, size_t bytes)
{
    uint32_t n = 0;
    while (bytes--)
        n = n << 8 | b[bytes];
    return n;
}

static bool right_length(uint8_t tag, uint32_t length)
{
    return tag == 1 ? length == 6 : tag == 2 ? length == 6 || length == 10 : length == 4;
}

/* The refusal of the field at the front of `left` bytes, or 0; its length is then told. */
static uint32_t shape(const uint8_t *b, size_t left, size_t *length)
{
    if (left < 3)
        return 16;
    if (b[0] < 1 || b[0] > 3)
        return 17;
    *length = number_at(b + 1, 2);
    if (!right_length(b[0], (uint32_t)*length))
        return 18;
    return left < 3 + *length ? 16 : 0;
}

static uint32_t add_task(struct file *f, const uint8_t *body)
{
    if (f->arrived)
        return 19;
    if (f->table.count == MOST_TASKS)
        return 1;
    f->table.tasks[f->table.count++] =
        (struct task){(uint16_t)number_at(body, 2), (uint16_t)number_at(body + 2, 2), (uint16_t)number_at(body + 4, 2)};
    return 0;
}

static uint32_t add_arrival(struct file *f, const uint8_t *body, size_t length)
{
    uint32_t slot = number_at(body, 4);
    if (!f->table.count || (f->arrived && slot < f->arrivals[f->arrived - 1].slot))
        return 19;
    f->arrivals[f->arrived++] =
        (struct arrival){slot, (uint16_t)number_at(body + 4, 2), length == 10 ? number_at(body + 6, 4) : NO_LATEST};
    return 0;
}

static uint32_t add_run(struct file *f, const uint8_t *body)
{
    f->slots = number_at(body, 4);
    return !f->table.count ? 19 : f->slots > LONGEST_RUN ? 21 : 0;
}

static uint32_t add(struct file *f, uint8_t tag, const uint8_t *body, size_t length)
{
    return tag == 1 ? add_task(f, body) : tag == 2 ? add_arrival(f, body, length) : add_run(f, body);
}

static void refuse(struct file *f, uint32_t number, size_t place)
{
    f->number = number;
    f->place = (uint32_t)place;
}

void read_fields(struct file *f, const uint8_t *bytes, size_t length)
{
    f->number = f->place = f->slots = 0;
    f->arrived = f->table.count = 0;
    if (length > LONGEST_INPUT) {
        refuse(f, 20, 0);
        return;
    }
    for (size_t at = 0, body = 0; at < length; at += 3 + body) {
        uint8_t tag = bytes[at];
        uint32_t number = shape(bytes + at, length - at, &body);
        if (!number)
            number = add(f, tag, bytes + at + 3, body);
        if (number) {
            refuse(f, number, at);
            return;
        }
        if (tag == 3) {
            if (at + 3 + body < length)
                refuse(f, 19, at + 3 + body);
            return;
        }
    }
    refuse(f, 19, length);
}
