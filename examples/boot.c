/* The boot call on one task of two slots in every five, due by the third, and a run of ten slots. */
#include "pyeodasik.h"
#include <stdio.h>

int main(void)
{
    static const uint8_t fields[] = {1, 6, 0, 2, 0, 3, 0, 5, 0, 3, 4, 0, 10, 0, 0, 0};
    struct pyeodasik_boot_answer a = pyeodasik_boot(fields, sizeof fields);
    printf("number %u place %u window %u\n", a.number, a.place, a.window);
    return a.number != 0;
}
