/* The boot call's answers to a stream of inputs, each behind its length in four bytes, low byte first: a line for each. */
#include "pyeodasik.h"
#include <stdio.h>

static uint8_t bytes[1 << 16];

int main(void) {
    uint8_t low[4];
    while (fread(low, 1, 4, stdin) == 4) {
        size_t length = low[0] | (size_t)low[1] << 8 | (size_t)low[2] << 16 | (size_t)low[3] << 24;
        if (length > sizeof bytes || fread(bytes, 1, length, stdin) != length) {
            fprintf(stderr, "flood: the stream is cut or an input too long\n");
            return 1;
        }
        struct pyeodasik_boot_answer answer = pyeodasik_boot(bytes, length);
        printf("%u %u %u\n", answer.number, answer.place, answer.window);
    }
    return 0;
}
