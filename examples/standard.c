/* Prints the standard form of a name whose 128 bits stand in three bit labels, in hex. */
#include "a6plan.h"
#include <stdio.h>

int main(void)
{
    static const uint8_t name[] = "\x41\x40\x0a\x00\x20\xff\xfe\x81\x2b\x32\x41\x10\x00\x09\x41\x30\x3f\xfe\x07\xc0\x00\x40\x03IP6\x04" "ARPA";
    uint8_t out[255];
    uint32_t figures[2];
    uint32_t number = a6plan_standard(name, sizeof name, out, sizeof out, figures, A6PLAN_COUNT(figures));
    if (number != 0)
        return fprintf(stderr, "refused %u\n", number), 1;
    for (uint32_t i = 0; i < figures[0]; i++)
        printf("%02x", out[i]);
    printf("\n");
    return 0;
}
