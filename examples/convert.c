/* Makes A6 data of data in the 1998 layout: one piece on standard input, its A6 data on standard output. */
#include "a6plan.h"
#include <stdio.h>

static const char *const refusals[] = {
    [10] = "the prefix length, the seventeenth octet, is over 128",
    [11] = "the data ends too soon",
    [12] = "the prefix name is malformed, or compressed",
    [13] = "octets are left over",
};

int main(void)
{
    /* More than 512 octets are answered as the first 512 are: good data has 272 at most. */
    uint8_t data[512], value[A6PLAN_VALUE], out[A6PLAN_DATA];
    uint32_t figures[2];
    size_t length = fread(data, 1, sizeof data, stdin);
    if (ferror(stdin))
        return perror("standard input"), 101;
    uint32_t number = a6plan_read_1998(data, length, value, sizeof value);
    if (number == 0)
        number = a6plan_write(value, sizeof value, out, sizeof out, figures, A6PLAN_COUNT(figures));
    if (number != 0)
        return fprintf(stderr, "refused %u: %s (%zu octets read)\n", number, refusals[number], length), (int)number;
    if (fwrite(out, 1, figures[0], stdout) < figures[0] || fflush(stdout) != 0)
        return perror("standard output"), 101;
    return 0;
}
