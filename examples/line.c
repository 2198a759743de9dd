/* Reads zone lines on standard input, each one A6 record, and prints each as the library writes it. */
#define _POSIX_C_SOURCE 200809L
#include "a6plan.h"
#include <stdio.h>

static const char *const refusals[] = {
    [20] = "not of the form of an A6 line",
    [21] = "a number is out of range",
    [22] = "a label, a run of bits or a name is too long",
};

int main(void)
{
    uint8_t record[536], line[A6PLAN_LINE];
    uint32_t figures[2];
    char *text = NULL;
    size_t room = 0, lines = 0;
    ssize_t length;
    while ((length = getline(&text, &room, stdin)) >= 0) {
        lines++;
        uint32_t number = a6plan_read_line((const uint8_t *)text, (size_t)length, record, sizeof record,
                                           figures, A6PLAN_COUNT(figures));
        if (number != 0)
            return fprintf(stderr, "refused %u: line %zu: %s\n", number, lines, refusals[number]), (int)number;
        /* A record that was read is in order, and there is room for every line. */
        a6plan_write_line(record, sizeof record, line, sizeof line, figures, A6PLAN_COUNT(figures));
        fwrite(line, 1, figures[0], stdout);
    }
    if (!feof(stdin))
        return perror("standard input"), 101;
    if (fflush(stdout) != 0 || ferror(stdout))
        return perror("standard output"), 101;
    return 0;
}
