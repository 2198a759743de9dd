/* Looks up a name in a plan: standard input is the name's slot of 256 octets and then the plan's records. */
#include "a6plan.h"
#include <arpa/inet.h>
#include <stdio.h>

static const char *const refusals[] = {
    [1] = "the table is no whole number of records of 536 octets, or has more than 1,024",
    [2] = "not as it must be",
    [3] = "an earlier DNAME has the same (the case of letters does not count)",
    [4] = "the name is malformed, or cut short: its slot has 256 octets",
    [5] = "the output, the TTLs or the figures have another length than is asked",
    [6] = "the name has more chains than the limit, 10,000",
    [7] = "the name has more addresses than there is room for, 64",
};

static const char *const fields[] = {
    [A6PLAN_FIELD_TYPE] = "type",
    [A6PLAN_FIELD_LENGTH] = "prefix length",
    [A6PLAN_FIELD_ZERO] = "zero octet",
    [A6PLAN_FIELD_ADDRESS] = "address",
    [A6PLAN_FIELD_OWNER] = "owner",
    [A6PLAN_FIELD_TARGET] = "target",
    [A6PLAN_FIELD_TTL] = "TTL",
};

/* 2 and 3 have a place in the table: the index of a record, from 0, and one of its fields. */
static int refused(uint32_t number, uint32_t index, uint32_t field)
{
    fprintf(stderr, "refused %u: ", number);
    if (number == 2 || number == 3)
        fprintf(stderr, "record %u (from 0), %s: ", index, fields[field]);
    fprintf(stderr, "%s\n", refusals[number]);
    return (int)number;
}

int main(void)
{
    /* One octet more than a full table: a longer one is seen to be longer, and refused. */
    static uint8_t slot[256], plan[1024 * 536 + 1], out[64 * 16];
    uint32_t ttls[64], figures[4];
    size_t slotted = fread(slot, 1, sizeof slot, stdin);
    size_t length = fread(plan, 1, sizeof plan, stdin);
    if (ferror(stdin))
        return perror("standard input"), 101;
    if (slotted < sizeof slot)
        return refused(4, 0, 0);
    uint32_t number = a6plan_lookup(plan, length, slot + 1, slot[0], 10000, out, sizeof out,
                                    ttls, A6PLAN_COUNT(ttls), figures, A6PLAN_COUNT(figures));
    if (number != 0)
        return refused(number, figures[2], figures[3]);
    char text[INET6_ADDRSTRLEN];
    for (uint32_t i = 0; i < figures[0]; i++)
        printf("%s %u\n", inet_ntop(AF_INET6, out + 16 * i, text, sizeof text), ttls[i]);
    if (fflush(stdout) != 0)
        return perror("standard output"), 101;
    return 0;
}
