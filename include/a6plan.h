/*
 * The A6 plan library's C interface.
 *
 * A slice is a pointer and a length in elements. Each pointer must have as many elements as its length says, and what
 * is written must not overlap anything else that is handed in; nothing more is asked of the caller. A pointer whose
 * length is 0 is not read. Each call returns the number of its answer: 0 is done, any other number is a refusal.
 * After a refusal every lent output is zero, and so are the figures, but for the index and the field after 2 and 3.
 *
 * figures: two places or four, as each call says. With a figures slice of another length the number is 5, where the call
 * earns none that comes before 5, and all that is lent is zero, whatever the number. Each call lists its numbers in the order
 * in which they are judged, unless it says otherwise.
 *
 * index, field: where a table is refused with 2 or 3, the first record at fault and the first field at fault in it, both
 * numbered from 0. For 3 that is the first DNAME whose owner an earlier DNAME has, and its owner. Zeros after any other number.
 *
 * Names are the same where they differ in nothing but how a run of bits is cut into bit labels, and in the case of the letters
 * A to Z inside ordinary labels. What is written has its letters as they were given, or as the table has them. A caller that
 * compares names itself has to put A to Z and a to z together inside ordinary labels only: a bit label begins with 65, an A.
 */
#ifndef A6PLAN_H
#define A6PLAN_H

#include <stddef.h>
#include <stdint.h>

/* The version of this interface (CHANGELOG.md), as text and by its parts. */
#define A6PLAN_VERSION "0.6.0"
#define A6PLAN_VERSION_MAJOR 0
#define A6PLAN_VERSION_MINOR 6
#define A6PLAN_VERSION_PATCH 0

/* How many elements an array has, which is the length of its slice; sizeof counts octets. Of an array, not of a pointer. */
#define A6PLAN_COUNT(array) (sizeof (array) / sizeof (array)[0])

/*
 * Data is what a record holds, its RDATA, alone: no owner, type, class, TTL or length before it, no compressed name in it.
 * A value is what data stands for, in 273 octets: the prefix length L; sixteen address octets whose first L bits are zero;
 * the length of the prefix name; 255 octets with the name in wire form, in standard form, and zeros after it. At L = 0
 * there is no name: length 0 and zeros. The root is a name of length 1. No value takes more than 272 octets as data.
 */
#define A6PLAN_VALUE 273
#define A6PLAN_DATA 272

/* The octets of the longest line that is written, its octet 10 among them. A line that is read may have any length. */
#define A6PLAN_LINE 2066

/* The fields of a record, in the order in which they are judged. ZERO is the octet after the prefix length. */
#define A6PLAN_FIELD_TYPE 0
#define A6PLAN_FIELD_LENGTH 1
#define A6PLAN_FIELD_ZERO 2
#define A6PLAN_FIELD_ADDRESS 3
#define A6PLAN_FIELD_OWNER 4
#define A6PLAN_FIELD_TARGET 5
#define A6PLAN_FIELD_TTL 6

#ifdef __cplusplus
extern "C" {
#endif

/*
 * The standard form of a name in wire form: one bit label for each run of bits, letters as they are, then zeros to the end of
 * the output.
 * figures, two: the length of the standard form, and 0.
 * 4: the name is malformed. 5: the output is not of 255 octets, or the figures are not two.
 */
uint32_t a6plan_standard(const uint8_t *name, size_t name_length,
                         uint8_t *out, size_t out_length,
                         uint32_t *figures, size_t figures_length);

/*
 * The value that A6 data stands for: the data is the prefix length, the octets of the address that it does not fill, and the
 * prefix name where it is not 0. From left to right: 11: the data ends too soon. 10: prefix length over 128. 12: the name is
 * malformed. 13, last: octets are left over. 5, before everything else: the value slice is not of 273 octets.
 */
uint32_t a6plan_read(const uint8_t *data, size_t data_length,
                     uint8_t *value, size_t value_length);

/*
 * The A6 data of a value of 273 octets, then zeros. figures, two: the octets written, and 0.
 * In this order, 10: prefix length over 128. 12: not a value that reading can give. 7: the output is too short.
 * 5, before everything else: the value slice is not of 273 octets, or the figures are not two.
 */
uint32_t a6plan_write(const uint8_t *value, size_t value_length,
                      uint8_t *out, size_t out_length,
                      uint32_t *figures, size_t figures_length);

/*
 * The value that data of the 1998 layout stands for: the data is sixteen address octets, the prefix length L, and the prefix
 * name where L is not 0. The first L bits of the address are cleared. From left to right: 11: fewer than seventeen octets.
 * 10: L over 128. 11 or 12: the name ends too soon or is malformed. 13, last: octets are left over, at L = 0 any after the
 * seventeenth. 5, before everything else: the value slice is not of 273 octets.
 */
uint32_t a6plan_read_1998(const uint8_t *data, size_t data_length,
                          uint8_t *value, size_t value_length);

/*
 * The data of a value of 273 octets in the 1998 layout, then zeros. figures, two: the octets written, and 0.
 * In this order, 10: prefix length over 128. 12: not a value that reading can give. 7: the output is too short.
 * 5, before everything else: the value slice is not of 273 octets, or the figures are not two.
 */
uint32_t a6plan_write_1998(const uint8_t *value, size_t value_length,
                           uint8_t *out, size_t out_length,
                           uint32_t *figures, size_t figures_length);

/*
 * Whether a table is in order: 0. figures, two: index and field.
 * 1: its length. 2: some record. 3: two DNAMEs with the same owner. 5, last: the figures are not two.
 */
uint32_t a6plan_check(const uint8_t *table, size_t table_length,
                      uint32_t *figures, size_t figures_length);

/*
 * The part of the table that the owner of a record takes, without the length octet.
 * figures, two: where it starts and its length; 0 and 0 for an index that is no record's and for a table that is not in order.
 * 5: the figures are not two.
 */
uint32_t a6plan_owner(const uint8_t *table, size_t table_length, size_t index,
                      uint32_t *figures, size_t figures_length);

/*
 * The addresses of a name in ascending order, each once, sixteen octets each, then zeros. ttls: at the place of each address
 * the least TTL among the records of the complete chains that spell it and use no record twice, then zeros. figures, four: how
 * many addresses, the work, index, field.
 * 1, 2, 3: the table. 4: the name is malformed. 5: the output is no multiple of 16 octets, ttls has another length than a
 * sixteenth of it, or the figures are not four. 6: the work is more than the limit. 7: there are more addresses than room.
 */
uint32_t a6plan_lookup(const uint8_t *table, size_t table_length,
                       const uint8_t *name, size_t name_length, uint32_t limit,
                       uint8_t *out, size_t out_length,
                       uint32_t *ttls, size_t ttls_length,
                       uint32_t *figures, size_t figures_length);

/*
 * The name where the rewriting of an address's reverse name by DNAMEs ends, then zeros. figures, four: its length, the
 * rewrites, index, field. The reverse name begins as a bit label and IP6.ARPA, in capitals.
 * 1, 2, 3: the table. 4: the address is not of sixteen octets. 5: the output is not of 255 octets, or the figures are not four.
 * 6: a rewrite is due and none is left of the limit. 8: a rewrite gives a name that is too large.
 */
uint32_t a6plan_reverse(const uint8_t *table, size_t table_length,
                        const uint8_t *address, size_t address_length, uint8_t limit,
                        uint8_t *out, size_t out_length,
                        uint32_t *figures, size_t figures_length);

/*
 * The table in which each unfinished A6 record of a name is replaced by what it makes with the records of its target, each
 * time with the smaller TTL of the two, then zeros. figures, four: how many records, 0, index, field. Every name keeps its
 * addresses. Owners and targets are spelt as in the table, whatever the spelling of the given name.
 * 1, 2, 3: the table. 4: the name is malformed. 5: the output is no multiple of 536 octets, or the figures are not four.
 * 9: an ignored record could come back. 7: the new table has more records than the output has room for, or than 1,024.
 */
uint32_t a6plan_collapse(const uint8_t *table, size_t table_length,
                         const uint8_t *name, size_t name_length,
                         uint8_t *out, size_t out_length,
                         uint32_t *figures, size_t figures_length);

/*
 * An A6 record as a zone line: owner, TTL, A6, prefix length, address and, unless the length is 0, target, with one space
 * between them, and octet 10; then zeros. figures, two: the octets of the line with its octet 10, and 0.
 * In this order, 2: not exactly one A6 record in order, of 536 octets. 23: the line is longer than the output.
 * 5, before everything else: the figures are not two. The figures say no place: they are zero after 2, too.
 */
uint32_t a6plan_write_line(const uint8_t *record, size_t record_length,
                           uint8_t *out, size_t out_length,
                           uint32_t *figures, size_t figures_length);

/*
 * The A6 record of a zone line, in 536 octets, then zeros. The line ends in octet 10, and spaces or tabs stand between its
 * fields. A TTL that is left out is 300; at prefix length 128 the address may be left out. The first bits of the address are
 * cleared, as many as the prefix length; names are put in standard form. figures, two: 1, the records, and 0.
 * Each judged over the whole line before the next, 20: not a line of the form (docs/FORMATS.md, Zone lines). 21: a number is
 * out of range. 22: a label, a run of bits or a name is too long. 23: the output has fewer than 536 octets.
 * 5, before everything else: the figures are not two.
 */
uint32_t a6plan_read_line(const uint8_t *line, size_t line_length,
                          uint8_t *out, size_t out_length,
                          uint32_t *figures, size_t figures_length);

#ifdef __cplusplus
}
#endif

#endif
