/* Region maps, boot tables, configuration tables and strap values.
 *
 * Link with libtuneharbor.a. A call writes its answer as numbers into an
 * array that the caller lends, and keeps nothing between calls.
 *
 * No pointer may be null, not even where its count is 0. Memory that a call
 * writes (answer, memory, output, values) must not overlap any other
 * argument.
 *
 * answer[0], the number, is 0 or that of a refusal. answer[1], the place, is
 * where a refusal arose: a byte offset into the table, the index of a map
 * record, or the index of a section in a list; 0 where there is no such place.
 * After a refusal memory, output and values are unchanged, and all answers from
 * answer[2] on are 0 but those that are said to speak of a refusal.
 *
 * low_first names the byte order of the header words of a boot table, which
 * are its entry and each section's size and address: true for the low byte
 * first, false for the high byte first. A call has one order for all its boot
 * tables. No call finds out the order: a table in the other order is read as
 * it then stands, and is mostly refused, but can be accepted with another
 * meaning; tuneharbor_rescue does not refuse it, and mostly keeps no section.
 * Data bytes and pads are never reordered. The words of maps and of
 * configuration tables have the high byte first. */
#ifndef TUNEHARBOR_H
#define TUNEHARBOR_H

#include <stdbool.h>
#include <stddef.h>
#include <stdint.h>

#ifdef __cplusplus
extern "C" {
#endif

/* So many bytes of stack are enough for one call of tuneharbor_judge or of
 * tuneharbor_load, on x86-64; examples/stack.c measures what they take. Some of
 * the bytes lie below the stack pointer, as the System V calling convention
 * for x86-64 allows: what interrupts a call on the same stack must leave the
 * 128 bytes there as they are, and the stack that it needs is not counted. */
#define TUNEHARBOR_STACK 1024

/* The numbers of the refusals. */
enum {
    TUNEHARBOR_MAP_LENGTH = 1,       /* the map's length is no multiple of 12, or over 768 */
    TUNEHARBOR_MAP_RECORD = 2,       /* a map record breaks a rule */
    TUNEHARBOR_MEMORY_LENGTH = 3,    /* the memory's length differs from the permitted sum */
    TUNEHARBOR_TABLE_LONG = 4,       /* the boot table is over 16,777,216 bytes */
    TUNEHARBOR_TABLE_CUT = 5,        /* the boot table is cut short */
    /* 6 is withdrawn and not used again */
    TUNEHARBOR_BYTES_AFTER = 7,      /* bytes stand after the zero word */
    TUNEHARBOR_PAST_TOP = 8,         /* address plus size is over 2^32 */
    TUNEHARBOR_NOT_OPEN = 9,         /* an address is not open */
    TUNEHARBOR_RESULT_LONG = 10,     /* the result is over 16,777,216 bytes */
    TUNEHARBOR_OUTPUT_SHORT = 11,    /* the output is shorter than the result */
    TUNEHARBOR_REGISTERS_UNFIT = 12, /* the register lists are unfit */
    TUNEHARBOR_CONFIG_LONG = 13,     /* the configuration table is over 49,152 bytes */
    TUNEHARBOR_CONFIG_CUT = 14,      /* the configuration table ends before three zero words */
    TUNEHARBOR_CONFIG_AFTER = 15,    /* bytes stand after the end entry */
    TUNEHARBOR_NO_REGISTER = 16,     /* a register is not in the list */
    TUNEHARBOR_BRANCH = 17,          /* a branch is asked for */
    TUNEHARBOR_STRAP_LONG = 18,      /* the strap value is over 8,191 */
    TUNEHARBOR_STRAP_RESERVED = 19,  /* the strap value is reserved */
    TUNEHARBOR_PAST_DATA = 20,       /* a section's start plus size is past the data */
    TUNEHARBOR_SIZE_ZERO = 21,       /* a section's size is zero */
    TUNEHARBOR_STORED_TWICE = 29     /* an address of kind 3 is stored twice */
};

/* Judges a map. A record's kind, its third byte, is 1 permitted, 2 reserved, or
 * 3, permitted with one write: a table that stores one of its addresses twice is
 * refused. A record of kind 1 or 3 that shares an address with an earlier one of
 * these kinds is refused; reserved records may share addresses with any.
 *
 * answer[0] number
 * answer[1] place
 * answer[2] the permitted sum, of kinds 1 and 3: how many bytes of memory
 *           loading needs */
void tuneharbor_map(const uint8_t *map, size_t map_len, uint64_t answer[3]);

/* Judges a map and a boot table, and stores nothing.
 *
 * TUNEHARBOR_STORED_TWICE comes after TUNEHARBOR_NOT_OPEN of every section; the
 * place is the offset of the first section that stores an address of kind 3
 * which an earlier section of the same table has stored. Under a map with kind 3
 * a table whose sections neither rise nor fall takes time by pairs of sections.
 * The worst has 1,398,100 of them, the most that a table can have, all in kind 3;
 * it would take 50 to 90 minutes on the servers of docs/BENCHMARK.md.
 *
 * answer[0] number
 * answer[1] place
 * answer[2] after the refusal TUNEHARBOR_NOT_OPEN the section's lowest address
 *           that is not open, else 0
 * answer[3] the entry address
 * answer[4] 1 where the entry address is open, else 0
 * answer[5] how many sections the table has
 * answer[6] how many data bytes the sections have together */
void tuneharbor_judge(const uint8_t *map, size_t map_len,
                      const uint8_t *table, size_t table_len, bool low_first,
                      uint64_t answer[7]);

/* Loads a boot table into memory under a map. Memory of another length than the
 * permitted sum is refused. Nothing is stored before the whole table is accepted.
 * At an address that two sections store the later one wins; under kind 3 such a
 * table is refused. What one load stored does not count in the next.
 *
 * answer[0] to answer[6] as for tuneharbor_judge */
void tuneharbor_load(const uint8_t *map, size_t map_len,
                     const uint8_t *table, size_t table_len, bool low_first,
                     uint8_t *memory, size_t memory_len,
                     uint64_t answer[7]);

/* Joins two boot tables: the second's entry address, the first's sections,
 * and then the second's. Both tables and the join are in one byte order. The
 * output past the join is unchanged.
 *
 * answer[0] number
 * answer[1] place
 * answer[2] after a refusal the table that it speaks of, 1 or 2, or 0 for the
 *           join itself; else 0
 * answer[3] the join's length in bytes
 * answer[4] how many sections the join has */
void tuneharbor_join(const uint8_t *first, size_t first_len,
                     const uint8_t *second, size_t second_len, bool low_first,
                     uint8_t *output, size_t output_len,
                     uint64_t answer[5]);

/* A section of a list for tuneharbor_write: the address of its first byte, and
 * where in the data its bytes stand, size of them from start on. */
typedef struct {
    uint32_t address, start, size;
} tuneharbor_section;

/* Writes a boot table: the entry address, the sections of a list in the list's
 * order, each with its bytes of the data and zero pads, and the zero word. No
 * sections are merged; they may share data, and addresses. sections_len is in
 * sections. The table has 8 bytes, and for each section 8 more and its size
 * rounded up to a multiple of four. The output past the table is unchanged.
 *
 * The first bad section of the list is refused with the first of
 * TUNEHARBOR_SIZE_ZERO, TUNEHARBOR_PAST_DATA and TUNEHARBOR_PAST_TOP that holds,
 * and the place is its index, from 0 on. Where no section is bad,
 * TUNEHARBOR_RESULT_LONG comes before TUNEHARBOR_OUTPUT_SHORT.
 *
 * answer[0] number
 * answer[1] place
 * answer[2] the table's length in bytes
 * answer[3] how many sections the table has */
void tuneharbor_write(uint32_t entry,
                      const tuneharbor_section *sections, size_t sections_len,
                      const uint8_t *data, size_t data_len, bool low_first,
                      uint8_t *output, size_t output_len,
                      uint64_t answer[4]);

/* Finds what stands at an address in two boot tables, an older and a newer one
 * in one byte order. In one table the last section that covers the address
 * decides, and the newer table goes before the older. What is found is a part
 * of that table: it begins at the byte for the address and runs to the end of
 * its section's data. Where both tables load under one map and one of them
 * covers the address, the first byte of the part is what loading the older and
 * then the newer leaves there.
 *
 * Both tables are walked to their end words. Only size and address words are
 * read, never an entry, a pad or a data byte. A table that is not well-formed
 * is refused as in tuneharbor_join, the older as table 1.
 *
 * answer[0] number
 * answer[1] place
 * answer[2] the table that has the part, 1 the older or 2 the newer, or 0 where
 *           neither covers the address; after a refusal the table that it
 *           speaks of, 1 or 2
 * answer[3] the offset of the part in its table, else 0
 * answer[4] the part's length in bytes, else 0
 * answer[5] how many bytes of both tables were read: 8 for each section and 4
 *           for each end word */
void tuneharbor_find(const uint8_t *older, size_t older_len,
                     const uint8_t *newer, size_t newer_len, bool low_first,
                     uint32_t address, uint64_t answer[6]);

/* Rescues a boot table that is cut or damaged: the result is its entry address,
 * its whole sections from the start up to the first fault, as they stand, pads
 * too, and a zero word. A section that is cut short or past the top ends the
 * run, and so does a zero word, also where bytes stand after it; those bytes are
 * not used. The zero word is added where none stands behind the sections kept.
 * A well-formed table comes back byte for byte. An output four bytes longer
 * than the table always has room. The output past the result is unchanged.
 *
 * Refused, each with place 0, are TUNEHARBOR_TABLE_LONG; TUNEHARBOR_TABLE_CUT,
 * only where the entry word is missing or cut; TUNEHARBOR_RESULT_LONG, where the
 * added zero word would pass the limit; and then TUNEHARBOR_OUTPUT_SHORT.
 *
 * answer[0] number
 * answer[1] place, always 0
 * answer[2] the result's length in bytes
 * answer[3] how many sections were kept
 * answer[4] how many bytes of the table were not used
 * answer[5] 1 where the zero word was added, 0 where it was present */
void tuneharbor_rescue(const uint8_t *table, size_t table_len, bool low_first,
                       uint8_t *output, size_t output_len,
                       uint64_t answer[6]);

/* Sets and clears bits of registers by a configuration table. A register has
 * its address and its value at one index of the two lists. Lists of different
 * lengths, of more than 1,024, or whose addresses do not strictly rise are
 * refused. Their counts are in elements.
 *
 * answer[0] number
 * answer[1] place
 * answer[2] how many entries the table has before its end entry
 * answer[3] how many bits of the values differ after the whole table */
void tuneharbor_configure(const uint8_t *table, size_t table_len,
                          const uint32_t *addresses, size_t addresses_len,
                          uint32_t *values, size_t values_len,
                          uint64_t answer[4]);

/* Decodes a strap value; its device is bits 2:0. A value over 8,191 is refused
 * with TUNEHARBOR_STRAP_LONG, and sub-modes 2 and 3 (bits 6:5) of device 0 with
 * TUNEHARBOR_STRAP_RESERVED.
 *
 * Where strict is true, a value with a wrong reserved bit has that refusal too:
 * bits 9:8 of device 0 and bit 9 of PCIe (device 4) have to be zero; of passive
 * I2C (device 5 with bit 8 one) bit 9 has to be one and bits 4:3 zero. This is
 * the strict manner. Where strict is false, these bits are ignored; this is the
 * lenient manner.
 *
 * answer[0] number
 * answer[1] place, always 0
 * answer[2] kind
 * answer[3] to answer[8] the kind's fields in the order below, 1 for yes and
 *           0 for no, and 0 past the last
 *
 * kind 0, sleep:        SR, wait, clock
 * kind 1, EMIF16:       SR, wait, clock
 * kind 2, link:         device, number, clock
 * kind 3, Ethernet:     device, multiplier, connection, id, clock
 * kind 4, PCIe:         BAR, SR, clock
 * kind 5, I2C master:   number
 * kind 6, I2C passive:  address
 * kind 7, SPI:          mode, five pins, wide address, chip select, table, SR */
void tuneharbor_strap(uint32_t value, bool strict, uint64_t answer[9]);

/* Decodes a strap value where no manner is named: in the strict manner.
 *
 * answer[0] to answer[8] as for tuneharbor_strap */
void tuneharbor_strap_short(uint32_t value, uint64_t answer[9]);

/* Whether two strap values have one kind and equal fields, in the lenient
 * manner: reserved bits are ignored. A value over 8,191 and sub-modes 2 and 3 of
 * device 0 are refused; the first value's refusal comes before the second's.
 *
 * answer[0] number
 * answer[1] place, always 0
 * answer[2] 1 where they are the same, else 0 */
void tuneharbor_strap_same(uint32_t first, uint32_t second, uint64_t answer[3]);

/* The board label's number of a strap value, which is its kind, in the lenient
 * manner: reserved bits are ignored. A value over 8,191 and sub-modes 2 and 3 of
 * device 0 are refused.
 *
 * answer[0] number
 * answer[1] place, always 0
 * answer[2] label */
void tuneharbor_strap_label(uint32_t value, uint64_t answer[3]);

#ifdef __cplusplus
}
#endif

#endif
