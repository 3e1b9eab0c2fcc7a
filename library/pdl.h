/* The C interface of the PDL analyzer (crates/pdl), for C99 and C++.
 *
 * Build the library with `rt lib` in crates/pdl and link crates/pdl/out/libpdl.a (x86-64 Linux). It calls nothing but memcpy and
 * memset, keeps no state between calls, and takes no memory but the stack. The numbers of replies are those of numbered in
 * crates/rules/specs/Replies.antt and header_numbers in crates/pdl/specs/Numbers.antt, which the contract of pdl_analyze cites.
 *
 * A table is records of 40 bytes, little endian: byte 0 kind, 1 marks, 2-3 name, 4-5 second name, 6-7 third name, 8-15 number one,
 * 16-23 number two, 24-25 key, 28-29 start and 32-33 end of the source location; all other bytes are zero.
 * A fault is 20 bytes, little endian: 0-1 code, 2-3 one if there is a secondary location, else zero, 4-7 start and 8-11 end of the
 * primary location, 12-15 start and 16-19 end of the secondary one, zero if there is none.
 */
#ifndef PDL_H
#define PDL_H

#include <stddef.h>
#include <stdint.h>

#ifdef __cplusplus
extern "C" {
#endif

#define PDL_RECORD_BYTES 40   /* bytes of a record */
#define PDL_MOST_RECORDS 1600 /* the most records of a table, read or written */
#define PDL_TABLE_BYTES 64000 /* bytes of the longest table: a table buffer of this length never gets PDL_NO_ROOM */
#define PDL_FAULT_BYTES 20    /* bytes of a fault */

/* Enough stack for pdl_analyze. Measured, not proved: example.c, whose buffers are not on the stack, answers the deepest tables tried with
 * `ulimit -s 464` (KiB) in each of 40 runs; 1,600 structs, each the child of the next, with 456 in some and with 448 in none, as the system
 * does not always begin the stack at the same place. The caller's buffers come on top if they are on the stack. */
#define PDL_STACK_BYTES 1048576

/* reply[0]: the row of the table of replies, from the top; the first that applies is given.
 * reply[1], reply[2]: its values; 0 where none is named here. */
enum pdl_reply {
    PDL_UNEVEN = 1,     /* the length of the input is no multiple of 40 */
    PDL_TOO_LONG = 2,   /* more than 1,600 records */
    PDL_MALFORMED = 3,  /* reply[1]: place of the first record, from 0, that breaks its row or its place */
    PDL_FAULTY = 4,     /* reply[1]: the pass, 1 to 9; reply[2]: how many faults it finds, also those that did not fit */
    PDL_SWOLLEN = 5,    /* the inlined table has more than 1,600 records */
    PDL_UNFIT = 6,      /* reply[1]: key of the first inlined field whose constraint lacks the value or tag that it needs */
    PDL_LOOSE = 7,      /* reply[1]: key of the first inlined field with a condition, but without a name or the condition's value */
    PDL_OVERLISTED = 8, /* flag entries bring the table over 1,600 records */
    PDL_NO_ROOM = 9,    /* reply[1]: the bytes that the table needs; the table buffer has fewer */
    PDL_ACCEPTED = 10   /* reply[1]: the records written */
};

/* Analyzes the table of input_len bytes at input. Any bytes and any lengths are answered, and reply is always written.
 *
 * PDL_ACCEPTED writes the accepted table to the first 40 * reply[1] bytes of table. PDL_FAULTY writes the first faults to faults, as
 * many whole ones as fit: the lesser of reply[2] and faults_len / 20. Every other byte of both buffers keeps its value, and with any
 * other reply all do.
 *
 * The four parts of memory do not overlap. No pointer is null, not even with a length of 0. reply is aligned as uint64_t is.
 */
void pdl_analyze(const uint8_t *input, size_t input_len,
                 uint8_t *table, size_t table_len,
                 uint8_t *faults, size_t faults_len,
                 uint64_t reply[3]);

#ifdef __cplusplus
}
#endif

#endif
