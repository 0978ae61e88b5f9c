/* The mapper, the inspector and the reader of equations of Ploverdrift. Link libplover.a for
 * x86-64: lib/libplover.a of a release, or crates/plover/out/libplover.a, which `./make plover` makes.
 * What the functions promise is proved for all bytes (docs/PROMISES.md, plover); that this file
 * declares them as they are is not.
 *
 * A pointer comes with the number of bytes that it points to. It is never null, even where that
 * number is 0. No function keeps a pointer, allocates or has state of its own. */
#ifndef PLOVER_H
#define PLOVER_H

#include <stddef.h>
#include <stdint.h>

#ifdef __cplusplus
extern "C" {
#endif

/* Bytes of a sheet buffer that is long enough for every table. */
#define PLOVER_ROOM 49152

/* Bytes of a table buffer that is long enough for every text of equations. */
#define PLOVER_TABLE_ROOM 4096

/* Maps a gate table and writes the mapping sheet to the front of the buffer, which must not
 * overlap the table. The reply's number is 0 and its place the sheet's length, and the buffer is as
 * it was from there on; or the number is 1 to 8, for what the table or the buffer is refused for,
 * with its place, and the buffer is as it was. */
uint64_t plover_map(const uint8_t *table, size_t table_length, uint8_t *sheet, size_t sheet_length);

/* Judges anybody's sheet of a gate table. The reply's number is 0 and its place the depth; or the
 * number is 1 to 7 for the table or 21 to 31 for the sheet, with its place. */
uint64_t plover_inspect(const uint8_t *table, size_t table_length, const uint8_t *sheet,
                        size_t sheet_length);

/* Turns a text of equations, as "in a b; f = a*!b; out f;", into a gate table for a K, and writes
 * it to the front of the buffer, which must not overlap the text. The reply's number is 0 and its
 * place the table's length, and the buffer is as it was from there on; or it is what is refused,
 * the first of these, and the buffer is as it was:
 *   41  the text has more than 8,192 bytes, at 8,192; or it is not in the grammar or nested too
 *       deep, at the end of its longest beginning that some text in the grammar shares
 *   42  a name that is used but nowhere defined, or defined again, at the earliest such
 *   43  K, or the number of inputs, nodes or outputs, is one that no table has, at 0
 *    7  a loop, at its lowest gate
 *    8  a buffer below 4,096 bytes, at 4,096
 * plover_map takes every table that is written. The call takes some 95 kB of stack. */
uint64_t plover_equations(const uint8_t *text, size_t text_length, uint64_t k, uint8_t *table,
                          size_t table_length);

/* The paper's number in a reply, and 0 where all is well. */
static inline uint32_t plover_number(uint64_t reply) { return (uint32_t)(reply >> 32); }

/* The place in a reply, or the sheet's or the table's length, or the depth. */
static inline uint32_t plover_place(uint64_t reply) { return (uint32_t)reply; }

#ifdef __cplusplus
}
#endif

#endif
