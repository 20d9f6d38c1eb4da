/* Rulebooks for trail records: the functions that a C program calls.
 *
 * Link with target/staticlib/libcapi.a, which `make archive` makes.
 *
 * Asked of the caller:
 * - each pointer is valid for reading over the length that follows it, and is
 *   not null, even where the length is 0;
 * - nobody writes to that memory while the call runs.
 * Nothing is asked of the bytes: whatever they hold, the call answers.
 * The functions hold no state and allocate nothing; judge keeps 8 KB of slots
 * on the caller's stack, beside its frames, which nobody has measured.
 */
#ifndef RULEBOOKS_H
#define RULEBOOKS_H

#include <stddef.h>
#include <stdint.h>

#ifdef __cplusplus
extern "C" {
#endif

/* Whether the ruling of a table file accepts a record of 1 to 4,096 nodes:
 * 1 yes, 0 no, or minus the number of a refusal. The table is checked first
 * (-2 to -6), then the record under the table's kinds (-8 to -11). */
int32_t judge(const uint8_t *table, size_t table_len,
              const uint8_t *record, size_t record_len);

#ifdef __cplusplus
}
#endif

#endif
