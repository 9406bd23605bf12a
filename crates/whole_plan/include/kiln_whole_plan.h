/* The whole plan of a kiln logger's table, for C. Link target/staticlib/libwhole_plan.a, which `sh tools/archive` builds. */
#ifndef KILN_WHOLE_PLAN_H
#define KILN_WHOLE_PLAN_H

#include <stddef.h>
#include <stdint.h>

#ifdef __cplusplus
extern "C" {
#endif

/*
 * Makes the plan file of the table file in the table_len bytes at table, and writes it to the front of the plan_len bytes at plan.
 * Any bytes and any lengths go. The call keeps nothing, allocates nothing and takes about 9 KB of stack.
 *
 * The caller must see to it, since the call cannot, that
 *   - table is valid for reading table_len bytes, and plan for reading and writing plan_len bytes. Neither is null, also where the length is 0;
 *   - the two ranges do not overlap, and nobody else writes to either during the call.
 *
 * Answers
 *   above 0: the length of the plan file, 690542305 at the most. So many bytes are written; those behind them are as before.
 *   below 0: minus the number of the refusal. No byte is written. The first that applies is given:
 *     -20  the table has fewer than 14 bytes
 *     -21  it does not begin with KTB
 *     -22  its version is not 1
 *     -23  its length is not 14 + 10 * rows
 *     -24  it asks for no plane
 *     -25  it has no row, or more than 256
 *      -1  its processors are not 1 to 16
 *      -2  its scale is not 1 to 134217728
 *     then for the first row, in the order of the file, that is not admitted:
 *      -4  its tag is 0
 *      -5  its execution time is 0 or above its period
 *      -6  its period does not divide the scale
 *      -7  a row before it has its tag
 *      -9  with it the load passes processors * scale
 *     then:
 *     -13  a plane would end past tick 2147483648
 *     -26  plan_len is below 10 + planes * (rows + 1) * (9 + 2 * processors)
 *   It is never 0, and never another number.
 */
int64_t kiln_whole_plan(const uint8_t *table, size_t table_len, uint8_t *plan, size_t plan_len);

#ifdef __cplusplus
}
#endif

#endif
