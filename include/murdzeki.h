/* Murdzeki: passes for label presses with two lanes and more. Table and plan lines are described in docs/FORMAT.md. */
#ifndef MURDZEKI_H
#define MURDZEKI_H

#include <stddef.h>
#include <stdint.h>

#ifdef __cplusplus
extern "C" {
#endif

/* Bytes of output that each call needs. */
#define MURDZEKI_OUTPUT 40960

/*
 * Reads the table in the first `input_length` bytes of `input`, plans its passes and writes the plan's lines to `output`; a table that
 * cannot be read is answered by one refusal line: 1E, its number, 01 to 07 or 09, and the line that is wrong. Two jobs share a pass only
 * if they are in the same printing window: lines 05 name it, and jobs on other lines are in window 0. Returns the length of the lines
 * written, and sets every byte of `output` from there up to `output_length` to 0.
 *
 * Returns 0 if and only if `output_length` is below MURDZEKI_OUTPUT; then nothing is written.
 *
 * Any bytes may be handed over; the longest table that is accepted has 60,427. `input` is only read, and nothing outside the two buffers
 * is touched. The two must not overlap, and neither pointer may be NULL, not even with length 0. The call needs less than 1 MiB of stack
 * and no other memory, always ends, keeps no state, and can be made from several threads at once.
 */
size_t murdzeki_plan(const uint8_t *input, size_t input_length, uint8_t *output, size_t output_length);

/*
 * Groups the jobs of a table, as murdzeki_plan reads it, for a press with `lanes` lanes, 2 to 8, that takes full passes alone: each job in one group of `lanes`
 * jobs, all in one printing window, none of them solo, with a layout other than 0 that suits all of them. Writes a line 13 for each group, its
 * jobs in running order and the deepest layout that suits all, and a line 1F with the number of groups; or one refusal line: 1E0D0000 if
 * `lanes` is below 2 or above 8, else that of a table that cannot be read, else 1E0E0000 exactly if the jobs cannot be grouped so in any way.
 * Every `lanes` is answered. What is returned, the zeros, the buffers, the stack and threads are as for murdzeki_plan.
 */
size_t murdzeki_group(const uint8_t *input, size_t input_length, uint8_t *output, size_t output_length, size_t lanes);

#ifdef __cplusplus
}
#endif

#endif
