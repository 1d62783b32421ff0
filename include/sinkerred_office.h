/* The office's order form: whether a line is a well formed order.
 *
 * The function is proved; its source is crates/office, and target/staticlib/liboffice.a holds it once
 * `tools/staticlib office` was run.
 */
#ifndef SINKERRED_OFFICE_H
#define SINKERRED_OFFICE_H

#include <stddef.h>
#include <stdint.h>

#ifdef __cplusplus
extern "C" {
#endif

/* Judges `length` bytes at `line`.
 *
 * `line` is one line without the line feed at its end: a line feed among the bytes makes it no order.
 * `line` is never null, not even when `length` is 0; every one of the `length` bytes can be read.
 *
 * Answers 0 if the line is one flat JSON array of integers, each from -999,999,999 to 999,999,999. That says
 * nothing of what the order means: which values it has, and how many, is judged later.
 * Else it answers number * 1,000,000 + place:
 *     18,065,536          the line has more than 65,536 bytes
 *     1,000,000 + place   it is no such array; its first `place` bytes are its longest beginning that also
 *                         begins one
 *     2,000,000 + place   a number is beyond the range; `place` bytes stand before the first such number
 * The largest answer is 18,065,536.
 *
 * It reads the bytes and nothing else, writes nothing, allocates nothing and keeps nothing from call to call, so
 * it can be called from any thread.
 */
uint32_t sinkerred_order_form(const uint8_t *line, size_t length);

#ifdef __cplusplus
}
#endif

#endif
