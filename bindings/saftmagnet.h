/* Saftmagnet's four operations, proved: docs/GUARANTEES.md says what is proved of them.
 *
 * Link with libcapi.a, which `./sf library` proves and writes for x86-64 Linux. It calls nothing but memset.
 *
 * Every slice is a pointer and a length. Inputs may hold any bytes. The caller sees to it, as for any C function,
 * that each pointer leads to as many bytes as its length says, that `out` and the work slices overlap neither each
 * other nor an input, and that nobody else writes any of these bytes during the call. A length may be 0; its pointer
 * is then not followed.
 *
 * The answer is how many bytes were written to the front of `out`, the rest of which is as it was; or, from SF_REFUSED
 * on, a refusal: its number times 2^32, plus its place. After a refusal `out` is as it was.
 *
 * The work slices may hold anything. When a call returns, their first SF_WORK bytes are zero and the rest is as it was;
 * after refusal 8, a lent slice too short, they are as they were.
 */
#ifndef SAFTMAGNET_H
#define SAFTMAGNET_H

#include <stddef.h>
#include <stdint.h>

#ifdef __cplusplus
extern "C" {
#endif

#define SF_LIST 53272u  /* the smallest `out` for a step list */
#define SF_TABLE 32792u /* the smallest `out` for a table */
#define SF_WORK 65536u  /* the smallest work slice */

/* As many bytes of stack as a call of any of the functions does with, besides its caller's, on any input: calls nest as
 * the input does, and what nests more than 32 deep is refused on the way down. Measured and not proved:
 * bindings/c/stack.c tries the deepest inputs. */
#define SF_STACK 65536u

#define SF_REFUSED (UINT64_C(1) << 32)

/* Whether an answer is a refusal, and its number and place. */
static inline int sf_is_refused(uint64_t answer) { return answer >= SF_REFUSED; }
static inline uint32_t sf_number(uint64_t answer) { return (uint32_t)(answer >> 32); }
static inline uint32_t sf_place(uint64_t answer) { return (uint32_t)answer; }

/* Description to step list. */
uint64_t sf_translate(const uint8_t *src, size_t src_len,
                      uint8_t *out, size_t out_len,
                      uint8_t *work, size_t work_len);

/* Step list and starting table to the whole table. */
uint64_t sf_run(const uint8_t *steps, size_t steps_len,
                const uint8_t *table, size_t table_len,
                uint8_t *out, size_t out_len,
                uint8_t *work1, size_t work1_len,
                uint8_t *work2, size_t work2_len);

/* Whole table to the table of `sfConfig`. */
uint64_t sf_main(const uint8_t *table, size_t table_len,
                 uint8_t *out, size_t out_len);

/* Description to main table: translate, run over the empty table, then main. */
uint64_t sf_resolve(const uint8_t *src, size_t src_len,
                    uint8_t *out, size_t out_len,
                    uint8_t *work1, size_t work1_len,
                    uint8_t *work2, size_t work2_len,
                    uint8_t *work3, size_t work3_len);

#ifdef __cplusplus
}
#endif

#endif
