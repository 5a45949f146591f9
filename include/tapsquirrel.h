/*
 * Tapsquirrel: label rules as recursive query plans.
 *
 * Link with target/staticlib/libtap.a (`make library`), x86-64. Every call is proved to do what the scope
 * document says on every input, so there is nothing that a caller may not pass, but for what C itself asks:
 * a pointer has the number of elements that is passed beside it, also if that is 0 (then it is any pointer
 * but NULL), and no buffer that is written overlaps another. Nothing is allocated and nothing is kept
 * between calls.
 */
#ifndef TAPSQUIRREL_H
#define TAPSQUIRREL_H

#include <stddef.h>
#include <stdint.h>

#ifdef __cplusplus
extern "C" {
#endif

/* Buffers that are always long enough, in bytes. */
#define TAP_RULE_BYTES 4064
#define TAP_FILE_BYTES 4096
#define TAP_PLAN_BYTES 4642

/* A record's words before its labels, and how many they are. */
enum { TAP_STATUS, TAP_ROUNDS, TAP_LABEL_COUNT, TAP_FAULT_PLACE, TAP_RECORD_HEAD };

/* A line's words before its columns, and how many they are. */
enum { TAP_LINE_ROW, TAP_LINE_BLOCK, TAP_LINE_ROUNDS, TAP_LINE_HEAD };

/* The words of a row's record, and of its line under a plan with so many columns (tap_columns). */
#define TAP_RECORD_WORDS(quota) (TAP_RECORD_HEAD + (quota))
#define TAP_LINE_WORDS(columns) (TAP_LINE_HEAD + (columns))

/* What no batch and no plan exceeds. */
#define TAP_MOST_ROWS 256
#define TAP_MOST_BUDGET 65535
#define TAP_MOST_QUOTA 16
#define TAP_MOST_COLUMNS 16

/*
 * An answer's upper half: a refusal's number, 0 if the call was accepted. A refused call has changed no buffer.
 *  1 file length            2 page check             3 payload length or filler
 *  4 header value           5 tag not allowed        6 no such variable
 *  7 target not allowed     8 too deep               9 rule ends early
 * 10 bytes after the rule  11 rule too long         12 buffer too short (place 0 first, 1 working)
 * 13 rows, values, budgets 14 budget or quota       15 not a plan
 * 16 gotos form a cycle
 * docs/USING.md says what to do about each.
 */
static inline uint32_t tap_refusal(uint64_t answer) { return (uint32_t)(answer >> 32); }

/* An answer's lower half: the place of what was refused, or else what the call says below. */
static inline uint32_t tap_value(uint64_t answer) { return (uint32_t)answer; }

/* A file's rule to out. Value: the rule's size. */
uint64_t tap_read(const uint8_t *file, size_t file_len, uint8_t *out, size_t out_len);

/* A rule's file to out. Value: the file's size. */
uint64_t tap_write(const uint8_t *rule, size_t rule_len, uint8_t *out, size_t out_len);

/* The plan of a file's rule to out. Value: the plan's size. */
uint64_t tap_compile(const uint8_t *file, size_t file_len, uint8_t *out, size_t out_len);

/* How many columns the plan's lines have: a batch needs rows * TAP_LINE_WORDS(columns) words to work in. */
uint64_t tap_columns(const uint8_t *plan, size_t plan_len);

/*
 * Runs a plan over up to TAP_MOST_ROWS rows, whose arguments lie row after row in values, for at most budget rounds each.
 * A row's record goes to out, TAP_RECORD_WORDS(quota) words: status (0 unfinished, 1 stopped, 2 zero divisor,
 * 3 out of range, 4 quota), rounds, number of labels, the fault's place, labels, zeros. The fault's place is, for
 * status 2 and 3, the offset in the rule, its header included, of the operator that faulted; otherwise 0. An
 * unfinished row's line goes to work, TAP_LINE_WORDS(columns) words: row, next block, rounds, the plan's loop columns.
 * Value: the most rounds of any row.
 */
uint64_t tap_run(const uint8_t *plan, size_t plan_len, uint32_t rows, const int32_t *values, size_t values_len,
                 uint32_t budget, uint32_t quota, int32_t *out, size_t out_len, int32_t *work, size_t work_len);

/*
 * As tap_run, with a budget for each row: budgets_len is to be the number of rows, or else the answer is 13.
 * A 14 for a budget has the lowest such row as its place; one for the quota comes first, with place 0.
 */
uint64_t tap_run_each(const uint8_t *plan, size_t plan_len, uint32_t rows, const int32_t *values, size_t values_len,
                      const uint32_t *budgets, size_t budgets_len, uint32_t quota, int32_t *out, size_t out_len,
                      int32_t *work, size_t work_len);

/*
 * Where a row of a batch lies in the buffers of a run: its record, or while it is unfinished its line.
 * Upper half: TAP_IN_RESULT, TAP_IN_WORK or TAP_NOWHERE; value: the first word there.
 */
enum { TAP_NOWHERE, TAP_IN_RESULT, TAP_IN_WORK };

uint64_t tap_find(const int32_t *result, size_t result_len, const int32_t *work, size_t work_len, uint32_t rows,
                  uint32_t quota, uint32_t columns, uint32_t row);

static inline uint32_t tap_buffer(uint64_t place) { return (uint32_t)(place >> 32); }

#ifdef __cplusplus
}
#endif

#endif
