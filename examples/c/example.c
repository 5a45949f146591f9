/*
 * Rule R of the scope document: written to a file's bytes, read again, compiled, run over four rows, each row found;
 * first with one budget for all rows, then with a budget for each.
 */
#include "tapsquirrel.h"

#include <inttypes.h>
#include <stdio.h>
#include <stdlib.h>

enum { ROWS = 4, BUDGET = 2, QUOTA = 4 };

static const uint8_t rule[] = {
    0x01, 0x02, 0x01, 0x04,             /* form, variables, arguments, blocks */
    0x21, 0x02, 0x00, 0x30, 0x01,       /* 0: emit x; goto 1 */
    0x33, 0x10, 0x02, 0x00, 0x01, 0x01, 0x00, 0x00, 0x00, 0x30, 0x02, 0x30, 0x03, /* 1: if x < 1 goto 2 else goto 3 */
    0x21, 0x02, 0x01, 0x32,             /* 2: emit sum; stop */
    0x20, 0x01, 0x04, 0x02, 0x01, 0x02, 0x00, /* 3: set sum = sum + x */
    0x20, 0x00, 0x05, 0x02, 0x00, 0x01, 0x01, 0x00, 0x00, 0x00, 0x31, 0x01, /* set x = x - 1; jump 1 */
};

/* A batch's two buffers, and the columns that its lines have. */
struct batch {
    uint32_t columns;
    size_t result_len, work_len;
    int32_t *result, *work;
};

static uint32_t accepted(uint64_t answer)
{
    if (tap_refusal(answer) != 0) {
        printf("refused %" PRIu32 " %" PRIu32 "\n", tap_refusal(answer), tap_value(answer));
        exit(1);
    }
    return tap_value(answer);
}

static int32_t *words(size_t count)
{
    int32_t *room = calloc(count, sizeof *room);
    if (room == NULL) {
        printf("no room for %zu words\n", count);
        exit(1);
    }
    return room;
}

static struct batch room_for(uint32_t columns)
{
    struct batch b = {.columns = columns, .result_len = ROWS * TAP_RECORD_WORDS(QUOTA), .work_len = ROWS * TAP_LINE_WORDS(columns)};
    b.result = words(b.result_len);
    b.work = words(b.work_len);
    return b;
}

static void print_words(const char *title, const int32_t *from, size_t count)
{
    printf(" %s", title);
    for (size_t i = 0; i < count; i++)
        printf(" %" PRId32, from[i]);
    printf("\n");
}

/* The operator that ended a row with a fault, by its offset in the rule. */
static void print_fault(const int32_t *record)
{
    int32_t place = record[TAP_FAULT_PLACE];
    if (place != 0)
        printf("       fault %" PRId32 " at offset %" PRId32 ", tag %02X\n", record[TAP_STATUS], place, rule[place]);
}

static void print_row(const struct batch *b, uint32_t row)
{
    uint64_t place = tap_find(b->result, b->result_len, b->work, b->work_len, ROWS, QUOTA, b->columns, row);
    printf("row %" PRIu32 ":", row);
    if (tap_buffer(place) == TAP_IN_RESULT) {
        print_words("record", b->result + tap_value(place), TAP_RECORD_WORDS(QUOTA));
        print_fault(b->result + tap_value(place));
    } else if (tap_buffer(place) == TAP_IN_WORK)
        print_words("line", b->work + tap_value(place), TAP_LINE_WORDS(b->columns));
    else
        printf(" nowhere\n");
}

static void print_batch(const struct batch *b, uint32_t rounds)
{
    for (uint32_t row = 0; row <= ROWS; row++)
        print_row(b, row);
    printf("rounds %" PRIu32 "\n", rounds);
}

int main(void)
{
    static uint8_t file[TAP_FILE_BYTES], again[TAP_RULE_BYTES], plan[TAP_PLAN_BYTES];
    static const int32_t values[ROWS] = {2, 0, -5, INT32_MAX};
    static const uint32_t budgets[ROWS] = {3, 0, 1, 1};

    size_t file_len = accepted(tap_write(rule, sizeof rule, file, sizeof file));
    size_t rule_len = accepted(tap_read(file, file_len, again, sizeof again));
    size_t plan_len = accepted(tap_compile(file, file_len, plan, sizeof plan));
    struct batch b = room_for(accepted(tap_columns(plan, plan_len)));
    printf("file %zu bytes, rule %zu bytes, plan %zu bytes, columns %" PRIu32 "\n", file_len, rule_len, plan_len, b.columns);

    printf("budget %d for all rows\n", BUDGET);
    print_batch(&b, accepted(tap_run(plan, plan_len, ROWS, values, ROWS, BUDGET, QUOTA, b.result, b.result_len, b.work,
                                     b.work_len)));
    printf("a budget for each row\n");
    print_batch(&b, accepted(tap_run_each(plan, plan_len, ROWS, values, ROWS, budgets, ROWS, QUOTA, b.result,
                                          b.result_len, b.work, b.work_len)));
    free(b.result);
    free(b.work);
    return 0;
}
