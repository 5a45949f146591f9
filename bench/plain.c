#include "plain.h"

#include "../include/tapsquirrel.h" /* how records and lines lie */

#include <assert.h>
#include <stdint.h>
#include <string.h>

enum { CONSTANT = 0x01, VARIABLE, NEGATE, ADD, SUBTRACT, MULTIPLY, DIVIDE, REMAINDER, CASE };
enum { LESS = 0x10, EQUAL, NOT, AND, OR };
enum { SET = 0x20, EMIT };
enum { GOTO = 0x30, JUMP, STOP, IF };

enum { UNFINISHED, STOPPED, ZERO_DIVISOR, OUT_OF_RANGE, QUOTA_USED };

enum { HEADER_SIZE = 4, MOST_VARIABLES = 16, MOST_BLOCKS = 64 };

struct row {
    const unsigned char *at;       /* the next byte to run */
    int fault;                     /* the first fault met, or 0 */
    const unsigned char *fault_at; /* the operator that met it */
    int store[MOST_VARIABLES];
    int *labels;
    unsigned label_count;
    unsigned quota;
};

static int64_t expression(struct row *row);

/* The end of the expression, condition, statement or ending that begins here. */
static const unsigned char *skip(const unsigned char *at)
{
    switch (*at++) {
    case CONSTANT:
        return at + 4;
    case VARIABLE:
    case GOTO:
    case JUMP:
        return at + 1;
    case STOP:
        return at;
    case NEGATE:
    case NOT:
    case EMIT:
        return skip(at);
    case SET:
        return skip(at + 1);
    case CASE:
    case IF:
        return skip(skip(skip(at)));
    default: /* all others have two operands */
        return skip(skip(at));
    }
}

/* The first fault stands; work goes on with a 0, which can do no harm before the fault is looked at. */
static int64_t fault(struct row *row, const unsigned char *tag, int kind)
{
    if (row->fault == 0) {
        row->fault = kind;
        row->fault_at = tag;
    }
    return 0;
}

static int64_t in_range(struct row *row, const unsigned char *tag, int64_t x)
{
    return x < INT32_MIN || x > INT32_MAX ? fault(row, tag, OUT_OF_RANGE) : x;
}

static int32_t constant(struct row *row)
{
    const unsigned char *b = row->at;
    row->at += 4;
    return (int32_t)((uint32_t)b[0] | (uint32_t)b[1] << 8 | (uint32_t)b[2] << 16 | (uint32_t)b[3] << 24);
}

static int condition(struct row *row)
{
    int64_t x;
    switch (*row->at++) {
    case LESS:
        x = expression(row);
        return x < expression(row);
    case EQUAL:
        x = expression(row);
        return x == expression(row);
    case NOT:
        return !condition(row);
    case AND:
        if (condition(row))
            return condition(row);
        row->at = skip(row->at);
        return 0;
    default: /* OR */
        if (!condition(row))
            return condition(row);
        row->at = skip(row->at);
        return 1;
    }
}

static int64_t choice(struct row *row)
{
    int64_t x;
    if (condition(row)) {
        x = expression(row);
        row->at = skip(row->at);
        return x;
    }
    row->at = skip(row->at);
    return expression(row);
}

static int64_t expression(struct row *row)
{
    const unsigned char *tag = row->at++;
    int64_t x, y;
    switch (*tag) {
    case CONSTANT:
        return constant(row);
    case VARIABLE:
        return row->store[*row->at++];
    case NEGATE:
        return in_range(row, tag, -expression(row));
    case ADD:
        x = expression(row);
        return in_range(row, tag, x + expression(row));
    case SUBTRACT:
        x = expression(row);
        return in_range(row, tag, x - expression(row));
    case MULTIPLY:
        x = expression(row);
        return in_range(row, tag, x * expression(row));
    case DIVIDE:
        x = expression(row);
        y = expression(row);
        return y == 0 ? fault(row, tag, ZERO_DIVISOR) : in_range(row, tag, x / y);
    case REMAINDER:
        x = expression(row);
        y = expression(row);
        return y == 0 ? fault(row, tag, ZERO_DIVISOR) : x % y;
    default: /* CASE */
        return choice(row);
    }
}

/* Runs a block's statements; gives the status with which one of them ends the row, or 0. */
static int run_statements(struct row *row)
{
    while (*row->at == SET || *row->at == EMIT) {
        int is_set = *row->at++ == SET;
        unsigned variable = is_set ? *row->at++ : 0;
        int x = (int)expression(row);
        if (row->fault)
            return row->fault;
        if (is_set)
            row->store[variable] = x;
        else if (row->label_count == row->quota)
            return QUOTA_USED;
        else
            row->labels[row->label_count++] = x;
    }
    return 0;
}

/* Goes through the ifs of an ending to the goto, jump or stop that is taken; gives a fault, or 0. */
static int run_ifs(struct row *row)
{
    while (*row->at == IF) {
        row->at++;
        if (!condition(row))
            row->at = skip(row->at);
        if (row->fault)
            return row->fault;
    }
    return 0;
}

/* Runs one round from a block on; if a jump ends it, the block is the jump's target afterwards. */
static int run_round(struct row *row, const unsigned char *const *starts, unsigned *block)
{
    for (;;) {
        int status;
        row->at = starts[*block];
        status = run_statements(row);
        if (status == 0)
            status = run_ifs(row);
        if (status != 0)
            return status;
        if (*row->at == STOP)
            return STOPPED;
        *block = row->at[1];
        if (*row->at == JUMP)
            return UNFINISHED;
    }
}

static void find_blocks(const unsigned char *rule, unsigned len, const unsigned char **starts)
{
    const unsigned char *at = rule + HEADER_SIZE;
    for (unsigned block = 0; block < rule[3]; block++) {
        starts[block] = at;
        while (*at == SET || *at == EMIT)
            at = skip(at);
        at = skip(at);
    }
    assert(at == rule + len);
    (void)len;
}

/* Adds an unfinished row's line to the loop table and gives the place of the next line. */
static int *put_line(int *line, unsigned number, unsigned block, unsigned rounds, const int *store, unsigned lc_mask)
{
    *line++ = (int)number;
    *line++ = (int)block;
    *line++ = (int)rounds;
    for (unsigned variable = 0; variable < MOST_VARIABLES; variable++)
        if (lc_mask >> variable & 1)
            *line++ = store[variable];
    return line;
}

unsigned plain_run(const unsigned char *rule, unsigned len, unsigned lc_mask, unsigned rows,
                   const int *values, unsigned budget, unsigned quota, int *out, int *work)
{
    const unsigned char *starts[MOST_BLOCKS];
    unsigned arguments = rule[2], most_rounds = 0;
    unsigned columns = (unsigned)__builtin_popcount(lc_mask);
    int *line = work;

    find_blocks(rule, len, starts);
    memset(out, 0, sizeof *out * rows * TAP_RECORD_WORDS(quota));
    memset(work, 0, sizeof *work * rows * TAP_LINE_WORDS(columns));
    for (unsigned number = 0; number < rows; number++) {
        int *record = out + number * TAP_RECORD_WORDS(quota);
        struct row row = {.labels = record + TAP_RECORD_HEAD, .quota = quota};
        unsigned block = 0, rounds = 0;
        int status = UNFINISHED;

        memcpy(row.store, values + number * arguments, sizeof *values * arguments);
        while (status == UNFINISHED && rounds < budget) {
            rounds++;
            status = run_round(&row, starts, &block);
        }
        record[TAP_STATUS] = status;
        record[TAP_ROUNDS] = (int)rounds;
        record[TAP_LABEL_COUNT] = (int)row.label_count;
        if (row.fault)
            record[TAP_FAULT_PLACE] = (int)(row.fault_at - rule);
        if (status == UNFINISHED)
            line = put_line(line, number, block, rounds, row.store, lc_mask);
        if (rounds > most_rounds)
            most_rounds = rounds;
    }
    return most_rounds;
}
