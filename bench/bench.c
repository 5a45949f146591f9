/* The proved library beside the plain interpreter, in one process on the same inputs: `make bench`. */
#include "plain.h"
#include "rules.h"
#include "tapsquirrel.h"

#include <stdio.h>
#include <stdlib.h>
#include <string.h>
#include <time.h>

enum { ROWS = 256, QUOTA = 4, REPETITIONS = 7 };
enum { OUT_WORDS = ROWS * TAP_RECORD_WORDS(QUOTA), WORK_WORDS = ROWS * TAP_LINE_WORDS(TAP_MOST_COLUMNS) };

/* A rule, the argument of every row, which is the number of times that its loop goes round, and room for both. */
struct trial {
    const struct bench_rule *rule;
    uint32_t argument, budget;
    uint8_t plan[TAP_PLAN_BYTES];
    size_t plan_len;
    int32_t values[ROWS];
};

struct buffers {
    int32_t out[OUT_WORDS], work[WORK_WORDS];
    uint32_t rounds;
};

static struct trial trial;
static struct buffers ours, theirs;

static uint32_t accepted(uint64_t answer)
{
    if (tap_refusal(answer) != 0) {
        fprintf(stderr, "refused %u %u\n", tap_refusal(answer), tap_value(answer));
        exit(1);
    }
    return tap_value(answer);
}

static void prepare(const struct bench_rule *rule, uint32_t argument)
{
    static uint8_t file[TAP_FILE_BYTES];
    size_t file_len = accepted(tap_write(rule->bytes, rule->len, file, sizeof file));

    trial.rule = rule;
    trial.argument = argument;
    trial.plan_len = accepted(tap_compile(file, file_len, trial.plan, sizeof trial.plan));
    for (unsigned row = 0; row < ROWS; row++)
        trial.values[row] = (int32_t)argument;
}

static void run_ours(void)
{
    ours.rounds = accepted(tap_run(trial.plan, trial.plan_len, ROWS, trial.values, ROWS, trial.budget, QUOTA, ours.out,
                                   OUT_WORDS, ours.work, WORK_WORDS));
}

static void run_theirs(void)
{
    theirs.rounds = plain_run(trial.rule->bytes, trial.rule->len, trial.rule->lc_mask, ROWS, trial.values,
                              trial.budget, QUOTA, theirs.out, theirs.work);
}

/* Both from the same buffers on; what lies beyond the written part is compared too. */
static void compare(uint32_t budget)
{
    trial.budget = budget;
    memset(&ours, 0x5A, sizeof ours);
    memset(&theirs, 0x5A, sizeof theirs);
    run_ours();
    run_theirs();
    if (memcmp(&ours, &theirs, sizeof ours) != 0) {
        fprintf(stderr, "%s differs at argument %u and budget %u\n", trial.rule->name, trial.argument, budget);
        exit(1);
    }
}

/* The processor's time, not the clock's: others may be at work on the machine. */
static double seconds(void (*run)(void))
{
    struct timespec from, to;
    clock_gettime(CLOCK_PROCESS_CPUTIME_ID, &from);
    run();
    clock_gettime(CLOCK_PROCESS_CPUTIME_ID, &to);
    return (double)(to.tv_sec - from.tv_sec) + (double)(to.tv_nsec - from.tv_nsec) * 1e-9;
}

/* The best of several, taken in turn so that a disturbance meets both. */
static void measure(void)
{
    double best_ours = 1e9, best_theirs = 1e9;
    double steps = (double)ROWS * (trial.argument + 1);
    for (int i = 0; i < REPETITIONS; i++) {
        double x = seconds(run_ours), y = seconds(run_theirs);
        best_ours = x < best_ours ? x : best_ours;
        best_theirs = y < best_theirs ? y : best_theirs;
    }
    printf("| %-10s | %8u | %7.2f | %7.2f | %5.2f |\n", trial.rule->name, trial.argument, best_ours / steps * 1e9,
           best_theirs / steps * 1e9, best_ours / best_theirs);
    fflush(stdout);
}

static void bench(const struct bench_rule *rule, uint32_t argument)
{
    prepare(rule, argument);
    compare(0);
    compare(argument / 2);
    compare(argument + 1);
    measure();
}

int main(void)
{
    printf("%d rows; nanoseconds for a row and round, best of %d\n\n", ROWS, REPETITIONS);
    printf("| rule       | argument |  proved | plain C | ratio |\n");
    printf("|------------|----------|---------|---------|-------|\n");
    for (size_t i = 0; i < sizeof bench_rules / sizeof *bench_rules; i++) {
        bench(&bench_rules[i], 1000);
        if (i == 0)
            bench(&bench_rules[i], 20000);
    }
    return 0;
}
