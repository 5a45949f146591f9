/* A plain interpreter of a rule's bytes: the baseline that the benchmark compares with. */
#ifndef PLAIN_H
#define PLAIN_H

/*
 * Runs a rule over a batch of rows, which have one budget in common, and gives the most rounds that any row began.
 * Nothing is checked: the rule is a good one, its loop columns are lc_mask, rows, budget and quota keep
 * their limits, values holds rows x arguments, out has rows x TAP_RECORD_WORDS(quota) words of room and work
 * rows x TAP_LINE_WORDS(columns).
 */
unsigned plain_run(const unsigned char *rule, unsigned len, unsigned lc_mask, unsigned rows,
                   const int *values, unsigned budget, unsigned quota, int *out, int *work);

#endif
