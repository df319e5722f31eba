/* Settles one half hour with one call: three smart import meters of three units, 100 Wh each, and a
 * Take of 301 Wh. It prints what the program settle prints for the same calls (crates/settle/stdin),
 * and ends with status 1 if anything is refused. */
#include "cepnhoy.h"

#include <inttypes.h>
#include <stdio.h>

/* The order of the words is in cepnhoy.h. The words that a kind does not use stay 0. */
static const uint64_t calls[][CEPNHOY_CALL_WORDS] = {
    {CEPNHOY_KIND_TAKE, 301},
    {CEPNHOY_KIND_TOLERANCE, 1000},
    {CEPNHOY_KIND_WEIGHT, 8, 1000},
    {CEPNHOY_KIND_WEIGHT, 9, 1000},
    {CEPNHOY_KIND_REGISTER, 1200000000002, 1, 0, 2, 0, 0, 0, 0, 1000, 0, 0},
    {CEPNHOY_KIND_REGISTER, 1300000000007, 1, 0, 2, 1, 0, 0, 0, 1000, 0, 0},
    {CEPNHOY_KIND_REGISTER, 1400000000001, 1, 0, 2, 2, 0, 0, 0, 1000, 0, 0},
    {CEPNHOY_KIND_READING, 1200000000002, 1, 0, 100},
    {CEPNHOY_KIND_READING, 1300000000007, 1, 0, 100},
    {CEPNHOY_KIND_READING, 1400000000001, 1, 0, 100},
};

enum { CALLS = sizeof calls / sizeof calls[0], METERS = 3 };

int main(void) {
    uint64_t rows[METERS * CEPNHOY_ROW_WORDS];
    int64_t cells[CEPNHOY_SLICE_WORDS] = {0};
    uint64_t numbers[CALLS];
    int64_t volumes[CEPNHOY_UNITS];
    const cepnhoy_allocation_answer settled = cepnhoy_settle_list(
        rows, METERS * CEPNHOY_ROW_WORDS,
        cells, CEPNHOY_SLICE_WORDS,
        calls[0], CALLS * CEPNHOY_CALL_WORDS,
        numbers, CALLS,
        volumes, CEPNHOY_UNITS);
    const cepnhoy_allocated figures = settled.answer;
    int refused = figures.number != CEPNHOY_ACCEPTED;

    /* A misshapen list has no numbers. Any other list may hold refused calls. */
    for (int i = 0; figures.number != CEPNHOY_LIST_MISSHAPEN && i < CALLS; i++)
        if (numbers[i] != CEPNHOY_ACCEPTED) {
            refused = 1;
            printf("refused=%d,%" PRIu64 "\n", i + 1, numbers[i]);
        }
    printf("status=%" PRIu64 "\n", figures.number);
    if (figures.number != CEPNHOY_ACCEPTED)
        return 1;
    printf("actual=%" PRIu64 "\nestimated=%" PRIu64 "\n", figures.actual, figures.estimated);
    printf("defaulted=%" PRIu64 "\nidle=%" PRIu64 "\n", figures.defaulted, figures.idle);
    printf("unallocated=%" PRId64 "\nweighted=%" PRId64 "\n", figures.unallocated, figures.weighted);
    for (int unit = 0; unit < CEPNHOY_UNITS; unit++)
        if (volumes[unit] != 0)
            printf("volume=%d,%" PRId64 "\n", unit, volumes[unit]);
    return refused;
}
