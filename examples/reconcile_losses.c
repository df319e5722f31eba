/* Reconciles the losses of three units to the thousandth of a Wh. For each unit it prints, import
 * less export,
 *
 *   rounded     the losses in Wh, as they are in the unit's volume
 *   droppings   what rounding dropped of them, in thousandths of a Wh
 *   exact       the losses of its meters in thousandths of a Wh, added up here
 *
 * It ends with status 1 if anything is refused, or if 1000 x rounded + droppings is not exact. */
#include "cepnhoy.h"

#include <inttypes.h>
#include <stdio.h>

typedef struct {
    uint64_t mpan;
    uint64_t direction; /* 0 import, 1 export */
    uint64_t unit;
    uint64_t llf; /* line loss factor, in thousandths */
    uint64_t wh;
} meter;

static const meter meters[] = {
    {1200000000002, 0, 0, 1037, 1234},
    {1300000000007, 0, 0, 1050, 10},
    {1400000000001, 1, 0, 985, 777},
    {1500000000006, 0, 1, 1021, 2345},
    {1800000000000, 0, 2, 1050, 10},
};

enum {
    METERS = sizeof meters / sizeof meters[0],
    ROWS = METERS * CEPNHOY_ROW_WORDS,
    CELLS = CEPNHOY_SLICE_WORDS,
    UNITS = 3
};

typedef struct {
    cepnhoy_settings settings;
    uint64_t rows[ROWS];
    int64_t cells[CELLS];
    int refused; /* 1 if any call was */
} book;

static void keep(book *b, cepnhoy_answer answer) {
    b->settings = answer.settings;
    b->refused |= answer.number != CEPNHOY_ACCEPTED;
}

/* Smart energised meters with actual readings. All classes have their full weight, so that W is
 * not 0. */
static void fill(book *b) {
    for (uint64_t class_ = 0; class_ < CEPNHOY_CLASSES; class_++)
        keep(b, cepnhoy_set_weight(
                    b->settings, b->rows, ROWS, b->cells, CELLS, class_, CEPNHOY_WEIGHT_MAX));
    for (int i = 0; i < METERS; i++) {
        const meter *m = &meters[i];
        const cepnhoy_registration registration = {
            .segment = 1, .direction = m->direction, .status = 2, .base = m->unit, .llf = m->llf};
        const cepnhoy_reading reading = {.issue = 1, .quality = 0, .consumption = m->wh};
        keep(b, cepnhoy_register(
                    b->settings, b->rows, ROWS, b->cells, CELLS, m->mpan, registration));
        keep(b, cepnhoy_record_reading(
                    b->settings, b->rows, ROWS, b->cells, CELLS, m->mpan, reading));
    }
}

static cepnhoy_allocated allocate(book *b, int64_t take_wh, int64_t *volumes) {
    keep(b, cepnhoy_set_take(b->settings, b->rows, ROWS, b->cells, CELLS, take_wh));
    const cepnhoy_allocation_answer allocation = cepnhoy_allocate(
        b->settings, b->rows, ROWS, b->cells, CELLS, volumes, CEPNHOY_UNITS);
    const cepnhoy_allocated figures = allocation.answer;
    b->refused |= figures.number != CEPNHOY_ACCEPTED;
    return figures;
}

/* Prints one unit, and tells whether it is reconciled. */
static int reconcile(uint64_t unit, int64_t volume_wh, int64_t droppings) {
    int64_t energy_wh = 0;
    int64_t exact = 0;
    for (int i = 0; i < METERS; i++)
        if (meters[i].unit == unit) {
            const int64_t wh = (meters[i].direction == 0 ? 1 : -1) * (int64_t)meters[i].wh;
            energy_wh += wh;
            exact += ((int64_t)meters[i].llf - 1000) * wh;
        }
    const int64_t rounded_wh = volume_wh - energy_wh;
    printf("unit=%" PRIu64 " rounded=%" PRId64 " droppings=%" PRId64 " exact=%" PRId64 "\n",
           unit, rounded_wh, droppings, exact);
    return 1000 * rounded_wh + droppings == exact;
}

int main(void) {
    book b = {cepnhoy_fresh(), {0}, {0}, 0};
    int64_t volumes[CEPNHOY_UNITS];
    fill(&b);
    /* With a Take of 0, U is what the units come to, with its sign turned. With that as the Take,
     * U is 0, and a volume is the energy of the unit with its rounded losses. */
    const int64_t net_wh = -allocate(&b, 0, volumes).unallocated;
    const cepnhoy_allocated figures = allocate(&b, net_wh, volumes);
    int failed = b.refused;
    for (uint64_t unit = 0; !b.refused && unit < UNITS; unit++)
        if (!reconcile(unit, volumes[unit], figures.droppings[unit]))
            failed = 1;
    return failed;
}
