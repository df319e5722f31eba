/* Watches the running cells while calls are made, as an operator's screen would. After each call it
 * prints what was done, its number, and five words of the cells:
 *
 *   energy      unit 3, smart import, estimated or defaulted (class 10), in thousandths of a Wh
 *   losses      the losses of that (class 11), in thousandths of a Wh
 *   actual      how many meters use a reading with an actual code
 *   defaulted   how many have no reading and are taken at their load shape
 *   waiting     how many of those wait in category 7
 *
 * It ends with status 1 if another number is given than expected. */
#include "cepnhoy.h"

#include <inttypes.h>
#include <stdio.h>

enum { ROWS = 2 * CEPNHOY_ROW_WORDS, CELLS = CEPNHOY_SLICE_WORDS, UNIT = 3, CATEGORY = 7 };

enum {
    ENERGY = CEPNHOY_CLASSES * UNIT + 10,
    LOSSES = CEPNHOY_CLASSES * UNIT + 11,
    ACTUAL = CEPNHOY_CELL_WORDS,
    DEFAULTED = CEPNHOY_CELL_WORDS + 2,
    WAITING = CEPNHOY_CELL_WORDS + 4 + CATEGORY
};

typedef struct {
    cepnhoy_settings settings;
    uint64_t rows[ROWS];
    int64_t cells[CELLS];
    int unexpected; /* 1 if any call gave another number than expected */
} book;

static void show(book *b, const char *what, cepnhoy_answer answer, uint64_t expected) {
    b->settings = answer.settings;
    b->unexpected |= answer.number != expected;
    printf("%s number=%" PRIu64, what, answer.number);
    printf(" energy=%" PRId64 " losses=%" PRId64, b->cells[ENERGY], b->cells[LOSSES]);
    printf(" actual=%" PRId64 " defaulted=%" PRId64, b->cells[ACTUAL], b->cells[DEFAULTED]);
    printf(" waiting=%" PRId64 "\n", b->cells[WAITING]);
}

static void shape(book *b, const char *what, uint64_t wh) {
    show(b, what, cepnhoy_set_shape(b->settings, b->rows, ROWS, b->cells, CELLS, CATEGORY, wh),
         CEPNHOY_ACCEPTED);
}

static void meter(book *b, const char *what, uint64_t mpan, uint64_t status, uint64_t llf) {
    const cepnhoy_registration registration = {
        .segment = 1, .status = status, .base = UNIT, .category = CATEGORY, .llf = llf};
    show(b, what,
         cepnhoy_register(b->settings, b->rows, ROWS, b->cells, CELLS, mpan, registration),
         CEPNHOY_ACCEPTED);
}

static void reading(
    book *b, const char *what, uint64_t mpan, cepnhoy_reading r, uint64_t expected) {
    show(b, what, cepnhoy_record_reading(b->settings, b->rows, ROWS, b->cells, CELLS, mpan, r),
         expected);
}

int main(void) {
    const uint64_t first = 1200000000002, second = 1300000000007;
    const cepnhoy_reading estimate = {.issue = 1, .quality = 7, .consumption = 90};
    const cepnhoy_reading actual = {.issue = 2, .quality = 0, .consumption = 98};
    book b = {cepnhoy_fresh(), {0}, {0}, 0};
    meter(&b, "meter 1, energised, no shape yet:", first, 2, 1050);
    meter(&b, "meter 2, energised, no shape yet:", second, 2, 985);
    shape(&b, "shape of 100 Wh:", 100);
    shape(&b, "shape of 120 Wh:", 120);
    reading(&b, "meter 1 read, estimate:", first, estimate, CEPNHOY_ACCEPTED);
    reading(&b, "meter 1 read, actual:", first, actual, CEPNHOY_ACCEPTED);
    reading(&b, "meter 1 read, old issue:", first, estimate, CEPNHOY_ISSUE_NOT_ABOVE);
    shape(&b, "shape set back to missing:", CEPNHOY_SHAPE_MISSING);
    meter(&b, "meter 2 disconnected:", second, 0, 985);
    return b.unexpected;
}
