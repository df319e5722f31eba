/* Cepnhoy: half-hour settlement of electricity, as a library for C and C++.
 *
 * The file examples/settle_case_one.c is a whole program that uses it.
 *
 * THE BOOK
 *
 * One book covers one GSP Group and one Settlement Period. It has three parts, all kept by the
 * caller:
 *
 *   - the settings, a struct that goes into a call by value and comes back in the answer;
 *   - the rows, an array of 64-bit words, three words a meter;
 *   - the cells, an array of signed 64-bit words, in which calls keep what the meters come to: see
 *     THE RUNNING CELLS.
 *
 * A fresh book is the settings that cepnhoy_fresh() gives, with rows that may hold any words, and
 * cells of 836 words 0:
 *
 *     cepnhoy_settings settings = cepnhoy_fresh();
 *     uint64_t rows[METERS * CEPNHOY_ROW_WORDS];
 *     int64_t cells[CEPNHOY_SLICE_WORDS] = {0};
 *
 * Calls then register meters, record readings and set weights, load shapes, tolerance and Take, one
 * by one or a whole list at once; cepnhoy_allocate works out the volumes of the 32 units, and
 * cepnhoy_totals what network charges are billed from. Pass the settings that one call returned,
 * refused or not, to the next call with the same rows and the same cells.
 *
 * Energy is in Wh. Weights and line loss factors are in thousandths, so 1000 stands for 1.
 *
 * ANSWERS
 *
 * Every call gives a number: 0 (CEPNHOY_ACCEPTED), or the number of one refusal. The refusals that
 * a call can give stand beside it below, in the order in which they are looked for: if several
 * apply, the first of these is given. A refused call changes nothing: the settings come back as
 * they went in, and no word of any array is written.
 *
 * A list of calls has a number of its own and one for each of its calls. If the list is accepted,
 * its calls may still be refused, some or all of them, so look at every one of the numbers. See
 * cepnhoy_make_calls and cepnhoy_settle_list.
 *
 * The caller need not check numbers before a call: any number may be passed, and one out of range
 * is refused, never cut. Any settings, any rows and any cells may be passed as well; if accepted
 * calls could not have written the settings or the rows, or if the cells pass a limit, the book is
 * ill formed and the number is 1.
 *
 * ARRAYS
 *
 * An array is passed as a pointer, then a length. The length counts elements (64-bit words), not
 * bytes.
 *
 *   - The pointer points to that many words, which may be read, and written if the parameter is not
 *     const.
 *   - It is aligned to 8 bytes and is not null, also when the length is 0. With length 0 it need
 *     not point to anything.
 *   - The rows, the cells, the calls, the numbers, the volumes and the totals of one call must not
 *     overlap.
 *   - The library keeps no pointer after a call returns.
 *
 * THREADS
 *
 * The library has no variables of its own, takes no locks and allocates no memory. Calls on
 * different books may run at the same time. An array that a call may write (a parameter without
 * const) belongs to that call alone until it returns. Arrays behind const may be read by several
 * calls at the same time, so two threads may allocate one book, each into its own volumes, while
 * others work out its totals, each into its own.
 *
 * STACK
 *
 * A list of calls needs 18 KiB of stack, an allocation 11 KiB, a shape call 10 KiB and any other
 * call 5 KiB, however many meters there are. The first call of a program may need 4 KiB more, for
 * the dynamic linker. These are measured figures: allow 32 KiB.
 *
 * TIME
 *
 * A single call tests the whole book before it does anything, so its time grows with the number of
 * meters. A list of calls tests the book once. For more than a few calls, use a list. A shape call
 * also looks at every meter, in a list too, since it changes the cells of all that wait for it. An
 * allocation works from the cells, and looks at the rows only to test them.
 *
 * LINKING
 *
 * The library is for Linux on x86-64. From the root of the repository, this makes an archive, and
 * gcc links it:
 *
 *     scripts/build library
 *     gcc -std=c99 -Iinclude -o target/settle_case_one \
 *         examples/settle_case_one.c target/staticlib/libsettlement.a
 *     target/settle_case_one
 *
 * To make a shared library of the archive, and to link that:
 *
 *     gcc -shared -o target/libcepnhoy.so \
 *         -Wl,--whole-archive target/staticlib/libsettlement.a -Wl,--no-whole-archive
 *     gcc -std=c99 -Iinclude -o target/settle_case_one \
 *         examples/settle_case_one.c -Ltarget -lcepnhoy
 *     LD_LIBRARY_PATH=target target/settle_case_one
 *
 * Compile a program with the header of the library that it links. Structs go by value, and the
 * words of a call in a list are counted by CEPNHOY_CALL_WORDS: with another header's, a call would
 * read the wrong words.
 *
 * This header is for C99 or later and C++11 or later.
 */
#ifndef CEPNHOY_H
#define CEPNHOY_H

#include <stddef.h>
#include <stdint.h>

#ifdef __cplusplus
extern "C" {
#endif

/* SIZES */

#define CEPNHOY_METERS_MAX 65536  /* the most meters of a book, however long the rows are */
#define CEPNHOY_UNITS 32          /* BM Units, numbered from 0 */
#define CEPNHOY_CLASSES 24        /* classes of energy, numbered from 0; each has a weight */
#define CEPNHOY_CATEGORIES 64     /* load shape categories, numbered from 0; each has a shape */
#define CEPNHOY_TARIFFS 1024      /* tariffs of network charges, numbered from 0 */
#define CEPNHOY_ROW_WORDS 3       /* words of a meter's row */
#define CEPNHOY_CALL_WORDS 12     /* words of a call in a list */
#define CEPNHOY_TOTALS_WORDS 4096 /* words of totals, four for each tariff */
#define CEPNHOY_SLICE_WORDS 836   /* words of the cells that calls use: see THE RUNNING CELLS */
#define CEPNHOY_CELL_WORDS 768    /* how many of these, the first ones, are cells */

/* RANGES
 *
 * A number outside its range is refused with CEPNHOY_ARGUMENT_OUT_OF_RANGE. A range that has no
 * least number here starts at 0. */

#define CEPNHOY_MPAN_MIN UINT64_C(1000000000000)
#define CEPNHOY_MPAN_MAX UINT64_C(9999999999999)

#define CEPNHOY_SEGMENT_MAX 2   /* 0 unmetered, 1 smart, 2 advanced */
#define CEPNHOY_DIRECTION_MAX 1 /* 0 import, 1 export */
#define CEPNHOY_STATUS_MAX 2    /* 0 disconnected, 1 de-energised, 2 energised */
#define CEPNHOY_UNIT_MAX 31     /* base and additional unit */
#define CEPNHOY_CATEGORY_MAX 63
#define CEPNHOY_LLF_MIN 500 /* line loss factor, in thousandths */
#define CEPNHOY_LLF_MAX 2000
#define CEPNHOY_NETWORK_MAX 63 /* embedded network, 0 for none */
#define CEPNHOY_TARIFF_MAX 1023

#define CEPNHOY_ISSUE_MIN 1
#define CEPNHOY_ISSUE_MAX UINT32_C(4294967295)
#define CEPNHOY_QUALITY_MAX 20
#define CEPNHOY_CONSUMPTION_MAX 10000000 /* Wh */

#define CEPNHOY_WEIGHT_MAX 1000                    /* thousandths */
#define CEPNHOY_SHAPE_MAX 10000000                 /* Wh */
#define CEPNHOY_SHAPE_MISSING UINT32_C(4294967295) /* no load shape; it may be set too */
#define CEPNHOY_TOLERANCE_MAX 1000
#define CEPNHOY_TAKE_MIN (-INT64_C(5000000000)) /* Wh */
#define CEPNHOY_TAKE_MAX INT64_C(5000000000)
#define CEPNHOY_TAKE_FLAG_UNSET 0 /* the two numbers of take_set in the settings */
#define CEPNHOY_TAKE_FLAG_SET 1

/* QUALITY CODES
 *
 *    0 A      5 AAE2   10 E3     15 E8     20 ZE3
 *    1 A1     6 AAE3   11 E4     16 E9
 *    2 A2     7 E0     12 E5     17 ZE
 *    3 A3     8 E1     13 E6     18 ZE1
 *    4 AAE1   9 E2     14 E7     19 ZE2
 *
 * Codes 0 to 6, 9 and 13 are actual, all others estimated. (E2 and E6 are estimates too, but from the
 * meter's own register reads, daily advances or daily consumption.) Code 14 is not used, and codes 17
 * to 20 have 0 Wh only: a reading against that is refused with CEPNHOY_QUALITY_REFUSED. */

#define CEPNHOY_QUALITY_AAE3 6 /* the last of codes 0 to 6, A to AAE3 */
#define CEPNHOY_QUALITY_E2 9   /* actual, as codes 0 to 6 are */
#define CEPNHOY_QUALITY_E6 13  /* actual, as codes 0 to 6 are */
#define CEPNHOY_QUALITY_E7 14
#define CEPNHOY_QUALITY_ZE 17 /* the first and the last code that have 0 Wh only */
#define CEPNHOY_QUALITY_ZE3 20

/* THE ENERGY OF A METER
 *
 *   energised, with a reading      the reading
 *   energised, without a reading   the load shape of its category: the meter is defaulted
 *   de-energised                   the reading if its code is actual; else it is idle
 *   disconnected                   none: it is idle
 *
 * It counts for the additional unit if there is one, else for the base unit, and for the class
 *
 *   8 x segment + 4 x direction + 2 x e + l
 *
 * where e is 0 if the energy is a reading with an actual code, and 1 if not; l is 0 for the energy
 * itself and 1 for its losses. So class 8 is smart import with actual readings, and class 9 the
 * losses of that. */

/* THE LOSSES OF A UNIT
 *
 * The exact losses of a meter are (line loss factor - 1000) x energy, in thousandths of a Wh. They
 * are added up for each unit and class of losses, and each such sum is rounded to the nearest Wh,
 * halves away from zero. Volumes, U and W are worked from the rounded losses.
 *
 * Rounding drops the exact sum less 1000 x the rounded Wh, which is from -500 to 500 thousandths: a
 * sum of 500 is rounded to 1 Wh and drops -500, and one of -500 is rounded to -1 Wh and drops 500.
 * The droppings of a unit are those of its six import classes of losses less those of its six
 * export classes, so they are 6,000 at most in size. An accepted allocation returns them, and for
 * each unit
 *
 *   1000 x rounded losses + droppings = exact losses of its meters
 *
 * where both losses are those of import less those of export. If the cells were filled by hand, the
 * exact losses are those of the unit's cells of losses instead. Weights, tolerance and Take play no
 * part in droppings. The file examples/reconcile_losses.c works with them. */

/* THE RUNNING CELLS
 *
 * The cells are lent to every call but cepnhoy_fresh and cepnhoy_totals, right after the rows. They
 * hold what the meters of the book come to, and calls keep that up to date, so whoever watches them
 * needs no allocation:
 *
 *   cells[24 * unit + class]   768 words: the energy of this unit and class in thousandths of a Wh,
 *                              unrounded. In a class of losses it is the sum of
 *                              (line loss factor - 1000) x energy, in any other that of
 *                              1000 x energy
 *   cells[768]                 how many meters use a reading with an actual code
 *   cells[769]                 how many use a reading with another code
 *   cells[770]                 how many are defaulted
 *   cells[771]                 how many are idle
 *   cells[772 + category]      64 words: how many defaulted meters wait in this category for a
 *                              reading, whether its load shape is missing or not
 *
 * Start a fresh book with 836 words 0. Words after these are not read and not written.
 *
 * Each word is so a sum over the rows, in which a missing load shape is 0 Wh. Register, reading and
 * shape calls, alone or in a list, add to each word by how much they change its sum; a shape call
 * so changes the cells of all meters that wait in its category. No other call writes the cells. If
 * the 836 words of a fresh book are 0 and nobody else writes them, each word is its sum after every
 * call, the four counts add up to the meters, and no call is refused for the cells. What this
 * header says of meters in an allocation is said of such cells.
 *
 * Cells may be filled by hand. A call changes them by the same amounts, and an allocation takes
 * them as they read: every one of the 768 is rounded to the nearest Wh, halves away from zero,
 * those of energy too; the counts in the answer are words 768 to 771; refusal 9 is a waiting number
 * above 0 whose load shape is missing; and droppings are those of cells of losses only. Of the rows
 * an allocation uses nothing: it only tests them.
 *
 * The limits: the sizes of the 768 cells, that is their numbers without the sign, add up to
 * CEPNHOY_CELL_SIZES_MAX at most, and every count and waiting number is from 0 to
 * CEPNHOY_COUNT_MAX. Cells that pass a limit are refused with 1. A register, reading or shape call
 * that would leave such cells is refused with 1 as well, if there is no other cause to refuse it.
 *
 * The file examples/watch_cells.c watches a few of these words. */

#define CEPNHOY_CELL_SIZES_MAX INT64_C(1310720000000000) /* thousandths of a Wh */
#define CEPNHOY_COUNT_MAX INT64_C(4294967295)            /* of a count, and of a waiting number */

/* NUMBERS GIVEN */

#define CEPNHOY_ACCEPTED 0
#define CEPNHOY_BOOK_ILL_FORMED 1          /* no calls leave this book, or a limit of the cells */
#define CEPNHOY_ARGUMENT_OUT_OF_RANGE 2    /* or, in a list, a call of no known kind */
#define CEPNHOY_QUALITY_REFUSED 3          /* code 14, or one of 17 to 20 with more than 0 Wh */
#define CEPNHOY_METER_UNKNOWN 4            /* a reading of a meter that is not registered */
#define CEPNHOY_ISSUE_NOT_ABOVE 5          /* an issue that is not above the stored one */
#define CEPNHOY_CAPACITY_REACHED 6         /* a new meter, and there is no free row */
#define CEPNHOY_VOLUMES_SHORT 7            /* the volumes have fewer than 32 words */
#define CEPNHOY_TAKE_UNSET 8               /* no Take was set */
#define CEPNHOY_SHAPE_OF_DEFAULT_MISSING 9 /* defaulted meters wait, and their shape is missing */
#define CEPNHOY_WEIGHTED_BELOW_ONE 10      /* W is below 1: no weighted energy to correct */
#define CEPNHOY_TOLERANCE_EXCEEDED 11      /* the size of U x 1,000,000 is above tolerance x W */
#define CEPNHOY_TOTALS_SHORT 12            /* the totals have fewer than 4,096 words */
#define CEPNHOY_CELLS_SHORT 13             /* the cells have fewer than 836 words */
#define CEPNHOY_LIST_MISSHAPEN 19          /* calls_length no multiple of 12, or too few numbers */

/* THE ROWS
 *
 * There is room for rows_length / 3 meters, rounded down, and for 65,536 at most. The first
 * settings.meters rows are in use, in rising order of MPAN; the words after them mean nothing, and
 * calls leave them as they are until a new meter needs them. A caller has no need to read or write
 * rows. In a stored book they are these words:
 *
 *   word 0         the MPAN
 *   word 1         the registration
 *     bits 0-1       segment
 *     bit  2         direction
 *     bits 3-4       status
 *     bits 5-9       base unit
 *     bit  10        1 if there is an additional unit, else 0
 *     bits 11-15     additional unit; 0 if there is none
 *     bits 16-21     load shape category
 *     bits 22-32     line loss factor, in thousandths
 *     bits 33-38     embedded network
 *     bits 39-48     tariff
 *     bits 49-63     0
 *   word 2         the reading, or 0 (CEPNHOY_NO_READING) if the meter has none
 *     bits 0-23      consumption in Wh
 *     bits 24-28     quality code
 *     bits 29-31     0
 *     bits 32-63     issue, which is never 0 in a reading
 *
 * To store a book, keep the settings, the first 3 x settings.meters words and the 836 words of the
 * cells. Longer rows may be passed with it later. */

#define CEPNHOY_NO_READING 0

/* STRUCTS
 *
 * They have no padding. */

/* The settings. Take them from cepnhoy_fresh() or from the answer of the last call. The calls below
 * replace single settings. */
typedef struct {
    size_t meters;                       /* how many meters are registered */
    uint32_t weights[CEPNHOY_CLASSES];   /* by class, in thousandths */
    uint32_t shapes[CEPNHOY_CATEGORIES]; /* by category, in Wh or CEPNHOY_SHAPE_MISSING */
    uint32_t tolerance;
    uint32_t take_set; /* 1 if the Take is set, 0 if not; any other number: book ill formed */
    int64_t take_wh;   /* the Take in Wh; 0 while it is not set */
} cepnhoy_settings;

/* How a meter is registered. */
typedef struct {
    uint64_t segment;
    uint64_t direction;
    uint64_t status;
    uint64_t base;       /* base unit */
    uint64_t flag;       /* 1 if there is an additional unit, else 0 */
    uint64_t additional; /* additional unit; if flag is 0, any number but 0 is out of range */
    uint64_t category;   /* load shape category */
    uint64_t llf;        /* line loss factor, in thousandths */
    uint64_t network;    /* embedded network; 0 if the meter is on none */
    uint64_t tariff;     /* of network charges; an allocation looks neither at it nor the network */
} cepnhoy_registration;

/* A reading. A meter keeps the one with the highest issue, in whatever order they come. */
typedef struct {
    uint64_t issue;
    uint64_t quality;
    uint64_t consumption; /* Wh */
} cepnhoy_reading;

/* The answer of a call that does not allocate. */
typedef struct {
    uint64_t number;           /* 0 or the number of a refusal */
    cepnhoy_settings settings; /* the settings afterwards */
} cepnhoy_answer;

/* The figures of an allocation. All but the number are 0 if it was refused. */
typedef struct {
    uint64_t number;     /* 0 or the number of a refusal */
    int64_t unallocated; /* U: the Take less all import, plus all export, losses counted, in Wh */
    int64_t weighted;    /* W: the sum of weight x energy over all classes, in thousandths of Wh */
    uint64_t actual;     /* how many meters used a reading with an actual code: cells[768] */
    uint64_t estimated;  /* how many used a reading with another code: cells[769] */
    uint64_t defaulted;  /* how many used the load shape of their category: cells[770] */
    uint64_t idle;       /* how many have no energy: cells[771] */
    int64_t droppings[CEPNHOY_UNITS]; /* by unit, in thousandths of Wh: see THE LOSSES OF A UNIT */
} cepnhoy_allocated;

/* The answer of an allocation. */
typedef struct {
    cepnhoy_allocated answer;
    cepnhoy_settings settings; /* the settings afterwards; an allocation changes none */
} cepnhoy_allocation_answer;

/* SINGLE CALLS
 *
 * Beside each stand the refusals that it can give, in their order. Refusal 1 stands twice where a
 * call can also leave cells that pass a limit: that is looked for last. */

/* The settings of a fresh book: no meters, all weights 0, all load shapes missing, tolerance 1000,
 * no Take. */
cepnhoy_settings cepnhoy_fresh(void);

/* Registers a meter, or replaces the registration of a known one, which keeps its reading. Refusals
 * 13, 1, 2, 6, 1. */
cepnhoy_answer cepnhoy_register(
    cepnhoy_settings settings, uint64_t *rows, size_t rows_length,
    int64_t *cells, size_t cells_length,
    uint64_t mpan, cepnhoy_registration registration);

/* Stores a meter's reading if its issue is above that of the stored one. Refusals 13, 1, 2, 3, 4,
 * 5, 1. */
cepnhoy_answer cepnhoy_record_reading(
    cepnhoy_settings settings, uint64_t *rows, size_t rows_length,
    int64_t *cells, size_t cells_length,
    uint64_t mpan, cepnhoy_reading reading);

/* Replaces the load shape of a category. CEPNHOY_SHAPE_MISSING sets it back to missing. The cells
 * of all meters that wait in the category change with it. Refusals 13, 1, 2, 1. */
cepnhoy_answer cepnhoy_set_shape(
    cepnhoy_settings settings, const uint64_t *rows, size_t rows_length,
    int64_t *cells, size_t cells_length,
    uint64_t category, uint64_t wh);

/* Replaces the weight of a class. Refusals 13, 1, 2. */
cepnhoy_answer cepnhoy_set_weight(
    cepnhoy_settings settings, const uint64_t *rows, size_t rows_length,
    const int64_t *cells, size_t cells_length,
    uint64_t class_, uint64_t thousandths);

/* Replaces the tolerance g. Refusals 13, 1, 2. */
cepnhoy_answer cepnhoy_set_tolerance(
    cepnhoy_settings settings, const uint64_t *rows, size_t rows_length,
    const int64_t *cells, size_t cells_length,
    uint64_t g);

/* Sets the Take, in Wh. Refusals 13, 1, 2. */
cepnhoy_answer cepnhoy_set_take(
    cepnhoy_settings settings, const uint64_t *rows, size_t rows_length,
    const int64_t *cells, size_t cells_length,
    int64_t wh);

/* Allocates the Take to the 32 units, and writes the volume of unit i, in Wh, to volumes[i]. The
 * volumes add up to the Take. What rounding dropped of the losses of unit i is droppings[i] in the
 * answer. It works from the cells. Words after the 32nd are not written, and the book is not
 * changed. Refusals 13, 1, 7, 8, 9, 10, 11. */
cepnhoy_allocation_answer cepnhoy_allocate(
    cepnhoy_settings settings, const uint64_t *rows, size_t rows_length,
    const int64_t *cells, size_t cells_length,
    int64_t *volumes, size_t volumes_length);

/* Works out what network charges are billed from, for the meters of one direction and one embedded
 * network (0 for those on none): four words for each tariff. Those of tariff t are
 *
 *   totals[4 * t]       actual Wh: of meters that use a reading with an actual code
 *   totals[4 * t + 1]   other Wh: of meters that use one with another code, or are defaulted
 *   totals[4 * t + 2]   how many of the meters are energised and not idle
 *   totals[4 * t + 3]   how many of the meters are de-energised and not idle
 *
 * So words 0 to 3 are of tariff 0, words 4 to 7 of tariff 1, and words 4092 to 4095 of tariff 1023.
 * A tariff that no such meter has gets four words 0. A meter that is not idle is counted also if
 * its energy is 0 Wh. Losses are not in the totals; units, weights, tolerance and Take play no
 * part, and the Take need not be set. The actual and other Wh of all tariffs and all 64 networks
 * add up to the energy of that direction in all classes but those of losses.
 *
 * The totals are worked from the rows: the cells are not lent to this call. Words after the 4,096th
 * are not written, the book is not changed, and the settings in the answer are those passed.
 *
 * Refusals 1, 2, 12, 9. Refusal 2 is a direction above 1 or a network above 63. Refusal 9 is given
 * for any meter of the book, also one of another direction or network than those asked for. */
cepnhoy_answer cepnhoy_totals(
    cepnhoy_settings settings, const uint64_t *rows, size_t rows_length,
    uint64_t direction, uint64_t network,
    uint64_t *totals, size_t totals_length);

/* LISTS OF CALLS
 *
 * A call in a list is twelve words: its kind, then its arguments. Words that stand as - are not
 * used and may be anything. An allocation and a totals call cannot stand in a list.
 *
 *   word  REGISTER         READING      SHAPE     WEIGHT       TOLERANCE  TAKE
 *   0     1                2            3         4            5          6
 *   1     MPAN             MPAN         category  class        g          Wh
 *   2     segment          issue        Wh        thousandths  -          -
 *   3     direction        quality      -         -            -          -
 *   4     status           consumption  -         -            -          -
 *   5     base             -            -         -            -          -
 *   6     flag             -            -         -            -          -
 *   7     additional       -            -         -            -          -
 *   8     category         -            -         -            -          -
 *   9     LLF              -            -         -            -          -
 *   10    network          -            -         -            -          -
 *   11    tariff           -            -         -            -          -
 *
 * The Take may be negative: its word is the two's complement, which in C is (uint64_t)wh. A call of
 * any other kind is refused with 2. */

#define CEPNHOY_KIND_REGISTER 1
#define CEPNHOY_KIND_READING 2
#define CEPNHOY_KIND_SHAPE 3
#define CEPNHOY_KIND_WEIGHT 4
#define CEPNHOY_KIND_TOLERANCE 5
#define CEPNHOY_KIND_TAKE 6

/* Makes the calls of a list in order, each on the book that the one before left, and writes the
 * number of call i to numbers[i]. The outcome is that of the single calls one by one. Numbers after
 * those of the calls are not written.
 *
 * If the list is misshapen, the answer's number is 19, nothing was done, and no number was written.
 * Otherwise it is 0, which says only that each call has its number. Any of these may be a refusal;
 * if the cells are short, all of them are 13, and else, if the book is ill formed, all are 1.
 * Refusal 19. */
cepnhoy_answer cepnhoy_make_calls(
    cepnhoy_settings settings, uint64_t *rows, size_t rows_length,
    int64_t *cells, size_t cells_length,
    const uint64_t *calls, size_t calls_length,
    uint64_t *numbers, size_t numbers_length);

/* Settles a half hour: makes the calls of a list from the fresh settings, on these rows and these
 * cells, as cepnhoy_make_calls does, and allocates, as cepnhoy_allocate does. For a fresh book the
 * first 836 words of the cells have to be 0 before.
 *
 * If the answer's number is 19, nothing was done. If it is any other, the calls were made, their
 * numbers are written and the settings are those after the list; a refusal is then that of the
 * allocation, which wrote no volume. With short cells, or cells that pass a limit, each call was
 * refused with the number that the allocation has. Refusals 19, 13, 1, 7, 8, 9, 10, 11. */
cepnhoy_allocation_answer cepnhoy_settle_list(
    uint64_t *rows, size_t rows_length,
    int64_t *cells, size_t cells_length,
    const uint64_t *calls, size_t calls_length,
    uint64_t *numbers, size_t numbers_length,
    int64_t *volumes, size_t volumes_length);

#ifdef __cplusplus
}
#endif

#endif
