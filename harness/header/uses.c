/* Uses include/wilfnusk.h as a program in C or C++ does: the examples of document 01, and of document 02's requests One to Five and Seven. Prints
 * document 01's journal. */
#include <fenv.h>
#include <math.h>
#include <stdio.h>
#include <string.h>

#include "wilfnusk.h"

static int failed = 0;

static void expect(int holds, const char *what)
{
    if (!holds) {
        printf("FAILED %s\n", what);
        failed = 1;
    }
}

static uint64_t bits_of(double x)
{
    uint64_t bits;
    memcpy(&bits, &x, 8);
    return bits;
}

/* Each name is its number, and an answer below 0 is minus one of them. */
static void reasons(void)
{
    const wilfnusk_reason by_number[20] = {
        WILFNUSK_LENGTHS_DO_NOT_FIT, WILFNUSK_TOO_LARGE, WILFNUSK_ROLL_COUNT_OUT_OF_RANGE, WILFNUSK_POSITION_OUT_OF_RANGE,
        WILFNUSK_TARGET_OUT_OF_RANGE, WILFNUSK_PANEL_OUT_OF_RANGE, WILFNUSK_OUTPUT_TOO_SHORT, WILFNUSK_TIME_OUT_OF_RANGE,
        WILFNUSK_NO_SUCH_INDEX, WILFNUSK_CHUNK_HAS_LINE, WILFNUSK_JOURNAL_NOT_RIGHT, WILFNUSK_JOURNAL_TORN,
        WILFNUSK_JOURNAL_NOT_EMPTY, WILFNUSK_SAMPLE_INVALID, WILFNUSK_CHUNK_LACKS_LINE, WILFNUSK_RADEC_OUT_OF_RANGE,
        WILFNUSK_TOLERANCE_COUNT_DIFFERS, WILFNUSK_ROLL_TABLE_LENGTH, WILFNUSK_ROLL_TABLE_ENTRY, WILFNUSK_TARGET_NOT_UNIT};
    uint64_t out[3];
    int k;

    for (k = 0; k < 20; k++)
        expect((int)by_number[k] == k + 1, "a reason's name is its number");
    expect(wilfnusk_cost(70000, 1, 1, out, 3) == -WILFNUSK_TOO_LARGE, "too many targets, by name");
    expect(wilfnusk_cost(1, 1, 0, out, 3) == -WILFNUSK_ROLL_COUNT_OUT_OF_RANGE, "no rolls, by name");
    expect(wilfnusk_cost(1, 1, 1, out, 2) == -WILFNUSK_OUTPUT_TOO_SHORT, "two places for three numbers, by name");
}

/* NaN without a trap: a caller may have made the invalid operation one. */
static void infinite(void)
{
    const double infinity = HUGE_VAL;
    double first, second;

    feclearexcept(FE_INVALID);
    first = wilfnusk_atan2(infinity, 1);
    second = wilfnusk_atan2(-1, -infinity);
    expect(!fetestexcept(FE_INVALID), "the arctangent of one infinite coordinate raises no invalid operation");
    expect(first != first && second != second, "the arctangent of one infinite coordinate is NaN");
}

/* The quarter turns at declination 0, and a pole; an element beyond them; each refusal leaves every element as it was. */
static void catalogue(void)
{
    const double eighth = 0.78539816339744828; /* P/4 */
    const double ra[5] = {0, 90, 180, 270, 360}, dec[5] = {0, 0, 0, 0, 90};
    const double beyond[5] = {0, 90, 180, 270, 360.00000000000006};
    const double vectors[15] = {1, 0, 0, -0.0, 1, 0, -1, -0.0, 0, 0, -1, 0, -0.0, -0.0, 1};
    double out[16], untouched[16];
    int k;

    expect(bits_of(wilfnusk_sin(eighth)) == 0x3fe6a09e667f3bccULL, "sine of P/4");
    expect(bits_of(wilfnusk_cos(eighth)) == 0x3fe6a09e667f3bcdULL, "cosine of P/4");
    expect(bits_of(wilfnusk_sin(-0.0)) == 0 && wilfnusk_cos(-0.0) == 1, "sine of -0 is +0");

    for (k = 0; k < 16; k++)
        untouched[k] = -77.125;
    memcpy(out, untouched, sizeof out);
    expect(wilfnusk_radec_to_unit_vectors_batch(ra, 5, dec, 4, out, 16) == -1, "positions: lists of different lengths");
    expect(wilfnusk_radec_to_unit_vectors_batch(beyond, 5, dec, 5, out, 14) == -16, "positions: a last right ascension beyond 360, before 7");
    expect(wilfnusk_radec_to_unit_vectors_batch(ra, 5, beyond, 5, out, 16) == -16, "positions: a declination beyond 90");
    expect(wilfnusk_radec_to_unit_vectors_batch(ra, 5, dec, 5, out, 14) == -7, "positions: no room for the last");
    expect(memcmp(out, untouched, sizeof out) == 0, "positions: refused, and every byte as it was");
    expect(wilfnusk_radec_to_unit_vectors_batch(ra, 5, dec, 5, out, 16) == 0, "five positions");
    expect(memcmp(out, vectors, sizeof vectors) == 0, "their vectors, byte by byte");
    expect(memcmp(&out[15], &untouched[15], sizeof out[15]) == 0, "the element beyond the vectors as it was");
}

/* The example's target twice, the second with a tolerance that no cell exceeds; then lists of tolerances that are too short or too long, to every
 * call with a plan: each leaves every byte as it was. */
static void tolerances(void)
{
    const double targets[6] = {1, 0, 0, 1, 0, 0};
    const double suns[6] = {0, 1, 0, 0, 0, 1};
    const double observers[6] = {0, 0, 0, 0, 0, 0};
    const double list[3] = {10, 90, 10};
    const double severe[2] = {0, 80}, none[2] = {0, 0};
    const uint8_t marks[4] = {0, 1, 0, 0}, field[2] = {1, 0};
    uint8_t journal[256], mask[4], bytes[256], same[256];
    double values[4], same_values[4];
    uint64_t stopped = 7;
    size_t length;

#define PASSED(length, has_roll) targets, 6, suns, 6, observers, 6, list, length, has_roll, 0.0, 0.0, 1.0, 0.0
    expect(wilfnusk_in_constraint_batch(PASSED(2, 1), mask, 4) == 0 && memcmp(mask, marks, 4) == 0, "marks by each target's tolerance");
    expect(wilfnusk_in_constraint_batch_at_roll(PASSED(2, 0), 0, 0.0, mask, 4) == 0 && memcmp(mask, marks, 4) == 0, "marks at a roll");
    expect(wilfnusk_constrained_at_every_roll(PASSED(2, 0), 1, mask, 4) == 0 && memcmp(mask, marks, 4) == 0, "marks at every roll");
    expect(wilfnusk_evaluate(PASSED(2, 1), 0, mask, 2, values, 2) == 0 && memcmp(values, severe, sizeof severe) == 0, "severities of target 0");
    expect(wilfnusk_evaluate(PASSED(2, 1), 1, mask, 2, values, 2) == 0 && memcmp(values, none, sizeof none) == 0, "severities of target 1");
    expect(wilfnusk_field_of_regard_violated_batch(PASSED(2, 0), 1, 1, mask, 2) == 0 && memcmp(mask, field, 2) == 0, "field of regard");
    expect(wilfnusk_field_of_regard_violated_at_roll(PASSED(2, 0), 1, 0.0, mask, 2) == 0 && memcmp(mask, field, 2) == 0, "field of regard at a roll");
    expect(wilfnusk_begin(PASSED(2, 0), 1, journal, sizeof journal, 0) == 107 && memcmp(journal + 24, "4024000000000000", 16) == 0,
           "the header has the first tolerance");
    expect(wilfnusk_work(PASSED(2, 0), 1, 0, journal, sizeof journal, 107) == 140, "work with one tolerance per target");
    expect(memcmp(journal + 107, "00000000000000000000000200000004\n", 33) == 0, "its line");

    memset(bytes, 0xa5, sizeof bytes);
    memcpy(same, bytes, sizeof bytes);
    memcpy(values, bytes, sizeof values);
    memcpy(same_values, values, sizeof values);
    for (length = 0; length < 4; length++) {
        if (length == 2)
            continue;
        expect(wilfnusk_named_values(PASSED(length, 1), values, 4) == -17, "named values: a tolerance too few or too many");
        expect(wilfnusk_in_constraint_batch(PASSED(length, 1), bytes, 4) == -17, "batch: a tolerance too few or too many");
        expect(wilfnusk_in_constraint_batch_at_roll(PASSED(length, 1), 1, 0.0, bytes, 4) == -17, "at a roll: a tolerance too few or too many");
        expect(wilfnusk_constrained_at_every_roll(PASSED(length, 1), 1, bytes, 4) == -17, "every roll: a tolerance too few or too many");
        expect(wilfnusk_evaluate(PASSED(length, 1), 0, bytes, 2, values, 2) == -17, "row: a tolerance too few or too many");
        expect(wilfnusk_evaluate(PASSED(length, 1), 2, bytes, 2, values, 2) == -17, "row: 17 before 9");
        expect(wilfnusk_field_of_regard_violated_batch(PASSED(length, 1), 0, 1, bytes, 2) == -17, "field of regard: a tolerance too few or too many");
        expect(wilfnusk_field_of_regard_violated_at_roll(PASSED(length, 1), 0, 0.0, bytes, 2) == -17, "field at a roll: a tolerance too few or too many");
        expect(wilfnusk_begin(PASSED(length, 1), 1, bytes, sizeof bytes, 0) == -17, "begin: a tolerance too few or too many");
        expect(wilfnusk_work(PASSED(length, 0), 1, 0, bytes, sizeof bytes, 107) == -17, "work: 17 before 11");
        expect(wilfnusk_work_range(PASSED(length, 0), 1, 0, 1, bytes, sizeof bytes, 107, &stopped) == -17 && stopped == 7, "work over a range: 17 before 11");
        expect(wilfnusk_recover(PASSED(length, 0), 1, journal, sizeof journal, 140) == -17, "recover: a tolerance too few or too many");
        expect(wilfnusk_collect(PASSED(length, 0), 1, journal, sizeof journal, 140, bytes, 0) == -17, "collect: 17 before 7");
    }
    expect(memcmp(bytes, same, sizeof bytes) == 0 && memcmp(values, same_values, sizeof values) == 0, "17, and every byte as it was");
    /* The list without targets is empty, its pointer is not NULL. */
    expect(wilfnusk_begin(targets, 0, suns, 6, observers, 6, list, 0, 0, 0.0, 0.0, 1.0, 0.0, 1, journal, sizeof journal, 0) == 107 &&
               memcmp(journal + 24, "0000000000000000", 16) == 0,
           "no targets: zeros in the header");
}

#define PLACES 41

/* One of both plans with thirteen times, into lists of these lengths. */
static int64_t write_plan(int costliest, uint64_t targets, uint64_t n, double lists[5][PLACES], const size_t lengths[5])
{
    if (costliest)
        return wilfnusk_costliest_plan(targets, 13, n, lists[0], lengths[0], lists[1], lengths[1], lists[2], lengths[2], lists[3], lengths[3], lists[4],
                                       lengths[4]);
    return wilfnusk_cheapest_plan(targets, 13, n, lists[0], lengths[0], lists[1], lengths[1], lists[2], lengths[2], lists[3], lengths[3], lists[4],
                                  lengths[4]);
}

/* Five targets and thirteen times, a cell more than a chunk holds: the cost, and both plans, each swept as it was written. Each refusal
 * leaves every place as it was. */
static void costs(void)
{
    const uint64_t wild = (uint64_t)1 << 32;
    const size_t none[5] = {0, 0, 0, 0, 0}, all[5] = {PLACES, PLACES, PLACES, PLACES, PLACES}, needed[5] = {15, 39, 39, 5, 3};
    uint64_t cost[4] = {7, 7, 7, 7}, stopped;
    double lists[5][PLACES], expected[5][PLACES];
    uint8_t journal[256], mask[65];
    size_t lengths[5], list, k;
    int costliest;

    expect(wilfnusk_cost(wild, wild, 0, cost, 0) == -2, "cost: too many targets and times, before 3 and 7");
    expect(wilfnusk_cost(5, 13, 3601, cost, 2) == -3, "cost: more than 3,600 rolls, before 7");
    expect(wilfnusk_cost(5, 13, 72, cost, 2) == -7, "cost: room for two numbers");
    expect(cost[0] == 7 && cost[1] == 7 && cost[2] == 7, "cost: refused, and every place as it was");
    expect(wilfnusk_cost(5, 13, 72, cost, 4) == 0, "cost");
    expect(cost[0] == 173 && cost[1] == 65 && cost[2] == 4680, "a journal of 173 bytes, and 65 to 4,680 rolls");
    expect(cost[3] == 7, "the place beyond the cost as it was");

    memcpy(lengths, needed, sizeof lengths);
    for (costliest = 0; costliest < 2; costliest++) {
        const double tolerance = costliest ? -1 : 180;
        const double repeated[5][3] = {{1, 0, 0}, {0, 1, 0}, {0, 0, 0}, {tolerance, tolerance, tolerance}, {0, 1, 0}};
        const uint64_t foretold = costliest ? cost[2] : cost[1];

        for (list = 0; list < 5; list++)
            for (k = 0; k < PLACES; k++)
                lists[list][k] = expected[list][k] = -77.125;
        expect(write_plan(costliest, wild, 0, lists, none) == -2, "plan: too many targets, before 3 and 7");
        expect(write_plan(costliest, 5, 0, lists, none) == -3, "plan: no rolls, before 7");
        for (list = 0; list < 5; list++) {
            lengths[list]--;
            expect(write_plan(costliest, 5, 72, lists, lengths) == -7, "plan: a list one short");
            lengths[list]++;
        }
        expect(memcmp(lists, expected, sizeof lists) == 0, "plan: refused, and every byte as it was");
        for (list = 0; list < 5; list++)
            for (k = 0; k < needed[list]; k++)
                expected[list][k] = repeated[list][k % 3];
        expect(write_plan(costliest, 5, 72, lists, all) == 0, "a plan of five targets");
        expect(memcmp(lists, expected, sizeof lists) == 0, "its lists, byte by byte, and the places beyond as they were");

#define WRITTEN lists[0], 15, lists[1], 39, lists[2], 39, lists[3], 5, 0, 0.0, lists[4][0], lists[4][1], lists[4][2], 72
        expect(wilfnusk_begin(WRITTEN, journal, sizeof journal, 0) == 107, "begin with the plan that was written");
        expect(wilfnusk_work_range(WRITTEN, 0, 2, journal, sizeof journal, 107, &stopped) == (int64_t)cost[0],
               "the journal's length is the one foretold");
        expect(wilfnusk_collect(WRITTEN, journal, sizeof journal, cost[0], mask, 65) == (int64_t)foretold,
               "as many rolls tried as foretold");
        for (k = 0; k < 65; k++)
            expect(mask[k] == costliest, "the costliest plan marks every cell, the cheapest none");
    }
}

/* The example's plan over a table: of its rolls 80 is within 10 degrees of the second cell's optimal roll, 90, and none of the first's, 0. Tables
 * that are refused: each call leaves every byte as it was, the table's too. */
static void rolls(void)
{
    const double target[3] = {1, 0, 0};
    const double suns[6] = {0, 1, 0, 0, 0, 1};
    const double observers[6] = {0, 0, 0, 0, 0, 0};
    const double tolerance[1] = {10};
    const double table[2] = {15, 80}, even[2] = {0, 180}, zeros[2] = {-0.0, 0}, full[2] = {15, 360}, falling[2] = {80, 15};
    const double *bad[3];
    double same_zeros[2];
    uint8_t journal[256], stepped[256], mask[2] = {9, 9}, bytes[256], same[256];
    uint64_t stopped = 7;
    int64_t used;
    size_t k;

#define SWEPT(has_roll, table) target, 3, suns, 6, observers, 6, tolerance, 1, has_roll, 90.0, 0.0, 1.0, 0.0, table, 2
#define STEPPED target, 3, suns, 6, observers, 6, tolerance, 1, 0, 0.0, 0.0, 1.0, 0.0, 2
    used = wilfnusk_begin_rolls(SWEPT(0, table), journal, sizeof journal, 0);
    expect(used == 107 && memcmp(journal + 16, "00000002", 8) == 0, "begin over a table: the header's n is its length");
    expect(wilfnusk_collect_rolls(SWEPT(0, table), journal, sizeof journal, (uint64_t)used, mask, 2) == -15, "collect over a table without a line");
    used = wilfnusk_work_rolls(SWEPT(0, table), 0, journal, sizeof journal, (uint64_t)used);
    expect(used == 140 && memcmp(journal + 107, "00000000000000000000000100000004\n", 33) == 0, "work over a table: its line");
    expect(wilfnusk_recover_rolls(SWEPT(0, table), journal, sizeof journal, 139) == 107, "recover over a table from a line cut short");
    expect(wilfnusk_work_range_rolls(SWEPT(0, table), 3, 3, journal, sizeof journal, 107, &stopped) == -9 && stopped == 7,
           "no chunk in a range over a table");
    memset(journal + 107, 0, 33);
    expect(wilfnusk_work_range_rolls(SWEPT(0, table), 0, 5, journal, sizeof journal, 107, &stopped) == used && stopped == 1,
           "work over a range, over a table");
    expect(memcmp(journal + 107, "00000000000000000000000100000004\n", 33) == 0, "its line is work's");
    expect(wilfnusk_collect_rolls(SWEPT(0, table), journal, sizeof journal, (uint64_t)used, mask, 2) == 4, "collect over a table: four probes");
    expect(mask[0] == 1 && mask[1] == 0, "the first cell is marked, the second is clear");

    wilfnusk_begin_rolls(SWEPT(1, table), bytes, sizeof bytes, 0);
    expect(wilfnusk_work_rolls(SWEPT(1, table), 0, bytes, sizeof bytes, 107) == 140 && memcmp(bytes + 107, "00000000000000000000000100000003\n", 33) == 0,
           "a configured roll of 90 replaces each");
    wilfnusk_begin_rolls(SWEPT(0, even), bytes, sizeof bytes, 0);
    wilfnusk_begin(STEPPED, stepped, sizeof stepped, 0);
    expect(wilfnusk_work_rolls(SWEPT(0, even), 0, bytes, sizeof bytes, 107) == 140 && wilfnusk_work(STEPPED, 0, stepped, sizeof stepped, 107) == 140 &&
               memcmp(bytes, stepped, 140) == 0,
           "two even steps passed as a table: the same bytes");

    bad[0] = zeros;
    bad[1] = full;
    bad[2] = falling;
    memset(bytes, 0xa5, sizeof bytes);
    memcpy(same, bytes, sizeof bytes);
    memcpy(same_zeros, zeros, sizeof zeros);
    for (k = 0; k < 3; k++) {
        expect(wilfnusk_begin_rolls(SWEPT(0, bad[k]), bytes, sizeof bytes, 7) == -19, "begin: a table that is refused, before 13");
        expect(wilfnusk_work_rolls(SWEPT(0, bad[k]), 9, bytes, sizeof bytes, 107) == -19, "work: a table that is refused, before 9 and 11");
        expect(wilfnusk_work_range_rolls(SWEPT(0, bad[k]), 9, 9, bytes, sizeof bytes, 107, &stopped) == -19 && stopped == 1,
               "work over a range: a table that is refused, before 9 and 11");
        expect(wilfnusk_recover_rolls(SWEPT(0, bad[k]), journal, sizeof journal, 140) == -19, "recover: a table that is refused");
        expect(wilfnusk_collect_rolls(SWEPT(0, bad[k]), journal, sizeof journal, 140, bytes, 0) == -19, "collect: a table that is refused, before 7");
    }
    /* Of length 0 the pointer is still not NULL. */
    expect(wilfnusk_begin_rolls(target, 3, suns, 6, observers, 6, tolerance, 1, 0, 0.0, 0.0, 1.0, 0.0, falling, 0, bytes, sizeof bytes, 0) == -18,
           "no rolls");
    expect(wilfnusk_begin_rolls(target, 3, suns, 6, observers, 6, tolerance, 0, 0, 0.0, 0.0, 1.0, 0.0, zeros, 1, bytes, sizeof bytes, 0) == -17,
           "-0 alone is a table");
    expect(memcmp(bytes, same, sizeof bytes) == 0 && memcmp(zeros, same_zeros, sizeof zeros) == 0, "refused, and every byte as it was");
}

/* Two targets of which the second has half the length, to the cell and to every call with a plan: -20, after -5 and before -6, and every byte
 * as it was. Then the vectors of a catalogue, and vectors of ten digits. */
static void directions(void)
{
    const double half[6] = {1, 0, 0, 0.5, 0, 0}, longer[6] = {0.5, 0, 0, 2, 0, 0};
    const double ten[6] = {0.5773502692, 0.5773502692, 0.5773502692, 0.2672612419, -0.5345224838, 0.8017837257};
    const double six[3] = {0.577350, 0.577350, 0.577350};
    const double ra[2] = {279.234735, 83.633}, dec[2] = {38.783689, 22.0145};
    const double suns[6] = {0, 1, 0, 0, 0, 1};
    const double observers[6] = {0, 0, 0, 0, 0, 0};
    const double list[2] = {10, 90}, table[2] = {15, 80};
    uint8_t bytes[256], same[256], mask[1];
    double values[4], same_values[4], roll = -1, vectors[6];
    uint64_t stopped = 7;

    memset(bytes, 0xa5, sizeof bytes);
    memcpy(same, bytes, sizeof bytes);
    memcpy(values, bytes, sizeof values);
    memcpy(same_values, values, sizeof values);
    expect(wilfnusk_cell(0.5, 0, 0, 1, 0, 0, 0, 0, 0, 0, 1, 0, &roll) == -20, "cell: a target of half length, the Sun dead ahead");
    expect(wilfnusk_cell(six[0], six[1], six[2], 1, 0, 0, 0, 0, 0, 0, 1, 0, &roll) == -20, "cell: six digits are too few");
    expect(wilfnusk_cell(0, 0, 0, 1, 0, 0, 0, 0, 0, 0, INFINITY, 0, &roll) == -20 && roll == -1, "cell: 20 before 6, roll unwritten");
    expect(wilfnusk_cell(2, 0, 0, 1, 0, 0, 0, 0, 0, 0, 1, 0, &roll) == -5 && roll == -1, "cell: 5 before 20");
    expect(wilfnusk_cell(ten[0], ten[1], ten[2], 1, 0, 0, 0, 0, 0, 0, 1, 0, &roll) == 1, "cell: ten digits");
    expect(wilfnusk_cell(0.9999999996, 0, 0, 1, 0, 0, 0, 0, 0, 0, 1, 0, &roll) == 1, "cell: accepted, and by its length not Free with the Sun dead ahead");

#define PASSED_TARGETS(targets, panel_y) targets, 6, suns, 6, observers, 6, list, 2, 1, 0.0, 0.0, panel_y, 0.0
#define HALF PASSED_TARGETS(half, INFINITY)
    expect(wilfnusk_named_values(HALF, values, 4) == -20, "named values: a target of half length, before the panel");
    expect(wilfnusk_in_constraint_batch(HALF, bytes, 4) == -20, "batch: a target of half length");
    expect(wilfnusk_in_constraint_batch_at_roll(HALF, 1, 0.0, bytes, 4) == -20, "at a roll: a target of half length");
    expect(wilfnusk_constrained_at_every_roll(HALF, 1, bytes, 4) == -20, "every roll: a target of half length");
    expect(wilfnusk_evaluate(HALF, 0, bytes, 2, values, 2) == -20, "row of the first: the second has half length");
    expect(wilfnusk_field_of_regard_violated_batch(HALF, 0, 1, bytes, 2) == -20, "field of regard: a target of half length");
    expect(wilfnusk_field_of_regard_violated_at_roll(HALF, 0, 0.0, bytes, 2) == -20, "field at a roll: a target of half length");
    expect(wilfnusk_begin(HALF, 1, bytes, sizeof bytes, 0) == -20, "begin: a target of half length");
    expect(wilfnusk_work(HALF, 1, 0, bytes, sizeof bytes, 107) == -20, "work: 20 before 11");
    expect(wilfnusk_work_range(HALF, 1, 0, 1, bytes, sizeof bytes, 107, &stopped) == -20 && stopped == 7, "work over a range: 20 before 11");
    expect(wilfnusk_recover(HALF, 1, bytes, sizeof bytes, 140) == -20, "recover: 20 before 11");
    expect(wilfnusk_collect(HALF, 1, bytes, sizeof bytes, 140, mask, 0) == -20, "collect: 20 before 11");
    expect(wilfnusk_begin_rolls(HALF, table, 2, bytes, sizeof bytes, 0) == -20, "begin over a table: a target of half length");
    expect(wilfnusk_work_rolls(HALF, table, 2, 0, bytes, sizeof bytes, 107) == -20, "work over a table: 20 before 11");
    expect(wilfnusk_work_range_rolls(HALF, table, 2, 0, 1, bytes, sizeof bytes, 107, &stopped) == -20 && stopped == 7, "range over a table: 20 before 11");
    expect(wilfnusk_recover_rolls(HALF, table, 2, bytes, sizeof bytes, 140) == -20, "recover over a table: 20 before 11");
    expect(wilfnusk_collect_rolls(HALF, table, 2, bytes, sizeof bytes, 140, mask, 0) == -20, "collect over a table: 20 before 11");
    expect(wilfnusk_named_values(PASSED_TARGETS(longer, 1.0), values, 4) == -5, "5 of the second target before 20 of the first");
    expect(memcmp(bytes, same, sizeof bytes) == 0 && memcmp(values, same_values, sizeof values) == 0, "20, and every byte as it was");

    expect(wilfnusk_named_values(PASSED_TARGETS(ten, 1.0), values, 4) == 0, "ten digits per number");
    expect(wilfnusk_radec_to_unit_vectors_batch(ra, 2, dec, 2, vectors, 6) == 0 && wilfnusk_named_values(PASSED_TARGETS(vectors, 1.0), values, 4) == 0,
           "the vectors of a catalogue");
}

int main(void)
{
    const double target[3] = {1, 0, 0};
    const double suns[6] = {0, 1, 0, 0, 0, 1};
    const double observers[6] = {0, 0, 0, 0, 0, 0};
    const double tolerance[1] = {10};
    uint8_t journal[256], ranged[256], mask[2] = {9, 9}, flags[3];
    uint64_t bits, stopped = 7, first[3], last[3];
    int64_t used, first_time[3], last_time[3];
    double roll = -1, severity[3], root = wilfnusk_sqrt(2);
    const uint8_t row[5] = {0, 1, 0, 1, 1};
    const int64_t times[5] = {0, 10, 20, 30, 40};
    const double severities[5] = {0, 1.5, 0, 2, 3};
    /* The second of row's violation windows, as the six words of its record; 3.0's bits. */
    const uint64_t second[6] = {3, 4, 30, 40, 0x4008000000000000ULL, 1};
    wilfnusk_window records[3], untouched[3];
    uint8_t expanded[5];

    memcpy(&bits, &root, 8);
    expect(bits == 0x3ff6a09e667f3bcdULL, "root of 2");
    expect(wilfnusk_circular_diff_deg(350, 10) == 20, "difference of 350 and 10");
    reasons();
    infinite();
    catalogue();
    tolerances();
    costs();
    rolls();
    directions();

    expect(wilfnusk_cell(1, 0, 0, 1, 0, 0, 0, 0, 0, 0, 1, 0, &roll) == 0 && roll == -1, "Sun on the boresight: Free, roll unwritten");
    expect(wilfnusk_cell(1, 0, 0, 0, 0, -1, 0, 0, 0, 0, 1, 0, &roll) == 1 && roll == 270, "Sun [0,0,-1]: At 270, not -90");
    expect(wilfnusk_cell(1, 0, 0, 0, 0, 1, 0, 0, 0, 0, 1, 0, &roll) == 1 && roll == 90, "Sun [0,0,1]: At 90");
    expect(wilfnusk_cell(2, 0, 0, 0, 0, 1, 0, 0, 0, 0, 1, 0, &roll) == -5 && roll == 90, "a target beyond 1: -5, roll unwritten");

#define PLAN target, 3, suns, 6, observers, 6, tolerance, 1, 0, 0.0, 0.0, 1.0, 0.0
    used = wilfnusk_begin(PLAN, 1, journal, sizeof journal, 0);
    expect(used == 107, "begin");
    expect(wilfnusk_begin(PLAN, 1, journal, sizeof journal, (uint64_t)used) == -13, "begin in a journal that is not empty");
    expect(wilfnusk_collect(PLAN, 1, journal, sizeof journal, (uint64_t)used, mask, 2) == -15, "collect without a line");
    used = wilfnusk_work(PLAN, 1, 0, journal, sizeof journal, (uint64_t)used);
    expect(used == 140, "work");
    expect(wilfnusk_recover(PLAN, 1, journal, sizeof journal, 139) == 107, "recover from a line cut short");
    expect(wilfnusk_collect(PLAN, 1, journal, sizeof journal, (uint64_t)used, mask, 2) == 2, "collect: two probes");
    expect(mask[0] == 0 && mask[1] == 1, "collect's mask");
    printf("%.*s", (int)used, (const char *)journal);

    memcpy(ranged, journal, 107);
    expect(wilfnusk_work_range(PLAN, 1, 3, 3, ranged, sizeof ranged, 107, &stopped) == -9 && stopped == 7, "no chunk in a range: -9, stopped unwritten");
    expect(wilfnusk_work_range(PLAN, 1, 0, 5, ranged, sizeof ranged, 107, &stopped) == used && stopped == 1, "work over a range, to its last chunk");
    expect(memcmp(ranged, journal, (size_t)used) == 0, "its line is work's");
    expect(wilfnusk_work_range(PLAN, 1, 0, 5, ranged, sizeof ranged, (uint64_t)used, &stopped) == -10 && stopped == 1, "a range whose first chunk has a line");

    expect(wilfnusk_violation_windows(row, 5, times, 5, severities, 5, first, 3, last, 3, first_time, 3, last_time, 3, severity, 3, flags,
                                      3) == 2,
           "two violation windows");
    expect(first[1] == 3 && last[1] == 4 && first_time[1] == 30 && last_time[1] == 40 && severity[1] == 3 && flags[1] == 1,
           "the second: 3-4, last");

    expect(sizeof(wilfnusk_window) == 48 && offsetof(wilfnusk_window, first) == 0 && offsetof(wilfnusk_window, last) == 8 &&
               offsetof(wilfnusk_window, first_time) == 16 && offsetof(wilfnusk_window, last_time) == 24 &&
               offsetof(wilfnusk_window, severity) == 32 && offsetof(wilfnusk_window, is_last) == 40,
           "a record of six fields, 8 bytes each");
    memset(untouched, 0xa5, sizeof untouched);
    memcpy(records, untouched, sizeof records);
    expect(wilfnusk_violation_records(row, 5, times, 5, severities, 4, records, 3) == -1, "records: severities of another length");
    expect(wilfnusk_violation_records(row, 5, times, 5, severities, 5, records, 1) == -7, "records: one place for two windows");
    expect(wilfnusk_visibility_records(row, 5, times, 5, records, 3) == 0, "records: no visibility window");
    expect(memcmp(records, untouched, sizeof records) == 0, "records: refused or none, and every byte as it was");
    expect(wilfnusk_violation_records(row, 5, times, 5, severities, 5, records, 3) == 2, "two violation records");
    expect(records[0].first == 1 && records[0].last == 1 && records[0].first_time == 10 && records[0].last_time == 10 &&
               records[0].severity == 1.5 && records[0].is_last == 0,
           "the first record: 1-1, not last");
    expect(memcmp(&records[1], second, sizeof second) == 0, "the second record, byte by byte");
    expect(memcmp(&records[2], &untouched[2], sizeof records[2]) == 0, "the element beyond the records as it was");

    expect(wilfnusk_expand(first_time, 2, last_time, 2, times, 5, expanded, 5) == 0 && memcmp(expanded, row, 5) == 0, "expansion");
    expect(wilfnusk_total_violation_duration(first_time, 2, last_time, 2, severity) == 0 && severity[0] == 0, "seconds");
    return failed;
}
