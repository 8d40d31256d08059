/*
 * wilfnusk.h: solar roll, windows and the sweep journal.
 *
 * Which targets a satellite may look at, at which times, and how far it may roll before its solar panel turns from the Sun; a roll sweep
 * that can be cut off at any byte of its journal and taken up again; and the windows that follow from it.
 *
 * Link libwilfnusk.a, for x86-64 (`tools/library` makes it in build/lib/), and the C library's mathematics (-lm); once installed,
 * `pkg-config --cflags --libs wilfnusk` prints the flags. The library allocates nothing, has no global state, reads and writes nothing but
 * the arguments of a call, and always returns; a call needs up to 448 KiB of stack. Any number of threads may call it at the same time.
 *
 *
 * ANSWERS
 *
 * The five functions on doubles return a double. Every other call returns an int64_t: 0 or more if it was accepted, else minus a
 * wilfnusk_reason. A refused call writes nothing. Reasons are tried in the order in which a call lists them, and the first that holds is
 * the answer. docs/GLOSSARY.md has them as a table.
 *
 *    -1  WILFNUSK_LENGTHS_DO_NOT_FIT: lists do not fit together. With a plan: the length of targets, suns or observers is not a multiple of
 *        3, or the lengths of suns and observers differ. With a journal: the length of targets, suns or observers is not a multiple of 3,
 *        the lengths of suns and observers differ, or the used length is beyond the journal's buffer. With a listing of windows: the
 *        lengths of mask, times, severities or output columns differ. wilfnusk_expand and wilfnusk_total_violation_duration: the lists of
 *        first and last times differ in length. With catalogue positions: the lists of right ascensions and declinations differ in
 *        length.
 *    -2  WILFNUSK_TOO_LARGE: with a plan, or its size, more than 65,536 targets or times, or more than 1,048,576 cells. With a listing of
 *        windows more than 65,536 samples; wilfnusk_expand: more than 65,536 windows or times; wilfnusk_total_violation_duration: more than
 *        65,536 windows.
 *    -3  WILFNUSK_ROLL_COUNT_OUT_OF_RANGE: the number of rolls is not within 1 to 3,600. In wilfnusk_constrained_at_every_roll and
 *        wilfnusk_field_of_regard_violated_batch, which take 0 too: the number of rolls is over 3,600.
 *    -4  WILFNUSK_POSITION_OUT_OF_RANGE: a Sun or observer number is not finite or is over 1e100 in size.
 *    -5  WILFNUSK_TARGET_OUT_OF_RANGE: a target component is not within -1 to 1.
 *    -6  WILFNUSK_PANEL_OUT_OF_RANGE: a component of the panel normal is not finite or is over 1e100 in size.
 *    -7  WILFNUSK_OUTPUT_TOO_SHORT: an output is shorter than needed. With a listing of windows: there are more windows than places. With begin,
 *        work and work_range: the journal's buffer has no room for the bytes to add. Always the last reason tried.
 *    -8  WILFNUSK_TIME_OUT_OF_RANGE: a time is beyond 4,000,000,000,000,000,000 nanoseconds either way.
 *    -9  WILFNUSK_NO_SUCH_INDEX: there is no such chunk. With a range: there is no chunk in the range, or no such chunk. With a target number:
 *        there is no such target. With a time number: the time index is not below the number of times.
 *   -10  WILFNUSK_CHUNK_HAS_LINE: the chunk already has a line in the journal.
 *   -11  WILFNUSK_JOURNAL_NOT_RIGHT: the journal is not right: it has another plan's header, or a line that no sweep of this plan writes.
 *        See JOURNAL.
 *   -12  WILFNUSK_JOURNAL_TORN: the journal's header is incomplete, or bytes follow its last whole line. Call wilfnusk_recover, or
 *        wilfnusk_recover_rolls.
 *   -13  WILFNUSK_JOURNAL_NOT_EMPTY: the journal is not empty.
 *   -14  WILFNUSK_SAMPLE_INVALID: a mask byte is neither 0 nor 1, or a severity is NaN, infinite or has its sign bit set.
 *   -15  WILFNUSK_CHUNK_LACKS_LINE: a chunk has no line in the journal.
 *   -16  WILFNUSK_RADEC_OUT_OF_RANGE: a right ascension is not within 0 to 360 degrees, or a declination is not within -90 to 90.
 *   -17  WILFNUSK_TOLERANCE_COUNT_DIFFERS: the number of tolerances differs from the number of targets: tolerances_len is not
 *        targets_len / 3.
 *   -18  WILFNUSK_ROLL_TABLE_LENGTH: the table of rolls is empty or has more than 3,600 rolls.
 *   -19  WILFNUSK_ROLL_TABLE_ENTRY: a roll of the table is not within 0 to below 360, or is not above the roll before it. NaN is
 *        refused too.
 *   -20  WILFNUSK_TARGET_NOT_UNIT: the squared length of a target is not within 1e-9 of 1. It is x * x + y * y + z * z, summed from left to
 *        right. Tried straight after -5, which is tried for all targets first.
 *
 * Arguments of 64 bits are compared whole: a chunk of 2^40 or an n of 2^32 is refused, not truncated.
 *
 *
 * LISTS
 *
 * A list is a pointer and then its length in elements (not bytes). A pointer is never NULL, not even with length 0: pass the address of
 * any object of the type, aligned for it. What a call writes (parameters without const) must not overlap any other argument. Elements of
 * an output beyond the answer keep their values.
 *
 *
 * PLAN
 *
 * Calls about a plan begin with the same parameters, in the same order:
 *
 *    targets        directions from the satellite, three numbers each: unit vectors, in the frame of the positions. Ten digits per number
 *                   are enough to be accepted, see -20; give all you have. wilfnusk_radec_to_unit_vectors_batch makes them from right
 *                   ascension and declination
 *    suns           the Sun's position at each time, three numbers each
 *    observers      the satellite's position at each time, three numbers each, in the unit and from the origin of suns
 *    tolerances     one per target: how far, in degrees, a roll may be from the optimal one; any double. NaN: none of the target's cells is
 *                   violated. Below 0: each of them that is not Free is violated, at a finite roll
 *    has_roll       0: no configured roll, and roll_deg is ignored. Anything else: roll_deg is the configured roll
 *    roll_deg       in degrees; any double. One that is not finite violates nothing
 *    panel_x, panel_y, panel_z   the panel's normal in the body's axes, see FRAME. Need not have length 1. The usual: 0, 1, 0
 *
 * A cell is a target i and a time j; its number is i * times + j. A mask has one byte per cell, in this order: 1 marked (violated), 0 clear.
 * A cell is Free if no roll is better than another: the Sun is on the boresight's line, ahead or behind, or the panel's normal has no part
 * across it. Both are tested to about 1e-12 and presume a target of length 1: with a target shorter than 1 by more than that the cell is not
 * Free with the Sun on that line, and with a longer one it is Free also with the Sun close to it.
 *
 *
 * FRAME
 *
 * targets, suns and observers are in one equatorial frame, such as GCRS: X toward the equinox, Z toward celestial north. suns and observers
 * have one origin, such as the Earth's centre; the Sun's direction is that of sun - observer.
 *
 * The body's x is the boresight, the target. At roll 0 its z is celestial north, as far as that lies across x, and its y = z cross x, which
 * is east. (Where x is a pole, and north has no part across it, the frame's Y replaces north.) A positive roll turns the body about +x by
 * the right hand: clockwise as seen looking along the boresight from the satellite, counterclockwise as seen looking at the satellite. At
 * roll R
 *
 *    y = cos R * east + sin R * north        z = cos R * north - sin R * east
 *
 * so z's position angle, from north through east, is -R. The panel's normal is given in these axes and turns with them. The optimal roll is
 * the Sun's angle in the y-z plane at roll 0, from y toward z, less the normal's, as a remainder by 360: it lies from 0 up to but not at
 * 360. At it the normal, across the boresight, points where the Sun is. A configured roll is such a roll, any number of degrees, and the
 * tolerance is an arc between two of them. docs/PLAN_FILE.md has a drawing.
 *
 * For the target 1, 0, 0 and the normal 0, 1, 0: a Sun at 0, 1, 0 (east) has the optimal roll 0; at 0, 0, 1 (north) 90; at 0, -1, 0
 * (west) 180; at 0, 0, -1 (south) 270.
 */
#ifndef WILFNUSK_H
#define WILFNUSK_H

#include <stddef.h>
#include <stdint.h>

#ifdef __cplusplus
extern "C" {
#endif

/* Why a call was refused: its answer is minus one of these. ANSWERS above has what each means. */
typedef enum wilfnusk_reason {
    WILFNUSK_LENGTHS_DO_NOT_FIT = 1,
    WILFNUSK_TOO_LARGE = 2,
    WILFNUSK_ROLL_COUNT_OUT_OF_RANGE = 3,
    WILFNUSK_POSITION_OUT_OF_RANGE = 4,
    WILFNUSK_TARGET_OUT_OF_RANGE = 5,
    WILFNUSK_PANEL_OUT_OF_RANGE = 6,
    WILFNUSK_OUTPUT_TOO_SHORT = 7,
    WILFNUSK_TIME_OUT_OF_RANGE = 8,
    WILFNUSK_NO_SUCH_INDEX = 9,
    WILFNUSK_CHUNK_HAS_LINE = 10,
    WILFNUSK_JOURNAL_NOT_RIGHT = 11,
    WILFNUSK_JOURNAL_TORN = 12,
    WILFNUSK_JOURNAL_NOT_EMPTY = 13,
    WILFNUSK_SAMPLE_INVALID = 14,
    WILFNUSK_CHUNK_LACKS_LINE = 15,
    WILFNUSK_RADEC_OUT_OF_RANGE = 16,
    WILFNUSK_TOLERANCE_COUNT_DIFFERS = 17,
    WILFNUSK_ROLL_TABLE_LENGTH = 18,
    WILFNUSK_ROLL_TABLE_ENTRY = 19,
    WILFNUSK_TARGET_NOT_UNIT = 20
} wilfnusk_reason;

#define WILFNUSK_PLAN                                                                                                                      \
    const double *targets, size_t targets_len, const double *suns, size_t suns_len, const double *observers, size_t observers_len,         \
        const double *tolerances, size_t tolerances_len, uint64_t has_roll, double roll_deg, double panel_x, double panel_y, double panel_z


/* ---- Arithmetic. No double is refused. ------------------------------------------------------------------------------------------- */

/* The square root of IEEE 754: the nearest double, ties to even. -0 gives -0; a number below 0 or a NaN gives NaN. */
double wilfnusk_sqrt(double x);

/* The angle of the point (z, y) in radians, from -pi to pi, y upward: atan2(y, z) of the C library, but by a rule of its own, the same on
 * every machine. NaN unless both are finite. */
double wilfnusk_atan2(double y, double z);

/* The sine and the cosine of r radians, by a rule of their own, the same on every machine. Made for r from -2 pi to 2 pi, where they are
 * within 1e-15 of the true ones; further out they drift away. NaN gives NaN; the sine of an infinity is that infinity, and its cosine
 * +infinity. The sine of -0 is +0. */
double wilfnusk_sin(double r);
double wilfnusk_cos(double r);

/* The shortest arc between two rolls, in degrees: from 0 to 180. NaN unless both, and a - b, are finite. */
double wilfnusk_circular_diff_deg(double a, double b);


/* ---- Catalogue positions --------------------------------------------------------------------------------------------------------- */

/* Writes the unit vector of each position, from its right ascension and declination in degrees: x, y, z one position after the other, as a
 * plan's targets. Answers 0. No vector that it writes is refused as a target, by -5 or by -20.
 * Refuses: -1 if ra and dec are not equally long; -16; -7 if out_len is below 3 per position. */
int64_t wilfnusk_radec_to_unit_vectors_batch(const double *ra, size_t ra_len, const double *dec, size_t dec_len, double *out,
                                             size_t out_len);


/* ---- Rolls ----------------------------------------------------------------------------------------------------------------------- */

/* The optimal roll of one cell, in degrees. 0: the cell is Free, and *roll is not written. 1: *roll is the optimal roll, from 0 up to but
 * not at 360; it may be -0. Refuses: -4, -5, -20, -6. */
int64_t wilfnusk_cell(double target_x, double target_y, double target_z, double sun_x, double sun_y, double sun_z, double observer_x,
                      double observer_y, double observer_z, double panel_x, double panel_y, double panel_z, double *roll);

/* Writes the optimal roll of each cell, in degrees, Free cells too: each from 0 up to but not at 360, and it may be -0. Answers 0. The
 * numbers in tolerances, and roll_deg, do not matter.
 * Refuses: -1, -2, -4, -5, -20, -6, -17; -7 if out_len is below the number of cells. */
int64_t wilfnusk_named_values(WILFNUSK_PLAN, double *out, size_t out_len);


/* ---- Masks ----------------------------------------------------------------------------------------------------------------------- */

/* A cell that is not Free is violated at a roll if its optimal roll is further from it than its target's tolerance. A distance equal to
 * the tolerance is not violated. */

/* Marks the cells that are violated at the configured roll; without one, none. Answers 0.
 * Refuses: -1, -2, -4, -5, -20, -6, -17; -7 if mask_len is below the number of cells. */
int64_t wilfnusk_in_constraint_batch(WILFNUSK_PLAN, uint8_t *mask, size_t mask_len);

/* Marks the cells that are violated at the roll roll_at_deg. fixed 0: a configured roll replaces it. fixed not 0: it does not.
 * Answers 0. Refuses: -1, -2, -4, -5, -20, -6, -17; -7 if mask_len is below the number of cells. */
int64_t wilfnusk_in_constraint_batch_at_roll(WILFNUSK_PLAN, uint64_t fixed, double roll_at_deg, uint8_t *mask, size_t mask_len);

/* Marks the cells that are not Free and whose optimal roll is further than the tolerance from the nearest multiple of 360 / n; n = 0
 * marks none. With a configured roll, whatever n is, the cells that are violated at it. Answers 0. Where rounding decides, this is not
 * always the mask of the journal's sweep, which tries each roll.
 * Refuses: -1, -2, -3 if n is over 3,600, -4, -5, -20, -6, -17; -7 if mask_len is below the number of cells. */
int64_t wilfnusk_constrained_at_every_roll(WILFNUSK_PLAN, uint64_t n, uint8_t *mask, size_t mask_len);

/* One target's row at the configured roll: its mask, and for each marked time by how many degrees the distance is beyond the tolerance
 * (for a clear one 0). Without a configured roll all zeros. Answers 0.
 * Refuses: -1, -2, -4, -5, -20, -6, -17; -9 if target is not below the number of targets; -7 if mask_len or severities_len is below the
 * number of times. */
int64_t wilfnusk_evaluate(WILFNUSK_PLAN, uint64_t target, uint8_t *mask, size_t mask_len, double *severities, size_t severities_len);

/* Field of regard: one byte per target, at one time. The first marks as wilfnusk_constrained_at_every_roll does; the second those that are
 * violated at the configured roll, or without one at roll_at_deg. Both answer 0.
 * Refuse: -1, -2, -3 if n is over 3,600 (the first), -4, -5, -20, -6, -17; -9 if time is not below the number of times; -7 if mask_len is
 * below the number of targets. */
int64_t wilfnusk_field_of_regard_violated_batch(WILFNUSK_PLAN, uint64_t time, uint64_t n, uint8_t *mask, size_t mask_len);
int64_t wilfnusk_field_of_regard_violated_at_roll(WILFNUSK_PLAN, uint64_t time, double roll_at_deg, uint8_t *mask, size_t mask_len);


/* ---- Journal --------------------------------------------------------------------------------------------------------------------- */

/*
 * JOURNAL
 *
 * A sweep tries for each cell n rolls, in their order, until one does not violate it (a configured roll replaces each of them). It
 * marks the cell if all n violate it. The rolls are the even steps k * (360 / n), from k = 0 up; or, by the calls whose names end in
 * _rolls, a table of n rolls. Cells are swept in chunks of 64, the last perhaps fewer: chunk c holds the cells 64c to 64c + 63. Each
 * chunk, once swept, is one line of the journal, in any order; so a sweep can be split over machines and resumed where it broke off.
 *
 * The journal is text in lowercase hexadecimal. First the header, 106 digits and a newline:
 *
 *    digits   8  number of targets
 *             8  number of times
 *             8  n
 *            16  the bits of the first tolerance (every NaN as 7ff8000000000000), zeros without targets
 *             2  01 with a configured roll, else 00
 *            16  the bits of the configured roll, else zeros
 *      3 *   16  the bits of panel_x, panel_y, panel_z
 *
 * then lines of 32 digits and a newline:
 *
 *    digits   8  chunk
 *            16  mask: bit k is cell 64c + k; bits past the last cell are 0
 *             8  how many rolls were tried, summed over the chunk's cells
 *
 * That is 107 bytes and 33 bytes per line. targets, suns, observers, the tolerances after the first and a table's rolls are not in it: pass
 * the same plan and the same table to every call.
 *
 * A journal is right if its header is this plan's (if it is shorter than 107 bytes: if it begins that header), and each whole line has 32
 * digits and a newline, a chunk that exists, no chunk of another line, no bits past the last cell, and a count of tried rolls from
 * (clear + n * marked) to n * cells of its chunk.
 *
 * These calls take a buffer and how many of its bytes are used. begin, work and work_range write only the bytes that they add, from the
 * used length on; write the same bytes to the file. After a power cut, read the file, call recover, and shorten the file to the answer
 * before anything is written.
 */

/* Writes the header into an empty journal. Answers the used length after it, 107.
 * Refuses: -1, -2, -3, -4, -5, -20, -6, -17; -13 if used is not 0; -7 if journal_len is below 107. */
int64_t wilfnusk_begin(WILFNUSK_PLAN, uint64_t n, uint8_t *journal, size_t journal_len, uint64_t used);

/* Sweeps a chunk and appends its line. Answers the used length after it: used + 33.
 * Refuses: -1, -2, -3, -4, -5, -20, -6, -17; -9 if there is no such chunk; -11; -12; -10; -7 if journal_len is below used + 33. */
int64_t wilfnusk_work(WILFNUSK_PLAN, uint64_t n, uint64_t chunk, uint8_t *journal, size_t journal_len, uint64_t used);

/* Sweeps the chunks from, from + 1, .. and appends a line for each, as wilfnusk_work of each on what the one before left would, but checks
 * the journal once: so the time of a sweep grows with its chunks. Stops before `to`, or before the first chunk that wilfnusk_work would
 * refuse, and writes to *stopped the chunk at which it stopped. Answers the used length after it: used + 33 for each line. If the write of
 * the added bytes to the file is cut short, the file has some of the lines whole, and a part of the next.
 * Refuses: -1, -2, -3, -4, -5, -20, -6, -17; -9 if from is not below to; then as wilfnusk_work of the chunk from: -9; -11; -12; -10; -7. */
int64_t wilfnusk_work_range(WILFNUSK_PLAN, uint64_t n, uint64_t from, uint64_t to, uint8_t *journal, size_t journal_len, uint64_t used,
                            uint64_t *stopped);

/* Answers the used length without an incomplete header or line at the end: 0 if the header is incomplete, else the header and the whole
 * lines. Writes nothing. Refuses: -1, -2, -3, -4, -5, -20, -6, -17; -11. */
int64_t wilfnusk_recover(WILFNUSK_PLAN, uint64_t n, const uint8_t *journal, size_t journal_len, uint64_t used);

/* Writes the mask that the journal's lines hold. Answers how many rolls were tried, summed over all cells.
 * Refuses: -1, -2, -3, -4, -5, -20, -6, -17; -11; -12; -15; -7 if mask_len is below the number of cells. */
int64_t wilfnusk_collect(WILFNUSK_PLAN, uint64_t n, const uint8_t *journal, size_t journal_len, uint64_t used, uint8_t *mask,
                         size_t mask_len);

/* The same five calls, with a table of rolls instead of n: wheels may settle only at certain rolls. The table has 1 to 3,600 rolls in
 * degrees, each within 0 to below 360 and above the one before it; they are tried in their order. The n of the header is their number, and
 * no journal holds the rolls: pass the same table to every call on one journal, since another of that length cannot be distinguished from
 * it. Each refuses as the call without _rolls does, but with -18 and then -19 instead of -3. */
int64_t wilfnusk_begin_rolls(WILFNUSK_PLAN, const double *rolls, size_t rolls_len, uint8_t *journal, size_t journal_len, uint64_t used);
int64_t wilfnusk_work_rolls(WILFNUSK_PLAN, const double *rolls, size_t rolls_len, uint64_t chunk, uint8_t *journal, size_t journal_len,
                            uint64_t used);
int64_t wilfnusk_work_range_rolls(WILFNUSK_PLAN, const double *rolls, size_t rolls_len, uint64_t from, uint64_t to, uint8_t *journal,
                                  size_t journal_len, uint64_t used, uint64_t *stopped);
int64_t wilfnusk_recover_rolls(WILFNUSK_PLAN, const double *rolls, size_t rolls_len, const uint8_t *journal, size_t journal_len,
                               uint64_t used);
int64_t wilfnusk_collect_rolls(WILFNUSK_PLAN, const double *rolls, size_t rolls_len, const uint8_t *journal, size_t journal_len,
                               uint64_t used, uint8_t *mask, size_t mask_len);


/* ---- Cost ------------------------------------------------------------------------------------------------------------------------ */

/* What the sweep of a plan of this size will cost, whatever is in the plan: writes into out the journal's length in bytes once each chunk
 * has its line, 107 + 33 per chunk; the fewest rolls that the sweep can try, one per cell; and the most, n per cell. n is the number of
 * rolls, even steps or a table's. Answers 0.
 * Refuses: -2; -3; -7 if out_len is below 3. */
int64_t wilfnusk_cost(uint64_t targets, uint64_t times, uint64_t n, uint64_t *out, size_t out_len);

/* Write a plan of this size: the sweep of the first tries the most rolls, n per cell, that of the second the fewest, one per cell. Each
 * target is 1, 0, 0, each Sun 0, 1, 0, each observer 0, 0, 0 and the panel 0, 1, 0; every tolerance is -1 in the first and 180 in the
 * second. Pass the first 3 * targets, 3 * times, 3 * times and targets numbers of the first four lists as targets, suns, observers and
 * tolerances, the panel's three as panel_x, panel_y and panel_z, with has_roll 0 and the same n. The five lists must not overlap. Both answer 0.
 * Refuse: -2; -3; -7 if target_numbers_len is below 3 per target, suns_len or observers_len below 3 per time, tolerances_len below the
 * number of targets, or panel_len below 3. */
int64_t wilfnusk_costliest_plan(uint64_t targets, uint64_t times, uint64_t n, double *target_numbers, size_t target_numbers_len,
                                double *suns, size_t suns_len, double *observers, size_t observers_len, double *tolerances,
                                size_t tolerances_len, double *panel, size_t panel_len);
int64_t wilfnusk_cheapest_plan(uint64_t targets, uint64_t times, uint64_t n, double *target_numbers, size_t target_numbers_len,
                               double *suns, size_t suns_len, double *observers, size_t observers_len, double *tolerances,
                               size_t tolerances_len, double *panel, size_t panel_len);


/* ---- Windows --------------------------------------------------------------------------------------------------------------------- */

/* A window is a run of samples of one row: a part of a mask, one target's cells, with the samples' times in nanoseconds. Each listing
 * writes six values per window, as six columns or as one list of records: first and last sample number, their times, severity, and a flag:
 * 1 if the window ends with the final sample, where the data ended; else 0. */

/* A window as a record: 48 bytes, 8 per field, without padding. */
typedef struct wilfnusk_window {
    uint64_t first;     /* sample numbers, from 0 */
    uint64_t last;
    int64_t first_time; /* their times */
    int64_t last_time;
    double severity;
    uint64_t is_last;   /* the flag: 0 or 1 */
} wilfnusk_window;

/* Lists the maximal runs of marked samples, in order: those with no marked sample directly before or after them. A window's severity is
 * the largest of its samples'; severities are those of wilfnusk_evaluate; for collect's mask pass severities of zero. A row of s
 * samples has at most (s + 1) / 2 windows. Answers their number.
 * Refuses: -1 if mask, times and severities, or the six columns, are not equally long; -2; -8; -14; -7 if there are more windows than
 * places. */
int64_t wilfnusk_violation_windows(const uint8_t *mask, size_t mask_len, const int64_t *times, size_t times_len,
                                   const double *severities, size_t severities_len, uint64_t *first, size_t first_len, uint64_t *last,
                                   size_t last_len, int64_t *first_time, size_t first_time_len, int64_t *last_time,
                                   size_t last_time_len, double *severity, size_t severity_len, uint8_t *is_last, size_t is_last_len);

/* Lists the maximal runs of clear samples, in order: those of two samples or more, and one of any length that reaches the last sample.
 * Severities are 0. A row of s samples has at most (s + 1) / 2 windows. Answers their number.
 * Refuses: -1 if mask and times, or the six columns, are not equally long; -2; -8; -14; -7 if there are more windows than places. */
int64_t wilfnusk_visibility_windows(const uint8_t *mask, size_t mask_len, const int64_t *times, size_t times_len, uint64_t *first,
                                    size_t first_len, uint64_t *last, size_t last_len, int64_t *first_time, size_t first_time_len,
                                    int64_t *last_time, size_t last_time_len, double *severity, size_t severity_len, uint8_t *is_last,
                                    size_t is_last_len);

/* The same two lists as records, written into the first places of out. Both answer the number of windows.
 * Refuse: -1 if mask, times and (the first) severities are not equally long; -2; -8; -14; -7 if there are more windows than out_len. */
int64_t wilfnusk_violation_records(const uint8_t *mask, size_t mask_len, const int64_t *times, size_t times_len,
                                   const double *severities, size_t severities_len, wilfnusk_window *out, size_t out_len);
int64_t wilfnusk_visibility_records(const uint8_t *mask, size_t mask_len, const int64_t *times, size_t times_len, wilfnusk_window *out,
                                    size_t out_len);

/* Marks the samples whose times lie in a window, ends included. Answers 0. For windows from wilfnusk_violation_windows and strictly
 * increasing times this gives the mask back. If times never fall, windows that ended before a sample are not looked at again; if they do
 * fall, each sample is compared with the windows from the first up to one that starts later. For windows whose first times are out of order
 * this can leave a sample clear that lies in one.
 * Refuses: -1 if first_time and last_time are not equally long; -2 if there are more than 65,536 windows or times; -8; -7 if mask_len is
 * below the number of times. */
int64_t wilfnusk_expand(const int64_t *first_time, size_t first_time_len, const int64_t *last_time, size_t last_time_len,
                        const int64_t *times, size_t times_len, uint8_t *mask, size_t mask_len);

/* Writes the sum of the windows' lengths in seconds, each truncated toward zero to whole seconds. Answers 0.
 * Refuses: -1 if first_time and last_time are not equally long; -2 if there are more than 65,536 windows; -8. */
int64_t wilfnusk_total_violation_duration(const int64_t *first_time, size_t first_time_len, const int64_t *last_time,
                                          size_t last_time_len, double *seconds);

#ifdef __cplusplus
}
#endif

#endif
