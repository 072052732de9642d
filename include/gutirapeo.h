/* Gutirapeo: the C interface of the callable-bond pricer.
 *
 * Each function returns a refusal number, 0 where the call is accepted, and writes the refusal's
 * place to *place and its result to the outputs, which are 0 on a refusal (but the count of what a search
 * tried, the bond that a book names, and a closing sheet's line, on which a refusal other than 31 is
 * printed). No pointer may be null, that of an array of length 0 included. Lent slices and outputs must be
 * writable and overlap nothing else. No function keeps a pointer, allocates or traps.
 *
 * Link with the archive that `tools/library` writes: target/staticlib/libhost.a
 */
#ifndef GUTIRAPEO_H
#define GUTIRAPEO_H

#include <stddef.h>
#include <stdint.h>

#ifdef __cplusplus
extern "C" {
#endif

/* The elementary functions.
 *   4   an argument isn't finite
 *   26  exp or ln outside its range, or sqrt below 0
 *   27  the result of an operation isn't finite
 * The place is 0. */

/* The correctly rounded root; below 0 refused with 26. */
uint32_t gutirapeo_sqrt(double x, uint32_t *place, double *value);

/* The nearest whole number, a half away from zero. */
uint32_t gutirapeo_round(double x, uint32_t *place, double *value);

/* The lowest whole number not below x. */
uint32_t gutirapeo_ceil(double x, uint32_t *place, double *value);

/* The greater of two, the first where equal. */
uint32_t gutirapeo_max(double a, double b, uint32_t *place, double *value);

/* The lower of two, the first where equal. */
uint32_t gutirapeo_min(double a, double b, uint32_t *place, double *value);

/* exp(x); above 700 refused with 26. */
uint32_t gutirapeo_exp(double x, uint32_t *place, double *value);

/* exp(x) - 1; where exp refuses, so does it. */
uint32_t gutirapeo_exp_m1(double x, uint32_t *place, double *value);

/* ln(x); below 2^-1022 refused with 26. */
uint32_t gutirapeo_ln(double x, uint32_t *place, double *value);

/* b to the power y, as exp(y * ln(b)). */
uint32_t gutirapeo_powf(double b, double y, uint32_t *place, double *value);

/* a * b + c rounded once. */
uint32_t gutirapeo_mul_add(double a, double b, double c, uint32_t *place, double *value);

/* (a + b)/2. */
uint32_t gutirapeo_midpoint(double a, double b, uint32_t *place, double *value);

/* The bond's entries.
 *
 * A list comes as parallel arrays, each with its length. Days are whole, 0 to 200,000; a cashflow's kind is
 * 0 for a coupon and 1 for a redemption. A redemption on or before settlement is repaid and counts nowhere as
 * principal. day_count says how a day becomes a time: 0 Actual/365, 1 Actual/360, 2 30E/360 (a 31st counts as the 30th at
 * both ends, February as it is), day 0 being 1 January 1900. Grid, curve, discounting and yields go by the time; what is paid,
 * which calls are discrete or over and which principal a discrete call has go by the day. Refusals found in the input:
 *   1   a grid setting outside its range
 *   33  an unknown day count, tried after 1
 *   2   a list's count outside its limits, or parallel arrays of unequal length
 *   3   a day out of range, cashflow days falling, a kind that isn't 0 or 1
 *   4   a number that isn't finite or lies outside its range
 *   5   a call or a put that ends before it starts
 *   6   sigma times that don't rise
 *   7   no cashflow after settlement
 *   8   pillar days that don't rise, the first not settlement, the last before maturity
 *   34  two pillars at one time, tried after 8 (the place is the later one)
 *   35  a maturity whose time is 0: in the grid and in all that is built on it
 *   9   an unknown compounding code, or a frequency that can't be used
 *   37  more than 64 puts, tried after every 2 (place 0); put arrays of unequal length are 2
 *   44  a pillar's discount factor that isn't positive, tried last
 * The place is the index of the entry, 0 for single fields, counts, 7, 33 and 35.
 *
 * Every price that is passed or handed back is a full (dirty) price: strikes, targets, values and the price of a yield include
 * accrued interest. A bond that can be called at 100.5 plus accrued interest has the strike 100.5 plus what has accrued by the
 * call day, as a price for so many units. On a coupon day nothing has: the coupon of that day is paid beside the strike. */

/* The event grid: maturity time, steps, and 513 cashflows, marks (1 where a step has a call price) and prices, and the same of puts.
 * 20: no principal at a step that can be called or put. 27: a call price or put price that overflows. 38: a put above the call at a
 * step, which is its place; equal prices pass. */
uint32_t gutirapeo_grid(uint32_t settlement, uint32_t day_count,
                        const uint32_t *cashflow_days, size_t cashflow_days_length,
                        const uint8_t *cashflow_kinds, size_t cashflow_kinds_length,
                        const double *cashflow_amounts, size_t cashflow_amounts_length,
                        double units,
                        const uint32_t *call_starts, size_t call_starts_length,
                        const uint32_t *call_ends, size_t call_ends_length,
                        const double *call_strikes, size_t call_strikes_length,
                        const uint32_t *put_starts, size_t put_starts_length,
                        const uint32_t *put_ends, size_t put_ends_length,
                        const double *put_strikes, size_t put_strikes_length,
                        uint32_t steps_per_year, uint32_t max_steps,
                        uint32_t *place, double *maturity_time, uint32_t *steps,
                        double cashflows[513], uint8_t marks[513], double prices[513],
                        uint8_t put_marks[513], double put_prices[513]);

/* The call list that call notices give: of each series the highest version stands, and a withdrawn one yields no entry.
 *
 * A notice has a series (1 to 64), a version (1 to 65,535), an action (0 set, 1 withdraw) and the start, end and strike of a call;
 * a withdrawal's are not read. At most 256 notices, in any order, each field in an array of its own. The list comes by series,
 * rising: *count entries in 64 places, zero past the last of them and all zero on a refusal. It can be passed to the tree value as
 * it is, with *count as the three lengths, and is never refused there for its calls.
 *
 * Tried in this order:
 *   2   arrays of unequal length (place 0)
 *   41  more than 256 notices (place 0)
 *   42  a series, version or action out of range
 *   43  the same series and version as an earlier notice
 *   3, 4, 5 of each set notice's call fields, of versions that don't stand too
 * The place is the lowest index of such a notice. */
uint32_t gutirapeo_call_list(const uint32_t *series, size_t series_length,
                             const uint32_t *versions, size_t versions_length,
                             const uint32_t *actions, size_t actions_length,
                             const uint32_t *starts, size_t starts_length,
                             const uint32_t *ends, size_t ends_length,
                             const double *strikes, size_t strikes_length,
                             uint32_t *place, uint32_t *count,
                             uint32_t call_starts[64], uint32_t call_ends[64], double call_strikes[64]);

/* What the bond is worth with its calls and puts, and the nodes of the tree.
 *
 * A put has the fields and limits of a call: the holder may give the bond back at its strike, and of the puts at a step the highest
 * price is kept, where of calls the lowest is. At each node comes first the lower of continuation and call, then the higher of that
 * and put, then the cashflow. A bond without puts has three arrays of length 0; a pointer to them must not be null all the same.
 *
 * Sigma comes as 1 to 64 times (years from settlement, rising) and the sigma from each time on, the first reaching back to
 * settlement; the curve as 2 to 256 pillars, a day and a discount factor above 0 each, from settlement to maturity or beyond.
 * From each pillar up to the next the logarithm of the factor is a straight line; at or past the last it is that pillar's factor.
 *
 * Lent, to work in: nodes with 2 places for each node of the tree, probabilities with 3 for each, and two rows, each as long as
 * the largest layer. gutirapeo_sizes, below, says how long they must be. Whatever they held, all four are untouched after a
 * refusal of 1 to 8, 33 to 35, 37 or 44, and else all zero, to the last place.
 *
 * The refusals 1 to 8, 33 to 35, 37 and 44 have the places above. Of the others the place is the step, where nothing else is said:
 *   20  no principal at a step that can be called or put (place 0)
 *   21  a layer doesn't fit into what is lent (the place is the layer)
 *   22  no variance on this step, but on others
 *   23  a node beyond 1,000,000 either way
 *   24  a probability below -1e-12: never given, since no input leads to it
 *   25  a discount factor that comes out as 0, beside a pillar below 1e-304
 *   26  exp or ln outside its range, as beside a pillar below 2^-1022
 *   27  a result that isn't finite (place 0 where it is a call price or a put price)
 *   38  a put above the call at a step
 * 26 and 27 have place 0 too where one step's decay can't be worked out. */
uint32_t gutirapeo_tree_value(uint32_t settlement, uint32_t day_count,
                              const uint32_t *cashflow_days, size_t cashflow_days_length,
                              const uint8_t *cashflow_kinds, size_t cashflow_kinds_length,
                              const double *cashflow_amounts, size_t cashflow_amounts_length,
                              double units,
                              const uint32_t *call_starts, size_t call_starts_length,
                              const uint32_t *call_ends, size_t call_ends_length,
                              const double *call_strikes, size_t call_strikes_length,
                              const uint32_t *put_starts, size_t put_starts_length,
                              const uint32_t *put_ends, size_t put_ends_length,
                              const double *put_strikes, size_t put_strikes_length,
                              uint32_t steps_per_year, uint32_t max_steps,
                              double alpha,
                              const double *sigma_times, size_t sigma_times_length,
                              const double *sigmas, size_t sigmas_length,
                              double spread,
                              const uint32_t *pillar_days, size_t pillar_days_length,
                              const double *pillar_factors, size_t pillar_factors_length,
                              int32_t *nodes, size_t nodes_length,
                              double *probabilities, size_t probabilities_length,
                              double *first_row, size_t first_row_length,
                              double *second_row, size_t second_row_length,
                              uint32_t *place, double *value, uint64_t *node_count);

/* A bond's line of the closing sheet: 35 bytes, written on every call, the last of them a newline.
 *
 *   columns 1 to 6    the bond number, 1 to 999,999
 *   columns 7 to 22   the tree value with two decimals, rounded from the double's exact value, an exact half to the even cent:
 *                     0.125 is 0.12, 0.375 is 0.38 and -0.125 is -0.12; what rounds to zero is 0.00 without a sign
 *   columns 23 to 30  the node count
 *   columns 31 to 34  the refusal number
 *
 * Everything is right-justified, and what there isn't is blank: beside a value the refusal, beside a refusal value and count.
 * Everything else is taken as for the tree value, the lent slices too, and they are left as it leaves them. A refusal of the tree
 * value is printed and handed back with its place. Once the tree value or its refusal is known, two more are tried, with place 0:
 *   31  a bond number out of range; it stands for a value and for a refusal, and leaves the 35 bytes zero
 *   32  a value beyond 999,999,999,999.99 either way after rounding, or a count above 99,999,999; printed with both blank */
uint32_t gutirapeo_closing_line(uint32_t bond, uint32_t settlement, uint32_t day_count,
                                const uint32_t *cashflow_days, size_t cashflow_days_length,
                                const uint8_t *cashflow_kinds, size_t cashflow_kinds_length,
                                const double *cashflow_amounts, size_t cashflow_amounts_length,
                                double units,
                                const uint32_t *call_starts, size_t call_starts_length,
                                const uint32_t *call_ends, size_t call_ends_length,
                                const double *call_strikes, size_t call_strikes_length,
                                const uint32_t *put_starts, size_t put_starts_length,
                                const uint32_t *put_ends, size_t put_ends_length,
                                const double *put_strikes, size_t put_strikes_length,
                                uint32_t steps_per_year, uint32_t max_steps,
                                double alpha,
                                const double *sigma_times, size_t sigma_times_length,
                                const double *sigmas, size_t sigmas_length,
                                double spread,
                                const uint32_t *pillar_days, size_t pillar_days_length,
                                const double *pillar_factors, size_t pillar_factors_length,
                                int32_t *nodes, size_t nodes_length,
                                double *probabilities, size_t probabilities_length,
                                double *first_row, size_t first_row_length,
                                double *second_row, size_t second_row_length,
                                uint32_t *place, uint8_t line[35]);

/* The spread by sigma table: a page with a row for each shift (1 to 16) and a column for each spread (1 to 16), 16 characters a
 * cell and a newline after each row. Its length is rows x (16 x columns + 1); all 4,112 bytes are written on every call, zero
 * past the length.
 *
 * Each cell is the tree value with that spread and with the shift added to every sigma, printed as the closing sheet prints a
 * value, whatever the node count. A cell whose tree value is refused, or whose value is too wide for that (32), shows the number
 * right behind a hash sign, right-justified; the other cells don't change for it.
 *   45  no spreads or shifts, or more than 16 of either; tried first: place 0, length 0, the page all zero, the slices untouched
 *   46  shown in each cell of a row in which a shifted sigma isn't finite or lies outside 0 to 10, ahead of any other refusal
 * The sigmas that are given need not lie within 0 to 10 themselves. But for 45 the result is 0 whatever the cells show, and the
 * lent slices are all zero. */
uint32_t gutirapeo_spread_table(uint32_t settlement, uint32_t day_count,
                                const uint32_t *cashflow_days, size_t cashflow_days_length,
                                const uint8_t *cashflow_kinds, size_t cashflow_kinds_length,
                                const double *cashflow_amounts, size_t cashflow_amounts_length,
                                double units,
                                const uint32_t *call_starts, size_t call_starts_length,
                                const uint32_t *call_ends, size_t call_ends_length,
                                const double *call_strikes, size_t call_strikes_length,
                                const uint32_t *put_starts, size_t put_starts_length,
                                const uint32_t *put_ends, size_t put_ends_length,
                                const double *put_strikes, size_t put_strikes_length,
                                uint32_t steps_per_year, uint32_t max_steps,
                                double alpha,
                                const double *sigma_times, size_t sigma_times_length,
                                const double *sigmas, size_t sigmas_length,
                                const uint32_t *pillar_days, size_t pillar_days_length,
                                const double *pillar_factors, size_t pillar_factors_length,
                                const double *spreads, size_t spreads_length,
                                const double *shifts, size_t shifts_length,
                                int32_t *nodes, size_t nodes_length,
                                double *probabilities, size_t probabilities_length,
                                double *first_row, size_t first_row_length,
                                double *second_row, size_t second_row_length,
                                uint32_t *place, uint32_t *length, uint8_t page[4112]);

/* The spread that makes the bond worth a target (within 1e15 of 0), and how many spreads were tried (at most 386; 0 where the
 * input is refused). Everything else is taken as for the tree value, the lent slices too, and they are left as it leaves them.
 *
 * The tree value less the target at the spread is within 1e-12 of 0, or the spread is the middle of a bracket at most 1e-14 wide,
 * with differences at its two ends neither both above 0 nor both below. The search starts from -0.05 and 0.10 and goes no lower
 * than -1. A spread that is tried is refused as a tree value with that spread would be, with the same place. The others have
 * place 0:
 *   29  no bracket
 *   30  not converged: never given, since no input leads to it
 *   36  a spread above 1 would have to be tried; it counts as tried */
uint32_t gutirapeo_spread_from_price(uint32_t settlement, uint32_t day_count,
                                     const uint32_t *cashflow_days, size_t cashflow_days_length,
                                     const uint8_t *cashflow_kinds, size_t cashflow_kinds_length,
                                     const double *cashflow_amounts, size_t cashflow_amounts_length,
                                     double units,
                                     const uint32_t *call_starts, size_t call_starts_length,
                                     const uint32_t *call_ends, size_t call_ends_length,
                                     const double *call_strikes, size_t call_strikes_length,
                                     const uint32_t *put_starts, size_t put_starts_length,
                                     const uint32_t *put_ends, size_t put_ends_length,
                                     const double *put_strikes, size_t put_strikes_length,
                                     uint32_t steps_per_year, uint32_t max_steps,
                                     double alpha,
                                     const double *sigma_times, size_t sigma_times_length,
                                     const double *sigmas, size_t sigmas_length,
                                     double target,
                                     const uint32_t *pillar_days, size_t pillar_days_length,
                                     const double *pillar_factors, size_t pillar_factors_length,
                                     int32_t *nodes, size_t nodes_length,
                                     double *probabilities, size_t probabilities_length,
                                     double *first_row, size_t first_row_length,
                                     double *second_row, size_t second_row_length,
                                     uint32_t *place, double *spread, uint32_t *tried);

/* How long the tree value's slices must be for these terms: nodes, probabilities and each of the two rows; and the nodes of the tree.
 *
 * With slices of these lengths, or longer ones, the tree value never answers 21, and neither do a closing line and spread from
 * price, whatever the spread or the target. With any one of them shorter they do, unless checks, grid, variances or layers refuse for another cause.
 * A book wants, slice by slice, the most that any of its bonds wants; a table the most that any of its shifted sigmas wants.
 * All that is lent is zeroed on every call, so longer slices only cost time.
 * The count is the one that the tree value reports.
 *
 * Everything is taken as for the tree value, and checked as it checks it. No call or put is priced and the curve isn't read, so 20, 25
 * and 38 are never answered. Lent is one node slice, with a place for each node of two neighbouring layers. After a refusal of 1 to 8,
 * 33 to 35, 37 or 44 it is untouched, and else all zero.
 *   21  layer 0, or two neighbouring layers together, don't fit into the slice (the place is the later layer)
 *   22, 23, 26, 27 as for the tree value
 *
 * Size first, then set the slices aside, then price; TERMS are the arguments from settlement to the pillars, the same in both calls:
 *
 *   number = gutirapeo_sizes(TERMS, layers, length, &place, &nodes_needed, &probabilities_needed, &row_needed, &count);
 *   if (number == 0) {
 *       nodes = malloc(nodes_needed * sizeof *nodes);
 *       probabilities = malloc(probabilities_needed * sizeof *probabilities);
 *       first = malloc(row_needed * sizeof *first);
 *       second = malloc(row_needed * sizeof *second);
 *       number = gutirapeo_tree_value(TERMS, nodes, nodes_needed, probabilities, probabilities_needed,
 *                                     first, row_needed, second, row_needed, &place, &value, &count);
 *   } */
uint32_t gutirapeo_sizes(uint32_t settlement, uint32_t day_count,
                         const uint32_t *cashflow_days, size_t cashflow_days_length,
                         const uint8_t *cashflow_kinds, size_t cashflow_kinds_length,
                         const double *cashflow_amounts, size_t cashflow_amounts_length,
                         double units,
                         const uint32_t *call_starts, size_t call_starts_length,
                         const uint32_t *call_ends, size_t call_ends_length,
                         const double *call_strikes, size_t call_strikes_length,
                         const uint32_t *put_starts, size_t put_starts_length,
                         const uint32_t *put_ends, size_t put_ends_length,
                         const double *put_strikes, size_t put_strikes_length,
                         uint32_t steps_per_year, uint32_t max_steps,
                         double alpha,
                         const double *sigma_times, size_t sigma_times_length,
                         const double *sigmas, size_t sigmas_length,
                         double spread,
                         const uint32_t *pillar_days, size_t pillar_days_length,
                         const double *pillar_factors, size_t pillar_factors_length,
                         int32_t *nodes, size_t nodes_length,
                         uint32_t *place, uint64_t *nodes_needed, uint64_t *probabilities_needed,
                         uint64_t *row_needed, uint64_t *node_count);

/* A book of 1 to 32 bonds on one settlement day, sigma, alpha, curve and set of lent slices, all or none: each value, their sum in
 * book order from 0, and for each of eight desks the sum of its bonds' node counts.
 *
 * Each bond has a place in day_counts, cashflow_counts, units, call_counts, put_counts, steps_per_year, max_steps, spreads and
 * desks (0 to 7); the number of cashflow_counts is the size of the book. Cashflows, calls and puts of all bonds stand one after
 * the other in the other arrays, so many for each bond as its counts say. Each value is that of gutirapeo_tree_value for the bond
 * alone with the same slices, every bond having the whole of them.
 *
 * All bonds are checked before any is valued. *bond, from 0, names the bond that is refused: the first in book order that the
 * checks refuse, or, where they refuse none, the first refused while it is valued. The refusal and its place are those of the bond
 * alone, the place counting inside the bond's own lists. Beside a refusal the 32 values, the sum and the eight counts are 0;
 * values past the size are 0 too. Lent slices are untouched after 39, 40 and a refusal of the checks, and else all zero.
 *   39  no bonds, or more than 32 (bond 0, place 0), tried before anything else
 *   40  a desk that isn't 0 to 7 (place 0), tried on all bonds right after 39, of the lowest such bond
 *   2   arrays that don't add up (place 0): a bond's place is missing, its entries pass the end of an array, or, at the last bond,
 *       something is left over. Tried after 1 and 33; first where the bond's day count or step settings are themselves missing
 *   27  a sum that isn't finite (place 0), tried once every bond is valued, of the first bond that makes it so */
uint32_t gutirapeo_book_value(uint32_t settlement,
                              const uint32_t *day_counts, size_t day_counts_length,
                              const uint32_t *cashflow_counts, size_t cashflow_counts_length,
                              const uint32_t *cashflow_days, size_t cashflow_days_length,
                              const uint8_t *cashflow_kinds, size_t cashflow_kinds_length,
                              const double *cashflow_amounts, size_t cashflow_amounts_length,
                              const double *units, size_t units_length,
                              const uint32_t *call_counts, size_t call_counts_length,
                              const uint32_t *call_starts, size_t call_starts_length,
                              const uint32_t *call_ends, size_t call_ends_length,
                              const double *call_strikes, size_t call_strikes_length,
                              const uint32_t *put_counts, size_t put_counts_length,
                              const uint32_t *put_starts, size_t put_starts_length,
                              const uint32_t *put_ends, size_t put_ends_length,
                              const double *put_strikes, size_t put_strikes_length,
                              const uint32_t *steps_per_year, size_t steps_per_year_length,
                              const uint32_t *max_steps, size_t max_steps_length,
                              const double *spreads, size_t spreads_length,
                              const uint32_t *desks, size_t desks_length,
                              double alpha,
                              const double *sigma_times, size_t sigma_times_length,
                              const double *sigmas, size_t sigmas_length,
                              const uint32_t *pillar_days, size_t pillar_days_length,
                              const double *pillar_factors, size_t pillar_factors_length,
                              int32_t *nodes, size_t nodes_length,
                              double *probabilities, size_t probabilities_length,
                              double *first_row, size_t first_row_length,
                              double *second_row, size_t second_row_length,
                              uint32_t *place, uint32_t *bond, double values[32], double *sum,
                              uint64_t node_counts[8]);

/* What the bond is worth without its calls and puts.
 * 25: settlement's factor comes out as 0. 26: exp or ln outside its range. 27: a result that isn't finite. */
uint32_t gutirapeo_straight_value(uint32_t settlement, uint32_t day_count,
                                  const uint32_t *cashflow_days, size_t cashflow_days_length,
                                  const uint8_t *cashflow_kinds, size_t cashflow_kinds_length,
                                  const double *cashflow_amounts, size_t cashflow_amounts_length,
                                  double spread,
                                  const uint32_t *pillar_days, size_t pillar_days_length,
                                  const double *pillar_factors, size_t pillar_factors_length,
                                  uint32_t *place, double *value);

/* The price that a yield means, and its derivative. Compounding 0 to 4: Simple, Compounded, Continuous,
 * SimpleThenCompounded, CompoundedThenSimple; frequency 1, 2, 3, 4, 6, 12, 13, 26, 52, 365 or 999.
 * 26, 27 as above. 28: a yield base or simple factor at or below 0. */
uint32_t gutirapeo_price_from_yield(uint32_t settlement, uint32_t day_count,
                                    const uint32_t *cashflow_days, size_t cashflow_days_length,
                                    const uint8_t *cashflow_kinds, size_t cashflow_kinds_length,
                                    const double *cashflow_amounts, size_t cashflow_amounts_length,
                                    uint32_t compounding, uint32_t frequency, double yield,
                                    uint32_t *place, double *price, double *derivative);

/* The yield that a price means, and how often the price was worked out (at most 386; 0 where the input is refused).
 * 26, 27, 28 as above. 29: no bracket. 30: not converged. */
uint32_t gutirapeo_yield_from_price(uint32_t settlement, uint32_t day_count,
                                    const uint32_t *cashflow_days, size_t cashflow_days_length,
                                    const uint8_t *cashflow_kinds, size_t cashflow_kinds_length,
                                    const double *cashflow_amounts, size_t cashflow_amounts_length,
                                    uint32_t compounding, uint32_t frequency, double target,
                                    uint32_t *place, double *value, uint32_t *evaluations);

#ifdef __cplusplus
}
#endif

#endif
