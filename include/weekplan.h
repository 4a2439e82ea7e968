/*
 * weekplan.h: the week planner, called from C.
 *
 * Link with libweekplan_c.a, which `rt lib`, in crates/weekplan_c, writes to out/ there. It needs
 * nothing but the C library.
 *
 * The answer, and what the call leaves in the two buffers, are the contract of weekplan_choose in
 * crates/weekplan_c/src/lib.rt, proved for every sheet and all sizes; what else is said here of plan,
 * total, table and sizes is proved in crates/weekplan_c/proofs/Demands.antt. What is said of pointers,
 * memory and threads is no part of a contract: it rests on the language, where a function that is
 * handed no allocator has no heap and no static can be written, and on its compiler. "01" and "02"
 * are the buyer's documents.
 */
#ifndef WEEKPLAN_H
#define WEEKPLAN_H

#include <stddef.h>
#include <stdint.h>

#ifdef __cplusplus
extern "C" {
#endif

/* The limits of a list: batches, recipes of one batch, minutes from opening to close. */
#define WEEKPLAN_MAX_BATCHES 16
#define WEEKPLAN_MAX_RECIPES 10
#define WEEKPLAN_MAX_MINUTES 2400

/* The longest sheet that is read, in bytes. */
#define WEEKPLAN_MAX_SHEET 4096

/* The bytes of picks table that a list needs: a row for each batch, a byte for each closing minute
   from the opening to the close, both included. */
#define WEEKPLAN_PICKS(batches, minutes) ((batches) * ((minutes) + 1))

/* Enough for every list: this much picks table, and a recipe buffer of WEEKPLAN_MAX_BATCHES bytes. */
#define WEEKPLAN_MAX_PICKS WEEKPLAN_PICKS(WEEKPLAN_MAX_BATCHES, WEEKPLAN_MAX_MINUTES)

/*
 * The refusals that the call can give, in 01's words: the week opens at t and closes at c, a batch
 * arrives at r and is due at d, and n is the number of batches, which is that of the sheet's lines
 * less 1. Where several hold, the first in this order is given: 18; then line by line 16, 17; then
 * 1, 2, 3; then batch by batch 4 to 9, in the order of the sheet's lines, each batch whole before the
 * next; then 11; 19; 14. The place that a refusal names is not answered. There is no 10: by 02 the
 * batches may come in any order.
 */
enum weekplan_refusal {
    /* c is not after t. */
    WEEKPLAN_CLOSE_NOT_AFTER_OPENING = 1,
    /* c - t is above 2,400. */
    WEEKPLAN_WEEK_TOO_LONG = 2,
    /* More than 16 batches. */
    WEEKPLAN_TOO_MANY_BATCHES = 3,
    /* A batch has no recipe, or more than 10. */
    WEEKPLAN_RECIPE_COUNT = 4,
    /* d is not after r. */
    WEEKPLAN_DUE_NOT_AFTER_ARRIVAL = 5,
    /* r is not before c. */
    WEEKPLAN_ARRIVAL_NOT_BEFORE_CLOSE = 6,
    /* A recipe from the second on costs more than the one before, or follows one of cost 0. */
    WEEKPLAN_COST_ORDER = 7,
    /* A recipe of cost 0 has a worth above 0. */
    WEEKPLAN_WORTH_SET_ASIDE = 8,
    /* Number 0, or a number that stands earlier in the list. */
    WEEKPLAN_BATCH_NUMBER = 9,
    /* Picks table shorter than n x (c - t + 1). */
    WEEKPLAN_SHORT_PICKS = 11,
    /* No choice meets the rule. */
    WEEKPLAN_NO_PLAN = 14,
    /* A line that is no frame, or has no line feed. */
    WEEKPLAN_NO_FRAME = 16,
    /* The first line is missing or is no week, or a later one is a week. */
    WEEKPLAN_WEEK_LINE = 17,
    /* Above 4,096 bytes. */
    WEEKPLAN_SHEET_TOO_LONG = 18,
    /* Recipe buffer shorter than n. */
    WEEKPLAN_SHORT_RECIPES = 19
};

/*
 * Chooses a recipe for each batch of the week that a sheet holds.
 *
 * Each line of the sheet is one frame in upper-case hexadecimal, two digits a byte, ended by a line
 * feed; values of two bytes stand high byte first. The first line is the week: 01, t, c. Each later
 * line is a batch: 02, number, r, d, one byte with the count of its recipes, then cost and worth for
 * each; its length must agree with the count. Any other line is no frame. A NUL byte does not end a
 * sheet. The sheet is only read.
 *
 * The batches may come in any order, and get the same plan in each. What is said below of positions,
 * and of a last batch, is said of the list put in order: by due minute, then by ready minute, which is
 * the greater of t and r, then by number. Position i is that of the i-th batch in this order. The call
 * does not answer the order; a caller gets at it by sorting the sheet's batches by these three, or by
 * reading the numbers that the program weekplan prints for the same sheet, which stand in it.
 *
 * The answer is the total worth of the chosen plan, from 0 to 1,048,560, or minus the number of a
 * refusal. A total of 0 is a plan. The plan meets 01's backward rule, and its total is the sum of
 * its worths; every other choice of recipes that meets the rule has a smaller total, or the same
 * total and a higher recipe number at the last batch where the two differ. In the station's run of
 * the plan the minutes that each batch gets before its stretch ends number exactly its recipe's
 * minutes. Where the sheet and the sizes of both buffers pass, refusal 14 is given exactly when no
 * choice meets the rule, and a plan whenever one does.
 *
 * What the call leaves in the two buffers, on every input:
 *
 *   recipes   With a plan, byte i is the recipe, numbered from 1, of the batch at position i + 1 in
 *             the list put in order, for i from 0 to n - 1; the bytes from n on are kept. With a
 *             refusal every byte is kept.
 *
 *   picks     With a plan, and with refusal 14, byte (i - 1) x (c - t + 1) + (x - t), for i from 1
 *             to n and x from t to c, is the recipe that the best choice for batches 1 to i, with x
 *             as the closing minute, gives to batch i, or 0 if no choice exists, the batches being
 *             counted in the list put in order; the bytes from n x (c - t + 1) on are kept. With every
 *             other refusal every byte is kept.
 *
 * What the two hold before the call does not matter. A length may be 0, and its pointer null then;
 * any other pointer is to at least as many bytes as its length says. Neither buffer may overlap the
 * other or the sheet.
 *
 * The call always returns, allocates nothing and keeps nothing; it uses less than 64 KB of stack. It
 * has no state: calls may run at the same time in several threads, each with buffers of its own; they
 * may share a sheet.
 */
int32_t weekplan_choose(const uint8_t *sheet, size_t sheet_len,
                        uint8_t *picks, size_t picks_len,
                        uint8_t *recipes, size_t recipes_len);

#ifdef __cplusplus
}
#endif

#endif
