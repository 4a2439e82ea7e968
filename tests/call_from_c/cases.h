/*
 * The cases of guarded.c, worked out from 01, 02 and docs/DECISIONS.md. In the comments
 * `[t..c] #number r d (cost,worth) ..` is a list; the week is [0..10], and the batch #1 r0 d10,
 * where none is written.
 */
#ifndef CASES_H
#define CASES_H

#include "weekplan.h"

/* Bytes of the picks table that are the same, one after another. */
struct run {
    size_t count;
    uint8_t recipe;
};

struct test_case {
    const char *name;
    const char *sheet;
    size_t sheet_len;
    size_t picks_len;
    size_t recipes_len;
    int32_t answer;
    /* What the call writes, from the first byte on: a plan's recipes, and the rows of the table. */
    const char *recipes;
    struct run picks[2 * WEEKPLAN_MAX_BATCHES + 1];
};

#define SHEET(text) (text), sizeof(text) - 1

/* A refusal that leaves both buffers; and 14, which fills the table. */
#define REFUSED(number) -(number), "", {{0, 0}}
#define NO_PLAN -WEEKPLAN_NO_PLAN, ""

/* Case W: [0..100] #7 r0 d40 (30,9),(10,4); #8 r20 d60 (30,8),(0,0); #9 r0 d100 (50,10),(20,5). */
#define W_WEEK "0100000064\n"
#define W_7 "0200070000002802001E0009000A0004\n"
#define W_8 "0200080014003C02001E000800000000\n"
#define W_9 "02000900000064020032000A00140005\n"
#define W_SHEET W_WEEK W_7 W_8 W_9

/*
 * The best total of batch 1 is 4 from close 10 on and 9 from 30 on; of batches 1 and 2 it is 4 from
 * 10 on, 9 from 30 on, 12 from 50 on and 17 from 60 on. The recipes of batch 3 tie at closes 60 to 69
 * and at 100.
 */
#define W_PICKS                                       \
    {{10, 0}, {20, 2}, {71, 1},                       \
     {10, 0}, {40, 2}, {51, 1},                       \
     {30, 0}, {30, 2}, {10, 1}, {30, 2}, {1, 1}}

#define WEEK_0_10 "010000000A\n"

/* #1 r0 d10 (1,1) */
#define ONE_MINUTE "0200010000000A0100010001\n"

/* [0..10] #1 r0 d10 (11,1), which does not fit. */
#define TOO_LONG WEEK_0_10 "0200010000000A01000B0001\n"

/* A batch of a full week, r0 d2400 (1,65535). Batches 1 to i fit from close i on. */
#define FULL_BATCH(number) "02" number "00000960010001FFFF\n"
#define FULL_ROW(i) {(i), 0}, {WEEKPLAN_MAX_MINUTES + 1 - (i), 1}

/* Bytes that are no frame. */
static const char nulls[WEEKPLAN_MAX_SHEET + 1];

static const struct test_case cases[] = {
    /* Plans. */
    {"W, exact sizes", SHEET(W_SHEET), 303, 3, 22, "\2\1\1", W_PICKS},
    {"W, more than it needs", SHEET(W_SHEET), 320, 9, 22, "\2\1\1", W_PICKS},
    {"W, the most that any list needs", SHEET(W_SHEET), WEEKPLAN_MAX_PICKS, WEEKPLAN_MAX_BATCHES, 22, "\2\1\1", W_PICKS},
    /* #1 r0 d4 (2,1); #2 r8 d9 (1,5),(0,0); #3 r0 d10 (9,9),(6,9) */
    {"a batch set aside after the bound",
     SHEET(WEEK_0_10 "020001000000040100020001\n"
                     "02000200080009020001000500000000\n"
                     "0200030000000A020009000900060009\n"),
     33, 3, 10, "\1\2\2",
     {{2, 0}, {9, 1},
      {2, 0}, {7, 2}, {2, 1},
      {8, 0}, {3, 2}}},
    /* #1 r0 d4 (3,1),(1,1); #2 r0 d10 (8,1),(6,1): 1,2 and 2,1 and 2,2 have the same total. */
    {"the last batch decides first",
     SHEET(WEEK_0_10 "02000100000004020003000100010001\n"
                     "0200020000000A020008000100060001\n"),
     22, 2, 2, "\2\1",
     {{1, 0}, {2, 2}, {8, 1},
      {7, 0}, {2, 2}, {2, 1}}},
    /* #1 r0 d4 (3,3),(1,1); #2 r0 d6 (4,1): the bound for batch 1 is 2. */
    {"a due minute before the close",
     SHEET(WEEK_0_10 "02000100000004020003000300010001\n"
                     "020002000000060100040001\n"),
     22, 2, 2, "\2\1",
     {{1, 0}, {2, 2}, {8, 1},
      {5, 0}, {6, 1}}},
    /* (11,1),(0,0) */
    {"a plan with a total of 0", SHEET(WEEK_0_10 "0200010000000A02000B000100000000\n"), 11, 1, 0, "\2", {{11, 2}}},
    /* (5,0),(0,0) */
    {"a reading worth nothing", SHEET(WEEK_0_10 "0200010000000A020005000000000000\n"), 11, 1, 0, "\1", {{5, 2}, {6, 1}}},
    /* [20..30] #1 r5 d21 (1,1) */
    {"a week that opens at 20", SHEET("010014001E\n020001000500150100010001\n"), 11, 1, 1, "\1", {{1, 0}, {10, 1}}},
    {"a full week",
     SHEET("0100000960\n"
           FULL_BATCH("0001") FULL_BATCH("0002") FULL_BATCH("0003") FULL_BATCH("0004")
           FULL_BATCH("0005") FULL_BATCH("0006") FULL_BATCH("0007") FULL_BATCH("0008")
           FULL_BATCH("0009") FULL_BATCH("000A") FULL_BATCH("000B") FULL_BATCH("000C")
           FULL_BATCH("000D") FULL_BATCH("000E") FULL_BATCH("000F") FULL_BATCH("0010")),
     WEEKPLAN_MAX_PICKS, WEEKPLAN_MAX_BATCHES, 1048560, "\1\1\1\1\1\1\1\1\1\1\1\1\1\1\1\1",
     {FULL_ROW(1), FULL_ROW(2), FULL_ROW(3), FULL_ROW(4), FULL_ROW(5), FULL_ROW(6), FULL_ROW(7), FULL_ROW(8),
      FULL_ROW(9), FULL_ROW(10), FULL_ROW(11), FULL_ROW(12), FULL_ROW(13), FULL_ROW(14), FULL_ROW(15), FULL_ROW(16)}},
    /* The same in other orders: the recipes and the rows of the table follow the list put in order. */
    {"W reversed, exact sizes", SHEET(W_WEEK W_9 W_8 W_7), 303, 3, 22, "\2\1\1", W_PICKS},
    {"W reversed, more than it needs", SHEET(W_WEEK W_9 W_8 W_7), 320, 9, 22, "\2\1\1", W_PICKS},
    {"W, the first last", SHEET(W_WEEK W_8 W_9 W_7), 303, 3, 22, "\2\1\1", W_PICKS},
    {"W, the last first", SHEET(W_WEEK W_9 W_7 W_8), 303, 3, 22, "\2\1\1", W_PICKS},
    {"W, the last two exchanged", SHEET(W_WEEK W_7 W_9 W_8), 303, 3, 22, "\2\1\1", W_PICKS},
    {"W, the first two exchanged", SHEET(W_WEEK W_8 W_7 W_9), 303, 3, 22, "\2\1\1", W_PICKS},
    /* #1 r0 d10 (1,1); #2 r0 d9 (1,1) */
    {"due 10, then 9", SHEET(WEEK_0_10 ONE_MINUTE "020002000000090100010001\n"), 22, 2, 2, "\1\1",
     {{1, 0}, {10, 1},
      {2, 0}, {9, 1}}},
    /* #1 r4 d10 (3,5); #2 r0 d10 (9,9),(5,2): 2 is ready first, and in the other order there is no plan. */
    {"the ready minute decides",
     SHEET(WEEK_0_10 "0200010004000A0100030005\n"
                     "0200020000000A020009000900050002\n"),
     22, 2, 7, "\2\1",
     {{5, 0}, {4, 2}, {2, 1},
      {8, 0}, {3, 1}}},
    /* #2 r0 d10 (4,1),(3,1),(0,0); #1 r0 d10 (7,1),(0,0): 1 stands first, and both are read. */
    {"the number decides",
     SHEET(WEEK_0_10 "0200020000000A03000400010003000100000000\n"
                     "0200010000000A020007000100000000\n"),
     22, 2, 2, "\1\2",
     {{7, 2}, {4, 1},
      {3, 3}, {1, 2}, {6, 1}, {1, 2}}},
    /* [20..30] #2 r5 d30 (4,1),(3,1),(0,0); #1 r10 d30 (7,1),(0,0): both are ready at 20, though 2 arrives first. */
    {"the number decides below the opening",
     SHEET("010014001E\n"
           "0200020005001E03000400010003000100000000\n"
           "020001000A001E020007000100000000\n"),
     22, 2, 2, "\1\2",
     {{7, 2}, {4, 1},
      {3, 3}, {1, 2}, {6, 1}, {1, 2}}},
    {"a full week reversed",
     SHEET("0100000960\n"
           FULL_BATCH("0010") FULL_BATCH("000F") FULL_BATCH("000E") FULL_BATCH("000D")
           FULL_BATCH("000C") FULL_BATCH("000B") FULL_BATCH("000A") FULL_BATCH("0009")
           FULL_BATCH("0008") FULL_BATCH("0007") FULL_BATCH("0006") FULL_BATCH("0005")
           FULL_BATCH("0004") FULL_BATCH("0003") FULL_BATCH("0002") FULL_BATCH("0001")),
     WEEKPLAN_MAX_PICKS, WEEKPLAN_MAX_BATCHES, 1048560, "\1\1\1\1\1\1\1\1\1\1\1\1\1\1\1\1",
     {FULL_ROW(1), FULL_ROW(2), FULL_ROW(3), FULL_ROW(4), FULL_ROW(5), FULL_ROW(6), FULL_ROW(7), FULL_ROW(8),
      FULL_ROW(9), FULL_ROW(10), FULL_ROW(11), FULL_ROW(12), FULL_ROW(13), FULL_ROW(14), FULL_ROW(15), FULL_ROW(16)}},
    {"no batches, nothing lent", SHEET(WEEK_0_10), 0, 0, 0, "", {{0, 0}}},
    {"no batches, all kept", SHEET(WEEK_0_10), 11, 1, 0, "", {{0, 0}}},

    /* 14: the table is filled. */
    {"one batch that does not fit", SHEET(TOO_LONG), 11, 1, NO_PLAN, {{11, 0}}},
    {"one batch that does not fit, more than it needs", SHEET(TOO_LONG), 20, 5, NO_PLAN, {{11, 0}}},
    /* J: #1 r5 d9 (4,1); #2 r0 d10 (5,1) */
    {"two batches that fit alone",
     SHEET(WEEK_0_10 "020001000500090100040001\n"
                     "0200020000000A0100050001\n"),
     23, 2, NO_PLAN, {{9, 0}, {2, 1}, {11, 0}}},
    {"the same, the later one first",
     SHEET(WEEK_0_10 "0200020000000A0100050001\n"
                     "020001000500090100040001\n"),
     23, 2, NO_PLAN, {{9, 0}, {2, 1}, {11, 0}}},
    /* [20..30] #1 r5 d20 (1,1) */
    {"due as the week opens", SHEET("010014001E\n020001000500140100010001\n"), 11, 1, NO_PLAN, {{11, 0}}},
    /* [64000..65535] #1 r65000 d65535 (65535,1) */
    {"ready minute and cost past 16 bits", SHEET("01FA00FFFF\n020001FDE8FFFF01FFFF0001\n"), 1536, 1, NO_PLAN, {{1536, 0}}},

    /* 11 and 19, which leave the table also where no plan exists. */
    {"W, one byte of table too few", SHEET(W_SHEET), 302, 3, REFUSED(WEEKPLAN_SHORT_PICKS)},
    {"W, one byte of buffer too few", SHEET(W_SHEET), 303, 2, REFUSED(WEEKPLAN_SHORT_RECIPES)},
    {"W, one byte of each too few", SHEET(W_SHEET), 302, 2, REFUSED(WEEKPLAN_SHORT_PICKS)},
    {"W reversed, one byte of table too few", SHEET(W_WEEK W_9 W_8 W_7), 302, 3, REFUSED(WEEKPLAN_SHORT_PICKS)},
    {"W reversed, one byte of buffer too few", SHEET(W_WEEK W_9 W_8 W_7), 303, 2, REFUSED(WEEKPLAN_SHORT_RECIPES)},
    {"W, no table", SHEET(W_SHEET), 0, 3, REFUSED(WEEKPLAN_SHORT_PICKS)},
    {"W, no buffer", SHEET(W_SHEET), 303, 0, REFUSED(WEEKPLAN_SHORT_RECIPES)},
    {"no plan, and a short table", SHEET(TOO_LONG), 10, 1, REFUSED(WEEKPLAN_SHORT_PICKS)},
    {"no plan, and a short buffer", SHEET(TOO_LONG), 11, 0, REFUSED(WEEKPLAN_SHORT_RECIPES)},

    /* 1 to 9. */
    {"closes as it opens", SHEET("0100050005\n"), 64, 16, REFUSED(WEEKPLAN_CLOSE_NOT_AFTER_OPENING)},
    {"2,400 minutes", SHEET("0100000960\n"), 64, 16, 0, "", {{0, 0}}},
    {"2,401 minutes", SHEET("0100000961\n"), 64, 16, REFUSED(WEEKPLAN_WEEK_TOO_LONG)},
    {"17 batches",
     SHEET(WEEK_0_10 ONE_MINUTE ONE_MINUTE ONE_MINUTE ONE_MINUTE ONE_MINUTE ONE_MINUTE ONE_MINUTE ONE_MINUTE ONE_MINUTE
                     ONE_MINUTE ONE_MINUTE ONE_MINUTE ONE_MINUTE ONE_MINUTE ONE_MINUTE ONE_MINUTE ONE_MINUTE),
     WEEKPLAN_MAX_PICKS, 32, REFUSED(WEEKPLAN_TOO_MANY_BATCHES)},
    {"no recipe", SHEET(WEEK_0_10 "0200010000000A00\n"), 64, 16, REFUSED(WEEKPLAN_RECIPE_COUNT)},
    {"11 recipes",
     SHEET(WEEK_0_10 "0200010000000A0B" "00010001" "00010001" "00010001" "00010001" "00010001" "00010001" "00010001" "00010001"
                     "00010001" "00010001" "00010001\n"),
     64, 16, REFUSED(WEEKPLAN_RECIPE_COUNT)},
    {"due as it arrives", SHEET(WEEK_0_10 "020001000300030100010001\n"), 64, 16, REFUSED(WEEKPLAN_DUE_NOT_AFTER_ARRIVAL)},
    {"arrives at the close", SHEET(WEEK_0_10 "020001000A000B0100010001\n"), 64, 16, REFUSED(WEEKPLAN_ARRIVAL_NOT_BEFORE_CLOSE)},
    {"costs 3, 4", SHEET(WEEK_0_10 "0200010000000A020003000100040001\n"), 64, 16, REFUSED(WEEKPLAN_COST_ORDER)},
    {"costs 0, 0", SHEET(WEEK_0_10 "0200010000000A020000000000000000\n"), 64, 16, REFUSED(WEEKPLAN_COST_ORDER)},
    {"set aside with a worth", SHEET(WEEK_0_10 "0200010000000A0100000005\n"), 64, 16, REFUSED(WEEKPLAN_WORTH_SET_ASIDE)},
    {"number 0", SHEET(WEEK_0_10 "0200000000000A0100010001\n"), 64, 16, REFUSED(WEEKPLAN_BATCH_NUMBER)},
    {"number 0, nothing lent", SHEET(WEEK_0_10 "0200000000000A0100010001\n"), 0, 0, REFUSED(WEEKPLAN_BATCH_NUMBER)},
    {"number 1 again", SHEET(WEEK_0_10 ONE_MINUTE ONE_MINUTE), 64, 16, REFUSED(WEEKPLAN_BATCH_NUMBER)},
    /* #1 r0 d10 (1,1); #1 r0 d9 (1,1) */
    {"number 1 again, due earlier", SHEET(WEEK_0_10 ONE_MINUTE "020001000000090100010001\n"), 64, 16, REFUSED(WEEKPLAN_BATCH_NUMBER)},
    /* #0 r0 d10 (1,1); #2 r0 d9 without a recipe: the first line is judged whole before the second. */
    {"number 0, then an earlier batch without a recipe",
     SHEET(WEEK_0_10 "0200000000000A0100010001\n"
                     "0200020000000900\n"),
     64, 16, REFUSED(WEEKPLAN_BATCH_NUMBER)},

    /* 16 to 18. */
    {"no line feed", SHEET("010000000A"), 64, 16, REFUSED(WEEKPLAN_NO_FRAME)},
    {"carriage return", SHEET("010000000A\r\n"), 64, 16, REFUSED(WEEKPLAN_NO_FRAME)},
    {"lower case", SHEET("010000000a\n"), 64, 16, REFUSED(WEEKPLAN_NO_FRAME)},
    {"a NUL on line 2", SHEET(WEEK_0_10 "\0\n"), 64, 16, REFUSED(WEEKPLAN_NO_FRAME)},
    {"empty, nothing lent", SHEET(""), 0, 0, REFUSED(WEEKPLAN_WEEK_LINE)},
    {"a batch first", SHEET(ONE_MINUTE), 64, 16, REFUSED(WEEKPLAN_WEEK_LINE)},
    {"a second week", SHEET(WEEK_0_10 WEEK_0_10), 64, 16, REFUSED(WEEKPLAN_WEEK_LINE)},
    {"4,096 bytes that are no frame", nulls, 4096, 64, 16, REFUSED(WEEKPLAN_NO_FRAME)},
    {"4,097 bytes that are no frame", nulls, 4097, 64, 16, REFUSED(WEEKPLAN_SHEET_TOO_LONG)},
};

#endif
