/*
 * station SHEET: chooses the recipes of the week that the file SHEET holds, and prints the total and
 * the recipe of the batch at each position of the list put in order, or the refusal in words. The exit
 * status is 0 for a plan, 1 for a refusal, 2 for a usage or file error, or an answer that cannot be
 * written.
 */
#include <stdio.h>

#include "weekplan.h"

enum { PLANNED = 0, REFUSED = 1, FAILED = 2 };

/* The file's first bytes, at most size of them, into bytes. Returns 0, or -1 if it cannot be read. */
static int read_file(const char *path, uint8_t *bytes, size_t size, size_t *len)
{
    FILE *file = fopen(path, "rb");
    int failed;

    if (file == NULL)
        return -1;
    *len = fread(bytes, 1, size, file);
    failed = ferror(file);
    fclose(file);
    return failed ? -1 : 0;
}

static const char *words(int number)
{
    switch (number) {
    case WEEKPLAN_CLOSE_NOT_AFTER_OPENING:
        return "the week does not close after it opens";
    case WEEKPLAN_WEEK_TOO_LONG:
        return "the week is longer than 2,400 minutes";
    case WEEKPLAN_TOO_MANY_BATCHES:
        return "more than 16 batches";
    case WEEKPLAN_RECIPE_COUNT:
        return "a batch has no recipe, or more than 10";
    case WEEKPLAN_DUE_NOT_AFTER_ARRIVAL:
        return "a batch is not due after it arrives";
    case WEEKPLAN_ARRIVAL_NOT_BEFORE_CLOSE:
        return "a batch does not arrive before the week closes";
    case WEEKPLAN_COST_ORDER:
        return "a recipe costs more than the one before, or follows one of cost 0";
    case WEEKPLAN_WORTH_SET_ASIDE:
        return "a recipe of cost 0 has a worth above 0";
    case WEEKPLAN_BATCH_NUMBER:
        return "a batch has number 0, or a number that stands earlier in the list";
    case WEEKPLAN_SHORT_PICKS:
        return "the picks table is too short";
    case WEEKPLAN_NO_PLAN:
        return "no choice meets the rule";
    case WEEKPLAN_NO_FRAME:
        return "a line is no frame, or has no line feed";
    case WEEKPLAN_WEEK_LINE:
        return "the first line is missing or is no week, or a later one is a week";
    case WEEKPLAN_SHEET_TOO_LONG:
        return "the sheet is longer than 4,096 bytes";
    case WEEKPLAN_SHORT_RECIPES:
        return "the recipe buffer is too short";
    default:
        return "a refusal that this program does not know";
    }
}

/* A recipe is at least 1, so the first 0 is the first byte that the call kept. */
static void print_plan(int32_t total, const uint8_t *recipes)
{
    int i;

    printf("total %d\n", (int)total);
    for (i = 0; i < WEEKPLAN_MAX_BATCHES && recipes[i] != 0; i++)
        printf("position %d: recipe %d\n", i + 1, recipes[i]);
}

static int plan(const uint8_t *sheet, size_t len)
{
    static uint8_t picks[WEEKPLAN_MAX_PICKS];
    uint8_t recipes[WEEKPLAN_MAX_BATCHES] = {0};
    int32_t answer = weekplan_choose(sheet, len, picks, sizeof picks, recipes, sizeof recipes);

    if (answer < 0) {
        printf("refused %d: %s\n", (int)-answer, words((int)-answer));
        return REFUSED;
    }
    print_plan(answer, recipes);
    return PLANNED;
}

/* Returns 0, or -1 if a part of what was printed could not be written, as a full disk may first show here. */
static int close_output(void)
{
    int failed = ferror(stdout);

    return fclose(stdout) != 0 || failed ? -1 : 0;
}

int main(int argc, char **argv)
{
    /* One byte more than the longest sheet, so that the call sees that a longer one is too long. */
    static uint8_t sheet[WEEKPLAN_MAX_SHEET + 1];
    size_t len;
    int status;

    if (argc != 2) {
        fprintf(stderr, "usage: station SHEET\n");
        return FAILED;
    }
    if (read_file(argv[1], sheet, sizeof sheet, &len) != 0) {
        perror(argv[1]);
        return FAILED;
    }
    status = plan(sheet, len);
    if (close_output() != 0) {
        fprintf(stderr, "station: the answer could not be written\n");
        return FAILED;
    }
    return status;
}
