/*
 * The call on every case of cases.h. The sheet and both buffers stand between guard bytes, and the
 * buffers are filled before the call; after it every byte of the three, guards included, is held to
 * what it should be. What has length 0 is handed over as a null pointer.
 */
#include <assert.h>
#include <stdio.h>
#include <string.h>

#include "cases.h"

/* The guard bytes on each side, and the room between them: more than any case lends. */
#define GUARD 64
#define ROOM (WEEKPLAN_MAX_PICKS + 64)

enum { GUARD_BYTE = 0x5A, FILL_BYTE = 0xA5 };

/* What is lent to the call, and what it should hold afterwards. */
struct lent {
    const char *name;
    size_t len;
    uint8_t held[GUARD + ROOM + GUARD];
    uint8_t expected[GUARD + ROOM + GUARD];
};

/* Guards, and len bytes of fill between them. */
static void lend(struct lent *b, const char *name, size_t len)
{
    assert(len <= ROOM);
    b->name = name;
    b->len = len;
    memset(b->held, GUARD_BYTE, sizeof b->held);
    memset(b->held + GUARD, FILL_BYTE, len);
    memcpy(b->expected, b->held, sizeof b->held);
}

static void lend_sheet(struct lent *b, const struct test_case *c)
{
    lend(b, "sheet", c->sheet_len);
    memcpy(b->held + GUARD, c->sheet, c->sheet_len);
    memcpy(b->expected + GUARD, c->sheet, c->sheet_len);
}

static void lend_picks(struct lent *b, const struct test_case *c)
{
    size_t at = GUARD;
    const struct run *r;

    lend(b, "picks", c->picks_len);
    for (r = c->picks; r->count != 0; r++) {
        assert(at + r->count <= GUARD + b->len);
        memset(b->expected + at, r->recipe, r->count);
        at += r->count;
    }
}

static void lend_recipes(struct lent *b, const struct test_case *c)
{
    lend(b, "recipes", c->recipes_len);
    assert(strlen(c->recipes) <= b->len);
    memcpy(b->expected + GUARD, c->recipes, strlen(c->recipes));
}

static uint8_t *start(struct lent *b)
{
    return b->len == 0 ? NULL : b->held + GUARD;
}

/* Whether a byte differs; the first is said, counted from the start of what was lent. */
static int differs(const char *name, const struct lent *b)
{
    size_t i;

    for (i = 0; i < sizeof b->held; i++) {
        if (b->held[i] != b->expected[i]) {
            printf("guarded: %s: byte %ld of %s is %d, not %d\n",
                   name, (long)i - GUARD, b->name, b->held[i], b->expected[i]);
            return 1;
        }
    }
    return 0;
}

/* Whether anything differs. */
static int wrong(const struct test_case *c)
{
    static struct lent sheet, picks, recipes;
    int32_t answer;
    int different;

    lend_sheet(&sheet, c);
    lend_picks(&picks, c);
    lend_recipes(&recipes, c);
    answer = weekplan_choose(start(&sheet), sheet.len, start(&picks), picks.len, start(&recipes), recipes.len);
    different = answer != c->answer;
    if (different)
        printf("guarded: %s: the answer is %d, not %d\n", c->name, (int)answer, (int)c->answer);
    different |= differs(c->name, &sheet);
    different |= differs(c->name, &picks);
    different |= differs(c->name, &recipes);
    return different;
}

int main(void)
{
    size_t count = sizeof cases / sizeof cases[0];
    size_t wrongs = 0;
    size_t i;

    for (i = 0; i < count; i++)
        wrongs += wrong(&cases[i]);
    printf("guarded: %lu cases, %lu wrong\n", (unsigned long)count, (unsigned long)wrongs);
    return wrongs != 0;
}
