/* Decisions in a work tree: what each argument stands for, what stays as it was, and bases that are no folder's. */
#include "checks.h"

enum { KEPT_LIST = 70, KEPT_PATTERN = 80 };

static void each_argument_stands_for_itself(void)
{
    const struct gix_glob_pattern top[] = {parsed("x"), parsed("a/")}, below[] = {parsed("!/x/"), parsed("Y")};
    const struct gix_glob_list lists[] = {gix_glob_list_of(top, 2, OF("")), gix_glob_list_of(below, 2, OF("d/"))};
    /* (what isn't decided leaves both places) */
    static const struct {
        size_t count;
        struct gix_glob_text path;
        bool is_dir, fold;
        size_t list, pattern;
    } rows[] = {
        {2, GIX_GLOB_TEXT("a/x"), false, false, 0, 1},
        {2, GIX_GLOB_TEXT("d/x"), true, false, 1, 0},
        {2, GIX_GLOB_TEXT("d/x"), false, true, 0, 0},
        {1, GIX_GLOB_TEXT("d/x"), true, false, 0, 0},
        {2, GIX_GLOB_TEXT("d/y"), true, false, KEPT_LIST, KEPT_PATTERN},
        {2, GIX_GLOB_TEXT("d/y"), false, true, 1, 1},
        {2, GIX_GLOB_TEXT("d/x/y"), false, false, KEPT_LIST, KEPT_PATTERN},
        {1, GIX_GLOB_TEXT("d/x/y"), false, false, 0, 0},
        {0, GIX_GLOB_TEXT("a/x"), true, false, KEPT_LIST, KEPT_PATTERN},
        {2, GIX_GLOB_TEXT("a//x"), false, false, KEPT_LIST, KEPT_PATTERN},
        {2, GIX_GLOB_TEXT("/x"), false, false, KEPT_LIST, KEPT_PATTERN},
        {2, GIX_GLOB_TEXT("a/"), true, false, KEPT_LIST, KEPT_PATTERN},
        {2, GIX_GLOB_TEXT(""), true, false, KEPT_LIST, KEPT_PATTERN},
    };
    for (size_t row = 0; row < COUNT_OF(rows); row++) {
        const struct gix_glob_text path = rows[row].path;
        struct gix_glob_decision by = {KEPT_LIST, KEPT_PATTERN};
        const bool is_decided =
            gix_glob_decide_in_tree(gix_glob_lists_of(lists, rows[row].count), path, rows[row].is_dir, rows[row].fold, &by);
        check(is_decided == (rows[row].list != KEPT_LIST), "a pattern decides", row);
        check(by.list == rows[row].list && by.pattern == rows[row].pattern, "which pattern decides", row);
    }
}

static void other_bases_say_nothing(void)
{
    const struct gix_glob_pattern all[] = {parsed("*")};
    static const struct {
        struct gix_glob_text base, path;
    } rows[] = {
        {GIX_GLOB_TEXT("d"), GIX_GLOB_TEXT("de")},
        {GIX_GLOB_TEXT("d"), GIX_GLOB_TEXT("d/e")},
        {GIX_GLOB_TEXT("d/e"), GIX_GLOB_TEXT("d/e")},
        {GIX_GLOB_TEXT("d/e"), GIX_GLOB_TEXT("d/ef")},
        {GIX_GLOB_TEXT("/"), GIX_GLOB_TEXT("d/e")},
        {GIX_GLOB_TEXT("d//"), GIX_GLOB_TEXT("d/e")},
        {GIX_GLOB_TEXT("d/e/f/"), GIX_GLOB_TEXT("d/e")},
    };
    for (size_t row = 0; row < COUNT_OF(rows); row++) {
        const struct gix_glob_text base = rows[row].base, path = rows[row].path;
        const struct gix_glob_list list = gix_glob_list_of(all, 1, base);
        struct gix_glob_decision by = {KEPT_LIST, KEPT_PATTERN};
        check(!gix_glob_decide_in_tree(gix_glob_lists_of(&list, 1), path, false, false, &by), "nothing decides under the base", row);
        check(by.list == KEPT_LIST && by.pattern == KEPT_PATTERN, "the decision stays", row);
    }
}

/* A list with such a base says nothing of itself: those beside it decide as ever. */
static void other_bases_leave_the_others_alone(void)
{
    const struct gix_glob_pattern all[] = {parsed("*")}, none[] = {parsed("!*.o")};
    const struct gix_glob_list lists[] = {gix_glob_list_of(all, 1, OF("d/")), gix_glob_list_of(none, 1, OF("d")), gix_glob_list_of(none, 1, OF("/"))};
    struct gix_glob_decision by = GIX_GLOB_DECISION_INIT;
    check(gix_glob_decide_in_tree(gix_glob_lists_of(lists, COUNT_OF(lists)), OF("d/e.o"), false, false, &by), "the first list decides", 0);
    check(by.list == 0 && by.pattern == 0, "which pattern decides", 0);
}

void trees(void)
{
    each_argument_stands_for_itself();
    other_bases_say_nothing();
    other_bases_leave_the_others_alone();
}
